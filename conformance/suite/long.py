"""Files that take many reads and many writes, that have many differences, or whose samples lie far
away."""
from __future__ import annotations

from collections.abc import Iterator
from .boxes import Box, File, Hole, full, numbers, one_size, sbgp, stsz, stz2, table, u32, u64
from .edits import put, rows
from .movies import (chunk_places, group_descriptions, moof_of, movie_extends, movie_header,
                     of_one_track, with_tables)

# Samples in the tables of a track, and in each of its fragments.
PLAIN, IN_FRAGMENT = 80, 20
FRAGMENTS = 6
SIZE, FRAGMENT_SIZE = 25_000, 12_500
DURATION = 3200
# Bytes between two fragments that lie far from each other, and how many such fragments there are.
GAP = 200_000
FAR_FRAGMENTS = 30
# Samples of one byte of a file whose list of samples is long.
MANY = 90_000
# Bytes of a sample that no buffer holds.
LONG = 2**22


def pattern(length: int, first: int) -> bytes:
    """Bytes that differ from place to place, by a period that no buffer has."""
    period = bytes(range(251))
    first %= 251
    return (period * (length // 251 + 2))[first:first + length]


def groups(count: int) -> Box:
    """A row for each sample; every third sample has no group."""
    return sbgp(b'roll', [(1, k % 3) for k in range(count)])


def long_track(number: int, data: Box) -> Box:
    """Tables of samples in chunks of ten, with a sync sample every tenth."""
    start = PLAIN * SIZE * (number - 1)
    return with_tables(
        number, data,
        table('stts', [(PLAIN, DURATION)]),
        table('stss', [(1 + 10 * k,) for k in range(PLAIN // 10)]),
        table('stsc', [(1, 10, 1)]),
        one_size(SIZE, PLAIN),
        chunk_places(True, data, *range(start, start + PLAIN * SIZE, 10 * SIZE)),
        group_descriptions(False),
        groups(PLAIN), plainly=True)


def long_run(moof: Box, data: Box, start: int, count: int, size: int) -> Box:
    """A run with a size and flags for each sample; every tenth is a sync sample."""
    def fields():
        place = data.place + data.header_length() + start - moof.place
        rows = [numbers(size, 0x10000 if k % 10 else 0) for k in range(count)]
        return full(0, 0x601) + numbers(count, place) + b''.join(rows)
    return Box('trun', fields)


def long_fragment(number: int, count: int, size: int) -> list[Box]:
    """A `moof` with samples of both tracks, and its `mdat`."""
    data, moof = Box('mdat', pattern(2 * count * size, number)), moof_of(number)
    due = DURATION * (PLAIN + count * (number - 1))
    for track in (1, 2):
        moof.children.append(Box('traf', b'', [
            Box('tfhd', full(0, 0x02000a) + numbers(track, 1, DURATION)),
            Box('tfdt', full(1) + u64(due)),
            long_run(moof, data, count * size * (track - 1), count, size),
            groups(count),
        ]))
    return [moof, data]


def long_movie(data: Box) -> Box:
    tracks = [long_track(number, data) for number in (1, 2)]
    return Box('moov', b'', [movie_header(True), *tracks, movie_extends(True)])


def with_long_pieces() -> bytes:
    """Two tracks whose pieces are longer than buffers, in tables and in fragments."""
    data = Box('mdat', pattern(2 * PLAIN * SIZE, 0))
    boxes = [Box('ftyp', b'isom' + bytes(4)), long_movie(data), data]
    for number in range(1, FRAGMENTS + 1):
        boxes += long_fragment(number, IN_FRAGMENT, FRAGMENT_SIZE)
    return File(boxes).spelled()


def with_far_fragments() -> bytes:
    """Fragments that lie far from each other, so that no read has two of them."""
    data = Box('mdat', pattern(2 * PLAIN * SIZE, 0))
    boxes = [long_movie(data), data]
    for number in range(1, FAR_FRAGMENTS + 1):
        boxes += [Hole('free', GAP), *long_fragment(number, 2, 100)]
    return File(boxes).filled()


def with_one_track(count: int, size: int, *tables) -> File:
    """A track of so many samples of one size, in one chunk, with further tables."""
    data = Box('mdat', pattern(count * size, 0))
    sizes = one_size(size, count) if size else stsz([0] * count)
    return of_one_track(data, table('stts', [(count, 512)]), table('stsc', [(1, count, 1)]), sizes,
                        chunk_places(True, data, 0), *tables)


def with_many_samples() -> bytes:
    """A track of many samples of one byte, so that its list of samples is long."""
    return with_one_track(MANY, 1).spelled()


def with_long_samples() -> bytes:
    """Three samples that no buffer holds."""
    return with_one_track(3, LONG).spelled()


# ---- as many differences as are counted, and one more; samples that overlap

# The most differences that are held.
MOST = 2**20
# sample_depends_on is 1 in the one, 2 in the other.
LEFT, RIGHT = b'\x10', b'\x20'


def with_flags(count, mark, time=11, last=b'a', group=0, lasts=512):
    """A track of so many samples of one byte, whose flags are all marked alike. The movie's
    creation time, the byte of the last sample, its group and how long it lasts may be others."""
    file = with_one_track(count, 1, Box('sdtp', full(0) + mark * count),
                               group_descriptions(True),
                               sbgp(b'roll', [(count - 1, 1), (1, group)]))
    put('moov/mvhd', 4, u64(time))(file)
    rows('moov/trak/mdia/minf/stbl/stts', (count - 1, 512), (1, lasts))(file)
    put('mdat', count - 1, last)(file)
    return file.spelled()


def with_overlaps(chunks, size):
    """A track of samples of this size, which all lie at the same place."""
    data = Box('mdat', pattern(size, 0))

    def places():
        return full(0) + u32(chunks) + u32(data.place + data.header_length()) * chunks
    return of_one_track(data, table('stts', [(chunks, 512)]), table('stsc', [(1, 1, 1)]),
                        one_size(size, chunks), Box('stco', places)).spelled()


# ---- chunks, of which a sample does not lie in the file, and the numbers of that sample

def with_chunks(sizes: Box, chunk_rows: list[tuple[int, ...]], from_end: list[int]) -> bytes:
    """A file whose tables are these: the box of sizes, rows of `stsc`, and where each chunk begins,
    counted from the end of the file."""
    data = Box('mdat', bytes(100))
    count = int.from_bytes(sizes.fields[8:12], 'big')

    def places():
        end = data.place + data.length()
        return table('stco', [u32(end - it) for it in from_end]).fields
    return of_one_track(data, table('stts', [(count, 512)]), table('stsc', chunk_rows), sizes,
                        Box('stco', places), plainly=True).spelled()


# Name, sizes, rows of stsc, chunks from the end of the file; then, of the first sample that does
# not lie in the file, how far from the end it begins, and its size.
CHUNK_ROWS = [(1, 1, 1), (2, 2, 1), (3, 3, 1)]
CHUNKS = [
    # Samples of 3 and 9: the high four bits are the first one's.
    ('nibbles', stz2(4, 2, b'\x39'), [(1, 2, 1)], [5], 2, 9),
    ('an odd number of nibbles', stz2(4, 3, b'\x12\xc0'), [(1, 3, 1)], [4], 1, 12),
    ('bytes', stz2(8, 2, b'\x03\x09'), [(1, 2, 1)], [5], 2, 9),
    ('sizes of 16 bits', stz2(16, 2, b'\0\3\1\0'), [(1, 2, 1)], [5], 2, 256),
    ('sizes that are all alike', one_size(7, 3), [(1, 3, 1)], [16], 2, 7),
    ('sizes of 32 bits', stsz([3, 70000]), [(1, 2, 1)], [5], 2, 70000),
    # Chunks of one, two and three samples: 10; 11, 12; 13, 14, 15.
    ('the third row of stsc', stsz(range(10, 16)), CHUNK_ROWS, [90, 80, 18], 5, 14),
    ('the second row of stsc', stsz(range(10, 16)), CHUNK_ROWS, [90, 15, 60], 4, 12),
    ('chunks behind the last row', stsz(range(1, 8)), [(1, 1, 1), (2, 3, 1)], [90, 50, 6], 1, 6),
]


def of_chunks() -> Iterator:
    """Name, file, and the line of numbers."""
    for name, sizes, chunk_rows, from_end, behind, size in CHUNKS:
        data = with_chunks(sizes, chunk_rows, from_end)
        yield name, data, f'numbers: sample at {len(data) - behind}, size {size}, file {len(data)}'
