"""The two files that the cases break: `narrow` and `wide`.

Both have every box that is read, two tracks with samples in tables and in fragments, and no fault.
They differ in the form of the boxes: `narrow` has version 0 and small forms, `wide` has version 1,
places of eight bytes and compact sizes.
"""
from __future__ import annotations

from collections.abc import Callable
from .boxes import Box, File, full, i32, i64, numbers, sbgp, stsz, stz2, table, u16, u32, u64

MATRIX = numbers(0x10000, 0, 0, 0, 0x10000, 0, 0, 0, 0x40000000)
MOVIE_TIMESCALE = 1000


def time(is_wide: bool, number: int) -> bytes:
    return u64(number) if is_wide else u32(number)


def timed(is_wide: bool, flags: int, first: int, *behind) -> bytes:
    """The front of a header: its times, of which this is the first, and what stands behind."""
    return (full(int(is_wide), flags) + time(is_wide, first) + time(is_wide, first + 1)
            + b''.join(behind))


def movie_header(is_wide: bool) -> Box:
    return Box('mvhd', timed(is_wide, 0, 11, u32(MOVIE_TIMESCALE), time(is_wide, 0), u32(0x10000),
                             u16(0x100), bytes(10), MATRIX, bytes(24), u32(9)))


def track_header(is_wide: bool, number: int) -> Box:
    return Box('tkhd', timed(is_wide, 3, 13, u32(number), bytes(4), time(is_wide, 0), bytes(8),
                             u16(1), u16(2), u16(0x100), bytes(2), MATRIX, numbers(64, 48)))


def edits(is_wide: bool) -> Box:
    number = i64 if is_wide else i32
    rows = [time(is_wide, 40) + number(-1) + u16(1) + u16(0),
            time(is_wide, 120) + number(1024) + u16(1) + u16(0)]
    return Box('edts', b'', [table('elst', rows, int(is_wide))])


def groupings(is_wide: bool, *rows) -> Box:
    """An `sbgp`, with a parameter in version 1."""
    return sbgp(b'roll', rows, 7 if is_wide else None)


def group_descriptions(is_wide: bool) -> Box:
    """An `sgpd` with one description of two bytes."""
    length = u32(2) if is_wide else b''
    return Box('sgpd', full(int(is_wide)) + b'roll' + length + u32(1) + b'\xff\xff')


def sizes(is_wide: bool, found: tuple[int, ...]) -> Box:
    return stz2(8, len(found), bytes(found)) if is_wide else stsz(found)


def chunk_places(is_wide: bool, data: Box, *starts) -> Box:
    """A `stco` or `co64` of chunks that begin at these bytes of a data box."""
    def fields():
        places = [data.place + data.header_length() + start for start in starts]
        return full(0) + u32(len(places)) + b''.join(time(is_wide, place) for place in places)
    return Box('co64' if is_wide else 'stco', fields)


def sample_table(is_wide: bool, number: int, data: Box) -> Box:
    """The tables of three samples of 5, 0 and 7 bytes in two chunks."""
    start = 12 * (number - 1)
    depends = bytes([0x20, 0x18, 0x18]) if number == 1 else bytes([0, 0x40, 0])
    entry = Box('mp4v' if number == 1 else 'mp4a', bytes(6) + u16(1) + b'more')
    return Box('stbl', b'', [
        Box('stsd', full(0) + u32(1), [entry]),
        table('stts', [(2, 512), (1, 500)]),
        table('ctts', [(1, 0), (2, 256)], int(is_wide)),
        table('stss', [(1,), (3,)]),
        table('stsc', [(1, 2, 1), (2, 1, 1)]),
        sizes(is_wide, (5, 0, 7)),
        chunk_places(is_wide, data, start, start + 5),
        Box('sdtp', full(0) + depends),
        Box('cslg', full(0) + bytes(20)),
        group_descriptions(is_wide),
        groupings(is_wide, (2, 1), (1, 0)),
    ])


def media(is_wide: bool, number: int, data: Box) -> Box:
    handler = b'vide' if number == 1 else b'soun'
    header = Box('vmhd', full(0, 1) + bytes(8)) if number == 1 else Box('smhd', full(0) + bytes(4))
    reference = Box('dref', full(0) + u32(1), [Box('url ', full(0, 1))])
    return Box('mdia', b'', [
        Box('mdhd', timed(is_wide, 0, 15, u32(12800 * number), time(is_wide, 0), u16(0x55c4),
                          u16(0))),
        Box('hdlr', full(0) + bytes(4) + handler + bytes(12) + b'\0'),
        Box('elng', full(0) + b'en\0'),
        Box('minf', b'', [header, Box('dinf', b'', [reference]),
                          sample_table(is_wide, number, data)]),
    ])


def track(is_wide: bool, number: int, data: Box) -> Box:
    return Box('trak', b'', [
        track_header(is_wide, number),
        edits(is_wide),
        Box('tref', u32(12) + b'hint' + u32(1)),
        Box('udta', b'a track'),
        Box('meta', b'of a track'),
        media(is_wide, number, data),
    ])


def with_tables(number: int, data: Box, *tables, plainly: bool = False) -> Box:
    """A track of the wide form with these tables; plainly without edits and user data."""
    made = track(True, number, data)
    stbl = made.children[-1].children[-1].children[-1]
    stbl.children = [Box('stsd', full(0) + u32(1), [Box('mp4v', bytes(6) + u16(1))]), *tables]
    if plainly:
        made.children[1:-1] = []
    return made


def of_one_track(data: Box, *tables, plainly: bool = False) -> File:
    """A file of a track with these tables, and its data."""
    one = with_tables(1, data, *tables, plainly=plainly)
    return File([Box('moov', b'', [movie_header(True), one]), data])


def movie_extends(is_wide: bool) -> Box:
    boxes = [Box('mehd', full(int(is_wide)) + time(is_wide, 0))]
    boxes += [Box('trex', full(0) + numbers(number, 1, 256, 4, 0x01010000)) for number in (1, 2)]
    return Box('mvex', b'', boxes)


def run_row(is_wide: bool, size: int, flags: int, offset: int) -> bytes:
    return numbers(size, flags, -offset if is_wide else offset)


def track_fragment(is_wide: bool, number: int, due: int, moof: Callable, data: Box,
                   start: int) -> Box:
    """Runs of two samples and of one, from a byte of a data box on: 4, 3 and 2 bytes."""
    if is_wide:
        head = full(0, 0x02003a) + numbers(number, 1, 512, 4, 0x01010000)
    else:
        head = full(0, 0x00002b) + u32(number) + u64(3) + numbers(1, 512, 0x01010000)

    def first_run():
        base = moof().place if is_wide else 3
        place = data.place + data.header_length() + start - base
        rows = run_row(is_wide, 4, 0x02000000, 0) + run_row(is_wide, 3, 0x01010000, 256)
        return full(int(is_wide), 0xe01) + numbers(2, place) + rows

    return Box('traf', b'', [
        Box('tfhd', head),
        Box('tfdt', full(int(is_wide)) + time(is_wide, due)),
        Box('trun', first_run),
        Box('trun', full(int(is_wide), 0x204) + numbers(1, 0x02000000, 2)),
        groupings(is_wide, (1, 0), (2, 1)),
    ])


def moof_of(sequence: int, *trafs) -> Box:
    """A `moof` of `traf`s, each of these boxes."""
    return Box('moof', b'', [Box('mfhd', full(0) + u32(sequence)),
                             *(Box('traf', b'', boxes) for boxes in trafs)])


def fragment(is_wide: bool, sequence: int, tracks: list[tuple[int, ...]]) -> list[Box]:
    """A `moof` and its `mdat`; for each track its number and the time that is due."""
    data = Box('mdat', b'ccccdddee' * len(tracks))
    moof = moof_of(sequence)
    for k, (number, due) in enumerate(tracks):
        moof.children.append(track_fragment(is_wide, number, due, lambda: moof, data, 9 * k))
    return [moof, data]


def whole(is_wide: bool) -> File:
    data = Box('mdat', b'aaaaabbbbbbbfffffggggggg', wide=is_wide)
    movie = Box('moov', b'', [
        movie_header(is_wide),
        Box('udta', b'a movie'),
        Box('iods', b'of objects'),
        Box('meta', b'of a movie'),
        track(is_wide, 1, data),
        track(is_wide, 2, data),
        movie_extends(is_wide),
    ])
    boxes = [Box('ftyp', b'isom' + u32(512) + b'isommp41'), movie, data]
    # The tables of a track end at 2 * 512 + 500, and each fragment takes 3 * 512.
    boxes += fragment(is_wide, 1, [(1, 1524), (2, 1524)])
    boxes += fragment(is_wide, 2, [(1, 3060)])
    return File(boxes)
