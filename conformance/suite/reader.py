"""Reads a file that the profile accepts, by the description of the format, and says what it
denotes.

It looks for no faults: it is for the wanted answers of files that are known to have none.
"""
from __future__ import annotations

import json
import math
from collections.abc import Iterator, Sequence
from dataclasses import dataclass, field

from . import lead_ins, lister
from .differ import meant
from .misreadings import taken

# The timescale without timing.
PLAIN_TIMESCALE = 1000


class Node:
    """A box that was read: its type, its place, its bytes."""

    def __init__(self, data: bytes, header: tuple):
        kind, self.place, self.inner, self.end = header
        self.kind = kind.decode('latin-1')
        self.data = data

    def payload(self) -> bytes:
        return self.data[self.inner:self.end]

    def number(self, at: int, length: int = 4, signed: bool = False) -> int:
        start = self.inner + at
        return int.from_bytes(self.data[start:start + length], 'big', signed=signed)

    def version(self) -> int:
        return self.number(0, 1)

    def flags(self) -> int:
        return self.number(1, 3)

    def boxes(self, skipped: int = 0) -> list[Node]:
        """The boxes in it, behind so many bytes."""
        return nodes(self.data, self.inner + skipped, self.end)

    def all(self, *kinds) -> list[Node]:
        return [box for box in self.boxes() if box.kind in kinds]

    def one(self, *kinds) -> Node | None:
        found = self.all(*kinds)
        return found[0] if found else None

    def rows(self, at: int, count: int, *widths) -> list[list[int]]:
        """So many rows of numbers of these widths; a negative width is of a signed number."""
        starts = [at + sum(map(abs, widths[:k])) for k in range(len(widths))]
        length = sum(map(abs, widths))
        return [[self.number(start + length * row, abs(width), width < 0)
                 for start, width in zip(starts, widths)] for row in range(count)]

    def table(self, *widths) -> list[list[int]]:
        """The rows that a full box counts."""
        return self.rows(8, self.number(4), *widths)

    def scale(self) -> int:
        """What stands behind creation and modification in version 0 or 1."""
        return self.number(20 if self.version() else 12)


def quotient(time: int, divisor: int) -> int:
    """A time by one of its divisors; of times that are all 0 the divisor is 0."""
    return time // divisor if divisor else 0


def nodes(data: bytes, start: int, end: int, is_file: bool = False) -> list[Node]:
    return [Node(data, header) for header in lister.headers(data, start, end, '', is_file)]


@dataclass
class Sample:
    """A sample: its numbers, where its bytes lie, its index at grouping keys, and the number of its
    `moof`, from 1; 0 of the tables."""
    duration: int
    offset: int
    flags: int
    description: int
    place: int
    size: int
    groups: dict = field(default_factory=dict)
    fragment: int = 0

    def leave_out(self, words, has_duration: bool, origin: int) -> None:
        """How long it lasts counts or not; the origin is the offset of the first sample."""
        if not has_duration:
            self.duration = 1
        if 'origins' in words:
            self.offset -= origin
        if 'timing' in words:
            self.offset = 0
        if 'flags' in words:
            self.flags &= 1 << 16
        if 'groups' in words:
            self.groups = {}

    def divide(self, divisor: int, has_duration: bool) -> None:
        """In a timescale that is so much smaller, if how long it lasts is said in one."""
        if has_duration:
            self.duration = quotient(self.duration, divisor)
        self.offset = quotient(self.offset, divisor)


class Track:
    """A track: the boxes that say it, and its samples."""

    def __init__(self, trak: Node):
        self.trak = trak
        self.header = trak.one('tkhd')
        self.media = trak.one('mdia')
        self.information = self.media.one('minf')
        self.tables = self.information.one('stbl')
        self.long_times = self.header.version() == 1
        self.id = self.id_left = self.header.scale()
        self.timescale = self.media.one('mdhd').scale()
        self.descriptions = first_boxes(self.tables.one('stsd'))
        self.edits = edits_of(trak)
        self.samples = plain_samples(self.tables)
        self.start = 0
        # What is left out of it: words of `--without`.
        self.left = frozenset()

    def duration(self) -> int:
        return sum(sample.duration for sample in self.samples)

    def length(self, movie_timescale: int) -> int:
        """Its length in the movie's time scale."""
        if self.edits and all(edit[0] for edit in self.edits):
            return sum(edit[0] for edit in self.edits)
        return -(-self.duration() * movie_timescale // self.timescale)

    def leave_out(self, words) -> None:
        self.left = words
        if 'edits' in words:
            self.edits = []
        if 'timing' in words:
            self.timescale = PLAIN_TIMESCALE
        if 'origins' in words or 'timing' in words:
            self.start = 0
        origin = self.samples[0].offset if self.samples else 0
        for number, sample in enumerate(self.samples):
            sample.leave_out(words, self.has_duration(number), origin)

    def has_duration(self, number: int) -> bool:
        """Whether it counts how long the sample of this number lasts."""
        is_at_end = number in (0, len(self.samples) - 1)
        return not ('timing' in self.left or 'ends' in self.left and is_at_end)

    def times(self) -> Iterator[int]:
        """All times in its timescale that count, and that itself. Below 0 a media time is none,
        -1 marks an empty edit; below -1, where it has no meaning, it keeps all others as they
        are."""
        yield self.start
        if 'timing' not in self.left:
            yield self.timescale
        for _, time, *_ in self.edits:
            yield time if time >= 0 else int(time < -1)
        for number, sample in enumerate(self.samples):
            yield sample.offset
            if self.has_duration(number):
                yield sample.duration

    def divide(self, of_movie: int) -> None:
        """Says its times in lowest terms; those of the movie are divided by this."""
        divisor = math.gcd(*self.times())
        if 'timing' not in self.left:
            self.timescale = quotient(self.timescale, divisor)
        self.start = quotient(self.start, divisor)
        for edit in self.edits:
            edit[0] = quotient(edit[0], of_movie)
            edit[1] = quotient(edit[1], divisor) if edit[1] >= 0 else edit[1]
        for number, sample in enumerate(self.samples):
            sample.divide(divisor, self.has_duration(number))

    def fault(self, movie_timescale: int) -> str | None:
        """Why what is left has no normal form, if it has none."""
        if max(self.start + self.duration(), self.length(movie_timescale)) > lead_ins.MOST_TIME:
            return 'TimeTooLarge'
        is_near = all(-2**31 <= sample.offset < 2**31 for sample in self.samples)
        return None if is_near else 'OffsetTooLarge'


class Movie:
    """What a file denotes."""

    def __init__(self, data: bytes, length: int | None = None):
        self.data = data
        top = nodes(data, 0, len(data) if length is None else length, is_file=True)
        (self.moov,) = [box for box in top if box.kind == 'moov']
        self.header = self.moov.one('mvhd')
        self.timescale = self.header.scale()
        self.tracks = [Track(trak) for trak in self.moov.all('trak')]
        self.left = frozenset()
        # The line that refuses it where edits say how long its tracks wait, if it is too long then.
        self.told_refusal = None
        extends = self.moov.one('mvex')
        self.defaults = {}
        for trex in extends.all('trex') if extends else []:
            self.defaults[trex.number(4)] = [trex.number(at) for at in (8, 12, 16, 20)]
        self.fragments = [box for box in top if box.kind == 'moof']
        for number, moof in enumerate(self.fragments, 1):
            read_fragment(number, moof, self)

    def length(self) -> int:
        return max([track.length(self.timescale) for track in self.tracks], default=0)

    def alone(self, number: int) -> Movie:
        """Shows the track with this ID alone, as if the file had no other; before anything is left
        out."""
        if taken('first-track-is-taken'):
            self.tracks = self.tracks[:1]
        elif taken('place-is-the-id'):
            self.tracks = self.tracks[number - 1:number]
        elif not taken('all-tracks-stay'):
            self.tracks = [self.track(number)]
        return self

    def leave_out(self, names: Sequence) -> Movie:
        """Leaves out what these words of `--without`, and sets of them, name."""
        if lead_ins.WORD in meant(names):
            self.told_refusal = lead_ins.tell(self)
        self.left = meant(names)
        if 'timing' in self.left:
            self.timescale = PLAIN_TIMESCALE
        for place, track in enumerate(self.tracks, 1):
            track.leave_out(lead_ins.with_origins(self.left))
            if 'ids' in self.left:
                track.id_left = place
        if 'timescales' in self.left:
            self.divide()
        return self

    def divide(self) -> None:
        """Says all times in lowest terms, once all else is left out."""
        times = [edit[0] for track in self.tracks for edit in track.edits]
        if 'timing' not in self.left:
            times.append(self.timescale)
        divisor = math.gcd(*times)
        if 'timing' not in self.left:
            self.timescale = quotient(self.timescale, divisor)
        for track in self.tracks:
            track.divide(divisor)

    def refusal(self) -> str | None:
        """The line that refuses what is left, if it has no normal form."""
        if self.told_refusal:
            return self.told_refusal
        for track in self.tracks:
            fault = track.fault(self.timescale)
            if fault:
                return f'refused: {fault} in tkhd at {track.header.place}'
        return None

    def keys(self, track: Track) -> list[tuple]:
        """The grouping keys of a track, in the order in which the file first names them."""
        trafs = [traf for moof in self.fragments for traf in moof.all('traf')]
        own = [traf for traf in trafs if traf.one('tfhd').number(4) == track.id]
        boxes = [box for place in [track.tables] + own for box in place.all('sbgp')]
        return list(dict.fromkeys(map(key_of, boxes)))

    def bytes_of(self, sample: Sample) -> bytes:
        return bytes(self.data[sample.place:sample.place + sample.size])

    def track(self, number: int) -> Track:
        found = [track for track in self.tracks if track.id == number]
        return found[0] if found else None


def first_boxes(box: Node) -> list[Node]:
    """The boxes that an `stsd` counts; bytes behind these are not looked at."""
    found, place = [], box.inner + 8
    while len(found) < box.number(4):
        header = lister.header_at(box.data, place, box.end, '', False)
        found.append(Node(box.data, (header[0], place, *header[1:])))
        place = header[2]
    return found


def edits_of(trak: Node) -> list[list[int]]:
    edits = trak.one('edts')
    rows = edits.one('elst') if edits else None
    if not rows:
        return []
    width = 8 if rows.version() else 4
    rate = 2 if taken('rates-are-unsigned') else -2
    found = rows.table(width, -width, rate, rate)
    for row in found if taken('media-times-are-unsigned') else []:
        row[1] += 256**width if row[1] < -1 else 0
    return found


def sizes_of(tables: Node) -> list[int]:
    table = tables.one('stsz', 'stz2')
    count = table.number(8)
    if table.kind == 'stsz':
        if table.number(4):
            return [table.number(4)] * count
        return [row[0] for row in table.rows(12, count, 4)]
    bits = table.number(7, 1)
    whole = int.from_bytes(table.data[table.inner + 12:table.end], 'big')
    room = 8 * (table.end - table.inner - 12)
    return [whole >> room - bits * (k + 1) & (1 << bits) - 1 for k in range(count)]


def spread(table: Node | None, default: int, count: int, width: int = 4) -> list[int]:
    """The value of each sample, of rows that each count some samples."""
    values = []
    for repeated, value in table.table(4, width) if table else []:
        values += [value] * repeated
    return values + [default] * (count - len(values))


def chunks_of(tables: Node) -> Iterator:
    """Of each chunk its place, the number of its samples, and their description."""
    table, rows = tables.one('stco', 'co64'), tables.one('stsc').table(4, 4, 4)
    for number, (place,) in enumerate(table.table(4 if table.kind == 'stco' else 8), 1):
        _, count, description = [row for row in rows if row[0] <= number][-1]
        yield place, count, description


def flags_of(word: int) -> int:
    """Flags of a sample, without the bits that are reserved."""
    return word if taken('reserved-bits-stay') else word & 0x0FFFFFFF


def plain_samples(tables: Node) -> list[Sample]:
    sizes = sizes_of(tables)
    count = len(sizes)
    durations = spread(tables.one('stts'), 0, count)
    offsets = tables.one('ctts')
    offsets = spread(offsets, 0, count, -4 if offsets and offsets.version() else 4)
    sync = tables.one('stss')
    named = [row[0] for row in sync.table(4)] if sync else range(1, count + 1)
    depends = tables.one('sdtp')
    samples = []
    for place, chunk_count, description in chunks_of(tables):
        for _ in range(chunk_count):
            k = len(samples)
            flags = (depends.number(4 + k, 1) if depends else 0) << 20
            flags = flags_of(flags | (k + 1 not in named) << 16)
            samples.append(Sample(durations[k], offsets[k], flags, description, place, sizes[k]))
            place += sizes[k]
    group(tables, samples)
    return samples


def group(container: Node, samples: list[Sample]) -> None:
    """Gives samples the indexes that the `sbgp` of an `stbl` or a `traf` say."""
    for box in container.all('sbgp'):
        key, first = key_of(box), 0
        at = 8 if key[1] is None else 12
        for count, index in box.rows(at + 4, box.number(at), 4, 4):
            for sample in samples[first:first + count]:
                if index:
                    sample.groups[key] = index
            first += count


def key_of(box: Node) -> tuple:
    """The grouping key of an `sbgp`: its type, and its parameter in version 1."""
    kind = bytes(box.data[box.inner + 4:box.inner + 8])
    if taken('parameter-zero-is-none') and box.version() == 0:
        return kind, 0
    return kind, box.number(8) if box.version() == 1 else None


def optional(box: Node, flags: int, at: int, *bits) -> tuple:
    """The fields of 4 bytes that flags say are there; nothing in place of one that isn't."""
    values = []
    for bit in bits:
        values.append(box.number(at) if flags & bit else None)
        at += 4 if flags & bit else 0
    return values, at


def read_fragment(number: int, moof: Node, movie: Movie) -> None:
    base = moof.place
    for traf in moof.all('traf'):
        end, samples = read_track_fragment(traf, moof.place, base, movie)
        for sample in samples:
            sample.fragment = number
        if samples or not taken('empty-traf-has-no-place'):
            base = end


def read_track_fragment(traf: Node, moof_place: int, base: int,
                        movie: Movie) -> tuple[int, list[Sample]]:
    """Adds the samples of a `traf` to its track; answers where its data ends, and which these are."""
    head = traf.one('tfhd')
    track, flags = movie.track(head.number(4)), head.flags()
    at = 8
    if flags & 1:
        base, at = head.number(8, 8), 16
    elif flags & 0x020000:
        base = moof_place
    own, _ = optional(head, flags, at, 0x2, 0x8, 0x10, 0x20)
    defaults = [theirs if mine is None else mine
                for mine, theirs in zip(own, movie.defaults[track.id])]
    samples, place = [], base
    for run in traf.all('trun'):
        place = read_run(run, base, place, defaults, samples)
    group(traf, samples)
    time = traf.one('tfdt')
    if samples and not track.samples and time:
        track.start = time.number(4, 8 if time.version() else 4)
    track.samples += samples
    return place, samples


def read_run(run: Node, base: int, place: int, defaults: list[int], samples: list[Sample]) -> int:
    """Adds the samples of a run; answers where its data ends."""
    flags, at = run.flags(), 8
    if flags & 1:
        place, at = base + run.number(8, 4, signed=True), 12
    (first_flags,), at = optional(run, flags, at, 0x4)
    for number in range(run.number(4)):
        row, at = optional(run, flags, at, 0x100, 0x200, 0x400, 0x800)
        duration, size, own_flags, offset = row
        if number == 0 and first_flags is not None:
            own_flags = first_flags
        said = zip((duration, size, own_flags), defaults[1:])
        duration, size, own_flags = [theirs if mine is None else mine for mine, theirs in said]
        offset = offset or 0
        if run.version() == 1 and offset >= 1 << 31:
            offset -= 1 << 32
        samples.append(Sample(duration, offset, flags_of(own_flags), defaults[0], place, size))
        place += size
    return place


def is_misread(movie: Movie) -> bool:
    """Whether a misreading that is taken for right refuses the file."""
    samples = [sample for track in movie.tracks for sample in track.samples]
    if taken('sample-begins-in-the-file'):
        return any(sample.place >= len(movie.data) for sample in samples)
    if taken('kept-versions-are-judged'):
        kept = [box for track in movie.tracks
                for box in track.media.all('elng') + track.information.all('vmhd', 'smhd')]
        return any(bytes(box.payload()[:1]) != b'\0' for box in kept)
    if taken('composition-times-are-limited'):
        return any(int(line.split()[2]) >= 1 << 63
                   for track in movie.tracks for line in lines_of(track).splitlines())
    return False


def shown(movie: Movie) -> str:
    """The line of JSON that `show` writes."""
    tracks = [{
        'bytes': sum(sample.size for sample in track.samples),
        'descriptions': [lister.printed(box.kind.encode('latin-1')) for box in track.descriptions],
        'duration': track.duration(),
        'edits': track.edits,
        'handler': lister.printed(bytes(track.media.one('hdlr').payload()[8:12])),
        'id': track.id,
        'samples': len(track.samples),
        'start': track.start,
        'timescale': track.timescale,
    } for track in movie.tracks]
    whole = {'mehd': movie.length(), 'timescale': movie.timescale, 'tracks': tracks}
    text = json.dumps(whole, separators=(',', ':'), sort_keys=True)
    if taken('types-are-not-escaped'):
        text = text.replace('\\"', '"').replace('\\\\', '\\')
    return text + '\n'


def lines_of(track: Track) -> str:
    """The lines that `samples` writes."""
    lines, time = [], track.start
    for number, sample in enumerate(track.samples, 1):
        lines.append(f'{number} {time} {time + sample.offset} {sample.duration} '
                     f'{sample.flags:08x} {sample.description} {sample.size}\n')
        time += sample.duration
    return ''.join(lines)


def objects_of(track: Track) -> str:
    """The objects that `samples --json` writes."""
    lines, time = [], track.start
    for number, sample in enumerate(track.samples, 1):
        values = {'at': sample.place, 'composition_time': time + sample.offset,
                  'decode_time': time, 'description': sample.description,
                  'duration': sample.duration, 'flags': sample.flags, 'fragment': sample.fragment,
                  'number': number, 'size': sample.size}
        lines.append(json.dumps(values, separators=(',', ':')) + '\n')
        time += sample.duration
    return ''.join(lines)


def extracted(movie: Movie, track: Track) -> bytes:
    """The bytes that `extract` writes."""
    return b''.join(map(movie.bytes_of, track.samples))
