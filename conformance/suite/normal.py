"""The normal form of what a file denotes, by its description."""
from __future__ import annotations

from . import rates
from .boxes import KEPT, Box, full, i32, no_samples, numbers, sbgp, u16, u32, u64
from .misreadings import taken

# Kept boxes that are metadata: `--without metadata` leaves them out.
METADATA = ('udta', 'meta', 'iods')


def spelled(boxes: list[Box]) -> bytes:
    return b''.join(box.spelled() for box in boxes)


def kept(boxes: list) -> list[Box]:
    """Boxes with the type and the content of these."""
    return [Box(box.kind, bytes(box.payload())) for box in boxes]


def kept_in(container, place: str, left):
    """The kept boxes of a container, but those that are left out."""
    return container.all(*(kind for kind in KEPT[place]
                           if 'metadata' not in left or kind not in METADATA))


def handler(track) -> bytes:
    """The payload of `hdlr`: without labels its name is gone, and what is reserved is 0."""
    payload = bytes(track.media.one('hdlr').payload())
    if 'labels' not in track.left:
        return payload
    return payload[:4] + bytes(4) + payload[8:12] + bytes(12)


# Where compressorname stands in the payload of a VisualSampleEntry, and how long that is at least.
COMPRESSOR_NAME, VISUAL_ENTRY = slice(42, 74), 78


def descriptions(track) -> list[Box]:
    """The sample descriptions: without labels those of pictures name no compressor."""
    kind, entries = handler(track)[8:12], []
    for box in track.descriptions:
        data = bytes(box.payload())
        if 'bitrates' in track.left or 'ids' in track.left:
            data = rates.left(kind, data, track.left)
        if 'labels' in track.left and kind == b'vide' and len(data) >= VISUAL_ENTRY:
            data = data[:COMPRESSOR_NAME.start] + bytes(32) + data[COMPRESSOR_NAME.stop:]
        entries.append(Box(box.kind, data))
    return entries


def answer(movie) -> tuple:
    """What `normalise` answers: the status, the line that refuses what is left, the normal
    form."""
    refusal = movie.refusal()
    if refusal:
        return 1, refusal.encode() + b'\n', b''
    return 0, b'', normal_form(movie)


def normal_form(movie) -> bytes:
    head = [file_type(), movie_box(movie)]
    return spelled(head) + b''.join(pieces(movie))


def file_type() -> Box:
    return Box('ftyp', b'iso6' + u32(0) + b'iso6mp41')


def times_of(box, left) -> bytes:
    """Creation and modification, each in eight bytes."""
    if 'times' in left:
        return bytes(16)
    width = 8 if box.version() else 4
    return u64(box.number(4, width)) + u64(box.number(4 + width, width))


def movie_header(movie) -> Box:
    box = movie.header
    largest = max([track.id_left for track in movie.tracks], default=0)
    behind = box.inner + (32 if box.version() else 20)
    rate_and_volume, matrix = box.data[behind:behind + 6], box.data[behind + 16:behind + 52]
    fields = full(1) + times_of(box, movie.left) + u32(movie.timescale) + u64(0)
    fields += rate_and_volume + bytes(10) + matrix + bytes(24)
    return Box('mvhd', fields + u32(min(largest + 1, 2**32 - 1)))


def movie_box(movie) -> Box:
    boxes = [movie_header(movie)] + kept(kept_in(movie.moov, 'moov', movie.left))
    boxes += [track_box(track) for track in movie.tracks]
    extends = [Box('mehd', full(1) + u64(movie.length()))]
    extends += [Box('trex', numbers(0, track.id_left, 1, 0, 0, 0)) for track in movie.tracks]
    if taken('no-mvex-without-tracks') and not movie.tracks:
        return Box('moov', b'', boxes)
    return Box('moov', b'', boxes + [Box('mvex', b'', extends)])


# Where a `tkhd` has what stands behind its times, ID and duration: 8 bytes before the layer.
def behind_duration(track) -> int:
    return track.header.inner + (36 if track.long_times else 24)


def roles(track) -> tuple[int, int, int]:
    """The flags of a track, its layer and its alternate group: without roles it is only said
    whether it is enabled."""
    flags, place = track.header.flags(), behind_duration(track) + 8
    if 'roles' in track.left:
        return flags & 1, 0, 0
    layer, group = (int.from_bytes(track.header.data[at:at + 2], 'big', signed=True)
                    for at in (place, place + 2))
    return flags, layer, group


def track_header(track) -> Box:
    box, behind = track.header, behind_duration(track)
    flags, layer, group = roles(track)
    volume, rest = box.data[behind + 12:behind + 14], box.data[behind + 16:behind + 60]
    fields = full(1, flags) + times_of(box, track.left) + u32(track.id_left) + bytes(4 + 8 + 8)
    return Box('tkhd', fields + u16(layer % 2**16) + u16(group % 2**16) + volume + bytes(2) + rest)


def edits(track) -> list[Box]:
    if not track.edits:
        return []
    rows = b''
    for duration, time, integer, fraction in track.edits:
        rows += u64(duration) + u64(time % 2**64) + u16(integer % 2**16) + u16(fraction % 2**16)
    return [Box('edts', b'', [Box('elst', full(1) + u32(len(track.edits)) + rows)])]


def track_box(track) -> Box:
    boxes = [track_header(track)] + edits(track)
    boxes += kept(kept_in(track.trak, 'moov/trak', track.left))
    return Box('trak', b'', boxes + [media_box(track)])


def media_box(track) -> Box:
    box = track.media.one('mdhd')
    behind = box.inner + (32 if box.version() else 20)
    fields = full(1) + times_of(box, track.left) + u32(track.timescale) + u64(0)
    boxes = [Box('mdhd', fields + box.data[behind:behind + 2] + bytes(2))]
    boxes += [Box('hdlr', handler(track))] + kept(track.media.all('elng'))
    header = track.information.all('vmhd', 'smhd', 'hmhd', 'nmhd', 'sthd', 'gmhd')
    reference = Box('dref', full(0) + u32(1), [Box('url ', full(0, 1))])
    inner = kept(header) + [Box('dinf', b'', [reference]), sample_table(track)]
    return Box('mdia', b'', boxes + [Box('minf', b'', inner)])


def sample_table(track) -> Box:
    entries = kept(descriptions(track))
    boxes = [Box('stsd', full(0) + u32(len(entries)), entries)]
    groups = [] if 'groups' in track.left else kept(track.tables.all('sgpd'))
    return Box('stbl', b'', boxes + no_samples() + groups)


def with_times(track) -> list[tuple]:
    """Each sample with its decode time."""
    timed, time = [], track.start
    for sample in track.samples:
        timed.append((time, sample))
        time += sample.duration
    return timed


def first_fragments(track) -> tuple:
    """The fragment of each sample of the first track, and the times at which they begin."""
    numbers, cuts = [], []
    for time, sample in with_times(track):
        is_sync = not sample.flags & 1 << 16
        if not cuts or (is_sync and time >= cuts[-1] + track.timescale):
            cuts.append(time)
        numbers.append(len(cuts) - 1)
    return numbers, cuts


def later_fragments(track, first, cuts: list[int]) -> list[int]:
    """The fragment of each sample of another track: the last that has begun by its decode time."""
    numbers = []
    for time, _ in with_times(track):
        begun = [k for k, cut in enumerate(cuts)
                 if time * first.timescale >= cut * track.timescale]
        early = -1 if cuts and taken('early-samples-have-a-fragment') else 0
        numbers.append(begun[-1] if begun else early)
    return numbers


def pieces(movie) -> list[bytes]:
    """The `moof` and the `mdat` of each piece, in order of fragments and then of tracks."""
    if not movie.tracks:
        return []
    first = movie.tracks[0]
    if taken('first-track-with-samples-cuts'):
        first = next((track for track in movie.tracks if track.samples), first)
    numbers, cuts = first_fragments(first)
    found = pieces_of(first, numbers)
    for track in movie.tracks:
        if track is first:
            continue
        found += pieces_of(track, later_fragments(track, first, cuts))
    found.sort(key=lambda one: one[0])
    return [piece(movie, number, *one[1:]) for number, one in enumerate(found, 1)]


def pieces_of(track, numbers: list[int]) -> list[tuple]:
    """The fragment, the track, the first decode time and the samples of each piece of a track."""
    found, last = [], None
    for number, (time, sample) in zip(numbers, with_times(track)):
        if last != (number, sample.description):
            found.append((number, track, time, []))
            last = number, sample.description
        found[-1][-1].append(sample)
    return found


def shared(values: list[int]) -> int | None:
    """The value that all have, if they have one."""
    return values[0] if len(set(values)) == 1 else None


def piece(movie, number: int, track, time: int, samples) -> bytes:
    columns = [(0x100, 0x8, [sample.duration for sample in samples]),
               (0x200, 0x10, [sample.size for sample in samples]),
               (0x400, 0x20, [sample.flags for sample in samples])]
    head_flags, head = 0x020002, u32(track.id_left) + u32(samples[0].description)
    run_flags, own = 1, []
    for column, default, values in columns:
        if shared(values) is None:
            run_flags |= column
            own.append([u32(value) for value in values])
        else:
            head_flags |= default
            head += u32(values[0])
    if any(sample.offset for sample in samples):
        run_flags |= 0x800
        own.append([i32(sample.offset) for sample in samples])
    rows = b''.join(b''.join(row) for row in zip(*own))
    content = b''.join(map(movie.bytes_of, samples))
    data = Box('mdat', content)

    def run_fields():
        return (full(1, run_flags) + u32(len(samples)) + i32(data.place - moof.place + 8) + rows)

    boxes = [Box('tfhd', full(0, head_flags) + head), Box('tfdt', full(1) + u64(time)),
             Box('trun', run_fields)] + groupings(samples)
    moof = Box('moof', b'', [Box('mfhd', full(0) + u32(number)), Box('traf', b'', boxes)])
    data.place = moof.length()
    return moof.spelled() + data.spelled()


def groupings(samples) -> list[Box]:
    """An `sbgp` for each key at which some sample has an index."""
    keys = {key for sample in samples for key in sample.groups}
    boxes = []
    for kind, parameter in sorted(keys, key=key_order):
        rows = []
        for sample in samples:
            index = sample.groups.get((kind, parameter), 0)
            if rows and rows[-1][1] == index:
                rows[-1][0] += 1
            else:
                rows.append([1, index])
        if taken('trailing-zeros-are-left-out') and not rows[-1][1]:
            rows.pop()
        boxes.append(sbgp(kind, rows, parameter))
    return boxes


def key_order(key: tuple) -> tuple:
    """The order of grouping keys: by type, then none before a parameter, then by the parameter."""
    kind, parameter = key
    return kind, -1 if parameter is None else parameter
