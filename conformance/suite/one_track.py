"""Films of several tracks, of which one is looked at alone; the IDs of tracks aren't their places.

What is due of a track is what a file says that has this track and no other, which is built here too.
"""
from __future__ import annotations

from collections.abc import Callable
from dataclasses import dataclass, replace

from . import beginnings, scales
from .beginnings import PICTURES, SOUND, lasting, pictures, sound
from .boxes import Box, File, u32
from .edits import put
from .scales import LARGEST, Times, frames

# The ID that is the largest (8.3.2).
LARGEST_ID = 2**32 - 1


def renumbered(file: File, ids: list[int]) -> File:
    """A file that `scales` builds, with these IDs of its tracks: in `tkhd` of version 1 at 20, in
    `trex` and in `tfhd` at 4."""
    for place, number in enumerate(ids):
        put(f'moov/trak[{place}]/tkhd', 20, u32(number))(file)
        put(f'moov/mvex/trex[{place}]', 4, u32(number))(file)
    for traf in file.at('moof').children[1:]:
        head = traf.children[0]
        place = int.from_bytes(head.fields[4:8], 'big') - 1
        head.patches.append((4, u32(ids[place])))
    return file


def id_at(box: Box, at: int) -> bytes:
    """The ID in a box, or in the first box of it."""
    return (box.children or [box])[0].field_bytes()[at:at + 4]


@dataclass(frozen=True)
class Film:
    """A film: its name, the timescale of the movie, and its tracks by their IDs, in their order.
    Each sample has a byte of its own."""
    name: str
    scale: int
    tracks: dict

    def tree(self) -> File:
        count = sum(len(times.samples) for times in self.tracks.values())
        content = bytes(at % 251 for at in range(count))
        return renumbered(scales.tree_of(self.scale, *self.tracks.values(), content=content),
                          list(self.tracks))

    def data(self) -> bytes:
        return self.tree().spelled()

    def alone(self, number: int) -> bytes:
        """The file that has the track with this ID and no other: what all others say is gone."""
        file, place = self.tree(), list(self.tracks).index(number)
        for path, kind, at in (('moov', 'trak', None), ('moov/mvex', 'trex', 4), ('moof', 'traf', 4)):
            boxes = file.at(path).children
            same = [box for box in boxes if box.kind == kind]
            own = same[place:place + 1] if at is None else [
                box for box in same if u32(number) == id_at(box, at)]
            file.at(path).children = [box for box in boxes if box.kind != kind or box in own]
        return file.spelled()


THREE = ((1000, 0), (1000, 500), (1000, -500))
# Samples of a track in tables, in fragments, and in both.
IN_TABLES, IN_BOTH = Times(1000, THREE, (), 0, 3), Times(90000, THREE, (), 0, 2)
IN_FRAGMENTS = Times(600, frames(600, 600, 601), (), 77)
EMPTY = Times(44100)
FILMS = [
    Film('IDs against places', 1000, {2: PICTURES, 1: SOUND}),
    Film('IDs with gaps', 600, {9: IN_TABLES, 4: IN_BOTH, 6: IN_FRAGMENTS}),
    Film('the largest ID', 1000, {LARGEST_ID: PICTURES, 1: SOUND, 2**31: IN_BOTH}),
    Film('one track', 1000, {3: IN_BOTH}),
    Film('all in tables', 1000, {3: IN_TABLES, 2: replace(IN_TABLES, scale=7), 1: IN_TABLES}),
    Film('all in fragments', 1000, {7: IN_FRAGMENTS, 1: PICTURES}),
    Film('a track without samples first', 1000, {5: EMPTY, 3: IN_BOTH}),
    Film('one without samples between', 90000, {
        3: IN_TABLES, 1: replace(EMPTY, edits=((500, -1), (0, 7))), 2: SOUND}),
    Film('none has samples', 1000, {2: EMPTY, 1: replace(EMPTY, scale=1)}),
    Film('other times in other timescales', 1001, {
        4: Times(LARGEST, frames(LARGEST, 7)), 2: Times(1, frames(3, 5)), 1: Times(48000, THREE)}),
    # Lead-ins: one waits for another, and for none if it is alone.
    Film('one waits', 1000, {2: PICTURES, 1: sound(24000)}),
    Film('both wait', 1000, {3: pictures((40, -1), (0, 0)), 2: sound(24000), 1: PICTURES}),
    Film('offsets and cuts', 600, {
        8: Times(1000, ((10, 20), (10, -10)), ((0, 20),)), 4: replace(SOUND, edits=((0, 1024),))}),
    # The edits of one say more than when it begins, so those of no other are left out beside it.
    Film('one says more', 1000, {5: pictures((7, 0), (7, 3)), 2: sound(24000)}),
    Film('another says more', 1000, {
        2: sound(24000), 5: replace(PICTURES, edits=((7, 0, 2, 0),)), 1: PICTURES}),
    Film('far from each other', 1, {
        6: Times(1, frames(1), (), 2**62), 2: Times(1, frames(1), ((0, 2**62),))}),
    # As whole files these are too long where edits say how long tracks wait, or have offsets that
    # are too large: of a track alone it is that one track's.
    Film('one is too long in microseconds', 1, {
        4: PICTURES, 2: lasting(beginnings.MOST_SECONDS + 1), 7: SOUND}),
    Film('two are too long in microseconds', 1, {
        4: lasting(beginnings.MOST_SECONDS + 1), 2: lasting(beginnings.MOST_SECONDS + 2)}),
    Film('far offsets of one', 1000, {2: Times(1000, beginnings.FAR_OFFSETS), 1: SOUND}),
    Film('long but for its edits', LARGEST, {
        3: SOUND, 1: Times(1, frames(LARGEST, LARGEST), ((9, 0),))}),
]


def with_faults() -> list[tuple[str, Callable]]:
    """Faults of one track of a film of two, which stay faults of the whole: their names, and the
    changes."""
    return [
        ('a duration that is not counted', put('moov/trak[1]/mdia/minf/stbl/stts', 4, u32(1))),
        ('a timescale of 0', put('moov/trak[1]/mdia/mdhd', 20, u32(0))),
        ('a box in the wrong version', put('moov/trak[1]/tkhd', 0, b'\2')),
    ]
