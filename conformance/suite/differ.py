"""Where two files that the profile accepts say different things, by the description of the format.

A file is turned into a list of what it says: the way to a value, and the value. Both lists are
gone through side by side; counts stand before what they count.
"""
from __future__ import annotations

from collections.abc import Callable, Iterator
from . import lister
from .normal import descriptions, handler, kept_in, key_order, roles

# The words of `--without`, in their order, and the named sets of them.
WORDS = ('times', 'edits', 'flags', 'groups', 'metadata', 'bitrates', 'ends', 'origins', 'labels',
         'timing', 'roles', 'ids', 'timescales', 'lead-ins')
PACKAGING = ('times', 'flags', 'groups', 'metadata', 'bitrates', 'ends', 'roles', 'ids',
             'timescales', 'lead-ins')
SETS = {'packaging-1': WORDS[:8], 'media-1': WORDS[:10], 'packaging-2': PACKAGING,
        'media-2': (*PACKAGING, 'labels')}
# What is left out: nothing, each word, all of them, each named set.
WORD_SETS = [(), *((word,) for word in WORDS), WORDS, *((name,) for name in SETS)]


def meant(names):
    """The words that words and names of sets stand for."""
    return frozenset(word for name in names for word in SETS.get(name, [name]))


def in_order(names) -> tuple[str, ...]:
    """The words that words and names of sets stand for, in their order."""
    return tuple(word for word in WORDS if word in meant(names))


def without(words: tuple[str, ...]) -> list[str]:
    """How words are asked for."""
    return ['--without', ','.join(words)] if words else []


def printed(kind: bytes) -> str:
    """A type as the commands print it."""
    return lister.printed(kind if isinstance(kind, bytes) else kind.encode('latin-1'))


class Pair:
    """The differences of two files, in order: the kind, the line."""

    def __init__(self, left, right):
        self.left, self.right = left, right
        self.found = []

    def note(self, kind: str, way: str, left: str, right: str) -> None:
        self.found.append((kind, f'{way} {left} | {right}'))

    def number(self, kind: str, way: str, left: int, right: int, digits: int = 0) -> None:
        if left != right:
            self.note(kind, way, spelled(left, digits), spelled(right, digits))

    def values(self, way: str, of: Callable, left, right) -> None:
        for (kind, name, mine, digits), (_, _, theirs, _) in zip(of(left), of(right)):
            if name == 'matrix':
                for number, both in enumerate(zip(mine, theirs), 1):
                    self.number(kind, f'{way}: matrix entry {number}', *both)
            else:
                self.number(kind, f'{way}: {name}', mine, theirs, digits)

    def bytes(self, kind: str, way: str, counted: str, left: bytes, right: bytes) -> None:
        """The length, or else the first byte that differs."""
        if len(left) != len(right):
            self.number(kind, f'{way}: {counted}', len(left), len(right))
            return
        for place, (mine, theirs) in enumerate(zip(left, right), 1):
            if mine != theirs:
                self.note(kind, f'{way}: byte {place} of {len(left)}:', f'{mine:02x}',
                          f'{theirs:02x}')
                return

    def box(self, kind: str, way: str, left, right) -> None:
        """The type of a box, and its payload."""
        if left.kind != right.kind:
            self.note(kind, f'{way}: type', printed(left.kind), printed(right.kind))
        self.bytes(kind, way, 'bytes', left.payload(), right.payload())

    def boxes(self, kind: str, way: str, one: str, many: str, left: list, right: list) -> None:
        self.number(kind, f'{way}: {many}', len(left), len(right))
        for number, (mine, theirs) in enumerate(zip(left, right), 1):
            self.box(kind, f'{way}: {one} {number}', mine, theirs)

    # ---- what a movie says

    def all(self) -> list[tuple[str, ...]]:
        self.movie()
        self.number('heads', 'movie: tracks', len(self.left.tracks), len(self.right.tracks))
        for number, (mine, theirs) in enumerate(zip(self.left.tracks, self.right.tracks), 1):
            way = f'track {number}'
            self.track(way, mine, theirs)
            self.number('samples', f'{way}: start', mine.start, theirs.start)
            self.number('samples', f'{way}: samples', len(mine.samples), len(theirs.samples))
            self.samples(way, mine, theirs)
        return self.found

    def movie(self) -> None:
        mine, theirs = self.left, self.right
        self.values('movie', of_movie, mine, theirs)
        self.kept('movie', mine.moov, theirs.moov, 'moov', mine.left)

    def kept(self, way: str, left, right, place: str, words) -> None:
        self.boxes('kept', way, 'kept box', 'kept boxes', kept_in(left, place, words),
                   kept_in(right, place, words))

    def track(self, way: str, mine, theirs) -> None:
        self.values(way, of_track, mine, theirs)
        self.edits(way, mine.edits, theirs.edits)
        self.kept(way, mine.trak, theirs.trak, 'moov/trak', mine.left)
        self.media(way, mine, theirs)

    def edits(self, way: str, left: list[list[int]], right: list[list[int]]) -> None:
        self.number('edits', f'{way}: edits', len(left), len(right))
        names = ('segment duration', 'media time', 'rate integer', 'rate fraction')
        for number, (mine, theirs) in enumerate(zip(left, right), 1):
            for name, first, second in zip(names, mine, theirs):
                self.number('edits', f'{way}: edit {number}: {name}', first, second)

    def media(self, way: str, mine, theirs) -> None:
        self.values(way, of_media, mine, theirs)
        self.bytes('heads', f'{way}: handler', 'bytes', handler(mine), handler(theirs))
        self.boxes('heads', way, 'extended language', 'extended languages',
                   mine.media.all('elng'), theirs.media.all('elng'))
        self.box('heads', f'{way}: media header', media_header(mine), media_header(theirs))
        self.boxes('heads', way, 'description', 'descriptions', descriptions(mine),
                   descriptions(theirs))
        if 'groups' not in mine.left:
            self.boxes('groups', way, 'group description', 'group descriptions',
                       mine.tables.all('sgpd'), theirs.tables.all('sgpd'))

    def samples(self, way: str, mine, theirs) -> None:
        keys = sorted({*self.left.keys(mine), *self.right.keys(theirs)}, key=key_order)
        for number, (left, right) in enumerate(zip(mine.samples, theirs.samples), 1):
            self.sample(f'{way}: sample {number}', left, right, keys)

    def sample(self, way: str, left, right, keys: list[tuple]) -> None:
        self.number('samples', f'{way}: duration', left.duration, right.duration)
        self.number('samples', f'{way}: offset', left.offset, right.offset)
        self.number('flags', f'{way}: flags', left.flags, right.flags, 8)
        self.number('samples', f'{way}: description', left.description, right.description)
        for key in keys:
            name = printed(key[0]) + ('' if key[1] is None else f' {key[1]}')
            self.number('groups', f'{way}: group {name}:', left.groups.get(key, 0),
                        right.groups.get(key, 0))
        if left.size != right.size:
            self.number('samples', f'{way}: size', left.size, right.size)
        else:
            self.bytes('bytes', way, 'size', self.left.bytes_of(left), self.right.bytes_of(right))


def width(box) -> int:
    return 8 if box.version() else 4


def behind_times(box, narrow: int, wide: int) -> Callable:
    """What stands behind creation and modification, and behind so many bytes more in version 0 or
    1, with which a duration ends: a function of a place there, a length, and of a sign."""
    start = 4 + 2 * width(box) + (wide if box.version() else narrow)
    return lambda at, length, signed=True: box.number(start + at, length, signed)


# ---- the numbers of heads: the kind of a difference, the name, the number, hexadecimal digits

def spelled(number: int, digits: int = 0) -> str:
    """A number in decimals, or with so many hexadecimal digits."""
    return f'{number:0{digits}x}' if digits else f'{number}'


def times(box, words, front: str = '') -> Iterator:
    for at, name in enumerate(('creation time', 'modification time')):
        time = 0 if 'times' in words else box.number(4 + at * width(box), width(box))
        yield 'times', front + name, time, 0


def signed(fields: Callable, length: int, **places) -> Iterator:
    for name, at in places.items():
        yield 'heads', name.replace('_', ' '), fields(at, length), 0


def matrix(fields: Callable) -> Iterator:
    yield 'heads', 'matrix', [fields(16 + 4 * number, 4) for number in range(9)], 0


def of_movie(movie) -> Iterator:
    fields = behind_times(movie.header, 8, 12)
    yield from times(movie.header, movie.left)
    yield 'heads', 'timescale', movie.timescale, 0
    yield from signed(fields, 4, rate=0)
    yield from signed(fields, 2, volume=4)
    yield from matrix(fields)


def of_track(track) -> Iterator:
    fields = behind_times(track.header, 12, 16)
    flags, layer, group = roles(track)
    yield 'heads', 'flags', flags, 6
    yield from times(track.header, track.left)
    yield 'heads', 'id', track.id_left, 0
    yield 'heads', 'layer', layer, 0
    yield 'heads', 'alternate group', group, 0
    yield from signed(fields, 2, volume=12)
    yield from matrix(fields)
    yield 'heads', 'width', fields(52, 4, False), 0
    yield 'heads', 'height', fields(56, 4, False), 0


def of_media(track) -> Iterator:
    header = track.media.one('mdhd')
    yield from times(header, track.left, 'media ')
    yield 'heads', 'timescale', track.timescale, 0
    yield 'heads', 'language', behind_times(header, 8, 12)(0, 2, False), 4


def media_header(track):
    return track.information.one('vmhd', 'smhd', 'hmhd', 'nmhd', 'sthd', 'gmhd')


def differences(left, right) -> list[tuple[str, ...]]:
    """All differences of two movies of which the same words are left out."""
    return Pair(left, right).all()
