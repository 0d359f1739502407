"""Boxes as trees, and the bytes that they spell.

A file is built as a tree of boxes, so that a case knows where it put the box that it breaks.
"""
from __future__ import annotations

import struct
from collections.abc import Callable, Sequence


# The boxes that are kept whole, by what they stand in: content that isn't read.
KEPT = {
    'moov': ('udta', 'iods', 'meta'),
    'moov/trak': ('tref', 'udta', 'meta'),
    'moov/trak/mdia': ('elng',),
}


def u8(number: int) -> bytes:
    return struct.pack('>B', number)


def u16(number: int) -> bytes:
    return struct.pack('>H', number)


def u32(number: int) -> bytes:
    return struct.pack('>I', number)


def i32(number: int) -> bytes:
    """Four bytes; of any number, since places are not yet right when lengths are asked for."""
    return u32(number % 2**32)


def u64(number: int) -> bytes:
    return struct.pack('>Q', number)


def i64(number: int) -> bytes:
    return struct.pack('>q', number)


def full(version: int, flags: int = 0) -> bytes:
    """The first four bytes of a full box."""
    return u32(version << 24 | flags)


def numbers(*row) -> bytes:
    """Numbers of four bytes."""
    return b''.join(map(i32, row))


class Box:
    """A box: its type, the bytes of its fields, and the boxes behind these.

    `fields` may be a function without arguments, for numbers that are places of other boxes: it is
    called again when all boxes have their places, and must give as many bytes as before.
    """

    def __init__(self, kind: str, fields: bytes | Callable = b'', children: Sequence = (),
                 wide: bool = False):
        self.kind = kind
        self.fields = fields
        self.children = list(children)
        # Whether the header has a size of eight bytes.
        self.wide = wide
        # The size that the header says, where it isn't that of the box.
        self.said = None
        # Bytes put over those of the fields, and how many of these then stay.
        self.patches = []
        self.kept = None
        self.place = 0

    def field_bytes(self) -> bytes:
        fields = bytearray(self.fields() if callable(self.fields) else self.fields)
        for at, new in self.patches:
            assert at + len(new) <= len(fields), (self.kind, at)
            fields[at:at + len(new)] = new
        return bytes(fields) if self.kept is None else bytes(fields[:self.kept])

    def header_length(self) -> int:
        return 16 if self.wide else 8

    def length(self) -> int:
        inner = sum(child.length() for child in self.children)
        return self.header_length() + len(self.field_bytes()) + inner

    def settle(self, place: int) -> int:
        """Gives this box and those in it their places; answers the place behind it."""
        self.place = place
        place += self.header_length() + len(self.field_bytes())
        for child in self.children:
            place = child.settle(place)
        return place

    def header(self) -> bytes:
        size = self.length() if self.said is None else self.said
        if self.wide:
            return u32(1) + self.kind.encode('latin-1') + u64(size)
        return u32(size) + self.kind.encode('latin-1')

    def spelled(self) -> bytes:
        return self.header() + self.payload()

    def payload(self) -> bytes:
        return self.field_bytes() + b''.join(map(Box.spelled, self.children))

    def copied(self) -> Box:
        """Another box like this one."""
        children = [child.copied() for child in self.children]
        copy = Box(self.kind, self.fields, children, self.wide)
        copy.patches, copy.kept, copy.said = list(self.patches), self.kept, self.said
        return copy


class Raw(Box):
    """Bytes where a box is due."""

    def __init__(self, content: bytes):
        super().__init__('none', content)

    def header_length(self) -> int:
        return 0

    def header(self) -> bytes:
        return b''


class Hole(Box):
    """A box whose content is zeros, which take no room on the disk.

    It stands in the file itself, or is the last box in all that it is in.
    """

    def __init__(self, kind: str, size: int):
        super().__init__(kind, wide=True)
        self.size = size

    def length(self) -> int:
        return self.size

    def settle(self, place: int) -> int:
        self.place = place
        return place + self.size


class File:
    """A file: its boxes, one after the other."""

    place = 0

    def __init__(self, boxes: list[Box]):
        self.children = list(boxes)

    def settle(self) -> int:
        """Gives all boxes their places; answers the length of the file."""
        place = 0
        for box in self.children:
            place = box.settle(place)
        return place

    def spelled(self) -> bytes:
        self.settle()
        return b''.join(box.spelled() for box in self.children)

    def filled(self) -> bytes:
        """All bytes, those of holes too."""
        self.settle()
        return b''.join(box.spelled().ljust(box.length(), b'\0') for box in self.children)

    def write(self, path: str) -> None:
        """Makes the file on the disk, with its holes."""
        length = self.settle()
        with open(path, 'wb') as file:
            for box in self.children:
                file.seek(box.place)
                file.write(box.spelled())
            file.truncate(length)

    def at(self, path: str) -> Box | File:
        """The box at a path such as `moov/trak[1]/tkhd`; the empty path is the file itself."""
        found = self
        for step in filter(None, path.split('/')):
            kind, _, number = step.partition('[')
            same = [child for child in found.children if child.kind == kind]
            found = same[int(number.rstrip(']') or 0)]
        return found


# ---- boxes that count their rows

def table(kind: str, rows: Sequence, version: int = 0) -> Box:
    """A full box that counts its rows, each given as numbers of four bytes, or as it is spelled."""
    spelled = [row if isinstance(row, bytes) else numbers(*row) for row in rows]
    return Box(kind, full(version) + u32(len(rows)) + b''.join(spelled))


def sbgp(kind: bytes, rows: Sequence, parameter: int | None = None) -> Box:
    """Groups of this type, with a parameter in version 1."""
    start = full(parameter is not None) + kind + (b'' if parameter is None else u32(parameter))
    return Box('sbgp', start + table('sbgp', rows).fields[4:])


def stsz(sizes: range | Sequence) -> Box:
    return Box('stsz', full(0) + u32(0) + u32(len(sizes)) + numbers(*sizes))


def one_size(size: int, count: int) -> Box:
    """The sizes of so many samples of one size."""
    return Box('stsz', full(0) + u32(size) + u32(count))


def stz2(bits: int, count: int, sizes: bytes) -> Box:
    return Box('stz2', full(0) + u32(bits) + u32(count) + sizes)


def no_samples() -> list[Box]:
    """Tables without samples."""
    return [Box('stts', bytes(8)), Box('stsc', bytes(8)), Box('stsz', bytes(12)),
            Box('stco', bytes(8))]
