"""The boxes of a file as text, read from its headers alone; and the fault of the first header that
has one."""
from __future__ import annotations

from collections.abc import Iterator
from .misreadings import taken

# Which boxes are looked into, by the path of their types; the empty path is the file.
INSIDE = {
    '': ('moov', 'moof'),
    'moov': ('trak', 'mvex'),
    'moov/trak': ('edts', 'mdia'),
    'moov/trak/mdia': ('minf',),
    'moov/trak/mdia/minf': ('dinf', 'stbl'),
    'moof': ('traf',),
}
# For misreadings alone: types that are looked into somewhere, those that hold content, and those
# that count their boxes.
CONTAINERS = {kind for kinds in INSIDE.values() for kind in kinds}
KEPT = ('udta', 'iods', 'meta', 'tref', 'elng', 'vmhd', 'smhd')
FREE = ('free', 'skip', 'wide')


class BadHeader(Exception):
    """A header that can't be read: the kind of its fault, the box that is named, and the place."""

    def line(self) -> str:
        kind, name, place = self.args
        return f'refused: {kind} in {name} at {place}'


def printed(kind: bytes) -> str:
    """A type as it is printed."""
    if taken('types-are-not-in-hexadecimal'):
        return kind.decode('latin-1')
    if taken('spaces-are-cut'):
        kind = kind.strip(b' ')
    if all(0x20 <= byte <= 0x7e for byte in kind):
        return kind.decode('ascii')
    return kind.hex()


def header_at(data: bytes, place: int, end: int, container: str, is_file: bool) -> tuple:
    """Type, first byte behind the header, and first byte behind the box."""
    left = end - place
    if left < 8:
        raise BadHeader('ShortHeader', container, place)
    size, kind = int.from_bytes(data[place:place + 4], 'big'), data[place + 4:place + 8]
    length = 8
    if size == 1:
        if left < 16:
            raise BadHeader('ShortHeader', container, place)
        length, size = 16, int.from_bytes(data[place + 8:place + 16], 'big')
    elif size == 0 and is_file:
        size = left
    if size < length:
        raise BadHeader('BadSize', printed(kind), place)
    if size > left:
        raise BadHeader('Overrun', printed(kind), place)
    return kind, place + length, place + size


def headers(data: bytes, place: int, end: int, container: str = 'file',
            is_file: bool = False) -> list[tuple] | None:
    """All headers between two places: type, place, first byte of the content, end."""
    found = []
    while place < end:
        kind, inner, behind = header_at(data, place, end, container, is_file)
        found.append((kind, place, inner, behind))
        place = behind
    return found


def cut_before(data: bytes, of: bytes | None = None) -> list[bytes]:
    """A file in parts, of which each but the first begins with a box, or with one of a type."""
    found = headers(data, 0, len(data), is_file=True)
    cuts = [place for kind, place, _, _ in found if place and of in (None, kind)]
    return [data[start:end] for start, end in zip([0, *cuts], [*cuts, len(data)])]


def opens(name: str, path: str) -> int | None:
    """Whether a box at this path is looked into, and at how many bytes behind its header."""
    if name in INSIDE.get(path, ()):
        return 0
    if name in CONTAINERS and taken('containers-open-anywhere'):
        return 0
    if name in KEPT and taken('kept-boxes-open') or name in FREE and taken('free-space-opens'):
        return 0
    if name in ('stsd', 'dref') and taken(f'{name}-opens'):
        return 8
    return None


def below(path: str, name: str) -> str:
    """The path of what stands in a box."""
    return f'{path}/{name}' if path else name


def depth(path: str) -> int:
    """How many containers what stands at a path lies in."""
    return path.count('/') + bool(path)


def walked(data: bytes, found: list[tuple], path: str = '') -> Iterator:
    """The path and the header of each box that stands at this path, and of those in them."""
    for header in found:
        yield path, header
        kind, _, inner, end = header
        name = printed(kind)
        skipped = opens(name, path)
        if skipped is not None:
            held = headers(data, inner + skipped, end, name)
            yield from walked(data, held, below(path, name))


def all_boxes(data: bytes, length: int | None = None) -> Iterator | None:
    """The same of a file."""
    return walked(data, headers(data, 0, len(data) if length is None else length, is_file=True))


def listed(data: bytes, length: int | None = None) -> tuple[str, str | None]:
    """The list of boxes as text, or the line that refuses it."""
    try:
        lines = [f"{'  ' * depth(path)}{printed(kind)} {place} {end - place}\n"
                 for path, (kind, place, _, end) in all_boxes(data, length)]
        return ''.join(lines), None
    except BadHeader as fault:
        return '', fault.line()
