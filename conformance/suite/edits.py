"""Changes of a file that is built: functions of the file. Each answers what a fault of it names,
the type and the box (or bytes)."""
from __future__ import annotations

from collections.abc import Callable
from .boxes import Raw, table


def name_of(path: str) -> str:
    """The type in a path's last step; `file` for the file itself."""
    return path.split('/')[-1].partition('[')[0] or 'file'


def all_of(*changes) -> Callable:
    """Several changes; the first says what is named."""
    def change(file):
        return [one(file) for one in changes][0]
    return change


def naming(path: str, *changes) -> Callable:
    """Changes of which the fault names the box that stands at a path before them."""
    def change(file):
        box = file.at(path)
        for one in changes:
            one(file)
        return box.kind, box
    return change


# ---- a box where it stands

def changed(path: str, change: Callable) -> Callable:
    """A box that is changed where it stands; it is the one that is named."""
    def breaks(file):
        box = file.at(path)
        change(box)
        return box.kind, box
    return breaks


def put(path: str, at: int, new: bytes) -> Callable:
    """Other bytes in the fields of a box."""
    return changed(path, lambda box: box.patches.append((at, new)))


def fields(path: str, new: bytes | Callable) -> Callable:
    """Other fields."""
    def change(box):
        box.fields, box.patches = new, []
    return changed(path, change)


def rows(path: str, *others, version: int = 0) -> Callable:
    """Other rows of a table."""
    return fields(path, table('', others, version).fields)


def longer(path: str, more: bytes = b'x') -> Callable:
    """Bytes behind the fields of a box."""
    def change(box):
        box.fields, box.patches = box.field_bytes() + more, []
    return changed(path, change)


def renamed(path: str, kind: str) -> Callable:
    return changed(path, lambda box: setattr(box, 'kind', kind))


def said(path: str, size: int) -> Callable:
    """A box whose header says another size."""
    return changed(path, lambda box: setattr(box, 'said', size))


def cut(path: str, length: int) -> Callable:
    """Fields cut short; nothing behind them."""
    def change(box):
        box.kept, box.children = length, []
    return changed(path, change)


def cut_by_one(path: str) -> Callable:
    """A leaf that ends one byte early."""
    return changed(path, lambda box: setattr(box, 'kept', len(box.field_bytes()) - 1))


# ---- boxes in a container

def place_of(children, kind: str) -> int:
    """The place of the first box of a type."""
    return [child.kind for child in children].index(kind)


def added(path: str, box, size: int | None = None, before: str | None = None) -> Callable:
    """A box more, perhaps of another said size, at the end or before the first of a type."""
    def breaks(file):
        more, children = box.copied(), file.at(path).children
        more.said = size
        children.insert(place_of(children, before) if before else len(children), more)
        return more.kind, more
    return breaks


def added_copy(path: str, kind: str, new_kind: str | None = None) -> Callable:
    """A box of a container for a second time, perhaps as another type."""
    def breaks(file):
        children = file.at(path).children
        more = children[place_of(children, kind)].copied()
        more.kind = new_kind or kind
        children.append(more)
        return more.kind, more
    return breaks


def added_bytes(path: str, content: bytes) -> Callable:
    """Bytes at the end of a container that are no whole header."""
    def breaks(file):
        more = Raw(content)
        file.at(path).children.append(more)
        return name_of(path), more
    return breaks


def removed(path: str, *kinds) -> Callable:
    """A container without all boxes of some types."""
    def breaks(file):
        container = file.at(path)
        container.children = [child for child in container.children if child.kind not in kinds]
        return name_of(path), container
    return breaks


def replaced(path: str, *new) -> Callable:
    """Other boxes in the place of one, or none."""
    def breaks(file):
        container, copies = file.at(path.rpartition('/')[0]), [box.copied() for box in new]
        place = container.children.index(file.at(path))
        container.children[place:place + 1] = copies
        return (copies[0].kind, copies[0]) if copies else (name_of(path), container)
    return breaks


def gone(path: str) -> Callable:
    """A box less."""
    return replaced(path)


def moved(path: str, kind: str, place: int | None) -> Callable:
    """The first box of a type at another place of its container."""
    def breaks(file):
        children = file.at(path).children
        box = children.pop(place_of(children, kind))
        children.insert(len(children) if place is None else place, box)
        return box.kind, box
    return breaks


def exchanged(path: str, first: str, second: str) -> Callable:
    """Two neighbours in the other order."""
    def breaks(file):
        children = file.at(path).children
        mine, theirs = (file.at(f'{path}/{step}') for step in (first, second))
        at, to = children.index(mine), children.index(theirs)
        children[at], children[to] = theirs, mine
        return mine.kind, mine
    return breaks
