"""Copies in which some boxes are free space, made from a file's headers by the definition: of each
box that is named, and that lies in no other such box, the four bytes of its type are `free`."""
from __future__ import annotations

import itertools
from collections.abc import Iterator
from uuid import UUID

from . import lister, objects, stored
from .boxes import Box, u32
from .built import single_faults
from .edits import added_bytes, name_of
from .movies import whole
from .stored import PLAIN, bytes_of

FREE = b'free'
# Types of boxes without which encrypted samples can't be read.
OF_ENCRYPTION = ('senc', 'saiz', 'saio', 'sinf', 'pssh', 'tenc', 'schm')
# The same of boxes that are `uuid`: sample encryption, track encryption, protection systems.
UUIDS_OF_ENCRYPTION = ('a2394f52-5a9b-4f14-a244-6c427c648df4',
                       '8974dbce-7be7-4c51-84f9-7148f9882554',
                       'd08a4f18-10f3-4a82-b6c8-32d8aba183d3')
# The `uuid` that tells when a fragment of Smooth Streaming begins.
OF_TIME = '6d1d9b05-42d5-44e6-80e2-141daff757b2'
# What is then so where a box is lost, by its type, and by its containers where they count.
SEALED = "encrypted samples can't be read"
LOSSES = (
    (('senc', 'saiz', 'saio', 'pssh'), None, SEALED),
    (('sdtp', 'sgpd'), 'traf', 'flags or groups of samples are lost'),
    (('subs', 'csgp'), 'traf stbl', 'flags or groups of samples are lost'),
    (('stps', 'stsh', 'padb', 'stdp'), 'stbl', 'flags or groups of samples are lost'),
    (('emsg',), None, 'events are lost'),
    (('meta',), 'file moof traf', 'items are lost'),
)
ZERO = str(UUID(int=0))
# What names free space, or no type.
WRONG = ('free', 'moov/free', '66726565', 'uuid,free', '', ',', 'uuid,', ',uuid', 'uui', 'uuids',
         'uuid,,prft', 'uuid, prft', 'moov/', '/uuid', 'moov/trak/uuid', 'none/uuid', 'stsd/uuid',
         '6672656', '667265650', '6672656g', 'u\u00eed', 'moov/uui', 'uuid:', 'uuid:0',
         'uuid:00000000-0000-0000-0000-00000000000', 'uuid:00000000-0000-0000-0000-0000000000000',
         'uuid:00000000000000000000000000000000', 'uuid:0000000-00000-0000-0000-000000000000',
         'uuid:00000000-0000-0000-0000-00000000000g', 'prft:00000000-0000-0000-0000-000000000000')


class Name:
    """A type of boxes, the container that they stand in, and of `uuid` boxes their 16 bytes, of
    which any will do if there are none; `word` is how it is given."""

    def __init__(self, kind: bytes, container: str | None = None, uuid=None, word=None):
        self.kind, self.container, self.uuid = kind, container, uuid
        front, end = f'{container}/' if container else '', f':{uuid}' if uuid else ''
        shown = lister.printed(kind)
        self.shown = front + shown + end
        self.word = word or front + (kind.hex() if set(',/') & set(shown) else shown) + end

    def means(self, kind: bytes, container: str, uuid) -> bool:
        return (self.kind == kind and self.container in (None, container)
                and self.uuid in (None, uuid))


class Foreign:
    """All boxes that the profile refuses where they stand."""

    def means(self, kind: bytes, container: str, _: str | None) -> bool:
        path = next(it for it in objects.PROFILE if (it.rpartition('/')[2] or 'file') == container)
        return kind not in objects.allowed(path)


class Freed:
    """A box that becomes free space: the number of the first name that means it, its place, the
    type of its container, its own type, and of a `uuid` which it is."""

    def __init__(self, data: bytes, box: tuple, number: int, container: str, has_time: bool):
        kind, self.place, _, _ = box
        self.number, self.container, self.kind = number, container, lister.printed(kind)
        self.uuid, self.has_time = uuid_of(data, box), has_time

    def name(self) -> str:
        """How it is told where no word names it."""
        return f'{self.container}/{self.kind}' + (f' {self.uuid}' if self.uuid else '')

    def loss(self) -> str | None:
        """What is then so, if something is lost."""
        if self.uuid in UUIDS_OF_ENCRYPTION:
            return SEALED
        if self.uuid == OF_TIME and self.container == 'traf' and not self.has_time:
            return 'decode times are made up'
        for kinds, container, lost in LOSSES:
            if self.kind in kinds and (not container or self.container in container.split()):
                return lost
        return None


def uuid_of(data: bytes, box: tuple) -> str | None:
    """Which `uuid` a box is, if it is one."""
    kind, _, inner, end = box
    if kind != b'uuid' or end - inner < 16:
        return None
    return str(UUID(bytes=bytes(data[inner:inner + 16])))


def named_in(data: bytes, found: list[tuple], path: str, names: list) -> Iterator:
    """The named boxes among some headers and in their boxes."""
    container = path.rpartition('/')[2] or 'file'

    def meant_by(kind, uuid=None):
        return [number for number, name in enumerate(names) if name.means(kind, container, uuid)]

    has_time = any(box[0] == b'tfdt' for box in found) and not meant_by(b'tfdt')
    for box in found:
        kind, _, inner, end = box
        meant = meant_by(kind, uuid_of(data, box))
        if meant:
            yield Freed(data, box, meant[0], container, has_time)
        elif lister.printed(kind) in lister.INSIDE.get(path, ()):
            name = kind.decode()
            held = lister.headers(data, inner, end, name)
            yield from named_in(data, held, lister.below(path, name), names)


def told(names: list, freed: list[Freed]) -> str:
    """What is said of boxes that were changed: for each name, and for those without a name."""
    said = ''
    for number, name in enumerate(names):
        if isinstance(name, Name):
            said += f'strip: {sum(it.number == number for it in freed)} {name.shown}\n'
    groups = {}
    for it in freed:
        if isinstance(names[it.number], Foreign):
            groups[it.name()] = groups.get(it.name(), 0) + 1
    return said + ''.join(f'strip: {count} {name}\n' for name, count in groups.items())


def losses(names: list, freed: list[Freed]) -> dict:
    """What is lost with boxes that the profile refuses, a line each."""
    return {f'strip: warning: without {it.name()} {it.loss()}\n': None for it in freed
            if isinstance(names[it.number], Foreign) and it.loss()}


def warned(names: list, freed: list[Freed]) -> str:
    """What is warned of where a copy is made: a dropped `uuid` of encryption, and each loss."""
    dropped = any(isinstance(names[it.number], Name) and it.uuid in UUIDS_OF_ENCRYPTION
                  for it in freed)
    dropped |= any(isinstance(name, Name) and name.kind.decode('latin-1') in OF_ENCRYPTION
                   for name in names)
    warnings = {f'strip: warning: without these boxes {SEALED}\n': None} if dropped else {}
    return ''.join([*warnings, *losses(names, freed)])


def stripped(data: bytes, names: list, is_lossy: bool = True) -> tuple:
    """Status, standard error and bytes that are due."""
    try:
        found = lister.headers(data, 0, len(data), is_file=True)
        freed = list(named_in(data, found, '', names))
    except lister.BadHeader as fault:
        return 1, (fault.line() + '\n').encode(), b''
    lost = [it for it in freed if isinstance(names[it.number], Foreign) and it.loss()]
    if lost and not is_lossy:
        first = f'refused: BoxNotInProfile in {lost[0].kind} at {lost[0].place}\n'
        return 1, (''.join(losses(names, freed)) + first).encode(), b''
    copy = bytearray(data)
    for it in freed:
        copy[it.place + 4:it.place + 8] = FREE
    return 0, (warned(names, freed) + told(names, freed)).encode(), bytes(copy)


def kinds_in(data: bytes) -> list[tuple]:
    """All pairs of a container and the type of a box in it."""
    return sorted({(path.rpartition('/')[2] or 'file', header[0])
                   for path, header in lister.all_boxes(data)})


def with_strangers(file) -> bytes:
    """Boxes of types that the profile doesn't have, before and behind those of each container: one
    with a size of eight bytes, one of eight bytes, one whose type isn't text, one that holds what
    looks like boxes."""
    def strangers():
        return [Box('uuid', b'0123456789abcdefmore', wide=True), Box('prft'),
                Box('\xa9nam', b'of no text'), Box('a,/b', b''),
                Box('uuid', b'', [Box('uuid', b'within'), Box('trak', b'')])]

    def fill(holder, path):
        for child in holder.children:
            if child.kind in lister.INSIDE.get(path, ()):
                fill(child, lister.below(path, child.kind))
        holder.children[:0] = strangers()
        holder.children += strangers()

    fill(file, '')
    return file.spelled()


def all_names() -> list[Name]:
    return [Name(b'uuid'), Name(b'prft'), Name(b'\xa9nam'), Name(b'a,/b')]


def cases_of_kinds() -> Iterator:
    """Each box of the two files without a fault, by itself and with its container named."""
    for label, data in (('narrow', whole(False).spelled()), ('wide', whole(True).spelled()),
                        ('strangers', with_strangers(whole(True)))):
        for container, kind in kinds_in(data):
            if kind != FREE:
                yield f'{label} without {lister.printed(kind)}', data, [Name(kind)]
                yield f'{label} without {container}/{kind}', data, [Name(kind, container)]
                other = 'trak' if container != 'trak' else 'stbl'
                yield f'{label} without {other}/{kind}', data, [Name(kind, other)]


def cases_of_names() -> Iterator:
    """Several names at once, and names in each other's boxes."""
    data = with_strangers(whole(False))
    yield 'all strangers', data, all_names()
    yield 'all strangers, the other way round', data, all_names()[::-1]
    yield 'a name twice', data, [Name(b'uuid'), Name(b'uuid')]
    yield 'a container first', data, [Name(b'uuid', 'moov'), Name(b'uuid'), Name(b'uuid', 'trak')]
    yield 'a container last', data, [Name(b'uuid'), Name(b'uuid', 'moov')]
    yield 'a box in a box', data, [Name(b'trak'), Name(b'uuid'), Name(b'moof'), Name(b'stbl')]
    yield 'a movie and what is in it', data, [Name(b'moov'), Name(b'trak'), Name(b'uuid')]
    yield 'every container', data, [Name(b'uuid', it) for it in
                                    ('file', 'moov', 'trak', 'edts', 'mdia', 'minf', 'dinf',
                                     'stbl', 'mvex', 'moof', 'traf')]
    yield 'a type in hexadecimal digits', data, [Name(b'uuid', word='75756964'),
                                                 Name(b'\xa9nam', 'moov', word='moov/A96E616d')]
    yield 'nothing that is there', data, [Name(b'none'), Name(b'senx', 'traf')]
    yield from cases_of_uuids(data)
    yield 'no file', b'', [Name(b'uuid')]
    yield 'one box', u32(8) + b'uuid', [Name(b'uuid')]


def cases_of_uuids(strangers: bytes) -> Iterator:
    """Boxes that are `uuid`, told apart by the 16 bytes that say which they are."""
    first, other = str(UUID(bytes=b'0123456789abcdef')), str(UUID(int=7))
    yield 'one uuid', strangers, [Name(b'uuid', uuid=first)]
    yield 'one uuid in a container', strangers, [Name(b'uuid', 'moof', first)]
    yield 'one uuid, and the others', strangers, [Name(b'uuid', 'trak', first), Name(b'uuid')]
    yield 'all, and one uuid', strangers, [Name(b'uuid', 'trak'), Name(b'uuid', uuid=first)]
    yield 'another uuid', strangers, [Name(b'uuid', uuid=other)]
    yield 'a uuid in capitals', strangers, [Name(b'uuid', uuid=first, word=f'uuid:{first.upper()}')]
    yield 'a uuid twice', strangers, [Name(b'uuid', uuid=first), Name(b'uuid', 'moov', first)]
    for size in (15, 16, 17):
        data = PLAIN + Box('uuid', bytes(size)).spelled()
        yield f'a uuid of {size} bytes', data, [Name(b'uuid', uuid=ZERO)]
    file = whole(False)
    file.children += [uuid_box(str(UUID(int=number % 2)), b'ab') for number in range(3)]
    yield 'two of three', file.spelled(), [Name(b'uuid', uuid=ZERO)]
    for name in UUIDS_OF_ENCRYPTION:
        data = with_one('moov', uuid_box(name), True)
        yield f'encryption {name}', data, [Name(b'uuid', uuid=name)]


def cases_of_open_sizes() -> Iterator:
    """The last box of a file goes on to its end."""
    for kind, content in itertools.product((b'uuid', b'mdat', b'moov'),
                                           (b'', b'some bytes', u32(8) + b'uuid')):
        for name in (b'uuid', kind, b'trak'):
            data = PLAIN + u32(0) + kind + content
            yield f'{kind} of size 0 with {content}', data, [Name(name)]


def cases_of_faults() -> Iterator:
    """Headers that can't be read, in containers that are looked into and in those that are not."""
    names = [Name(b'uuid'), Name(b'hdlr', 'minf')]
    for file in single_faults():
        data, _ = file.asked()
        yield f'fault {file.name}', data, names
        for container in (b'moov', b'trak', b'minf', b'moof'):
            yield f'fault {file.name}, {container} named', data, [Name(container)]
    for name in stored.names():
        name, data = f'{name}.mp4', bytes_of('files', f'{name}.mp4')
        yield name, data, names
        yield f'{name} without its tracks', data, [Name(b'trak'), Name(b'mdat')]
    for length in range(0, len(PLAIN), 3):
        yield f'plain.mp4, first {length} bytes', PLAIN[:length], [Name(b'hdlr')]
        yield f'plain.mp4, first {length} bytes, without moov', PLAIN[:length], [Name(b'moov')]
    faults = (u32(7) + b'uuid', u32(0) + b'uuid', u32(99) + b'uuid', b'short', u32(1) + b'uuid',
              u32(1) + b'uuid' + bytes(7) + b'\x0f')
    for fault, path in itertools.product(faults, ('moov', 'moov/trak[1]', 'moov/trak/mdia')):
        file, outer = whole(False), name_of(path).encode()
        added_bytes(path, fault)(file)
        data = file.spelled()
        yield f'{fault} in {outer}', data, [Name(b'uuid')]
        yield f'{fault} in {outer}, named', data, [Name(outer), Name(b'mdat')]


def cases() -> Iterator:
    """Names of cases, files, and the names of boxes."""
    for part in (cases_of_kinds, cases_of_names, cases_of_open_sizes, cases_of_faults):
        yield from part()


# ---- boxes that the profile refuses


def uuid_box(name: str, more: bytes = b'more') -> Box:
    return Box('uuid', UUID(name).bytes + more)


def foreign_files() -> Iterator:
    """Files without a loss, by name: what else the suite has, and many boxes that are `uuid`."""
    for is_wide in (False, True):
        yield f'wide {is_wide}', whole(is_wide).spelled()
        yield f'strangers, wide {is_wide}', with_strangers(whole(is_wide))
    for file in single_faults():
        yield f'fault {file.name}', file.asked()[0]
    for name in stored.names():
        yield f'{name}.mp4', bytes_of('files', f'{name}.mp4')
    data = with_strangers(whole(False))
    for length in range(0, len(data), 41):
        yield f'first {length} bytes of strangers', data[:length]
    file = whole(True)
    for number in range(9_000):
        content = (number * number % 5_003).to_bytes(16, 'little')
        file.children.insert(number % 3, Box('uuid', content[:16 - number % 7 // 6]))
    yield 'many boxes that are uuid', file.spelled()


def with_one(path: str, box: Box, is_last: bool) -> bytes:
    """A file with one more box; if that comes first, the first `traf` has no time."""
    file = whole(False)
    holder = file.at(path) if path else file
    if path == 'moof/traf' and not is_last:
        holder.children = [child for child in holder.children if child.kind != 'tfdt']
    holder.children.insert(len(holder.children) if is_last else 0, box)
    return file.spelled()


def lossy_files() -> Iterator:
    """One box with which something may be lost, in each container."""
    paths = [path.replace('moov/trak', 'moov/trak[1]') for path in objects.PROFILE]
    kinds = [*(kind for kinds, _, _ in LOSSES for kind in kinds), 'sinf', 'tenc', 'schm', 'stsh']
    boxes = [(kind, Box(kind, b'some')) for kind in kinds]
    for name in (*UUIDS_OF_ENCRYPTION, OF_TIME):
        boxes += [(name, uuid_box(name)),
                  (f'15 bytes of {name}', Box('uuid', UUID(name).bytes[:15]))]
    for path, is_last, (name, box) in itertools.product(paths, (True, False), boxes):
        yield f'{name} in {path}, {is_last}', with_one(path, box, is_last)
    file = whole(False)
    for path in ('moof', 'moof/traf', 'moov', 'moov/trak[1]'):
        file.at(path).children += [Box('senc'), uuid_box(OF_TIME), Box('emsg'), Box('senc')]
    yield 'several', file.spelled()


def foreign_cases() -> Iterator:
    """Names of cases, files, and names of boxes; something is lost in those of `lossy_files`."""
    for label, data in foreign_files():
        yield label, data, [Foreign()]
        yield f'{label}, and names', data, [Name(b'uuid', 'trak'), Name(b'hdlr'), Foreign()]
    for label, data in lossy_files():
        yield label, data, [Foreign()]
        yield f'{label}, and names', data, [Name(b'senc'), Name(b'uuid', 'moof'), Name(b'tfdt'),
                                            Foreign()]
        yield f'{label}, dropped', data, [Name(b'uuid')]
