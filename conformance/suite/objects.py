"""Objects of JSON that `boxes`, `check` and `compare` put, each in a line.

What they say is worked out anew: boxes from their headers and from a table of what the profile has
where, the steps to a value from the line of the difference, by the grammar of such lines.
"""
from __future__ import annotations

import json
import re
import uuid

from . import lister

# The types that may stand in each container, by its path; the empty path is the file.
PROFILE = {
    '': 'moov ftyp styp sidx mfra mdat moof',
    'moov': 'mvhd mvex trak udta iods meta',
    'moov/trak': 'tkhd mdia edts tref udta meta',
    'moov/trak/edts': 'elst',
    'moov/trak/mdia': 'mdhd hdlr minf elng',
    'moov/trak/mdia/minf': 'vmhd smhd hmhd nmhd sthd gmhd dinf stbl',
    'moov/trak/mdia/minf/dinf': 'dref',
    'moov/trak/mdia/minf/stbl':
        'stsd stts stsc stsz stz2 stco co64 ctts stss sdtp cslg sbgp sgpd',
    'moov/mvex': 'mehd trex',
    'moof': 'mfhd traf',
    'moof/traf': 'tfhd tfdt trun sbgp',
}
# What may stand everywhere.
EVERYWHERE = 'free skip wide'
# The bytes of a UUID.
UUID = 16


def text(value: dict) -> str:
    """A value as JSON without spaces, keys in the order of their bytes."""
    return json.dumps(value, sort_keys=True, separators=(',', ':'))


def in_order(value: dict) -> str:
    """The same, keys in the order in which they are put."""
    return json.dumps(value, separators=(',', ':'))


def allowed(path: str) -> list[bytes]:
    """The types that may stand at a path."""
    return f'{PROFILE.get(path, "")} {EVERYWHERE}'.encode().split()


# ---- boxes


def box(data: bytes, path: str, kind: bytes, place: int, inner: int, end: int) -> dict:
    made = {'depth': lister.depth(path), 'offset': place, 'size': end - place,
            'type': lister.printed(kind)}
    if kind not in allowed(path):
        made['foreign'] = True
    if kind == b'uuid' and end - inner >= UUID:
        made['uuid'] = str(uuid.UUID(bytes=bytes(data[inner:inner + UUID])))
    return made


def listed(data: bytes) -> tuple[str, str | None]:
    """The objects of all boxes that are listed, or the line that refuses the file."""
    try:
        found = [box(data, path, *header) for path, header in lister.all_boxes(data)]
        return ''.join(text(one) + '\n' for one in found), None
    except lister.BadHeader as fault:
        return '', fault.line()


# ---- verdicts


def name_string(name: bytes) -> bytes:
    """A name as a string of JSON: `"` and `\\` behind a backslash, control characters and bytes
    that are no UTF-8 as `\\u` and four digits."""
    made = '"'
    for one in name.decode('utf-8', 'surrogateescape'):
        code = ord(one)
        if one in '"\\':
            made += '\\' + one
        elif code < 0x20 or 0x7f <= code < 0xa0 or 0xd800 <= code < 0xe000:
            made += f'\\u{code:04x}'
        else:
            made += one
    return (made + '"').encode()


# A line that refuses a file.
REFUSED = re.compile(rb'refused: (\w+) in (.{4}|[0-9a-f]{8}) at (\d+)')
STATUSES = {b'memory': 2, b'store': 3, b'store changed': 3, b'write': 3, b'no such track': 4}
# Stands behind what `check` says of a file that isn't there, which objects alone tell.
MISSING = b', missing'


def verdict(name: bytes | str, said: bytes, end: bytes = b'\n') -> bytes:
    """The object of a verdict; `said` is what `check` says, nothing of an accepted file."""
    name = name_string(name.encode() if isinstance(name, str) else name)
    if not said:
        return b'{"file":' + name + b',"status":0}' + end
    refused = REFUSED.fullmatch(said)
    if refused:
        kind, named, place = refused.groups()
        fault = text({'box': named.decode(), 'kind': kind.decode(), 'offset': int(place)})
        return (b'{"file":' + name + b',"refused":' + fault.encode() + b',"status":1}' + end)
    failure = said.removeprefix(b'failed: ').removesuffix(MISSING)
    missing = b'"missing":true,' if said.endswith(MISSING) else b''
    status = STATUSES[failure]
    return b'{"failed":"%s","file":%s,%s"status":%d}' % (failure, name, missing, status) + end


# ---- differences

# How a line begins, and what may stand before its values.
NUMBERED = ('edit', 'kept box', 'extended language', 'description', 'group description')
STEP = re.compile(r'(track|sample|' + '|'.join(NUMBERED) + r') (\d+): '
                  r'|(movie|handler|media header): ')
BYTE = re.compile(r'byte (\d+) of (\d+):')
MATRIX = re.compile(r'matrix entry (\d+)')
GROUP = re.compile(r'group (.{4}|[0-9a-f]{8})(?: (\d+))?:', re.DOTALL)
TYPE = re.compile(r'type (.{4}|[0-9a-f]{8}) \| (.{4}|[0-9a-f]{8})', re.DOTALL)


def steps_of(way: str) -> tuple:
    """The steps to a value, and of how many bytes it is one."""
    steps = []
    while step := STEP.match(way):
        steps += [step[1], int(step[2])] if step[1] else [step[3]]
        way = way[step.end():]
    byte, matrix, group = BYTE.fullmatch(way), MATRIX.fullmatch(way), GROUP.fullmatch(way)
    if byte:
        return [*steps, 'byte', int(byte[1])], int(byte[2])
    if matrix:
        return [*steps, 'matrix entry', int(matrix[1])], None
    if group:
        more = [] if group[2] is None else [int(group[2])]
        return [*steps, 'group', group[1], *more], None
    return [*steps, way], None


def difference(kind: str, line: str, seconds: str | None = None) -> str:
    """The object of a difference, from its kind and its line, and from when the sample is decoded
    that it is of."""
    front, _, rest = line.rpartition(': type ')
    types = TYPE.fullmatch('type ' + rest) if front else None
    if types:
        steps, of = steps_of(front + ': type')
        left, right = types.groups()
    else:
        front, _, right = line.rpartition(' | ')
        way, _, left = front.rpartition(' ')
        steps, of = steps_of(way)
        if steps[-1] not in ('flags', 'language') and 'byte' not in steps[-2:-1]:
            left, right = int(left), int(right)
    made = {'a': left, 'at': steps, 'b': right, 'kind': kind, 'line': line, 'of': of, 'seconds': seconds}
    return text({key: value for key, value in made.items() if value is not None})


def last(found: list[tuple[str, ...]], words, at_least: bool = False) -> str:
    """The object that ends a list of all differences; `words` make the two the same."""
    counts = {}
    for kind, _ in found:
        counts[kind] = counts.get(kind, 0) + 1
    return text({'at_least': at_least, 'differences': len(found), 'kinds': counts,
                 'without': None if words is None else sorted(words)})
