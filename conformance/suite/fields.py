"""The fields of boxes under their lines, or in their objects, as `boxes --fields` shows them.

They are read by a table of this suite's own: for each type the last version that is known (`-`:
the box has no version, `*`: any), the fields, and what follows them. A field is its name, a letter
and how many bytes it has, in version 0 and after it where these differ; behind a question mark
stands the flag without which it isn't there. Letters: u unsigned, i signed, o unsigned in version
0 and signed after it, x digits, c a type, m a matrix. Rows stand in brackets, behind the name of
the field that counts them; `entry_size` is special. What is kept has its name behind a plus.
"""
from __future__ import annotations

import hashlib

from . import lister, objects

# The most bytes that are spelled.
SPELLED = 64
# How many rows are shown where no number is asked for.
ROWS = 16

TABLE = """
ftyp - major_brand:c4 minor_version:u4 [* compatible_brand:c4]
styp - major_brand:c4 minor_version:u4 [* compatible_brand:c4]
sidx 1 reference_ID:u4 timescale:u4 earliest_presentation_time:u4/8 first_offset:u4/8 reserved:x2
       reference_count:u2 +references
uuid - usertype:x16 +payload
mvhd 1 creation_time:u4/8 modification_time:u4/8 timescale:u4 duration:u4/8 rate:i4 volume:i2
       reserved:x10 matrix:m36 pre_defined:x24 next_track_ID:u4
iods 0 +OD
udta - +payload
meta - +payload
tref - +payload
gmhd - +payload
tkhd 1 creation_time:u4/8 modification_time:u4/8 track_ID:u4 reserved_1:x4 duration:u4/8
       reserved_2:x8 layer:i2 alternate_group:i2 volume:i2 reserved_3:x2 matrix:m36 width:u4
       height:u4
elst 1 entry_count:u4 [entry_count segment_duration:u4/8 media_time:i4/8 media_rate_integer:i2
       media_rate_fraction:i2]
mdhd 1 creation_time:u4/8 modification_time:u4/8 timescale:u4 duration:u4/8 language:x2
       pre_defined:x2
hdlr * pre_defined:x4 handler_type:c4 reserved:x12 +name
elng * +extended_language
vmhd 0 graphicsmode:u2 opcolor:x6
smhd 0 balance:i2 reserved:x2
hmhd 0 maxPDUsize:u2 avgPDUsize:u2 maxbitrate:u4 avgbitrate:u4 reserved:x4
nmhd 0
sthd 0
dref 0 entry_count:u4 +entries
stsd 0 entry_count:u4 +entries
stts 0 entry_count:u4 [entry_count sample_count:u4 sample_delta:u4]
ctts 1 entry_count:u4 [entry_count sample_count:u4 sample_offset:o4]
cslg 1 compositionToDTSShift:i4/8 leastDecodeToDisplayDelta:i4/8
       greatestDecodeToDisplayDelta:i4/8 compositionStartTime:i4/8 compositionEndTime:i4/8
stsc 0 entry_count:u4 [entry_count first_chunk:u4 samples_per_chunk:u4 sample_description_index:u4]
stsz 0 sample_size:u4 sample_count:u4 [sample_count entry_size:u4]
stz2 0 reserved:x3 field_size:u1 sample_count:u4 +entry_size
stco 0 entry_count:u4 [entry_count chunk_offset:u4]
co64 0 entry_count:u4 [entry_count chunk_offset:u8]
stss 0 entry_count:u4 [entry_count sample_number:u4]
sdtp 0 +samples
sbgp 1 grouping_type:c4 grouping_type_parameter:u0/4 entry_count:u4
       [entry_count sample_count:u4 group_description_index:u4]
sgpd 1 grouping_type:c4 default_length:u0/4 entry_count:u4 +entries
mehd 1 fragment_duration:u4/8
trex 0 track_ID:u4 default_sample_description_index:u4 default_sample_duration:u4
       default_sample_size:u4 default_sample_flags:x4
mfhd 0 sequence_number:u4
tfhd 0 track_ID:u4 base_data_offset:u8?1 sample_description_index:u4?2
       default_sample_duration:u4?8 default_sample_size:u4?16 default_sample_flags:x4?32
tfdt 1 baseMediaDecodeTime:u4/8
trun 1 sample_count:u4 data_offset:i4?1 first_sample_flags:x4?4
       [sample_count sample_duration:u4?256 sample_size:u4?512 sample_flags:x4?1024
       sample_composition_time_offset:o4?2048]
"""


class Layout:
    """What the table says of a type."""

    def __init__(self, last: str, words: str):
        self.last = last
        front, _, rows = words.partition('[')
        front, _, self.kept = front.partition('+')
        self.fields = front.split()
        if last != '-':
            self.fields = ['version:u1', 'flags:x3', *self.fields]
        self.counted, *self.columns = rows.rstrip(']').split() or ['']


def table() -> dict[bytes, Layout]:
    """The table by types."""
    lines = TABLE.replace('\n       ', ' ').strip().split('\n')
    split = [line.split(' ', 2) + [''] for line in lines]
    return {kind.encode(): Layout(last, words) for kind, last, words, *_ in split}


LAYOUTS = table()


def width_of(field: str, version: int, flags: int) -> int:
    """How many bytes a field has."""
    field, _, flag = field.partition('?')
    if flag and not flags & int(flag):
        return 0
    widths = field.partition(':')[2][1:].split('/')
    return int(widths[min(version, len(widths) - 1)])


def value_of(letter: str, own: bytes, version: int):
    """A value: a number, a text, or several numbers."""
    if letter == 'm':
        return [value_of('i', own[at:at + 4], 0) for at in range(0, len(own), 4)]
    if letter == 'c':
        return lister.printed(own)
    if letter == 'x':
        return own.hex()
    return int.from_bytes(own, 'big', signed=letter == 'i' or letter == 'o' and version > 0)


def read(fields: list[str], data: bytes, version: int, flags: int) -> dict:
    """The fields of which all bytes are there."""
    found, at = {}, 0
    for field in fields:
        width = width_of(field, version, flags)
        if at + width > len(data):
            break
        if width:
            name, _, kind = field.partition(':')
            found[name] = value_of(kind[0], data[at:at + width], version)
        at += width
    return found


def kept(name: str, data: bytes) -> dict:
    """What is kept: how many bytes, and these or their digest."""
    if len(data) > SPELLED:
        return {f'{name}_bytes': len(data), f'{name}_sha256': hashlib.sha256(data).hexdigest()}
    return {f'{name}_bytes': len(data), name: data.hex()}


def told(kind: bytes, data: bytes, most: int) -> dict | None:
    """What is told of the payload of a box; rows, if there may be any, as a list."""
    layout = LAYOUTS.get(kind)
    if layout is None:
        return None
    version = data[0] if layout.last != '-' and data else 0
    flags = int.from_bytes(data[1:4], 'big') if layout.last != '-' and len(data) >= 4 else 0
    known = not layout.last.isdigit() or version <= int(layout.last)
    fields = layout.fields if known else layout.fields[:2]
    found = read(fields, data, version, flags)
    due = sum(width_of(field, version, flags) for field in fields)
    rest = data[due:]
    if known and layout.kept:
        found |= kept(layout.kept, rest)
        due = max(due, len(data))
    elif known and layout.columns:
        width = sum(width_of(column, version, flags) for column in layout.columns)
        count = len(rest) // width if layout.counted == '*' else found.get(layout.counted, 0)
        if found.get('sample_size') and kind == b'stsz':
            count = 0
        there = min(count, len(rest) // width) if width else 0
        found['rows'] = [{'row': k + 1} | read(layout.columns, rest[k * width:(k + 1) * width],
                                               version, flags) for k in range(min(there, most))]
        found |= {'more_rows': there - most} if there > most else {}
        due += count * width
    found |= {'missing_bytes': due - len(data)} if due > len(data) else {}
    return found | ({'left_over_bytes': len(data) - due} if due < len(data) else {})


# ---- as text, and as JSON


def spelled(value) -> str:
    return ' '.join(map(str, value)) if isinstance(value, list) else str(value)


def lines_of(found: dict, indent: str) -> str:
    """What is told, a line each."""
    made = ''
    for name, value in found.items():
        if name == 'rows':
            for row in value:
                cells = [f' {key}={spelled(it)}' for key, it in row.items() if key != 'row']
                made += f"{indent}row {row['row']}:{''.join(cells)}\n"
        else:
            made += f'{indent}{name}: {spelled(value)}\n'
    return made


def listed(data: bytes, most: int = ROWS) -> tuple[str, str | None]:
    """The list of boxes and their fields as text, or the line that refuses it."""
    try:
        made = ''
        for path, (kind, place, inner, end) in lister.all_boxes(data):
            depth = lister.depth(path)
            made += f"{'  ' * depth}{lister.printed(kind)} {place} {end - place}\n"
            made += lines_of(told(kind, data[inner:end], most) or {}, '  ' * (depth + 1))
        return made, None
    except lister.BadHeader as fault:
        return '', fault.line()


def objects_listed(data: bytes, most: int = ROWS) -> tuple[str, str | None]:
    """The same as objects of JSON: the fields stand behind what is told of the box, in the order
    of the file."""
    try:
        made = ''
        for path, header in lister.all_boxes(data):
            kind, _, inner, end = header
            one = objects.text(objects.box(data, path, *header))
            found = told(kind, data[inner:end], most)
            if found is not None:
                found = {'bytes': end - inner} | found
                one = f'{one[:-1]},"fields":{objects.in_order(found)}}}'
            made += one + '\n'
        return made, None
    except lister.BadHeader as fault:
        return '', fault.line()
