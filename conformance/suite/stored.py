"""The stored files of this suite."""
from __future__ import annotations

import json
import os
import re
from collections.abc import Iterator

FOLDER = os.path.dirname(os.path.dirname(os.path.abspath(__file__)))


def bytes_of(folder: str, name: str) -> bytes:
    with open(os.path.join(FOLDER, folder, name), 'rb') as file:
        return file.read()


def blocks(name: str) -> Iterator:
    """The blocks of a file of cases: each a line, and the text that stands below it, four columns
    further in. It ends with a line feed, unless two dots stand behind it. Lines in front are a
    comment."""
    for block in re.split(r'^(?=[^\s#])', bytes_of('.', name).decode(), flags=re.M)[1:]:
        line, _, inside = block.partition('\n')
        inside = re.sub('^    ', '', inside, flags=re.M)
        yield line, inside[:-3] if inside.endswith('..\n') else inside


def names() -> list[str]:
    """The names of all stored files, without their ending."""
    found = os.listdir(os.path.join(FOLDER, 'files'))
    return sorted(name.removesuffix('.mp4') for name in found)


def media() -> dict[str, str | None]:
    """The files of coded media, by name: the line that refuses each, which was worked out by hand."""
    refused = json.loads(bytes_of('coded', 'refused.json'))
    found = os.listdir(os.path.join(FOLDER, 'coded'))
    return {name: refused.get(name) for name in sorted(it[:-4] for it in found if it.endswith('.mp4'))}


def cases() -> list[dict]:
    """The cases of cases.json."""
    return json.loads(bytes_of('.', 'cases.json'))


def lengths_of(case: dict, whole: bytes, step: int = 1) -> range:
    """The numbers of first bytes that a case of cases.json is run on."""
    low, high = case.get('first_bytes', [len(whole), len(whole)])
    return range(low, high + 1, step)


PLAIN = bytes_of('files', 'plain.mp4')
NORMAL = bytes_of('wanted', 'plain.normal.mp4')
# The media data of plain.mp4.
DATA = b'aaaaabbbbbbb'
# A byte of its third sample is another one, and what `compare` says of it.
OTHER = PLAIN.replace(b'bbbbbbb', b'bbbxbbb')
DIFFERENCE = b'track 1: sample 3: byte 4 of 7: 62 | 78\n'
# Its last byte is missing: the `mdat` of 20 bytes at 541 ends behind the file.
CUT = PLAIN[:-1]
CUT_LINE = b'refused: Overrun in mdat at 541'
CUT_SAID = CUT_LINE + b'\n'
SHOWN = bytes_of('wanted', 'plain.show.json')
BOXES = bytes_of('wanted', 'plain.boxes.txt')
SAMPLES = bytes_of('wanted', 'plain.samples.txt')
# Two fragments; a gap between two; a file with edits.
TWO = bytes_of('files', 'two-fragments.mp4')
GAP = bytes_of('files', 'gap-between-fragments.mp4')
EDITS = bytes_of('files', 'edits.mp4')
COLUMNS = b'number decode_time composition_time duration flags description size\n'


def objects() -> bytes:
    """The lines of plain.mp4's samples as JSON."""
    made, at = b'', PLAIN.index(b'mdat') + 4
    for row in SAMPLES.decode().splitlines():
        numbers = dict(zip(COLUMNS.decode().split(), row.split()))
        parsed = {name: int(it, 16 if name == 'flags' else 10) for name, it in numbers.items()}
        parsed |= {'at': at, 'fragment': 0}
        at += parsed['size']
        made += json.dumps(parsed, sort_keys=True, separators=(',', ':')).encode() + b'\n'
    return made
