"""The columns of `samples`: the definition has their names, and so has each of the places below."""
from __future__ import annotations

import json
import re
from collections.abc import Iterator

from common import text
from suite import stored

TEXTS = 'crates/mp4_answers/specs/format/Texts.antt'


# What objects of JSON say too: where a sample lies.
PLACES = ['at', 'fragment']


def columns() -> list[str]:
    """The names, as the definition of what stands before the lines has them."""
    head = r'^listing_head forms\.Named =\s+codes "([^"]*)"'
    return re.search(head, text(TEXTS), re.M)[1].split()


def behind(path: str, pattern: str) -> str:
    """What a pattern finds on a page whose line feeds are spaces; nothing where it finds nothing."""
    found = re.search(pattern, text(path).replace('\n', ' '))
    return found[1] if found else ''


def listed(words: list[str] | str) -> list[str]:
    """The names of a list for people: each of its words is a column's, perhaps with more words."""
    cells = words.split(', ') if isinstance(words, str) else words
    names = columns()
    found = [next((name for name in names if name.replace('_', ' ') in cell), cell)
             for cell in cells]
    # In short for the decode time and the composition time.
    return [it for name in found for it in (names[1:3] if name == 'times' else [name])]


def rows_of(section: str) -> list[str]:
    """The second cells of the table of a section of docs/OUTPUT.md."""
    page = text('docs/OUTPUT.md').partition(f'\n## `{section}`\n')[2].partition('\n## ')[0]
    return re.findall(r'^\| \d+ \| (.*) \|$', page, re.M)


def places() -> Iterator:
    """Each place, the names there, and those that are due."""
    names, in_objects = columns(), sorted(columns() + PLACES)
    object_of_page = behind('docs/PYTHON.md', r'`samples FILE --track ID --json` \| `([^`]*)`')
    yield 'crates/mp4_answers/src/commands/forms.rt', behind(
        'crates/mp4_answers/src/commands/forms.rt', r'NAMES: &\[u8\] = b"([^"\\]*)').split(), names
    yield 'crates/mp4_answers/src/text/sample_lines.rt, objects', re.findall(
        r'[,{]\\"(\w+)\\":', text('crates/mp4_answers/src/text/sample_lines.rt'))[::-1], in_objects
    fields = text(TEXTS).partition('\nfields_value ')[2].partition('\n\n')[0]
    yield f'{TEXTS}, objects', re.findall(r'codes "(\w+)"', fields), in_objects
    yield 'conformance/suite/stored.py', stored.COLUMNS.decode().split(), names
    yield 'docs/OUTPUT.md, table', listed(rows_of('samples')), names
    yield 'docs/OUTPUT.md, --header', behind(
        'docs/OUTPUT.md', 'the name of each column: `([^`]*)`').split(), names
    yield 'docs/OUTPUT.md, --json', re.findall(r'`(\w+)`', behind(
        'docs/OUTPUT.md', r'With `--json` each line is (.*?), as named above')), in_objects
    yield 'man/mp4norm.1', listed(behind(
        'man/mp4norm.1', r'for each sample of a track, in decoding order: ([^.]*)\.')), names
    yield 'python/mp4norm.py', re.findall(
        r'^    (\w+): int$', text('python/mp4norm.py').partition('class Sample:')[2]
        .partition('@property')[0], re.M), names + PLACES
    yield 'docs/PYTHON.md', list(json.loads(object_of_page or '{}')), in_objects


def of_help(whole: str, own: str) -> Iterator:
    """The same of the program's help, and of that of `samples`."""
    said = re.search(r'^Columns of samples: (.*)$', whole, re.M)
    yield '--help, columns of samples', said[1].split() if said else [], columns()
    first = own.partition('\n')[0].partition(': ')[2]
    yield 'samples --help, columns', listed(first), columns()
