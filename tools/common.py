"""What the scripts of this folder have in common; how they count, run programs and read files is
said by the conformance suite's own module."""
from __future__ import annotations

import glob
import os
import re
import sys
from collections.abc import Iterator

TOP = os.path.dirname(os.path.dirname(os.path.abspath(__file__)))
sys.path.insert(0, os.path.join(TOP, 'conformance'))
from trials import Room, Tally, options, other, printed, read, run, text

__all__ = ['Room', 'Tally', 'options', 'other', 'printed', 'read', 'run', 'text']
ROOMS = ('src', 'specs', 'proofs')


def crates() -> list[str]:
    """The crates in the order in which they build on one another."""
    return [line.split(':')[0].split()[0] for line in text('crates.txt').splitlines() if line.strip()]


def static_libraries() -> set[str]:
    """Those on which no crate can stand."""
    return {line.split()[0] for line in text('crates.txt').splitlines() if ' staticlib:' in line}


def found(pattern: str) -> list[str]:
    """The files with such names, by their path from the top."""
    paths = glob.glob(os.path.join(TOP, pattern), recursive=True)
    return sorted(os.path.relpath(path, TOP) for path in paths if os.path.isfile(path))


def sources(*rooms) -> Iterator:
    """The path and the text of each source file in some rooms of the crates, or in all."""
    for room in rooms or ROOMS:
        for path in found(f'crates/*/{room}/**'):
            if path.endswith(('.rt', '.antt')):
                yield path, text(path)


def pages() -> list[str]:
    """README.md, and the pages of docs/."""
    return ['README.md', *found('docs/**/*.md')]


def is_used(name: str, body: str) -> bool:
    """Whether an imported name of specs/ or proofs/ stands in a text: an operator does where all its parts do."""
    word = r'(?<![\w-]){}(?![\w-])'
    return all(re.search(word.format(re.escape(part)), body) if re.match(r'\w', part) else part in body
               for part in name.split('◌') if part)
