"""What a reader of the format's description may take wrongly, and the files on which that shows.

`lister`, `reader` and `normal` ask `taken` where the description is easily misread. It answers no,
but in `taking`, which `conformance/misreadings` uses: there one misreading is taken for right, and
some answer of each file that stands in misreadings.txt must be another one.
"""
from __future__ import annotations

import contextlib
from collections.abc import Iterator

from .stored import blocks

# Of each misreading what is taken for right, and names of files that tell.
MISREADINGS = {name: (what, files.split()) for line, files in blocks('misreadings.txt')
               for name, what in [line.split(': ', 1)]}
_TAKEN = set()


def taken(name: str) -> bool:
    """Whether a misreading is taken for right now."""
    assert name in MISREADINGS, name
    return name in _TAKEN


@contextlib.contextmanager
def taking(name: str) -> Iterator:
    """Takes a misreading for right."""
    _TAKEN.add(name)
    try:
        yield
    finally:
        _TAKEN.discard(name)
