"""Edits of sources that each make a wrong program, for the prover (crates/*/edits.txt and
must-fail/) and for the suite (conformance/left_out_*.edit).

A file of edits has lines of a word, a colon and a text; other lines are comments:

    file: PATH     what the edits below it change; that of a crate's edit begins at its crate
    edit: NAME     begins an edit; of the suite's it says what is taken out. A file without is one
    old: TEXT      stands in that file exactly once, behind the pairs before it
    new: TEXT      what stands in its place
    cases: NAME..  of the suite's edits: cases of which each must fail
    run: SCRIPT PART: PATTERN    or a part of a script, and a pattern of a run of it that must fail
    joins: WORD    edits with the same word share a build; others with a script are alone

Where `{wrong}` stands in the new text of an edit of the suite, it is whether the program is to be wrong
in this way: all such edits are in one program.

Lines with the same word, one behind the other, are the lines of one text.
"""
from __future__ import annotations

import os
import re

from common import TOP, found, text

LINE = re.compile(r'(file|edit|old|new|cases|run|joins):(?: (.*))?')
SOURCES = re.compile(r'crates/\w+/(src|specs|proofs)/')


class Edit:
    """An edit: its file and its name; pairs of an old and a new text, each with the file that it is
    of; and what else is said of it, by words of lines."""

    def __init__(self, path: str, name: str | None = None):
        self.path, self.name, self.pairs, self.said = path, name, [], {}

    def __str__(self) -> str:
        return f'{self.path}: {self.name}' if self.name else self.path

    def of_crate(self) -> str:
        """The crate that it is of."""
        return self.path.split('/')[1]

    def file_name(self) -> str:
        """The name of its file in must-fail/, where `rt ci` tries it."""
        return f'{self.name}.edit' if self.name else os.path.basename(self.path)

    def spelled(self) -> str:
        """The text of such a file."""
        front = len(f'crates/{self.of_crate()}/')
        lines, last = [], None
        for path, old, new in self.pairs:
            lines += [f'file: {path[front:]}'] if path != last else []
            lines += [f'old: {old}', f'new: {new}']
            last = path
        return '\n'.join([*lines, ''])

    def applied(self) -> tuple:
        """The texts of the files that it changes, by their paths; the pieces that it changes, each
        a path, the text of the file before it and its place there; or why it can't be applied."""
        texts, pieces = {}, []
        for path, old, new in self.pairs:
            if not path or not old or new is None:
                return {}, [], "it lacks a line 'file:', 'old:' or 'new:'"
            if not SOURCES.match(path) or not os.path.isfile(os.path.join(TOP, path)):
                return {}, [], f'there is no file {path} in src/, specs/ or proofs/'
            before = texts.setdefault(path, text(path))
            if before.count(old) != 1:
                return {}, [], f'an old text stands in {path} {before.count(old)} times'
            if new == old:
                return {}, [], f'an old text of {path} and its new one are the same'
            pieces.append((path, before, before.index(old)))
            texts[path] = before.replace(old, new)
        return texts, pieces, None if pieces else "it has no pair of 'old:' and 'new:'"


def edits_in(path: str) -> list[Edit]:
    """The edits of a file; where nothing in it begins one, it is one without a name."""
    front = '' if path.startswith('conformance/') else '/'.join(path.split('/')[:2]) + '/'
    edits, file, last = [Edit(path)], None, None
    for line in text(path).split('\n'):
        match = LINE.fullmatch(line)
        word, value = match.groups('') if match else (None, None)
        if word == 'file':
            file = front + value.strip()
        elif word == 'edit':
            edits.append(Edit(path, value))
        elif word in ('old', 'new'):
            pairs, at = edits[-1].pairs, 1 if word == 'old' else 2
            if not pairs or last != word and pairs[-1][at] is not None:
                pairs.append([file, None, None])
            before = pairs[-1][at]
            pairs[-1][at] = value if before is None else f'{before}\n{value}'
        elif word:
            edits[-1].said.setdefault(word, []).append(value)
        last = word
    return edits if edits[0].pairs or len(edits) == 1 else edits[1:]


def edits_in_all(pattern: str) -> list[Edit]:
    """The edits of the files with such names."""
    return [edit for path in found(pattern) for edit in edits_in(path)]


def edits_of_lists(crate: str = '*') -> list[Edit]:
    """Those of the lists of crates, or of one crate's."""
    return edits_in_all(f'crates/{crate}/edits.txt')


def edits_of_suite() -> list[Edit]:
    return edits_in_all('conformance/left_out_*.edit')
