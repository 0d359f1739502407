"""What all scripts have in common: they run programs, count what is as it should be, keep files in
a folder, and read the words that they are given."""
from __future__ import annotations

import argparse
import os
import shutil
import subprocess
import sys

TOP = os.path.dirname(os.path.dirname(os.path.realpath(__file__)))
# Seconds that one run may take.
LIMIT = 60
# What stands behind the help of each script that counts.
COUNTS = "The last line is 'N passed, M failed'; the exit status is 0 only if all passed."


def other(got, due) -> str:
    """What is wrong with something that is other than due."""
    return '' if got == due else f'{got!r:.300}, not {due!r:.300}'


class Tally:
    """Counts what passed and what failed, and tells of what failed."""

    def __init__(self):
        self.passed = self.failed = 0

    def note(self, name: str, *wrong) -> None:
        """Counts one thing, of which something may be wrong."""
        wrong = [it for it in wrong if it]
        if wrong:
            self.failed += 1
            print(f'FAILED: {name}:', *wrong, flush=True)
        else:
            self.passed += 1

    def end(self) -> None:
        """Prints the counts and ends the script, with status 0 only if all passed."""
        print(f'{self.passed} passed, {self.failed} failed', flush=True)
        sys.exit(0 if self.passed and not self.failed else 1)


class Room:
    """A folder, and files in it."""

    def __init__(self, folder: str):
        self.folder = folder

    def path(self, name: bytes | str) -> str:
        return os.path.join(self.folder, os.fsdecode(name))

    def read(self, name: str) -> bytes:
        return read(self.path(name))

    def write(self, name: bytes | str, content: bytes | str, rights: int | None = None) -> None:
        """Writes a file, and makes its folder."""
        path = self.path(name)
        os.makedirs(os.path.dirname(path), exist_ok=True)
        with open(path, 'wb') as file:
            file.write(content.encode() if isinstance(content, str) else content)
        if rights is not None:
            os.chmod(path, rights)

    def remove(self, *names) -> None:
        for path in map(self.path, names):
            if os.path.isdir(path) and not os.path.islink(path):
                shutil.rmtree(path)
            elif os.path.lexists(path):
                os.remove(path)


def read(*names) -> bytes:
    """The bytes of a file; its path begins at the top of this repository."""
    with open(os.path.join(TOP, *names), 'rb') as file:
        return file.read()


def text(*names) -> str:
    return read(*names).decode()


def run(*words, given: bytes = b'', limit: int = LIMIT, **how) -> tuple:
    """Status, standard error and standard output of a program, which reads what is given."""
    if 'stdin' not in how:
        how['input'] = given
    how = {'stdout': subprocess.PIPE, 'stderr': subprocess.PIPE, 'timeout': limit, **how}
    ran = subprocess.run(words, check=False, **how)
    return ran.returncode, ran.stderr or b'', ran.stdout or b''


def printed(*words, **how) -> str:
    """What a program that has to succeed puts to standard output, as text."""
    status, error, output = run(*words, **how)
    if status:
        raise ChildProcessError(f'{words}: status {status}: {error.decode(errors="replace")}')
    return output.decode()


def options(help_text: str, *names, epilog: str | None = COUNTS,
            **others) -> argparse.Namespace:
    """The words that a script is given, of which `program` has to be one that can be run.

    `names` are those that are due, `others` what argparse has to know of each option; the epilog
    stands at the end of the help.
    """
    parser = argparse.ArgumentParser(description=help_text, epilog=epilog,
                                     formatter_class=argparse.RawDescriptionHelpFormatter)
    for name in names:
        parser.add_argument(name)
    for name, how in others.items():
        parser.add_argument('--' + name.replace('_', '-'), **how)
    found = parser.parse_args()
    if 'program' in names:
        if not os.access(found.program, os.X_OK) or os.path.isdir(found.program):
            parser.error(f'{found.program} is no program that can be run')
        found.program = os.path.abspath(found.program)
    return found
