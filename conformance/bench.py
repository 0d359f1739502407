"""What the scripts beside this module have in common: a folder in which the program runs, what is
due of the suite's files, and how both are compared.

A script's parts are its functions that take a `bench` alone; each begins with a folder that has
plain.mp4 and cut.mp4 in it. Words of a run are a list, or a line that is split at its spaces.
"""
from __future__ import annotations

import contextlib
import inspect
import os
import re
import subprocess
import sys
import tempfile
import traceback
import unicodedata
from collections.abc import Callable, Iterator
from dataclasses import dataclass

import trials
from suite import answers, built, strips
from suite.objects import MISSING
from suite.stored import (BOXES, COLUMNS, CUT, DATA, NORMAL, PLAIN, SAMPLES, SHOWN, bytes_of, cases,
                          lengths_of, objects)
from trials import LIMIT, Room, Tally, other, printed

HERE = os.path.dirname(os.path.abspath(__file__))
# Seconds within which a program that must not wait has ended.
AT_ONCE = 5
# What never has room; no run may name it as NEW.
FULL = '/dev/full'
# A name as users have them.
ODD_NAME = 'a file of two\nlines'
# The name of a new file beside NEW, in a folder.
PART = re.compile(r'\.mp4norm-part')
# What NEW may be before a run, and further words with which it may be that.
OLD = b'as it was'
OVER = (([], None), (['--replace'], OLD))
STORE, WRITE, CHANGED = b'failed: store\n', b'failed: write\n', b'failed: store changed\n'
# The verdict on what can't be opened, and on what isn't there.
NOT_OPENED = b'failed: store'
NOT_THERE = NOT_OPENED + MISSING
# What ends each verdict, and the words that ask for it.
ENDS = ((b'\n', []), (b'\0', ['--zero']))
# What each command puts to standard output of plain.mp4.
WANTED = {
    ('boxes',): BOXES,
    ('show',): SHOWN,
    ('samples', '--track', '1'): SAMPLES,
    ('samples', '--track', '1', '--header'): COLUMNS + SAMPLES,
    ('samples', '--json', '--track', '1'): objects(),
    ('extract', '--track', '1', '--out', '-'): DATA,
    ('normalise', '--out', '-'): NORMAL,
    ('print',): answers.text(PLAIN),
}
# A word that stands for itself in the name of a run.
PLAINLY = re.compile('[!-~]+')


def words_of(words: list | str) -> list:
    return words.split() if isinstance(words, str) else list(words)


def spelled(words: list[str] | str) -> str:
    """A run's words, as it is named for them."""
    return ' '.join(word if isinstance(word, str) and PLAINLY.fullmatch(word) else repr(word)
                    for word in words_of(words)) or 'no words'


def shown(answer):
    status, error, output = answer
    return f'status {status}, {error[:300]!r}, {output[:80]!r} of {len(output)} bytes'


def line(text: bytes) -> bytes:
    return text + b'\n'


def like(text: bytes) -> re.Pattern:
    """A pattern of what is said."""
    return re.compile(text, re.DOTALL)


def caused(name: bytes | str, words: str, end: bytes = b'') -> re.Pattern:
    """The pattern of what --explain says of a failure: the file, words of the cause, the end."""
    cause = b'[^\n]*%s[^\n]*' % re.escape(words.encode()) if words else b'[^\n]+'
    return like(b'file: %s\ncause: %s\n%s' % (re.escape(os.fsencode(name)), cause, end))


def in_parts(parts: list[bytes]) -> dict:
    """Files by name: parts, and a list of them."""
    files = {f'part{number}.m4s': part for number, part in enumerate(parts)}
    return {'list': '\n'.join(files).encode(), **files}


def stripped() -> tuple[bytes, bytes]:
    """What is said of plain.mp4 without `hdlr`, and the copy."""
    return strips.stripped(PLAIN, [strips.Name(b'hdlr')])[1:]


def refused_copy(said: bytes) -> bytes:
    """What `strip` says of a file that it made, and that is refused so."""
    return b'strip: warning: NEW is refused: %s\n' % said


# The same of plain.mp4 without `hdlr`.
UNHANDLED = refused_copy(b'MissingBox in mdia at %d' % (PLAIN.index(b'mdia') - 4))


def gone_process() -> int:
    """The number of a process that is no more."""
    with subprocess.Popen(['true']) as gone:
        gone.wait()
    return gone.pid


def escaped(name: bytes | str) -> bytes:
    """A name in a line for people: backslashes, controls, what is no UTF-8, and characters of format
    or that end a line or a paragraph are spelled."""
    made = ''
    for one in os.fsdecode(name):
        is_control = one < ' ' or '\x7f' <= one < '\xa0' or '\ud800' <= one < '\ue000'
        is_control |= unicodedata.category(one) in ('Cf', 'Zl', 'Zp')
        spelled_one = ''.join(f'\\x{byte:02x}' for byte in os.fsencode(one)) if is_control else one
        made += '\\\\' if one == '\\' else spelled_one
    return os.fsencode(made)


def verdict(name: bytes | str, said: bytes, end: bytes = b'\n') -> bytes:
    """A line of `check`; only where a zero byte ends it, the name stands there as it is."""
    name = escaped(name) if end == b'\n' else os.fsencode(name)
    return name + b': ' + (said or b'accepted').removesuffix(MISSING) + end


def status_of(said: bytes) -> int:
    """The status of a verdict."""
    return 3 if said.startswith(b'failed') else 1 if said else 0


def refusal_of(asked: list) -> str | None:
    """The line by which `normalise` refuses a file, if it does."""
    answer, = {it.answer.error for it in asked if it.command == 'normalise'}
    return answer


def cases_of_the_suite() -> Iterator:
    """Files of the suite, and the line by which `normalise` refuses each, if it does."""
    for number, case in enumerate(cases()):
        if case['command'] == 'normalise' and 'length' not in case:
            whole = bytes_of('files', case['file'] + '.mp4')
            for length in lengths_of(case, whole, 7):
                yield f'case-{number}-{length}.mp4', whole[:length], case.get('error')
    for file in built.single_faults():
        data, asked = file.asked()
        yield f'{file.name}.mp4', data, refusal_of(asked)


@dataclass
class Line:
    """A line of words, and what is due of it: `said` is a pattern, of `put` None is any text, and
    `made` is what NEW is. `given` is standard input, where it is read."""
    line: str
    status: int = 0
    said: bytes = b''
    put: bytes = b''
    made: bytes = None
    given: bytes = None

    def has(self, word: str) -> bool:
        return word in self.line.split()


class Bench(Room, Tally):
    """Runs a program in a folder of its own, and counts."""

    def __init__(self, program: str, folder: str, status_only: bool = False):
        Room.__init__(self, folder)
        Tally.__init__(self)
        self.program, self.made_library, self.status_only = program, None, status_only
        os.mkdir(folder)

    def begin(self) -> None:
        """The folder as a part of a script begins with it."""
        self.remove(*os.listdir(self.folder))
        self.write('plain.mp4', PLAIN)
        self.write('cut.mp4', CUT)

    def beside(self, name: str) -> str:
        """A path outside of the folder."""
        return os.path.join(os.path.dirname(self.folder), name)

    def write_all(self, files: dict, folder: str = '.') -> None:
        for name, data in files.items():
            self.write(os.path.join(folder, name), data)

    def make_no_files(self) -> None:
        """A FIFO that nobody writes to, and a folder."""
        os.mkfifo(self.path('fifo'))
        os.mkdir(self.path('folder'))

    def new(self, there: bytes | None) -> None:
        """What NEW is before a run."""
        self.remove('new')
        if there is not None:
            self.write('new', there)

    def made(self) -> bytes | None:
        """What NEW is behind a run."""
        return self.read('new') if os.path.exists(self.path('new')) else None

    def parts(self) -> list[str]:
        """The names of files that lie beside others."""
        return sorted(name for name in os.listdir(self.folder) if PART.search(name))

    # ---- runs

    def ended(self, *words, limit: int = LIMIT, **how) -> tuple:
        """Status, standard error, standard output of a run in the folder; one that has not ended in
        time is ended, and has that in the place of its status."""
        try:
            return trials.run(*words, cwd=self.folder, limit=limit, **how)
        except subprocess.TimeoutExpired as late:
            return f'none in {limit} seconds', late.stderr or b'', late.stdout or b''

    def run(self, words: list | str, **how) -> tuple:
        """The same of the program with some words."""
        return self.ended(self.program, *words_of(words), **how)

    def run_in_shell(self, words: list[str] | str, before: str = '', behind: str = '',
                     environment: dict | tuple = (), **how) -> tuple:
        """The same of a shell that runs the program; what is set for the program alone."""
        setting = ''.join(f"export {name}='{it}'; " for name, it in dict(environment).items())
        script = f'{before}{setting}exec "$0" "$@" {behind}'
        return self.ended('sh', '-c', script, self.program, *words_of(words), **how)

    def run_to_full(self, words: list[str] | str) -> tuple:
        """The same where standard output has no room. That has to be the device: a file of its
        name would have room."""
        with open(FULL, 'r+b', buffering=0) as full:
            if os.fstat(full.fileno()).st_rdev != os.makedev(1, 7):
                raise OSError(f'{FULL} is no device that is always full')
            return self.run(words, stdout=full, limit=AT_ONCE)

    def run_piped(self, name: str, words: str, limit: int = LIMIT) -> tuple:
        """The same with a file in a pipe as standard input."""
        with subprocess.Popen(['cat', self.path(name)], stdout=subprocess.PIPE) as cat:
            got = self.run(words, stdin=cat.stdout, limit=limit)
            cat.stdout.close()
        return got

    def started(self, words: list | str, **how):
        """A run that goes on, whose standard output is read meanwhile."""
        return subprocess.Popen([self.program, *words_of(words)], cwd=self.folder,
                                **{'stdin': subprocess.DEVNULL, 'stdout': subprocess.PIPE,
                                   'stderr': subprocess.PIPE, **how})

    def library(self) -> str:
        """The library that fails calls, or runs words of the shell before them (`failures.c`)."""
        if self.made_library is None:
            self.made_library = self.beside('failures.so')
            printed('cc', '-shared', '-fPIC', '-O1', '-o', self.made_library,
                    os.path.join(HERE, 'failures.c'))
        return self.made_library

    def run_with(self, failing: dict, words: list[str] | str, **how) -> tuple:
        """A run with the library, and these words for it."""
        environment = {**os.environ, 'LD_PRELOAD': self.library(), **failing}
        return self.run(words, env=environment, **how)

    def before_call(self, script: str, call: str, file: str, at: int = 1) -> dict:
        """The words by which the library runs a script before a call of a kind about a file."""
        return {'LD_PRELOAD': self.library(), 'MEANWHILE': script, 'MEANWHILE_CALL': call,
                'MEANWHILE_FILE': file, 'MEANWHILE_AT': str(at)}

    def meanwhile(self, script: str, call: str, file: str, words: str, **how) -> tuple:
        """A run in which the shell runs a script before a call."""
        return self.run_with(self.before_call(script, call, file), words, **how)

    # ---- what is due

    def note(self, name: str, *wrong) -> None:
        """Counts one thing, unless statuses alone count."""
        if not self.status_only:
            super().note(name, *wrong)

    def has_status(self, name: str, got: tuple, status: int) -> None:
        """Counts the status of an answer, where statuses alone count."""
        if self.status_only:
            super().note(name, other(got[0], status))

    def right(self, name: str, got: tuple, is_due: bool | bytes, *wrong) -> None:
        """Counts an answer that may be due, or not."""
        self.note(name, '' if is_due else shown(got), *wrong)

    def wants(self, name: str, got: tuple, status: int, error: bytes | re.Pattern = b'',
              output: bytes = b'', *wrong) -> None:
        """Compares an answer; what is due on standard error may be a pattern."""
        is_said = error.fullmatch(got[1]) if isinstance(error, re.Pattern) else error == got[1]
        due = status, getattr(error, 'pattern', error), output
        is_due = is_said and (got[0], got[2]) == (status, output)
        self.has_status(name, got, status)
        self.note(name, '' if is_due else f'{shown(got)}, not {shown(due)}', *wrong)

    def asks(self, words: list[str] | str, status: int, error: bytes | re.Pattern = b'',
             output: bytes = b'', of: bytes | str | None = '', **how) -> None:
        """Runs words, and compares the answer; the words name the check, and what it is of."""
        self.wants(f'{spelled(words)}{of and ": "}{of}', self.run(words, **how), status, error,
                   output)

    def makes(self, words: list[str] | str, there: bytes | None, made: bytes | None, status: int,
              error: bytes = b'', of: bytes | str | None = '', **how) -> None:
        """Runs words that make NEW, of which is said what it is before, and behind the run."""
        self.new(there)
        self.asks(words, status, error, of=of, **how)
        self.has_made(f'{spelled(words)}{of and ": "}{of}', made)

    def has_made(self, name: str, made: bytes | None) -> None:
        """Compares NEW; no file may lie beside it."""
        self.note(f'{name}: files', self.is_as('new', made), self.has_no_part())

    def refuses_words(self, words: list[str] | str, unmade: str = 'new') -> None:
        """Words that are wrong: that is said, and nothing is put or made."""
        got = self.run(words)
        self.has_status(f'wrong words: {spelled(words)}', got, 64)
        is_due = got[0] == 64 and got[1].startswith(b'error: ') and not got[2]
        self.right(f'wrong words: {spelled(words)}', got, is_due, self.is_as(unmade, None))

    def is_as(self, name: str, data: bytes | None) -> str:
        """What is wrong with a file that has to have these bytes, or, of None, not to be there."""
        path = self.path(name)
        there = self.read(name) if os.path.isfile(path) else os.path.lexists(path) or None
        return '' if there == data else f'{name} is other than wanted: {other(there, data)}'

    def has_no_part(self) -> str:
        """What is wrong where a file stayed beside another one."""
        parts = self.parts()
        return f'{parts} stayed' if parts else ''


@contextlib.contextmanager
def benched(text: str) -> Iterator:
    """A bench for the program that the words name, and what `--only` says; `text` is the script's
    help. Behind it the counts are printed."""
    only = {'default': '', 'metavar': 'WORD', 'help': 'only parts with this in their name'}
    statuses = {'action': 'store_true', 'help': 'compare exit statuses alone, of runs that have one '
                'that is due; for programs with words of their own'}
    args = trials.options(text, 'program', only=only, status_only=statuses)
    with tempfile.TemporaryDirectory() as folder:
        bench = Bench(args.program, os.path.join(folder, 'room'), args.status_only)
        yield bench, args.only
    bench.end()


def is_part(it) -> bool:
    return inspect.isfunction(it) and it.__module__ == '__main__' and list(
        inspect.signature(it).parameters) == ['bench']


def run_parts() -> None:
    """Runs the parts of the script that was called."""
    script = sys.modules['__main__']
    with benched(script.__doc__) as (bench, only):
        for part in [it for it in vars(script).values() if is_part(it)]:
            if only in part.__name__:
                run_part(bench, part)


def run_part(bench: Bench, part: Callable) -> None:
    """Runs a part. One that does not come to its end, for what a wrong program does, has failed."""
    bench.begin()
    try:
        part(bench)
    except Exception as fault:
        traceback.print_exc()
        Tally.note(bench, f'{part.__name__} ended early', repr(fault))
