"""One table of calls for the wrappers in Python and JavaScript, and what is due of each.

What is due comes from what the program puts, as text or as JSON, and from exact fractions; never
from a wrapper. An entry has the call, the names of its files, its further words, and as text of
JSON, since JavaScript reads no whole numbers above 2^53 exactly, what is due:

  show, samples, boxes, fields   the program's objects
  compare    {"same", "total", "atLeast", "kinds", "words", "differences", "aligned"}, and its lines
  sum        the digits
  normalise, extract, print, samplesText, boxesText, fieldsText   {"length", "sha256"} of the bytes
  normalLength   a number
  check      {"status", "kind", "type", "offset", "len"}
  columns    lists by name, of which seconds are floats; and the same seconds exactly
  version    that of the program
  of what is refused   {"fault": [kind, type, offset, which file]}, of a lacking track {"fails": ..}
"""
from __future__ import annotations

import hashlib
import json
import os
import re
import sys
from fractions import Fraction

import trials
from scripts import script
from suite import differ, scales
from suite.boxes import Box
from suite.movies import whole
from suite.stored import PLAIN, bytes_of, names
from trials import Room

aligns = script('aligns')
HERE = os.path.dirname(os.path.abspath(__file__))
# Seconds that a wrapper has for the table.
LIMIT = 300
KIND = re.compile(r'refused: (\w+) in (.{4}|[0-9a-f]{8}) at (\d+)\n', re.S)
FIRST = '', 'times', 'edits,ends'
WORDS = *FIRST, *differ.SETS, *(word for word in differ.WORDS if word not in ','.join(FIRST).split(','))
ROWS = (0, 2, 2 ** 32 - 1)
FORMS = {'plain': [], 'named': ['--header'], 'json': ['--json']}
SYNTAXES = {'lines': [], 'json': ['--json']}
# Differences that are listed at most: fewer than there are, as many as where none is said, more.
LIMITS = (0, 1, 3, 100, 130, 1000)
# As many samples as have other bytes in one of two files: texts of them are longer than what is
# first asked for.
MANY = 700
SCENES = b'abcdefghij'


def frames(count: int, mark: bytes = b'') -> list:
    return [(aligns.LASTS, b'%03d' % number + mark) for number in range(1, count + 1)]


def films() -> dict:
    """Files that are compared: of many differences, of lost samples, of other timescales."""
    kept = aligns.FRAMES[:77] + [(aligns.LASTS, b'xyz')] + aligns.FRAMES[90:]
    copied = scales.frames(*[1280] * 9)
    return {
        'many': aligns.file_of(frames(MANY, b'a')), 'many-others': aligns.file_of(frames(MANY, b'b')),
        'whole': aligns.file_of(aligns.FRAMES, aligns.SOUND),
        'lost': aligns.file_of(kept, aligns.SOUND[:4] + aligns.SOUND[5:]),
        'film': scales.file_of(1000, scales.Times(12800, scales.frames(*[640] * 10)), content=SCENES),
        'copy': scales.file_of(90000, scales.Times(25600, copied), content=SCENES.replace(b'g', b'')),
        'two-tracks': whole(True).spelled(), 'more': PLAIN + Box('more', b'none').spelled(),
        'event': PLAIN + Box('emsg', b'more').spelled(), 'later': PLAIN[:44] + b'\0\0\0\x0b' + PLAIN[48:],
    }


PAIRS = (('many', 'many-others'), ('whole', 'lost'), ('lost', 'whole'), ('film', 'copy'), ('copy', 'film'),
         ('two-tracks', 'whole'), ('plain', 'later'), ('plain', 'edits'), ('plain', 'plain'),
         ('plain', 'cut'), ('cut', 'plain'), ('empty', 'cut'))


def digest(content: bytes) -> dict:
    return {'length': len(content), 'sha256': hashlib.sha256(content).hexdigest()}


def objects(lines: bytes) -> list:
    return [json.loads(line) for line in lines.splitlines()]


def as_wrappers_say(text: str) -> str:
    """The lines of a comparison without a word of the command line, and with kinds and words in the
    order of their names, in which the program's JSON has them."""
    if not text:
        return 'the same'
    *lines, last = text.replace(' --without', ' without').replace(' of without', '').split('\n')
    counts, _, hint = last.partition('; ')
    many, _, kinds = counts.partition(': ')
    front, same, words = hint.partition('same without ')
    ordered = ', '.join(sorted(kinds.split(', '))), ','.join(sorted(words.split(',')))
    return '\n'.join([*lines, f'{many}: {ordered[0]}; {front}{same}{ordered[1]}'])


class Table:
    """Makes the entries in a folder, by the program."""

    def __init__(self, program: str, folder: str):
        self.program, self.room, self.entries = program, Room(folder), []
        files = {name: bytes_of('files', f'{name}.mp4') for name in names()}
        for name, data in {**files, **films(), 'cut': PLAIN[:-1]}.items():
            self.room.write(f'{name}.mp4', data)
        self.names = [*files, *films(), 'cut']

    def add(self, call: str, files: tuple, asked: list, made, **more) -> None:
        """An entry: what the program puts for these words, as `made` has it."""
        paths = [self.room.path(f'{name}.mp4') for name in files]
        status, error, put = trials.run(self.program, *asked[:1], *paths, *asked[1:])
        found = KIND.search(error.decode('latin-1'))
        if status in (0, 5):
            due = made(put, status)
        elif found:
            kind, box, offset = found.groups()
            which = next((at for at, it in enumerate(paths) if error.startswith(it.encode() + b': ')), 0)
            due = {'fault': [kind, box, int(offset), which]}
        else:
            due = {'fails': error.decode().rstrip('\n').partition('failed: ')[2]}
        spelled = json.dumps(due, separators=(',', ':'), ensure_ascii=False)
        self.entries.append({'call': call, 'files': [f'{name}.mp4' for name in files], **more,
                             'due': spelled})

    def file(self, name: str) -> None:
        """All that is asked of one file."""
        said = lambda put, _: digest(put)
        listed = lambda put, _: objects(put)
        self.add('show', (name,), ['show'], lambda put, _: json.loads(put))
        self.check(name)
        for syntax, words in SYNTAXES.items():
            self.add('boxesText', (name,), ['boxes', *words], said, syntax=syntax)
        self.add('boxes', (name,), ['boxes', '--json'], listed)
        for rows in ROWS:
            self.add('fields', (name,), ['boxes', '--json', '--fields', '--rows', str(rows)], listed, rows=rows)
            self.add('fieldsText', (name,), ['boxes', '--fields', '--rows', str(rows)], said, rows=rows)
        for track in (1, 2, 7):
            asked = ['--track', str(track)]
            self.add('samples', (name,), ['samples', '--json', *asked], listed, track=track,
                     timescale=self.timescale(name, track))
            self.add('columns', (name,), ['samples', '--json', *asked],
                     lambda put, _, track=track: self.columns(name, track, objects(put)), track=track)
            self.add('extract', (name,), ['extract', *asked, '--out', '-'], said, track=track)
            for form, words in FORMS.items():
                self.add('samplesText', (name,), ['samples', *asked, *words], said, track=track, form=form)
        for words in WORDS[:2] if self.is_refused(name) else WORDS:
            self.words(name, words)

    def words(self, name: str, words: str) -> None:
        """What is asked of what is left of a file without some words."""
        left = ['--without', words] if words else []
        form = ['normalise', '--out', '-', *left]
        self.add('normalise', (name,), form, lambda put, _: digest(put), words=words)
        self.add('normalLength', (name,), form, lambda put, _: len(put), words=words)
        self.add('sum', (name,), form, lambda put, _: hashlib.sha256(put).hexdigest(), words=words)
        self.add('print', (name,), ['print', *left], lambda put, _: digest(put), words=words)

    def is_refused(self, name: str) -> bool:
        return trials.run(self.program, 'check', self.room.path(f'{name}.mp4'))[0] != 0

    def check(self, name: str) -> None:
        """The verdict on a file, which is an answer of `check`."""
        told, = objects(trials.run(self.program, 'check', '--json', self.room.path(f'{name}.mp4'))[2])
        fault = told.get('refused', {'kind': '', 'box': '', 'offset': 0})
        due = {'status': told['status'], 'kind': fault['kind'], 'type': fault['box'],
               'offset': fault['offset'], 'len': 0}
        self.entries.append({'call': 'check', 'files': [f'{name}.mp4'], 'due': json.dumps(due, separators=(',', ':'))})

    def timescale(self, name: str, track: int) -> int | None:
        shown = trials.run(self.program, 'show', self.room.path(f'{name}.mp4'))[2]
        found = [it['timescale'] for it in json.loads(shown or b'{"tracks":[]}')['tracks'] if it['id'] == track]
        return found[0] if found else None

    def columns(self, name: str, track: int, told: list) -> dict:
        """The samples of a track by columns: times in seconds, exactly and as floats."""
        scale = self.timescale(name, track)
        keys = ('number', 'decode_time', 'composition_time', 'duration', 'flags', 'description', 'size', 'at',
                'fragment')
        made = {key: [one[key] for one in told] for key in keys}
        made['sync'] = [one['flags'] // 65536 % 2 == 0 for one in told]
        for key, unit in (('decode_seconds', 'decode_time'), ('composition_seconds', 'composition_time'),
                          ('duration_seconds', 'duration')):
            made[key] = [float(Fraction(one[unit], scale)) for one in told]
            made[f'exact {key}'] = [str(Fraction(one[unit], scale)) for one in told]
        return made

    def compare(self, files: tuple, words: str, limit: int, align: bool, further=(), **more) -> None:
        """What two files differ in; further words of the program, and what stands for them."""
        left = ['--without', words] if words else []
        asked = ['compare', '--align' if align else '--all', '--limit', str(limit), *left, *further]
        paths = [self.room.path(f'{name}.mp4') for name in files]
        text = trials.run(self.program, *asked[:1], *paths, *asked[1:])[2].decode().rstrip('\n')

        def made(put, status):
            *told, last = objects(put)
            return {'same': status == 0, 'total': last['differences'], 'atLeast': last['at_least'],
                    'kinds': last['kinds'], 'words': last['without'],
                    'differences': [it for it in told if it['kind'] != 'aligned'],
                    'aligned': [it for it in told if it['kind'] == 'aligned']}

        self.add('compare', files, [*asked, '--json'], made, words=words, limit=limit, align=align, **more,
                 text=as_wrappers_say(text))

    def by_program(self) -> None:
        """What of the wrappers Python's alone has, since it may run the program."""
        for name, options in (('more', ['foreign']), ('event', ['foreign']), ('event', ['foreign', 'lossy']),
                              ('plain', ['foreign'])):
            how = {option: True for option in options}
            words = ['normalise', '--out', '-', *(f'--{option}' for option in options)]
            self.add('normalise', (name,), words, lambda put, _: digest(put), alone='Python', **how)
            self.add('sum', (name,), words, lambda put, _: hashlib.sha256(put).hexdigest(), alone='Python', **how)
        for track in (1, 2, 3):
            for words in ('', 'packaging-2'):
                left = ['--without', words] if words else []
                asked = ['normalise', '--out', '-', '--track', str(track), *left]
                how = {'track': track, 'words': words, 'alone': 'Python'}
                self.add('normalise', ('two-tracks',), asked, lambda put, _: digest(put), **how)
                self.add('sum', ('two-tracks',), asked, lambda put, _: hashlib.sha256(put).hexdigest(), **how)
        for tracks in ((1, 2), (2, 1), (1, 1)):
            asked = ['--track', f'{tracks[0]}:{tracks[1]}']
            self.compare(('two-tracks', 'two-tracks'), '', 100, True, asked, alone='Python', tracks=tracks)
        self.compare(('more', 'plain'), '', 100, False, ['--foreign'], alone='Python', foreign=True)

    def whole(self) -> list:
        """All entries."""
        version = trials.printed(self.program, '--version').partition(',')[0].split()[1]
        self.entries.append({'call': 'version', 'files': [], 'due': json.dumps(version)})
        self.by_program()
        for files in PAIRS:
            for align in (False, True):
                for limit in LIMITS:
                    self.compare(files, '', limit, align)
                for words in WORDS[1:]:
                    self.compare(files, words, 100, align)
        for name in self.names:
            self.file(name)
        return self.entries


def written(program: str, folder: str) -> str:
    """Writes files and table into a folder; the table's path."""
    Room(folder).write('calls.json', json.dumps(Table(program, folder).whole()))
    return os.path.join(folder, 'calls.json')


def in_python(folder: str, table: str, *words, program: str = '', library: str = '') -> tuple:
    """What the module in this folder makes of the table, or of the calls that words name: lines of
    what was tried, with what is wrong behind a tab; and what was said where it didn't come to its
    end."""
    environment = {**os.environ, 'MP4NORM': program, 'MP4NORM_LIBRARY': library}
    return told_by(sys.executable, os.path.join(HERE, 'python_values.py'), folder, table, *words, env=environment)


def in_javascript(package: str, module: str, table: str, *words, flags=()) -> tuple:
    """The same of a package, by one of its modules, which Node runs with these flags."""
    return told_by('node', *flags, '--no-warnings', os.path.join(HERE, 'javascript_values.mjs'), package,
                   os.path.join(package, module), table, *words)


def told_by(*words, **how) -> tuple:
    status, error, output = trials.run(*words, limit=LIMIT, **how)
    *lines, last = output.decode(errors='replace').splitlines() or ['']
    return lines, '' if (status, last) == (0, 'end') else error.decode(errors='replace')[-500:] or 'no end'
