#!/usr/bin/env python3
"""Tries the module mp4norm.py, beside this file, on a program.

usage: test_mp4norm.py PROGRAM [--library LIBRARY]
       MP4NORM=PROGRAM [MP4NORM_LIBRARY=LIBRARY] python3 -m unittest discover -s python

With a C library (libmp4norm.so.0) the same tests are tried on files that are looked at in process.

What is wanted was worked out by hand, or by the readers of the conformance suite. The example of
docs/PYTHON.md is run too. The last line is 'N passed, M failed', of tests; the exit status is 0
only if all passed.
"""
import atexit
import collections
import dataclasses
import errno
import hashlib
import io
import itertools
import json
import os
import pathlib
import pickle
import re
import shutil
import subprocess
import sys
import tempfile
import typing
import unittest
from contextlib import redirect_stdout
from fractions import Fraction
from unittest import mock

sys.dont_write_bytecode = True
HERE = os.path.dirname(os.path.realpath(__file__))
sys.path[:0] = [HERE, os.path.join(os.path.dirname(HERE), 'conformance')]
import mp4norm
import trials
from mp4norm import Alignment, Between, Box, Failed, Movie, Refused, Sample, Track
from suite import answers, built, differ, lister, movies, reader
from suite.stored import CUT, EDITS, NORMAL, OTHER, PLAIN, bytes_of

COUNTS = collections.Counter()
# The creation time of the movie, 4 bytes from 44 on, is another one.
LATER = PLAIN[:44] + b'\0\0\0\x0b' + PLAIN[48:]
# Its samples last 3,600 of 90,000 parts of a second, in place of 512 of 12,800.
ANEW = PLAIN[:268] + b'\0\1\x5f\x90' + PLAIN[272:437] + b'\0\0\x0e\x10' + PLAIN[441:]
# The fault of cut.mp4.
FAULT = ('cut.mp4', 'Overrun', 'mdat', 541)
LINE = re.compile(r'refused: (\w+) in (.{4}|[0-9a-f]{8}) at (\d+)')
# What pytest shows of a text without more words: so many characters, the middle of it cut out.
SHORT = 240


class Case(unittest.TestCase):
    """A test in a folder with some files, which counts itself."""

    def run(self, result=None):
        result = result or self.defaultTestResult()
        before = len(result.failures) + len(result.errors)
        super().run(result)
        COUNTS[len(result.failures) + len(result.errors) == before] += 1

    def setUp(self):
        folder = tempfile.TemporaryDirectory()
        self.addCleanup(folder.cleanup)
        self.addCleanup(os.chdir, os.getcwd())
        os.chdir(folder.name)
        room = trials.Room(folder.name)
        self.write, self.read = room.write, room.read
        for name, data in (('plain.mp4', PLAIN), ('other.mp4', OTHER), ('later.mp4', LATER),
                           ('cut.mp4', CUT)):
            self.write(name, data)

    def named(self, name, data):
        self.write(name, data)
        return name

    def python(self, code, given=b''):
        """What another Python does with the module."""
        environment = {**os.environ, 'PYTHONPATH': HERE}
        words = [sys.executable, '-B', '-c', f'import mp4norm\n{code}']
        return subprocess.run(words, env=environment, input=given, capture_output=True, check=False,
                              timeout=trials.LIMIT)

    def refuses(self, fault, call, *words, **more):
        """The call is refused with this fault: file, kind, box, offset."""
        with self.assertRaises(Refused) as caught:
            call(*words, **more)
        error = caught.exception
        self.assertEqual((error.file, error.kind, error.box, error.offset), fault)

    def fails(self, file, what, call, *words, **more):
        with self.assertRaises(Failed) as caught:
            call(*words, **more)
        self.assertEqual((caught.exception.file, caught.exception.what), (file, what))
        return caught.exception

    def is_told(self, error, *due):
        """Looks at an error among verdicts or sums: its file, and what is said of that."""
        self.assertIsInstance(error, Refused if len(due) > 2 else Failed)
        told = (error.kind, error.box, error.offset) if len(due) > 2 else (error.what,)
        self.assertEqual((error.file, *told), due)

    def compares(self, check, due, name, *more):
        """A comparison with this file on either side ends so."""
        check(due, *more, mp4norm.compare, 'plain.mp4', name)
        check(due, *more, mp4norm.compare, name, 'plain.mp4')


def accepted():
    """The name, the bytes and the reading of each accepted file that the suite builds."""
    for extra in built.all_extras():
        if extra.kind is None:
            data = extra.make()[0].spelled()
            yield extra.name, data, reader.Movie(data)


def fault_of(line):
    kind, box, place = LINE.fullmatch(line).groups()
    return kind, box, int(place)


def refused():
    """The name, the bytes and the fault of files that have one fault."""
    for one in built.single_faults():
        file, line = one.make()
        yield one.name, file.spelled(), fault_of(line)


class Answers(Case):
    """What the calls give, as it was worked out by hand."""

    def test_show(self):
        track = Track(id=1, handler='vide', descriptions=['mp4v'], timescale=12800, start=0,
                      duration=1536, samples=3, bytes=12, edits=[])
        for file in ('plain.mp4', pathlib.Path('plain.mp4'), PLAIN):
            self.assertEqual(mp4norm.show(file), Movie(timescale=1000, mehd=120, tracks=[track]))

    def test_samples(self):
        rows = ((0, 0, 512, 0, 1, 5, 549, 0), (512, 512, 512, 0x10000, 1, 0, 554, 0),
                (1024, 1024, 512, 0x10000, 1, 7, 554, 0))
        names = 'decode_time composition_time duration flags description size at fragment'.split()
        self.assertEqual(mp4norm.samples('plain.mp4', 1), [
            Sample(number, **dict(zip(names, row)), timescale=12800)
            for number, row in enumerate(rows, 1)])

    def test_seconds(self):
        """Times in seconds: exact as fractions, and as floats beside the other columns."""
        found = mp4norm.samples('plain.mp4', 1)[1]
        due = Fraction(1, 25)
        self.assertEqual((found.decode_seconds, found.composition_seconds,
                          found.duration_seconds), (due, due, due))
        self.assertEqual(mp4norm.columns(PLAIN, 1), {
            'number': [1, 2, 3], 'decode_time': [0, 512, 1024], 'composition_time': [0, 512, 1024],
            'duration': [512, 512, 512], 'flags': [0, 65536, 65536], 'description': [1, 1, 1],
            'size': [5, 0, 7], 'at': [549, 554, 554], 'fragment': [0, 0, 0],
            'sync': [True, False, False], 'decode_seconds': [0, 0.04, 0.08],
            'composition_seconds': [0, 0.04, 0.08], 'duration_seconds': [0.04, 0.04, 0.04]})
        self.refuses(FAULT, mp4norm.columns, 'cut.mp4', 1)
        self.fails('plain.mp4', 'no such track', mp4norm.columns, 'plain.mp4', 2)
        self.assertEqual([it.sync for it in mp4norm.samples(PLAIN, track=1)], [True, False, False])

    def test_boxes(self):
        found = mp4norm.boxes('plain.mp4')
        self.assertEqual(found[:3], [Box(0, 'ftyp', 0, 24), Box(0, 'moov', 24, 517),
                                     Box(1, 'mvhd', 32, 108)])
        self.assertEqual(found[-2:], [Box(5, 'stco', 521, 20), Box(0, 'mdat', 541, 20)])
        self.assertEqual(mp4norm.boxes(PLAIN), found)

    def test_fields(self):
        for file in ('plain.mp4', PLAIN):
            found = mp4norm.boxes(file, rows=1)
            self.assertEqual([(it.depth, it.type, it.offset, it.size) for it in found],
                             [(it.depth, it.type, it.offset, it.size) for it in mp4norm.boxes(file)])
            self.assertEqual(found[0].fields, {
                'bytes': 16, 'major_brand': 'isom', 'minor_version': 512, 'more_rows': 1,
                'rows': [{'row': 1, 'compatible_brand': 'isom'}]})
            self.assertEqual(found[1], Box(0, 'moov', 24, 517))
            self.assertEqual(mp4norm.boxes(file, rows=0)[0].fields['rows'], [])
            self.assertEqual(mp4norm.boxes(file, 2 ** 64 - 1)[2].fields['timescale'], 1000)
            for none in (-1, 2 ** 64, 1.5):
                with self.assertRaises(ValueError):
                    mp4norm.boxes(file, none)

    def test_boxes_of_others(self):
        number = bytes.fromhex('be7acfcb97a942e89c71999491e3afac')
        data = (PLAIN + b'\0\0\0\x1auuid' + number + b'xy' + b'\0\0\0\x0auuidno'
                + b'\0\0\0\x08\0\x01"\\')
        self.assertEqual(mp4norm.boxes(data)[-3:], [
            Box(0, 'uuid', 561, 26, uuid='be7acfcb-97a9-42e8-9c71-999491e3afac', foreign=True),
            Box(0, 'uuid', 587, 10, foreign=True), Box(0, '0001225c', 597, 8, foreign=True)])

    def test_the_same(self):
        for a, b in (('plain.mp4', 'plain.mp4'), (PLAIN, 'plain.mp4'), ('plain.mp4', PLAIN)):
            same = mp4norm.compare(a, b)
            self.assertTrue(same)
            self.assertEqual((same.total, same.at_least, same.kinds, same.words, same.differences),
                             (0, False, {}, [], []))
            self.assertEqual(str(same), 'the same')

    def test_a_byte(self):
        found = mp4norm.compare('plain.mp4', 'other.mp4')
        self.assertFalse(found)
        self.assertIs(found.same, False)
        self.assertEqual((found.total, found.kinds, found.words), (1, {'bytes': 1}, None))
        one, = found.differences
        self.assertEqual((one.at, one.a, one.b, one.of, one.kind),
                         (('track', 1, 'sample', 3, 'byte', 4), '62', '78', 7, 'bytes'))
        self.assertEqual(one.seconds, Fraction(2, 25))
        self.assertEqual(str(one), 'track 1: sample 3: byte 4 of 7: 62 | 78')
        self.assertEqual(str(found), 'track 1: sample 3: byte 4 of 7: 62 | 78\n'
                                     '1 difference: bytes 1; no words make them the same')

    def test_align(self):
        """How tracks lie beside each other: sample 3 of both, decoded at 1024 of 12800."""
        found = mp4norm.compare('plain.mp4', 'other.mp4', align=True)
        here, lines = Between(1, 1024, 12800), (
            'track 1: sample 3 of A (0.080 s) | sample 3 of B (0.080 s)',
            'track 1: sample 3: byte 4 of 7: 62 | 78',
            '1 difference: bytes 1; no words make them the same')
        self.assertEqual(found.aligned, [Alignment(1, 2, 0, here, here, lines[0])])
        self.assertEqual(here.decode_seconds, Fraction(2, 25))
        self.assertEqual(str(found), '\n'.join(lines))
        found = mp4norm.compare('plain.mp4', 'later.mp4', limit=0, align=True)
        self.assertEqual((found.total, found.aligned, found.differences), (1, [], []))
        self.assertTrue(mp4norm.compare(PLAIN, 'plain.mp4', align=True))
        self.assertEqual(mp4norm.compare('plain.mp4', 'other.mp4').aligned, [])

    def test_words(self):
        found = mp4norm.compare('plain.mp4', 'later.mp4')
        self.assertEqual(found.words, ['times'])
        one, = found.differences
        self.assertEqual((one.at, one.a, one.b, one.of, one.kind),
                         (('movie', 'creation time'), 0, 11, None, 'times'))
        for words in ('times', ['times'], ('flags', 'times'), 'flags,times'):
            self.assertTrue(mp4norm.compare('plain.mp4', 'later.mp4', without=words))
        self.assertFalse(mp4norm.compare('plain.mp4', 'later.mp4', without=['flags']))
        anew = mp4norm.compare(PLAIN, ANEW)
        self.assertEqual((anew.total, anew.kinds, anew.words), (4, {'heads': 1, 'samples': 3}, ['timescales']))
        self.assertTrue(mp4norm.compare(PLAIN, ANEW, without='timescales'))
        self.assertEqual(mp4norm.normalise(PLAIN, without='timescales'), mp4norm.normalise(ANEW, without=['timescales']))

    def test_lead_ins(self):
        """A track that is alone waits for none, however long the empty edit before its other one is."""
        found = mp4norm.compare(PLAIN, EDITS)
        self.assertEqual((found.kinds, found.words), ({'edits': 1}, ['edits']))
        for words in ('lead-ins', 'packaging-2', ['media-2'], ['edits', 'lead-ins']):
            self.assertTrue(mp4norm.compare(PLAIN, EDITS, without=words))
        # The hint has the word where it was given, and only there.
        found = mp4norm.compare(LATER, EDITS, without='lead-ins')
        self.assertEqual((found.kinds, found.words), ({'times': 1}, ['lead-ins', 'times']))

    def test_flags(self):
        """Words have the numbers of the header, and a set has those of its words on the page."""
        top = pathlib.Path(HERE).parent
        listed = re.search(r'enum mp4norm_word \{(.*?)\};', (top / 'include/mp4norm.h').read_text(), re.S)[1]
        due = {name.lower().replace('_', '-'): int(flag) for name, flag in re.findall(r'MP4NORM_(\w+) = (\d+)', listed)}
        self.assertEqual(mp4norm.FLAGS, due)
        page = (top / 'docs/COMPARING.md').read_text()
        sets = dict(re.findall(r'^\| `((?:packaging|media)-\d)` \| `([a-z,-]+)`', page, re.M))
        self.assertEqual(len(sets), 4)
        for name, words in sets.items():
            self.assertEqual(due[name], sum(due[word] for word in words.split(',')), name)

    def test_bytes_of_both(self):
        """Both files may be bytes; what is wrong with either is said of `-`."""
        self.assertTrue(mp4norm.compare(PLAIN, PLAIN))
        self.assertEqual(str(mp4norm.compare(PLAIN, LATER)),
                         str(mp4norm.compare('plain.mp4', 'later.mp4')))
        fault = ('-', *FAULT[1:])
        self.refuses(fault, mp4norm.compare, PLAIN, CUT)
        self.refuses(fault, mp4norm.compare, CUT, PLAIN)
        with self.assertRaises(Refused) as caught:
            mp4norm.compare(PLAIN, CUT)
        self.assertEqual(pickle.loads(pickle.dumps(caught.exception)).file, '-')

    def test_limit(self):
        both = OTHER[:44] + b'\0\0\0\x0b' + OTHER[48:]
        for limit, lines in ((0, 0), (1, 1), (2, 2), (100, 2)):
            found = mp4norm.compare(PLAIN, self.named('both.mp4', both), limit=limit)
            self.assertEqual((found.total, len(found.differences)), (2, lines))
            self.assertEqual(found.kinds, {'bytes': 1, 'times': 1})
            self.assertFalse(found)
            self.assertEqual(str(found).splitlines()[lines:], [
                '2 differences: bytes 1, times 1; no words make them the same'])

    def test_normalise(self):
        due = NORMAL
        self.assertEqual(mp4norm.normalise('plain.mp4'), due)
        self.assertEqual(mp4norm.normalise(PLAIN), due)
        self.assertEqual(mp4norm.normalise('later.mp4', without=['times']), due)
        self.assertEqual(mp4norm.normalise('plain.mp4', 'new.mp4'), b'')
        self.assertEqual(self.read('new.mp4'), due)
        error = self.fails('new.mp4', 'write', mp4norm.normalise, 'later.mp4', 'new.mp4')
        self.assertIn('there already', str(error))
        self.assertEqual(self.read('new.mp4'), due)
        mp4norm.normalise('other.mp4', pathlib.Path('new.mp4'), replace=True)
        self.assertEqual(self.read('new.mp4')[-7:], b'bbbxbbb')
        self.fails('-x/new', 'write', mp4norm.normalise, 'plain.mp4', '-x/new')

    def test_check(self):
        path = pathlib.Path('cut.mp4')
        found = mp4norm.check('plain.mp4', path, 'none.mp4')
        self.assertEqual(list(found), ['plain.mp4', path, 'none.mp4'])
        self.assertIsNone(found['plain.mp4'])
        self.is_told(found[path], *FAULT)
        self.is_told(found['none.mp4'], 'none.mp4', 'store')
        self.assertEqual(mp4norm.check(), {})
        self.assertRaises(ValueError, mp4norm.check, 'plain.mp4\0cut.mp4')

    def test_sum(self):
        digits, path = hashlib.sha256(NORMAL).hexdigest(), pathlib.Path('cut.mp4')
        found = mp4norm.sum('plain.mp4', path, 'none.mp4')
        self.assertEqual(found['plain.mp4'], digits)
        self.is_told(found[path], *FAULT)
        self.is_told(found['none.mp4'], 'none.mp4', 'store')
        left = hashlib.sha256(mp4norm.normalise('plain.mp4', without=['flags'])).hexdigest()
        self.assertEqual(mp4norm.sum('plain.mp4', without=['flags']), {'plain.mp4': left})
        self.assertEqual(mp4norm.sum(), {})
        self.assertRaises(ValueError, mp4norm.sum, 'plain.mp4\0cut.mp4')

    def test_foreign(self):
        """Boxes that the profile refuses are read as free space."""
        more, event = PLAIN + b'\0\0\0\x0cmorenone', PLAIN + b'\0\0\0\x0cemsgmore'
        for name, data in (('more.mp4', more), ('event.mp4', event)):
            self.named(name, data)
        digits = hashlib.sha256(NORMAL).hexdigest()
        for file in (more, 'more.mp4'):
            self.assertRaises(Refused, mp4norm.normalise, file)
            self.assertEqual(mp4norm.normalise(file, foreign=True), NORMAL)
            self.assertTrue(mp4norm.compare(file, 'plain.mp4', foreign=True))
        found = mp4norm.check('more.mp4', 'event.mp4', foreign=True)
        self.assertIsNone(found['more.mp4'])
        self.is_told(found['event.mp4'], 'event.mp4', 'BoxNotInProfile', 'emsg', 561)
        self.refuses(('event.mp4', 'BoxNotInProfile', 'emsg', 561), mp4norm.normalise, 'event.mp4',
                     foreign=True)
        self.assertEqual(mp4norm.normalise('event.mp4', foreign=True, lossy=True), NORMAL)
        self.assertEqual(mp4norm.check('event.mp4', foreign=True, lossy=True), {'event.mp4': None})
        self.assertEqual(mp4norm.sum('more.mp4', 'event.mp4', foreign=True, lossy=True),
                         {'more.mp4': digits, 'event.mp4': digits})
        for call in (mp4norm.normalise, mp4norm.check, mp4norm.sum):
            self.assertRaises(ValueError, call, 'plain.mp4', lossy=True)

    def test_track(self):
        """One track of a file, as if it had no other; the library doesn't look at one alone."""
        data = movies.whole(True).spelled()
        self.named('wide.mp4', data)
        for track, words in itertools.product((1, 2), ((), ('packaging-2',))):
            alone = answers.Alone(data, track)
            form = answers.form(alone, words)
            for file in (data, 'wide.mp4'):
                self.assertEqual(mp4norm.normalise(file, track=track, without=words), form)
                self.assertEqual([it.id for it in mp4norm.show(form).tracks],
                                 [1 if words else track])
            found = mp4norm.sum('wide.mp4', 'plain.mp4', track=track, without=words)
            self.assertEqual(found['wide.mp4'], hashlib.sha256(form).hexdigest())
            mp4norm.normalise('wide.mp4', 'new.mp4', replace=True, track=track, without=words)
            self.assertEqual(self.read('new.mp4'), form)
            tracks = track, 1 if words else track
            for file in (form, 'new.mp4'):
                found = mp4norm.compare(data, file, tracks=tracks, without=words)
                self.assertTrue(found, str(found))
        self.assertEqual(mp4norm.normalise(data + b'\0\0\0\x0cmorenone', track=2, foreign=True),
                         answers.form(answers.Alone(data, 2)))

    def test_tracks(self):
        """A track of each of two files, by IDs; what differs is of track 1, the only one of each."""
        data = movies.whole(True).spelled()
        self.named('wide.mp4', data)
        found = mp4norm.compare('wide.mp4', data, tracks=(1, 2), limit=20)
        due = differ.differences(*(answers.movie(answers.Alone(data, track)) for track in (1, 2)))
        self.assertEqual([it.line for it in found.differences], [line for _, line in due[:20]])
        self.assertEqual((found.total, found.differences[0].at[:2]), (len(due), ('track', 1)))
        found = mp4norm.compare(data, data, tracks=(2, 1), align=True)
        self.assertEqual([it.track for it in found.aligned], [1])
        self.fails('plain.mp4', 'no such track', mp4norm.compare, data, 'plain.mp4', tracks=(1, 2))
        self.fails('-', 'no such track', mp4norm.compare, data, 'plain.mp4', tracks=(3, 2))
        self.fails('-', 'no such track', mp4norm.normalise, data, track=3)
        self.is_told(mp4norm.sum('plain.mp4', track=2)['plain.mp4'], 'plain.mp4', 'no such track')
        self.refuses(FAULT, mp4norm.normalise, 'cut.mp4', track=7)
        for call, more in ((mp4norm.normalise, {'track': 0}), (mp4norm.normalise, {'track': 1 << 32}),
                           (mp4norm.sum, {'track': (1, 2)})):
            with self.assertRaises(Failed) as caught:
                call('plain.mp4', **more)
            self.assertIn("invalid value", caught.exception.what)
        for tracks in (1, (1, 0)):
            with self.assertRaises(Failed) as caught:
                mp4norm.compare(data, 'plain.mp4', tracks=tracks)
            self.assertIn('compare takes two IDs as A:B', caught.exception.what)

    def test_many_files(self):
        names = [f'{"x" * 200}-{number}.mp4' for number in range(20000)]
        self.write(names[12345], PLAIN)
        found = mp4norm.check(*names)
        self.assertEqual([name for name in names if found[name] is None], [names[12345]])
        self.assertEqual(len(found), len(names))


class OfTheSuite(Case):
    """The files of the suite, as its own readers read them."""

    def test_show_and_samples(self):
        files = list(accepted())
        for name, data, movie in files:
            with self.subTest(name):
                shown = dataclasses.asdict(mp4norm.show(data))
                for track in shown['tracks']:
                    track['edits'] = [list(edit.values()) for edit in track['edits']]
                self.assertEqual(shown, json.loads(reader.shown(movie)))
                for track in movie.tracks[:2]:
                    lines = [f'{it.number} {it.decode_time} {it.composition_time} {it.duration} '
                             f'{it.flags:08x} {it.description} {it.size}\n'
                             for it in mp4norm.samples(data, track.id)]
                    self.assertEqual(''.join(lines), reader.lines_of(track))
        self.assertGreater(len(files), 40)

    def test_boxes(self):
        files = [*accepted(), *refused()]
        for name, data, _ in files:
            with self.subTest(name):
                text, line = lister.listed(data)
                if line:
                    self.refuses(('-', *fault_of(line)), mp4norm.boxes, data)
                else:
                    lines = [f'{"  " * it.depth}{it.type} {it.offset} {it.size}\n'
                             for it in mp4norm.boxes(data)]
                    self.assertEqual(''.join(lines), text)
        self.assertGreater(len(files), 300)

    def test_verdicts(self):
        due = {}
        for name, data, fault in (*accepted(), *refused()):
            self.write(f'{name}.mp4', data)
            due[f'{name}.mp4'] = fault if isinstance(fault, tuple) else None
        found = mp4norm.check(*due)
        self.assertEqual({name: it and (it.kind, it.box, it.offset) for name, it in found.items()},
                         due)
        self.assertGreater(sum(it is not None for it in due.values()), 300)

    def test_differences(self):
        files = [file for file in accepted() if len(file[1]) < 20000]
        for (left, one, _), (right, other, _) in zip(files, files[1:]):
            for words in ((), differ.WORDS):
                with self.subTest(f'{left}, {right}, {words}'):
                    due = differ.differences(answers.movie(one, words), answers.movie(other, words))
                    self.write('one.mp4', one)
                    found = mp4norm.compare('one.mp4', other, without=words, limit=20)
                    self.assertEqual([(it.kind, it.line) for it in found.differences], due[:20])
                    self.assertEqual(found.total, len(due))
                    self.assertEqual(found.kinds, collections.Counter(kind for kind, _ in due))
                    self.assertEqual(bool(found), not due)

    def test_normal_forms(self):
        for name, data, _ in accepted():
            with self.subTest(name):
                self.assertEqual(mp4norm.normalise(data, without='edits,metadata'),
                                 answers.form(data, ['edits', 'metadata']))


class Errors(Case):
    """What goes wrong, and of which file it is said."""

    def test_refused(self):
        for file, fault in (('cut.mp4', FAULT), (pathlib.Path('cut.mp4'), FAULT),
                            (CUT, ('-', *FAULT[1:]))):
            self.refuses(fault, mp4norm.samples, file, 1)
            for call in (mp4norm.show, mp4norm.boxes, mp4norm.normalise):
                self.refuses(fault, call, file)
            self.compares(self.refuses, fault, file)

    def test_no_bytes(self):
        """What stands on standard input is never read for them."""
        self.refuses(('-', 'MissingBox', 'file', 0), mp4norm.show, b'')
        done = self.python('mp4norm.show(b"")', PLAIN)
        self.assertIn(b'MissingBox in file at 0', done.stderr)

    def test_types(self):
        """Types that aren't printable, or that look like the end of a line."""
        for kind, shown in ((b'\0\x01"\\', '0001225c'), (b' at ', ' at '), (b'": 1', '": 1')):
            self.write('x.mp4', PLAIN + b'\0\0\0\x08' + kind)
            self.refuses(('x.mp4', 'BoxNotInProfile', shown, 561), mp4norm.show, 'x.mp4')
            self.refuses(('x.mp4', 'BoxNotInProfile', shown, 561), mp4norm.compare, 'x.mp4', PLAIN)
            found = mp4norm.check('x.mp4')['x.mp4']
            self.assertEqual((found.box, found.offset), (shown, 561))

    def test_failed(self):
        for call in (mp4norm.show, mp4norm.boxes, mp4norm.normalise):
            error = self.fails('none.mp4', 'store', call, 'none.mp4')
            self.assertIn('no such file', error.cause)
            self.assertEqual(str(error), f'none.mp4: store: {error.cause}')
        self.compares(self.fails, 'none.mp4', 'none.mp4', 'store')
        self.fails('none.mp4', 'store', mp4norm.compare, PLAIN, 'none.mp4')
        self.fails('plain.mp4', 'no such track', mp4norm.samples, 'plain.mp4', 7)

    def test_invalid(self):
        for call, *words in ((mp4norm.samples, 'plain.mp4', 0),
                             (mp4norm.normalise, 'plain.mp4', None, ['times', 'nothing'])):
            with self.assertRaises(Failed) as caught:
                call(*words)
            self.assertIn('invalid value', caught.exception.what)
        with self.assertRaises(Failed) as caught:
            mp4norm.compare('plain.mp4', 'other.mp4', limit=1 << 32)
        self.assertIn('invalid value', caught.exception.what)
        self.assertRaises(TypeError, mp4norm.show, 7)

    def test_no_names(self):
        """What takes names takes no bytes, and says so."""
        for call in (mp4norm.check, mp4norm.sum):
            with self.assertRaises(TypeError) as caught:
                call('plain.mp4', PLAIN)
            self.assertIn('takes names of files, and no bytes', str(caught.exception))

    def test_pipes(self):
        """What is no file is neither read nor waited for, also where it has just come to its name."""
        os.mkfifo('fifo')
        code = ('import os\nplain = os.stat("plain.mp4")\nos.stat = lambda *_, **__: plain\n'
                'try:\n    mp4norm.show("fifo")\nexcept mp4norm.Failed as it:\n    print(it.what)')
        self.assertEqual(self.python(code).stdout, b'store\n')

    def test_two_looks(self):
        """Samples and their timescale are those of one file."""
        def replaced(file):
            self.write('plain.mp4', ANEW)
            return shown(file)
        shown = mp4norm.show
        with mock.patch.object(mp4norm, 'show', replaced):
            self.fails('plain.mp4', 'store changed', mp4norm.samples, 'plain.mp4', 1)
        self.assertEqual(mp4norm.samples('plain.mp4', 1)[1].timescale, 90000)

    def test_copies(self):
        """An error passes from one process to another."""
        for error in (Refused('a', 'Gap', 'tfdt', 7), Failed('a', 'store', 'gone'),
                      Failed('a', 'memory')):
            copy = pickle.loads(pickle.dumps(error))
            self.assertEqual((type(copy), copy.args, str(copy)),
                             (type(error), error.args, str(error)))
        self.assertEqual(str(Refused('a', 'Gap', 'tfdt', 7)), 'a: Gap in tfdt at 7')
        self.assertEqual(str(Failed('a', 'memory')), 'a: memory')


class Names(Case):
    """Names that could be taken for something else."""

    ODD = ('-', '--json', '-x.mp4', '@list', '@', 'a name of two\nlines', 'back\\slash', '\x1b[31m',
           'x: refused: Gap in tfdt at 7', 'x: failed: store', 'file: x',
           'line\u2028 \u0085 \u00e9', 'cause: none', 'a, b')

    def test_files(self):
        for name in self.ODD:
            with self.subTest(name):
                self.write(name, PLAIN)
                for call, *more in ((mp4norm.show,), (mp4norm.samples, 1), (mp4norm.boxes,)):
                    self.assertEqual(call(name, *more), call(PLAIN, *more))
                self.assertTrue(mp4norm.compare(name, PLAIN))
                self.assertTrue(mp4norm.compare('plain.mp4', name))
                mp4norm.normalise(name, name, replace=True)
                self.assertEqual(self.read(name), mp4norm.normalise('plain.mp4'))

    def test_faults(self):
        for name in self.ODD:
            with self.subTest(name):
                self.fails(name, 'store', mp4norm.show, name)
                self.compares(self.fails, name, name, 'store')
                self.write(name, CUT)
                fault = (name, *FAULT[1:])
                self.refuses(fault, mp4norm.boxes, name)
                self.refuses(fault, mp4norm.compare, name, PLAIN)
                self.refuses(fault, mp4norm.compare, 'plain.mp4', name)
                self.fails(name, 'write', mp4norm.normalise, 'plain.mp4', name)

    def test_verdicts(self):
        for number, name in enumerate(self.ODD):
            self.write(name, CUT if number % 2 else PLAIN)
        found = mp4norm.check(*self.ODD)
        self.assertEqual(list(found), list(self.ODD))
        self.assertEqual([it is not None for it in found.values()],
                         [bool(number % 2) for number in range(len(self.ODD))])
        self.assertEqual({it.file for it in found.values() if it}, set(self.ODD[1::2]))

    def test_no_utf_8(self):
        """The program opens no such file, and each of these keeps its name."""
        names = [os.fsdecode(name) for name in (b'caf\xe9.mp4', b'\xff\xfe', b'cut \xe2\x82',
                                                b'\xed\xa0\x80 and \n')]
        for name in names:
            self.write(name, PLAIN)
            self.fails(name, 'store', mp4norm.show, name)
            self.compares(self.fails, name, name, 'store')
        found = mp4norm.check(*names, 'plain.mp4')
        self.assertEqual(list(found), [*names, 'plain.mp4'])
        self.assertEqual([it.file for it in found.values() if it], names)
        self.assertEqual(mp4norm.show(self.read(names[0])), mp4norm.show('plain.mp4'))

    def test_names_in_objects(self):
        """A name of an object is the name that was given, whatever its bytes are."""
        for name in (*self.ODD, *map(os.fsdecode, (b'caf\xe9.mp4', b'\xff\xfe\n'))):
            given = './' + name if name.startswith('@') else name
            words = [mp4norm.program(), 'check', '--json', '--', given]
            done = subprocess.run(words, input=b'', stdout=subprocess.PIPE, check=False)
            self.assertEqual(json.loads(done.stdout)['file'], given)


class Texts(Case):
    """How a comparison looks where an assertion fails."""

    def test_assertion(self):
        done = self.python('same = mp4norm.compare("plain.mp4", "other.mp4")\n'
                           'assert same, str(same)')
        self.assertEqual(done.stderr.decode().splitlines()[-2:], [
            'AssertionError: track 1: sample 3: byte 4 of 7: 62 | 78',
            '1 difference: bytes 1; no words make them the same'])
        done = self.python('assert mp4norm.compare("plain.mp4", "plain.mp4")')
        self.assertEqual((done.returncode, done.stderr), (0, b''))

    def test_one_line(self):
        found = mp4norm.compare('plain.mp4', 'later.mp4')
        self.assertEqual(repr(found), '<movie: creation time 0 | 11; 1 difference: times 1; '
                                      'the same without times>')

    def test_what_is_cut(self):
        """Where the middle is cut out, as pytest does, the first difference and the counts stay."""
        one, other = [data for _, data, movie in accepted() if movie.tracks][:2]
        found = mp4norm.compare(self.named('one.mp4', one), other)
        text = repr(found)
        self.assertGreater(len(text), SHORT)
        self.assertNotIn('\n', text)
        half = (SHORT - 3) // 2
        self.assertTrue(text[:half].startswith(f'<{found.differences[0].line}'))
        self.assertIn(f'{found.total} differences: ', text[-half:])

    def test_types(self):
        """Each public call says what it takes and gives."""
        for name in mp4norm.__all__:
            item = getattr(mp4norm, name)
            self.assertTrue(item.__doc__, name)
            if item is not mp4norm.Error:
                called = item.__init__ if isinstance(item, type) else item
                self.assertIn('return', typing.get_type_hints(called), name)


class Programs(Case):
    """Which program is run, and what is made of a strange one."""

    def setUp(self):
        super().setUp()
        library = os.environ.get('MP4NORM_LIBRARY')
        if library is not None:
            self.addCleanup(os.environ.__setitem__, 'MP4NORM_LIBRARY', library)
        else:
            self.addCleanup(os.environ.pop, 'MP4NORM_LIBRARY', None)
        os.environ['MP4NORM_LIBRARY'] = ''

    def stub(self, name, script):
        self.write(name, b'#!/bin/sh\n' + script, 0o755)
        return os.path.realpath(name)

    def found(self, folder, **environment):
        """The program that a copy of the module in this folder finds."""
        os.makedirs(folder, exist_ok=True)
        if not os.path.islink(f'{folder}/mp4norm.py'):
            shutil.copy(mp4norm.__file__, folder)
        kept = {key: value for key, value in os.environ.items() if not key.startswith('MP4NORM')}
        code = ('import mp4norm\ntry:\n    print(mp4norm.program())\n'
                'except mp4norm.Failed as it:\n    print(type(it).__name__, it)')
        done = subprocess.run([sys.executable, '-B', '-c', code], text=True, check=True,
                              env={**kept, 'PYTHONPATH': folder, 'PATH': '', **environment},
                              stdout=subprocess.PIPE)
        return done.stdout.rstrip('\n')

    def test_which(self):
        folder = 'prefix/share/mp4norm/python'
        self.assertTrue(self.found(folder).startswith('Failed mp4norm: there is no such program'))
        path = self.stub('path/mp4norm', b'')
        self.assertEqual(self.found(folder, PATH=os.path.dirname(path)), path)
        installed = self.stub('prefix/bin/mp4norm', b'')
        self.assertEqual(self.found(folder, PATH=os.path.dirname(path)), installed)
        beside = self.stub(f'{folder}/mp4norm', b'')
        self.assertEqual(self.found(folder, PATH=os.path.dirname(path)), beside)
        os.chmod(beside, 0o644)
        self.assertEqual(self.found(folder), installed)
        self.assertEqual(self.found(folder, MP4NORM='./mine'), './mine')
        os.mkdir('linked')
        os.symlink(os.path.realpath(f'{folder}/mp4norm.py'), 'linked/mp4norm.py')
        self.assertEqual(self.found('linked'), installed)

    def with_program(self, name):
        before = os.environ['MP4NORM']
        self.addCleanup(os.environ.__setitem__, 'MP4NORM', before)
        os.environ['MP4NORM'] = name

    def test_no_program(self):
        for name, number in (('/dev/null', errno.EACCES), ('./none', errno.ENOENT)):
            self.with_program(name)
            self.fails(name, f"it can't be run: {os.strerror(number)}", mp4norm.show, 'x')

    def test_strange_programs(self):
        for script, what in ((b'kill -9 $$', 'it was ended by signal 9'),
                             (b'exit 7', 'it says nothing'),
                             (b'echo nonsense >&2; exit 7', 'nonsense')):
            name = self.stub('strange', script)
            self.with_program(name)
            self.fails(name, what, mp4norm.show, 'plain.mp4')
            self.fails(name, what, mp4norm.check, 'plain.mp4')

    def test_words(self):
        """What is a name is never an option, standard input or a list."""
        script = b'printf "%s\\n" "$@" >words; echo \'{"mehd":0,"timescale":1,"tracks":[]}\''
        self.with_program(self.stub('words-of', script))
        for file, word in (('-', './-'), ('--json', './--json'), ('@list', './@list'),
                           ('./@x', './@x'), ('a b', 'a b'), (b'-', '-'), (b'@', '-')):
            mp4norm.show(file)
            self.assertEqual(self.read('words').decode().splitlines(), ['show', '--explain', word])
            mp4norm.normalise('x', word)
            self.assertIn(f'\n--out\n{word if word != "-" else "./-"}\n',
                          self.read('words').decode())

    def test_file_in_front(self):
        """Of a comparison the last line alone names the file."""
        script = b'echo "$0: refused: Gap in tfdt at 7" >&2; exit 1'
        self.with_program(self.stub('one-line', script))
        name = mp4norm.program()
        self.refuses((name, 'Gap', 'tfdt', 7), mp4norm.compare, 'plain.mp4', name)
        self.refuses((name, 'Gap', 'tfdt', 7), mp4norm.compare, name, 'plain.mp4')

    def test_verdict_that_is_not_there(self):
        name = self.stub('strange', b'echo \'{"file":"a","status":0}\'')
        self.with_program(name)
        self.assertEqual(mp4norm.check('a'), {'a': None})
        self.fails(name, 'it says nothing', mp4norm.check, 'a', 'b')

    def test_later_program(self):
        """What is new in an object is passed over."""
        told = {'mehd': 0, 'timescale': 7, 'tracks': [], 'new': 1}
        self.with_program(self.stub('later', f"echo '{json.dumps(told)}'".encode()))
        self.assertEqual(mp4norm.show('x'), Movie(timescale=7, mehd=0, tracks=[]))
        told = {'depth': 0, 'offset': 0, 'size': 8, 'type': 'free', 'new': [1]}
        self.with_program(self.stub('later', f"echo '{json.dumps(told)}'".encode()))
        self.assertEqual(mp4norm.boxes('x'), [Box(0, 'free', 0, 8)])


class Ways(Case):
    """Which way is taken."""

    def test_way(self):
        self.assertEqual(mp4norm.uses(),
                         'library' if os.environ.get('MP4NORM_LIBRARY') else 'program')
        code = 'print(mp4norm.uses(), end="")'
        for library, said in ((None, b'program'), ('', b'program')):
            with self.subTest(library):
                kept = {name: it for name, it in os.environ.items() if name != 'MP4NORM_LIBRARY'}
                env = {**kept, **({} if library is None else {'MP4NORM_LIBRARY': library})}
                words = [sys.executable, '-B', '-c', f'import mp4norm\n{code}']
                done = subprocess.run(words, env={**env, 'PYTHONPATH': HERE}, check=False,
                                      stdout=subprocess.PIPE)
                self.assertEqual(done.stdout, said)

    def test_no_library(self):
        """A library that is named has to be one."""
        self.write('no.so', b'none')
        done = self.python('import os\nos.environ["MP4NORM_LIBRARY"] = "./no.so"\n'
                           'try:\n    mp4norm.show("plain.mp4")\n'
                           'except mp4norm.Failed as it:\n    print(it.file, it.what)')
        self.assertTrue(done.stdout.startswith(b"./no.so it can't be loaded: "), done)
        for call in ('check', 'sum'):
            done = self.python('import os\nos.environ["MP4NORM_LIBRARY"] = "./no.so"\n'
                               f'mp4norm.{call}("plain.mp4")')
            self.assertIn(b"Failed: ./no.so: it can't be loaded", done.stderr)

    @unittest.skipUnless(os.environ.get('MP4NORM_LIBRARY') or '--library' in sys.argv, 'no library')
    def test_library_alone(self):
        """What the library has wants no program; what it hasn't asks for one."""
        before = os.environ['MP4NORM']
        self.addCleanup(os.environ.__setitem__, 'MP4NORM', before)
        os.environ['MP4NORM'] = './none'
        for call in (mp4norm.show, mp4norm.boxes, mp4norm.normalise):
            self.assertEqual(call('plain.mp4'), call(PLAIN))
            self.refuses(FAULT, call, 'cut.mp4')
            self.assertIn('no such file', self.fails('none.mp4', 'store', call, 'none.mp4').cause)
        self.assertIsNone(mp4norm.check('plain.mp4')['plain.mp4'])
        self.assertEqual(mp4norm.sum('plain.mp4')['plain.mp4'], hashlib.sha256(NORMAL).hexdigest())
        self.fails('plain.mp4', 'no such track', mp4norm.samples, 'plain.mp4', 7)
        self.assertTrue(mp4norm.compare('plain.mp4', PLAIN))
        self.assertFalse(mp4norm.compare('plain.mp4', 'later.mp4'))
        self.compares(self.refuses, FAULT, 'cut.mp4')
        with self.assertRaises(Failed) as caught:
            mp4norm.normalise('plain.mp4', 'new.mp4')
        self.assertEqual(caught.exception.file, './none')
        # A library of before has no such call.
        with mock.patch.object(mp4norm, '_library', return_value=object()):
            with self.assertRaises(Failed) as caught:
                mp4norm.compare('plain.mp4', PLAIN)
        self.assertEqual(caught.exception.file, './none')

    @unittest.skipUnless(os.environ.get('MP4NORM_LIBRARY') or '--library' in sys.argv, 'no library')
    def test_changes(self):
        """A file that changes before there is an answer has none, nor a refusal."""
        def changing(*words):
            for name in ('plain.mp4', 'cut.mp4'):
                os.utime(name, (1, 1))
            return ask(*words)
        ask = mp4norm._ask
        with mock.patch.object(mp4norm, '_ask', changing):
            for name in ('plain.mp4', 'cut.mp4'):
                for call in (mp4norm.show, mp4norm.boxes, mp4norm.normalise):
                    self.fails(name, 'store changed', call, name)
                self.fails(name, 'store changed', mp4norm.compare, name, PLAIN)
                self.fails(name, 'store changed', mp4norm.compare, PLAIN, name)
                for call in (mp4norm.check, mp4norm.sum):
                    self.is_told(call(name)[name], name, 'store changed')

    @unittest.skipUnless(os.environ.get('MP4NORM_LIBRARY') or '--library' in sys.argv, 'no library')
    def test_no_program(self):
        """Where there is a library and no program, an error says what is wrong, or what wants one."""
        os.mkfifo('fifo')
        none = Failed('mp4norm', 'there is no such program')
        for what, call, *words, more in (
                ("invalid value 'tmies' for `without`", mp4norm.normalise, PLAIN, {'without': 'times,tmies'}),
                ("invalid value 'tmies' for `without`", mp4norm.sum, 'plain.mp4', {'without': ['tmies']}),
                ("invalid value 'tmies' for `without`", mp4norm.compare, PLAIN, PLAIN, {'without': ['tmies']}),
                ("the C library doesn't do new files", mp4norm.normalise, 'plain.mp4', 'new', {}),
                ("the C library doesn't do `foreign`", mp4norm.check, 'plain.mp4', {'foreign': True}),
                ("the C library doesn't do a track alone", mp4norm.sum, 'plain.mp4', {'track': 1}),
                ("the C library doesn't do a file of this kind", mp4norm.show, 'fifo', {})):
            with mock.patch.object(mp4norm, 'program', side_effect=none):
                with self.assertRaises(Failed) as caught:
                    call(*words, **more)
            self.assertTrue(caught.exception.what.startswith(what), caught.exception)
            self.assertIs('there is no such program' in caught.exception.what, 'invalid' not in what)

    def test_clone(self):
        """In a clone of the repository program and library are those of its dist/."""
        for folder in ('clone/python', 'clone/dist/x86_64-linux'):
            os.makedirs(folder)
        shutil.copy(mp4norm.__file__, 'clone/python')
        self.write('clone/dist/x86_64-linux/mp4norm', b'#!/bin/sh\n', 0o755)
        code = 'import mp4norm\nprint(mp4norm.program(), mp4norm.uses())'
        kept = {key: it for key, it in os.environ.items() if not key.startswith('MP4NORM')}
        program = os.path.realpath('clone/dist/x86_64-linux/mp4norm')
        for library in ('', os.environ.get('MP4NORM_LIBRARY')):
            if library:
                shutil.copy(library, 'clone/dist/x86_64-linux/libmp4norm.so.0')
            done = subprocess.run([sys.executable, '-B', '-c', code], text=True, check=True,
                                  env={**kept, 'PYTHONPATH': 'clone/python', 'PATH': ''},
                                  stdout=subprocess.PIPE)
            self.assertEqual(done.stdout, f'{program} {"library" if library else "program"}\n')

    def test_long_texts(self):
        """A text that is longer than what is first asked for."""
        many = PLAIN + b'\0\0\0\x08free' * 20000
        found = mp4norm.boxes(many)
        self.assertEqual([(it.type, it.offset) for it in found[-20000:]],
                         [('free', len(PLAIN) + 8 * number) for number in range(20000)])

    def test_memory(self):
        """What is longer than may be read into memory is looked at by the program."""
        longest, mp4norm.LONGEST = mp4norm.LONGEST, 8
        self.addCleanup(setattr, mp4norm, 'LONGEST', longest)
        self.assertEqual(mp4norm.show('plain.mp4'), mp4norm.show(PLAIN))
        self.assertTrue(mp4norm.compare('plain.mp4', PLAIN))
        found = mp4norm.check('plain.mp4', 'cut.mp4', 'none.mp4')
        self.assertIsNone(found['plain.mp4'])
        self.is_told(found['cut.mp4'], *FAULT)
        self.is_told(found['none.mp4'], 'none.mp4', 'store')


class Page(Case):
    """The example of docs/PYTHON.md."""

    def test_example(self):
        blocks = re.findall(r'^```python\n(.*?)^```$', trials.text('docs/PYTHON.md'), re.M | re.S)
        self.write('movie.mp4', PLAIN)
        self.write('want.mp4', bytes_of('files', 'fragment-after-fragment.mp4'))
        self.write('made.mp4', LATER)
        self.assertTrue(blocks)
        for block in blocks:
            # Behind a line that prints stands what it prints, ` / ` between lines.
            due = re.findall(r'^ *print\(.*\)  # (.*)$', block, re.M)
            self.assertTrue(due)
            with redirect_stdout(io.StringIO()) as said:
                exec(compile(block, 'docs/PYTHON.md', 'exec'), {})
            self.assertEqual(said.getvalue().splitlines(), ' / '.join(due).split(' / '))


def main():
    if sys.argv[2:3] == ['--library'] and len(sys.argv) == 4:
        os.environ['MP4NORM_LIBRARY'] = os.path.abspath(sys.argv.pop())
        sys.argv.pop()
    if len(sys.argv) == 2 and not sys.argv[1].startswith('-'):
        os.environ['MP4NORM'] = sys.argv.pop()
    if len(sys.argv) > 1 or not os.environ.get('MP4NORM'):
        print(__doc__.strip(), file=sys.stderr)
        sys.exit(64)
    use_program()
    unittest.main(verbosity=1)


def use_program():
    """The program by its whole name, since tests go to other folders."""
    os.environ['MP4NORM'] = os.path.abspath(mp4norm.program())


# Behind all that unittest says.
atexit.register(lambda: print(f'{COUNTS[True]} passed, {COUNTS[False]} failed', flush=True))
if __name__ == '__main__':
    main()
else:
    use_program()
