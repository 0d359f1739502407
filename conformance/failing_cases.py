"""Lines of words that `failures` runs while calls fail, and what is due of each where none does.

What is due is the suite's own: answers that are stored, or its own reading of the file.
"""
from __future__ import annotations

import hashlib
import re
from collections.abc import Iterator
from dataclasses import dataclass, field

from bench import OLD, Line, in_parts
from suite import answers, beginnings, lister, long, objects, scales, strips
from suite.boxes import Box
from suite.edits import fields
from suite.movies import whole
from suite.stored import (BOXES, COLUMNS, CUT, CUT_LINE, CUT_SAID, DATA, DIFFERENCE, EDITS, GAP,
                          NORMAL, OTHER, PLAIN, SAMPLES, SHOWN, TWO, bytes_of,
                          objects as lines_as_json)

# Free space that no read has together with what lies before and behind it.
FREE = Box('free', bytes(200_000))
# User data of a long head.
LONG = bytes(at % 251 for at in range(140_000))
DROPPED = [strips.Name(b'mfhd'), strips.Name(b'hdlr', 'mdia'), strips.Name(b'mdat')]
DROP = '--drop ' + ','.join(name.word for name in DROPPED)
# With a `uuid` behind it, whose first bytes are read.
UUID = PLAIN + Box('uuid', bytes(range(16))).spelled()
# With a box that `strip --foreign` doesn't make free space unasked.
EVENTS = PLAIN + Box('emsg', b'more').spelled()
CUT_WORDS = b'way: mdat\nclause: ISO/IEC 14496-12, 8\\.1\\.1\nmeaning: [^\n]+\n' + CUT_SAID
GAP_WORDS = (rb'way: moof 2 / traf / tfdt\nclause: ISO/IEC 14496-12, 8\.8\.12\nmeaning: [^\n]+\n'
             rb'numbers: track 1: time 1024, due 1536\nrefused: Gap in tfdt at (\d+)\n')
# A film whose sound waits, also as it begins later as a whole; and one that is too long where its
# edits say how long tracks wait.
WAITING, LATER = (scales.file_of(1000, *tracks) for tracks in (
    (beginnings.PICTURES, beginnings.sound(24000)),
    (beginnings.LATE, beginnings.sound(24048))))
TOO_LONG = scales.file_of(1, beginnings.lasting(beginnings.MOST_SECONDS + 1))
LEAD_INS = '--without lead-ins'
IS_CUT = {'status': 1, 'said': CUT_WORDS, 'refused': CUT_SAID}


@dataclass
class Case(Line):
    """A line where nothing fails: its name, the files that it reads, what NEW is before. `long`
    names the calls of which it makes many, `refused` is the line of a refusal that is explained."""
    name: str = ''
    files: dict = field(default_factory=dict)
    there: bytes = None
    long: tuple = ()
    refused: bytes = None

    def __post_init__(self):
        self.words = self.line.split()
        self.line = ' '.join(self.words)
        self.command = self.words[0] if self.words else 'boxes-input'
        self.last_line = self.said[self.said.rfind(b'\n', 0, -1) + 1:]


def case(name: str, line: str, files: dict | tuple = (), status: int = 0, said: bytes = b'',
         put: bytes | None = b'', **more) -> Case:
    return Case(line, status, said, put, name=name, files=dict(files), **more)


def of(name: str, line: str, data: bytes, due: bytes | None, **more) -> Case:
    """A command on `in.mp4`, which stands behind it; NEW gets what is due if one is made."""
    command, _, options = line.partition(' ')
    line = f'{command} in.mp4 {options}'
    if command in ('extract', 'normalise', 'strip') and '--out' not in options:
        return case(name, f'{line} --out new', {'in.mp4': data}, made=due, **more)
    return case(name, line, {'in.mp4': data}, put=due, **more)


def spread() -> bytes:
    """Free space before the `moov` and before each `moof`."""
    file = whole(True)
    for kind, number in (('moov', 0), ('moof', 0), ('moof', 1)):
        place = file.children.index(file.at(f'{kind}[{number}]'))
        file.children.insert(place, FREE.copied())
    return file.spelled()


def stuffed() -> bytes:
    """Free space at the front of each `moof`: a `traf` of it is then read by itself."""
    file = whole(True)
    for number in range(2):
        file.at(f'moof[{number}]').children.insert(0, FREE.copied())
    return file.spelled()


def grown() -> bytes:
    """A file with a long user data box in its `moov`."""
    file = whole(True)
    fields('moov/udta', LONG)(file)
    return file.spelled()


def stripped(name: str, data: bytes, options: str = '', **due) -> Case:
    _, said, copy = strips.stripped(data, DROPPED)
    said = b'(strip: warning: NEW is refused: MissingBox in mdia at \\d+\n)?' + said
    return of(name, f'strip {DROP} {options}', data, copy, said=said, **due)


def foreign(name: str, data: bytes, options: str = '') -> Case:
    status, said, copy = strips.stripped(data, [strips.Foreign()], options == '--lossy')
    return of(name, f'strip --foreign {options}', data, copy or None, status=status,
              said=re.escape(said))


def freed(name: str, data: bytes, options: str = '') -> Case:
    status, said, copy = strips.stripped(data, [strips.Foreign()], options == '--lossy')
    form = None if status else answers.form(copy)
    return of(name, f'normalise --foreign {options}', data, form, status=status,
              said=re.escape(said))


def of_one_file() -> Iterator:
    """Each command, with and without its options, on files of the suite."""
    yield case('plain', '', put=BOXES, given=PLAIN)
    yield of('plain', 'boxes', PLAIN, BOXES)
    yield of('plain', 'boxes --explain', PLAIN, BOXES)
    yield of('a uuid', 'boxes --json', UUID, objects.listed(UUID)[0].encode())
    yield of('plain', 'show', PLAIN, SHOWN)
    yield case('standard input', 'show - --explain', put=SHOWN, given=PLAIN)
    yield of('plain', 'samples --track 1', PLAIN, SAMPLES)
    yield of('plain', 'samples --track 1 --header', PLAIN, COLUMNS + SAMPLES)
    yield of('plain', 'samples --track 1 --json', PLAIN, lines_as_json())
    yield of('plain', 'extract --track 1', PLAIN, DATA)
    for name in ('plain', 'two-fragments', 'two-tracks-cut-at-sync-samples', 'edits',
                 'kept-box-with-ilob', 'sample-group'):
        yield of(name, 'normalise', bytes_of('files', name + '.mp4'),
                 bytes_of('wanted', name + '.normal.mp4'))
    yield stripped('two-fragments', TWO)
    yield foreign('a uuid', UUID)
    yield foreign('events', EVENTS)
    yield foreign('events', EVENTS, '--lossy')
    yield freed('a uuid', UUID)
    yield freed('events', EVENTS)
    yield freed('events', EVENTS, '--lossy')
    for name, data in (('fragments far apart', spread()), ('a long head', grown())):
        yield of(name, 'normalise', data, answers.form(data))
    yield of('edits', 'normalise --without edits,times', EDITS,
             answers.form(EDITS, ('edits', 'times')))
    yield of('sound that waits', f'normalise {LEAD_INS}', WAITING,
             answers.form(WAITING, ['lead-ins']))
    yield of('too long', f'normalise {LEAD_INS}', TOO_LONG, None, status=1,
             said=answers.movie(TOO_LONG, ['lead-ins']).refusal().encode() + b'\n')
    yield of('a track', 'normalise --track 2', WAITING, answers.form(answers.Alone(WAITING, 2)))
    yield of('a track', 'normalise --track 2 --without media-2 --max-bytes 9999 --explain', WAITING,
             answers.form(answers.Alone(WAITING, 2), ['media-2']))
    yield of('no track', 'normalise --track 7', WAITING, b'', status=4, said=b'failed: no such track\n')
    yield of('plain', 'normalise --progress', PLAIN, NORMAL)
    yield of('plain', f'normalise --max-bytes {len(NORMAL)}', PLAIN, NORMAL)
    yield of('plain', 'extract --track 1 --out - --max-bytes 11 --explain', PLAIN, b'', status=3,
             said=b'file: -\ncause: more than 11 bytes\nfailed: write\n')
    yield of('plain', 'normalise --out - --explain', PLAIN, NORMAL)
    for command in ('show', 'boxes'):
        yield of('cut', f'{command} --explain', CUT, b'', **IS_CUT)
    yield of('gap', 'show --explain', GAP, b'', status=1, said=GAP_WORDS,
             refused=b'refused: Gap in tfdt at %d\n' % (GAP.rindex(b'tfdt') - 4))


def that_replace() -> Iterator:
    """Where NEW is there, or isn't."""
    for there in (OLD, None):
        yield of(f'plain over {there}', 'normalise --replace', PLAIN, NORMAL, there=there)
    yield of('plain', 'extract --track 1 --replace --explain', PLAIN, DATA, there=OLD)
    yield stripped('two-fragments', TWO, '--replace --progress', there=OLD)
    yield of('plain', 'normalise --without times --replace --explain', PLAIN,
             answers.form(PLAIN, ('times',)), there=OLD)
    yield of('plain', 'normalise --replace --explain --progress', PLAIN, NORMAL, there=OLD)
    yield of('cut', 'normalise --replace --explain', CUT, OLD, there=OLD, **IS_CUT)
    yield of('no track', 'extract --track 7 --replace', PLAIN, OLD, status=4,
             said=b'failed: no such track\n', there=OLD)


def of_two_files() -> Iterator:
    """Comparisons: of the same, of others, of all there is, with standard input."""
    last = b'1 difference: bytes 1; no words of --without make them the same\n'
    compare = 'compare a.mp4 b.mp4'
    same = {'a.mp4': PLAIN, 'b.mp4': bytes_of('files', 'first-normal-form.mp4')}
    both, cut_said = {'a.mp4': PLAIN, 'b.mp4': OTHER}, b'cut.mp4: ' + CUT_SAID
    found = [('bytes', DIFFERENCE.decode()[:-1])]
    parsed = f"{objects.difference(*found[0], '1024/12800')}\n{objects.last(found, None)}\n".encode()
    data = long.with_far_fragments()
    yield case('the same', compare, same)
    yield case('others', compare, both, 5, put=DIFFERENCE)
    yield case('without', f'{compare} --without times,groups', both, 5, put=DIFFERENCE)
    yield case('later as a whole', f'{compare} {LEAD_INS}', {'a.mp4': WAITING, 'b.mp4': LATER})
    yield case('a track of each', f'{compare} --track 2:2', {'a.mp4': WAITING, 'b.mp4': LATER}, 5,
               put=b'track 1: start 24000 | 24048\n')
    yield case('all', f'{compare} --all', both, 5, put=DIFFERENCE + last)
    yield case('all as JSON', f'{compare} --all --json --explain', both, 5, put=parsed)
    yield case('all, explained', f'{compare} --all --explain', both, 5, put=DIFFERENCE[:-1] + b' (0.080 s)\n' + last)
    lies = b'track 1: sample 3 of A (0.080 s) | sample 3 of B (0.080 s)\n'
    yield case('aligned', f'{compare} --align', both, 5, put=lies + DIFFERENCE + last)
    yield case('the same as JSON', f'{compare} --all --json', same,
               put=objects.last([], []).encode() + b'\n')
    yield case('cut', 'compare a.mp4 cut.mp4 --explain', {'a.mp4': PLAIN, 'cut.mp4': CUT}, 1,
               b'file: cut.mp4\n' + CUT_WORDS.replace(CUT_SAID, cut_said), refused=cut_said)
    yield case('with standard input', 'compare a.mp4 -', {'a.mp4': PLAIN}, 5, put=DIFFERENCE,
               given=OTHER)
    yield case('standard input first', 'compare - b.mp4', {'b.mp4': OTHER}, 5, put=DIFFERENCE,
               given=PLAIN)
    yield case('far fragments', compare, {'a.mp4': data, 'b.mp4': data}, long=('read',))


def of_many_files() -> Iterator:
    """Verdicts, a line each."""
    one, two, more = b'in.mp4: accepted\n', b'cut.mp4: ' + CUT_SAID, b'more.mp4: accepted\n'
    parsed, cut = objects.verdict('in.mp4', b''), objects.verdict('cut.mp4', CUT_LINE)
    files = {'in.mp4': PLAIN, 'cut.mp4': CUT}
    yield case('one', 'check in.mp4', {'in.mp4': PLAIN}, put=one)
    yield case('two', 'check in.mp4 cut.mp4', files, 1, put=one + two)
    yield case('one as JSON', 'check in.mp4 --json --explain', {'in.mp4': PLAIN}, put=parsed)
    yield case('two as JSON', 'check in.mp4 cut.mp4 --json', files, 1, put=parsed + cut)
    yield case('two explained', 'check in.mp4 cut.mp4 --explain', files, 1,
               b'file: cut.mp4\n' + CUT_WORDS.replace(CUT_SAID, b''), one + two)
    yield case('a list', 'check cut.mp4 --names-from list',
               {**files, 'more.mp4': PLAIN, 'list': b'in.mp4\0more.mp4\0'}, 1, put=two + one + more)
    yield case('a list in a pipe', 'check --zero --names-from -', {**files, 'more.mp4': PLAIN}, 1,
               put=(more + two + one).replace(b'\n', b'\0'), given=b'more.mp4\0cut.mp4\0in.mp4')


def of_sums_and_texts() -> Iterator:
    """Sums; the text of what a file says, put and made."""
    due = hashlib.sha256(NORMAL).hexdigest().encode() + b'  in.mp4\n'
    header, text = b'# mp4norm sum: normal form 1, without nothing\n', answers.text(PLAIN)
    yield of('one', 'sum', PLAIN, header + due)
    yield of('one, explained', 'sum --no-header --explain', PLAIN, due)
    alone = answers.Alone(WAITING, 2)
    line = b'# mp4norm sum: normal form 1 of track 2, without nothing\n'
    digits = hashlib.sha256(answers.form(alone)).hexdigest().encode()
    yield of('a track', 'sum --track 2', WAITING, line + digits + b'  in.mp4\n')
    yield of('a track', 'print --track 2', WAITING, answers.text(alone))
    yield of('plain', 'print', PLAIN, text)
    yield of('without, explained', 'print --without times --explain', PLAIN,
             answers.text(PLAIN, ['times']))
    yield of('sound that waits', f'print {LEAD_INS}', WAITING,
             answers.text(WAITING, ['lead-ins']))
    yield case('to a file', 'print in.mp4 --out new', {'in.mp4': PLAIN}, made=text)


def of_lists() -> Iterator:
    """Commands on a list of files that are read as one."""
    form, shown = bytes_of('wanted', 'two-fragments.normal.mp4'), answers.shown(TWO)
    files = in_parts(lister.cut_before(TWO, b'moof'))
    parts = {name: data for name, data in files.items() if name != 'list'}
    yield case('parts', 'show @list', files, put=shown)
    yield case('parts', 'boxes @list --explain', files, put=answers.boxes(TWO))
    yield case('parts', 'normalise @list --out new', files, made=form)
    yield case('parts', 'normalise @list --out new --replace --explain', files, made=form,
               there=OLD)
    yield case('parts', 'compare @list whole.mp4', {**files, 'whole.mp4': TWO})
    yield case('parts', 'check @list', files, put=b'@list: accepted\n')
    yield case('a list in a pipe', 'show @-', parts, given=files['list'], put=shown)


def that_are_long() -> Iterator:
    """Commands on files that take many calls."""
    data, calls = long.with_long_pieces(), ('read', 'write')
    far, many = long.with_far_fragments(), long.with_many_samples()
    yield case('long pieces', '', put=answers.boxes(data), given=data, long=('input',))
    yield of('long pieces', 'normalise', data, answers.form(data), long=calls)
    yield of('long pieces', 'extract --track 1', data, answers.extracted(data), long=calls)
    yield stripped('long pieces', data, long=calls)
    yield of('far fragments', 'show', far, answers.shown(far), long=('read',))
    yield of('many samples', 'samples --track 1', many, answers.lines(many), long=('write',))


def all_cases() -> Iterator:
    for part in (of_one_file, that_replace, of_two_files, of_many_files, of_sums_and_texts,
                 of_lists, that_are_long):
        yield from part()
    for line in ('--help', 'compare --help', '--version'):
        yield case('words', line, put=None)
