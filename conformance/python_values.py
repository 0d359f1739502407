"""Compares what the calls of the Python module give with a table of calls (wrapper_calls.py), field by
field. A line for each call, with what is wrong behind a tab, if anything is; the last line is `end`.

usage: python_values.py FOLDER TABLE [--first-failure] [CALL..]

FOLDER has the module, and TABLE lies beside the files that it names. What the module runs or loads
is said by MP4NORM and MP4NORM_LIBRARY.
"""
import dataclasses
import hashlib
import json
import os
import sys
from fractions import Fraction

sys.dont_write_bytecode = True
sys.path.insert(0, sys.argv[1])
import mp4norm

EDIT = 'segment_duration', 'media_time', 'rate_integer', 'rate_fraction'
# Calls that the module has, and those that take names alone.
CALLS = 'show', 'samples', 'columns', 'boxes', 'fields', 'compare', 'normalise', 'check', 'sum'
OF_NAMES = 'check', 'sum'


def plain(value):
    """A value of the module as JSON has it, fractions as text."""
    if dataclasses.is_dataclass(value):
        return {it.name: plain(getattr(value, it.name)) for it in dataclasses.fields(value)}
    if isinstance(value, dict):
        return {key: plain(it) for key, it in value.items()}
    if isinstance(value, (list, tuple)):
        return [plain(it) for it in value]
    return str(value) if isinstance(value, Fraction) else value


def exactly(told):
    return {**told, 'seconds': str(Fraction(told['seconds'])) if 'seconds' in told else None}


def due_of(entry):
    """What is due, in the fields of the module's types."""
    due, call = json.loads(entry['due']), entry['call']
    if isinstance(due, dict) and due.keys() & {'fault', 'fails'}:
        return due
    if call == 'show':
        tracks = [{**it, 'edits': [dict(zip(EDIT, edit)) for edit in it['edits']]} for it in due['tracks']]
        return {**due, 'tracks': tracks}
    if call == 'samples':
        return [{**it, 'timescale': entry['timescale']} for it in due]
    if call in ('boxes', 'fields'):
        return [{'uuid': None, 'foreign': False, 'fields': None, **it} for it in due]
    if call == 'compare':
        due['at_least'] = due.pop('atLeast')
        due['differences'] = [{'of': None, **exactly(it)} for it in due['differences']]
        due['aligned'] = [{key: it for key, it in told.items() if key != 'kind'} for told in due['aligned']]
        lines = entry['text'].split('\n')
        return {**due, 'text': lines, 'shown': f'<{"; ".join(lines)}>', 'is': due['same'],
                'seconds': [[str(Fraction(it[side]['decode_time'], it[side]['timescale'])) for side in 'ab']
                            for it in due['aligned']]}
    return due


def compared(files, entry, more):
    names = ('limit', 'align', 'foreign', 'tracks')
    found = mp4norm.compare(*files, without=entry['words'],
                            **{name: entry[name] for name in names if name in entry})
    return {**plain(found), 'text': str(found).split('\n'), 'shown': repr(found), 'is': bool(found),
            'seconds': [[str(it.a.decode_seconds), str(it.b.decode_seconds)] for it in found.aligned]}


def in_columns(file, entry, more):
    found = mp4norm.columns(file, entry['track'])
    for name in ('decode_seconds', 'composition_seconds', 'duration_seconds'):
        exact = [str(getattr(it, name)) for it in mp4norm.samples(file, entry['track'])]
        found[f'exact {name}'] = exact
    return found


def verdict(file, entry, more):
    error, = mp4norm.check(file).values()
    due = {'status': 0, 'kind': '', 'type': '', 'offset': 0, 'len': 0}
    if error is None:
        return due
    return {**due, 'status': 1, 'kind': error.kind, 'type': error.box, 'offset': error.offset}


def digest(file, entry, more):
    (name, found), = mp4norm.sum(file, **more).items()
    if isinstance(found, mp4norm.Error):
        raise found
    return found if name == file else name


def form(file, entry, more):
    made = mp4norm.normalise(file, **more)
    return {'length': len(made), 'sha256': hashlib.sha256(made).hexdigest()}


ASKED = {
    'show': lambda file, entry, more: plain(mp4norm.show(file)),
    'samples': lambda file, entry, more: plain(mp4norm.samples(file, entry['track'])),
    'boxes': lambda file, entry, more: plain(mp4norm.boxes(file)),
    'fields': lambda file, entry, more: plain(mp4norm.boxes(file, entry['rows'])),
    'columns': in_columns, 'check': verdict, 'sum': digest, 'normalise': form,
}


def told(entry, files):
    """What the module says of these files."""
    more = {name: entry[name] for name in ('foreign', 'lossy', 'track') if name in entry}
    more.update({'without': entry['words']} if 'words' in entry else {})
    try:
        if entry['call'] == 'compare':
            return compared(files, entry, more)
        return ASKED[entry['call']](files[0], entry, more)
    except mp4norm.Refused as error:
        # Of the same name twice it is the first.
        return {'fault': [error.kind, error.box, error.offset, place_of(error.file, files)]}
    except mp4norm.Failed as error:
        return {'fails': error.what} if place_of(error.file, files) is not None else {'other file': error.file}


def place_of(name, files):
    names = ['-' if isinstance(file, bytes) else file for file in files]
    return names.index(name) if name in names else None


def ways(entry, room, number):
    """The files by name; and where the call takes that, by turns one or both as bytes."""
    names = [os.path.join(room, name) for name in entry['files']]
    yield names
    if entry['call'] not in OF_NAMES:
        # Where both are bytes, both are called `-`.
        which = 1 + number % (2 if len(names) == 2 else 1)
        yield [open(name, 'rb').read() if which >> at & 1 else name for at, name in enumerate(names)]


def difference(got, due, way=''):
    """Where two values differ first, and how."""
    if isinstance(got, dict) and isinstance(due, dict) and got.keys() == due.keys():
        return next(filter(None, (difference(got[key], due[key], f'{way}.{key}') for key in due)), '')
    if isinstance(got, list) and isinstance(due, list) and len(got) == len(due):
        pairs = enumerate(zip(got, due))
        return next(filter(None, (difference(*pair, f'{way}[{at}]') for at, pair in pairs)), '')
    is_same = got == due and type(got) is type(due)
    return '' if is_same else f'{way}: {got!r:.200}, not {due!r:.200}'.replace('\n', ' ')


def main():
    with open(sys.argv[2], encoding='utf-8') as file:
        entries = json.load(file)
    room, words = os.path.dirname(os.path.abspath(sys.argv[2])), sys.argv[3:]
    only = [word for word in words if word in CALLS] or CALLS
    for number, entry in enumerate(entries):
        if entry['call'] not in only:
            continue
        due = due_of(entry)
        for files in ways(entry, room, number):
            try:
                got = told(entry, files)
            except Exception as fault:
                got = repr(fault)
            how = {key: it for key, it in entry.items() if key not in ('due', 'text', 'timescale')}
            wrong = difference(got, due)
            print(f'{how} {[type(it).__name__ for it in files]}' + (f'\t{wrong}' if wrong else ''))
            if wrong and '--first-failure' in words:
                return
    print('end')


if __name__ == '__main__':
    main()
