"""What is wanted of each command on a file."""
from __future__ import annotations

from collections.abc import Sequence
from typing import NamedTuple
from . import lister, normal, objects, printer, reader

# A track that no file of this suite has.
NO_TRACK = 987654321
# Commands that write to a new file.
TO_FILES = ('extract', 'normalise')


class Alone(NamedTuple):
    """A file of which the track with this ID is looked at alone."""
    data: bytes
    track: int


# ---- what commands put of a file that is accepted, or of a track of it alone

def movie(data: bytes | Alone, words: Sequence = ()):
    """What a file denotes without some words."""
    if isinstance(data, Alone):
        return reader.Movie(data.data).alone(data.track).leave_out(words)
    return reader.Movie(data).leave_out(words)


def form(data: bytes | Alone, words: Sequence = ()) -> bytes:
    """The normal form of what is left of a file."""
    return normal.normal_form(movie(data, words))


def text(data: bytes | Alone, words: Sequence = ()) -> bytes:
    """What `print` puts."""
    return printer.text(movie(data, words))


def boxes(data: bytes) -> bytes:
    return lister.listed(data)[0].encode()


def shown(data: bytes) -> bytes:
    return reader.shown(movie(data)).encode()


def lines(data: bytes, track: int = 1) -> bytes:
    """What `samples` puts."""
    return reader.lines_of(movie(data).track(track)).encode()


def extracted(data: bytes, track: int = 1) -> bytes:
    found = movie(data)
    return reader.extracted(found, found.track(track))


# ---- answers

class Answer:
    """Exit status, the line on standard error (none: nothing), and the bytes that are written."""

    def __init__(self, status: int, error: str | None = None, written: bytes = b''):
        self.status, self.error, self.written = status, error, written

    def said(self) -> bytes:
        """All of standard error."""
        return (self.error + '\n').encode() if self.error else b''


class Asked:
    """A command, with the track that it is asked of, and the answer that is wanted."""

    def __init__(self, command: str, track: int | None, answer: Answer):
        self.command, self.track, self.answer = command, track, answer

    def words(self, path: str, out: str = '-') -> list[str]:
        """The words behind the program's name; `boxes-input` has none and reads standard input."""
        if self.command == 'boxes-input':
            return []
        if self.command == 'boxes-json':
            return ['boxes', path, '--json']
        track = [] if self.track is None else ['--track', str(self.track)]
        if self.command == 'samples-json':
            return ['samples', path, '--json', *track]
        return [self.command, path, *track, *(['--out', out] if self.command in TO_FILES else [])]


def done(command: str, written: bytes, track: int | None = None) -> Asked:
    return Asked(command, track, Answer(0, None, written))


def of_boxes(data: bytes) -> list[Asked]:
    """The answers of the commands that list boxes: of standard input, of a file, as JSON."""
    asked = []
    for found, commands in ((lister.listed(data), ('boxes-input', 'boxes')),
                            (objects.listed(data), ('boxes-json',))):
        text_of, line = found
        answer = Answer(1, line) if line else Answer(0, None, text_of.encode())
        asked += [Asked(command, None, answer) for command in commands]
    return asked


def of_refused(line: str) -> list[Asked]:
    """Four commands refuse with the same line."""
    answer = Answer(1, line)
    return [Asked('show', None, answer), Asked('samples', 1, answer),
            Asked('extract', 1, answer), Asked('normalise', None, answer)]


def of_places(data: bytes) -> list[Asked]:
    """The answers of `samples` as objects, which say where samples lie."""
    return [done('samples-json', reader.objects_of(track).encode(), track.id)
            for track in movie(data).tracks]


def of_accepted(data: bytes) -> list[Asked]:
    """The answers of four commands, of `samples` as objects too, by a reader of this suite's own."""
    found = movie(data)
    if reader.is_misread(found):
        return of_refused('refused by a misreading')
    asked = [done('show', reader.shown(found).encode()),
             done('normalise', normal.normal_form(found))]
    for track in found.tracks:
        asked += [done('samples', reader.lines_of(track).encode(), track.id),
                  done('extract', reader.extracted(found, track), track.id)]
    missing = Answer(4, 'failed: no such track')
    return asked + of_places(data) + [Asked('samples', NO_TRACK, missing), Asked('extract', NO_TRACK, missing)]


def of_tracks(data: bytes) -> list[Asked]:
    """The answers of `normalise` with --track, of each track of a file that is accepted."""
    return [done('normalise', form(Alone(data, track.id)), track.id) for track in movie(data).tracks]
