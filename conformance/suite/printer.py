"""The text of what a file denotes, by its description: a line for each value, for version
control."""
from __future__ import annotations

import hashlib
from collections.abc import Iterator

from . import differ, normal
from .normal import key_order

# The most bytes of a payload that are spelled.
MOST_SPELLED = 4096
COLUMNS = 'duration, offset, flags, description, size, SHA-256, groups'


def printed(kind: bytes | str) -> str:
    """A type as a word of a line."""
    kind = kind if isinstance(kind, bytes) else kind.encode('latin-1')
    if all(0x20 < byte < 0x7f and byte != 0x5c for byte in kind):
        return kind.decode('ascii')
    return '\\' + kind.hex()


def dump(row: bytes) -> str:
    """Bytes as digits and as characters."""
    return f"  {row.hex()} |{''.join(chr(byte) if 0x20 <= byte <= 0x7e else '.' for byte in row)}|"


class Printer:
    """The lines of a movie of which some words are left out."""

    def __init__(self, movie):
        self.movie, self.left = movie, movie.left
        self.lines = []

    def line(self, name: str, *values) -> None:
        self.lines.append(f" {name}: {' '.join(map(str, values))}")

    def payload(self, name: str, data: bytes) -> None:
        text = f' {name}: {len(data)} bytes'
        if len(data) > MOST_SPELLED:
            self.lines.append(f'{text}, SHA-256 {hashlib.sha256(data).hexdigest()}')
            return
        self.lines.append(text)
        self.lines += [dump(data[at:at + 16]) for at in range(0, len(data), 16)]

    def boxes(self, name: str, boxes: list) -> None:
        for box in boxes:
            self.payload(f'{name} {printed(box.kind)}', bytes(box.payload()))

    def kept(self, container, place: str) -> None:
        self.boxes('kept', normal.kept_in(container, place, self.left))

    def values(self, found: Iterator, **others) -> None:
        """The numbers of a head; some have other names, or none."""
        for _, name, value, digits in found:
            name = others.get(name, name.removesuffix(' time').replace('alternate ', 'alternate_'))
            if name == 'matrix':
                self.line(name, *value)
            elif name:
                self.line(name, differ.spelled(value, digits))

    def all(self) -> bytes:
        words = ','.join(differ.in_order(self.left)) or 'nothing'
        self.lines += ['MP4 presentation, form 1', 'without: ' + words]
        self.head()
        for track in self.movie.tracks:
            self.track(track)
            self.media(track)
            self.samples(track)
        return ('\n'.join([*self.lines, 'end']) + '\n').encode('ascii')

    def head(self) -> None:
        self.lines.append('movie')
        self.values(differ.of_movie(self.movie))
        self.kept(self.movie.moov, 'moov')

    def track(self, track) -> None:
        self.lines.append(f'track {track.id_left}')
        self.values(differ.of_track(track), id=None)
        for edit in track.edits:
            self.line('edit', *edit)
        self.kept(track.trak, 'moov/trak')

    def media(self, track) -> None:
        self.values(differ.of_media(track), timescale='media timescale')
        self.payload('handler', normal.handler(track))
        for box in track.media.all('elng'):
            self.payload('extended language', bytes(box.payload()))
        self.boxes('media header', [differ.media_header(track)])
        self.boxes('description', normal.descriptions(track))
        if 'groups' not in self.left:
            for box in track.tables.all('sgpd'):
                self.payload('group description', bytes(box.payload()))

    def samples(self, track) -> None:
        self.line('start', track.start)
        self.lines.append(f'samples of track {track.id_left}: {COLUMNS}')
        for sample in track.samples:
            data = self.movie.bytes_of(sample)
            words = [sample.duration, sample.offset, f'{sample.flags:08x}', sample.description,
                     len(data), hashlib.sha256(data).hexdigest()]
            for key in sorted(sample.groups, key=key_order):
                parameter = '' if key[1] is None else f'/{key[1]}'
                words.append(f'{printed(key[0])}{parameter}={sample.groups[key]}')
            self.lines.append(' ' + ' '.join(map(str, words)))


def text(movie) -> bytes:
    """The text of what is left of a movie."""
    return Printer(movie).all()
