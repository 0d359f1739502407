"""The faults that the two files of `movies` can have, in the order in which they are looked for.

Each makes a file with this fault alone. Two neighbours in the order, in one file, show that the
first is named.
"""
from __future__ import annotations

from collections.abc import Callable, Iterator, Sequence
from .boxes import KEPT, Box, Raw, i32, u8, u16, u32, u64
from .edits import (added, added_bytes, added_copy, cut, cut_by_one, naming, name_of, put, removed,
                    renamed, said)
from .movies import time

LARGE = 0x7fffffff


class Fault:
    """A fault: its name, its kind, the path of the box that it is in, and how a file gets it.

    `breaks` changes a file; it answers the type and the box (or bytes) that the fault names.
    `gone` is the path of what is not there, or not read, in the broken file; with `/` at its end,
    only of what is inside.
    """

    def __init__(self, name: str, kind: str, path: str, breaks: Callable, gone: str | None = None):
        self.name, self.kind, self.path, self.breaks, self.gone = name, kind, path, breaks, gone

    def goes_with(self, other: Fault) -> bool:
        """Whether both can be in one file, and be told from each other by the answer."""
        for one, two in ((self, other), (other, self)):
            if one.gone is not None and one.takes(two.path):
                return False
        return (self.kind, self.path) != (other.kind, other.path)

    def takes(self, path: str) -> bool:
        """Whether this fault leaves nothing at a path."""
        if self.gone.endswith('/'):
            return path.startswith(self.gone)
        return (path + '/').startswith(self.gone + '/')


def headers_in(path: str, unknown: str, singles: list[str], needed: Sequence = (),
               others: Sequence = ()) -> list[Fault]:
    """Faults of a container: of headers, of types, of numbers of boxes.

    `others` are pairs of a box and a type of its group, of which only one may stand.
    """
    label = name_of(path) if '[1]' not in path else 'second-' + name_of(path)
    free = Box('free', bytes(8))
    inside = path + '/free' if path else 'free'
    found = [
        Fault(f'size-seven-in-{label}', 'BadSize', inside, added(path, free, 7)),
        Fault(f'overrun-in-{label}', 'Overrun', inside, added(path, free, LARGE)),
        Fault(f'unknown-box-in-{label}', 'BoxNotInProfile', path + '/' + unknown,
              added(path, Box(unknown, bytes(4)))),
    ]
    found += [Fault(f'second-{kind}-in-{label}', 'DuplicateBox', f'{path}/{kind}[1]',
                    added_copy(path, kind)) for kind in singles]
    found += [Fault(f'{other}-beside-{kind}-in-{label}', 'DuplicateBox', f'{path}/{other}[1]',
                    added_copy(path, kind, other)) for kind, other in others]
    found.append(Fault(f'bytes-behind-the-boxes-of-{label}', 'ShortHeader', path + '/none',
                       added_bytes(path, b'\0\0\0')))
    return found + [Fault(f'no-{kind}-in-{label}', 'MissingBox', path, removed(path, kind),
                          f'{path}/{kind}') for kind in needed]


def leaf(path: str, label: str, last_version: int, fields: int, rows: bool = True) -> list[Fault]:
    """Faults of a leaf's front: its first four bytes, its version, its fields, its rows."""
    found = [
        Fault(f'{label}-of-three-bytes', 'ShortBox', path, cut(path, 3), path + '/'),
        Fault(f'{label}-of-version-{last_version + 1}', 'BadVersion', path,
              put(path, 0, u8(last_version + 1))),
        Fault(f'{label}-with-short-fields', 'ShortBox', path, cut(path, fields - 1), path + '/'),
    ]
    if rows:
        found.append(Fault(f'{label}-with-a-short-row', 'ShortBox', path + '/rows',
                           cut_by_one(path)))
    return found


def value(path: str, name: str, kind: str, at: int, new: bytes, gone: str | None = None) -> Fault:
    return Fault(name, kind, path, put(path, at, new), gone)


def of_movie(is_wide: bool) -> list[Fault]:
    scale = 20 if is_wide else 12
    return [
        *headers_in('moov', 'tkhd', ['mvhd', 'mvex'], ['mvhd']),
        *leaf('moov/mvhd', 'mvhd', 1, 112 if is_wide else 100, rows=False),
        value('moov/mvhd', 'mvhd-of-timescale-zero', 'BadValue', scale, u32(0)),
        *[value(f'moov/{kind}', f'{kind}-of-moov-with-iloc', 'ItemLocation', 1, b'iloc')
          for kind in KEPT['moov']],
        *of_track(is_wide),
        *of_second_track(is_wide),
        *headers_in('moov/mvex', 'tfhd', ['mehd']),
        *leaf('moov/mvex/trex', 'trex', 0, 24, rows=False),
        value('moov/mvex/trex[1]', 'trex-of-a-taken-id', 'BadValue', 4, u32(1)),
    ]


def of_track(is_wide: bool) -> list[Fault]:
    path, number = 'moov/trak', 20 if is_wide else 12
    return [
        *headers_in(path, 'mvhd', ['tkhd', 'edts', 'mdia'], ['mdia', 'tkhd']),
        *leaf(path + '/tkhd', 'tkhd', 1, 96 if is_wide else 84, rows=False),
        value(path + '/tkhd', 'tkhd-of-id-zero', 'BadValue', number, u32(0)),
        *headers_in(path + '/edts', 'tkhd', ['elst']),
        *leaf(path + '/edts/elst', 'elst', 1, 8),
        *[value(f'{path}/{kind}', f'{kind}-of-trak-with-iloc', 'ItemLocation', 1, b'iloc')
          for kind in KEPT[path]],
        *of_media(is_wide, path + '/mdia'),
    ]


def of_media(is_wide: bool, path: str) -> list[Fault]:
    scale = 20 if is_wide else 12
    return [
        *headers_in(path, 'tkhd', ['mdhd', 'hdlr', 'minf'], ['hdlr', 'minf', 'mdhd']),
        *leaf(path + '/mdhd', 'mdhd', 1, 36 if is_wide else 24, rows=False),
        value(path + '/mdhd', 'mdhd-of-timescale-zero', 'BadValue', scale, u32(0)),
        Fault('short-hdlr', 'ShortBox', path + '/hdlr', cut(path + '/hdlr', 23)),
        *headers_in(path + '/minf', 'hdlr', ['vmhd', 'dinf', 'stbl'], ['stbl', 'dinf', 'vmhd'],
                    [('vmhd', other) for other in ('smhd', 'hmhd', 'nmhd', 'sthd', 'gmhd')]),
        *headers_in(path + '/minf/dinf', 'url ', ['dref'], ['dref']),
        *of_references(path + '/minf/dinf/dref'),
        *of_descriptions(is_wide, path + '/minf/stbl'),
    ]


def counted_headers(path: str, entry: str, label: str) -> list[Fault]:
    """Faults of the headers of boxes that are counted."""
    inside = f'{path}/{entry}'
    return [
        Fault(f'size-seven-of-an-entry-of-{label}', 'BadSize', inside, said(inside, 7), inside),
        Fault(f'overrun-of-an-entry-of-{label}', 'Overrun', inside, said(inside, LARGE), inside),
    ]


def of_references(path: str) -> list[Fault]:
    entry = path + '/url '
    return [
        *leaf(path, 'dref', 0, 8, rows=False),
        value(path, 'no-reference', 'OutsideData', 4, u32(0)),
        value(path, 'two-references', 'OutsideData', 4, u32(2)),
        *counted_headers(path, 'url ', 'dref'),
        Fault('bytes-for-an-entry-of-dref', 'ShortHeader', path + '/none', few_bytes(path), entry),
        Fault('reference-of-type-urn', 'OutsideData', entry, renamed(entry, 'urn '), entry),
        Fault('reference-of-three-bytes', 'ShortBox', entry, cut(entry, 3)),
        value(entry, 'reference-to-another-file', 'OutsideData', 3, u8(0)),
    ]


def few_bytes(path: str) -> Callable:
    """The boxes of a counting leaf are four bytes that are no header."""
    def breaks(file):
        box, more = file.at(path), Raw(bytes(4))
        box.children = [more]
        return box.kind, more
    return breaks


def one_more_counted(path: str) -> Callable:
    """One box more is counted, and no bytes are left for it."""
    def breaks(file):
        box, more = file.at(path), Raw(b'')
        box.patches.append((4, u32(len(box.children) + 1)))
        box.children.append(more)
        return box.kind, more
    return breaks


def of_descriptions(is_wide: bool, path: str) -> list[Fault]:
    sizes, places = ('stz2', 'co64') if is_wide else ('stsz', 'stco')
    other_sizes, other_places = ('stsz', 'stco') if is_wide else ('stz2', 'co64')
    singles = ['stsd', 'stts', 'stsc', sizes, places, 'ctts', 'stss', 'sdtp', 'cslg']
    entry = path + '/stsd/mp4v'
    return [
        *headers_in(path, 'subs', singles, ['stts', 'stsc', sizes, places, 'stsd'],
                    [(sizes, other_sizes), (places, other_places)]),
        *leaf(path + '/stsd', 'stsd', 0, 8, rows=False),
        *counted_headers(path + '/stsd', 'mp4v', 'stsd'),
        Fault('bytes-for-an-entry-of-stsd', 'ShortHeader', path + '/stsd/few',
              few_bytes(path + '/stsd'), entry),
        Fault('one-description-too-few', 'ShortHeader', path + '/stsd/none',
              one_more_counted(path + '/stsd')),
        Fault('short-description', 'ShortBox', entry, cut(entry, 7)),
        value(entry, 'description-of-reference-two', 'BadValue', 6, u16(2)),
    ]


def of_second_track(is_wide: bool) -> list[Fault]:
    """Faults of the second track's head; its own is that it has the ID of the first."""
    path, number = 'moov/trak[1]', 20 if is_wide else 12
    entry = path + '/mdia/minf/stbl/stsd/mp4a'
    return [
        Fault('second-tkhd-in-second-trak', 'DuplicateBox', path + '/tkhd[1]',
              added_copy(path, 'tkhd')),
        value(path + '/tkhd', 'tkhd-of-a-taken-id', 'BadValue', number, u32(1)),
        value(path + '/mdia/mdhd', 'second-mdhd-of-timescale-zero', 'BadValue', number, u32(0)),
        value(entry, 'second-description-of-reference-zero', 'BadValue', 6, u16(0)),
    ]


def of_tables(is_wide: bool) -> list[Fault]:
    path, second = (f'moov/{trak}/mdia/minf/stbl' for trak in ('trak', 'trak[1]'))
    sizes = path + ('/stz2' if is_wide else '/stsz')
    five_bits = value(sizes, 'field-size-of-five-bits', 'BadValue', 7, u8(5), sizes + '/rows')
    too_many = value(sizes, 'too-many-samples-in-stsz', 'TooManySamples', 4,
                     u32(1) + u32(2**32 - 1), sizes + '/rows')
    return [
        *leaf(sizes, name_of(sizes), 0, 12),
        five_bits if is_wide else too_many,
        *leaf(path + '/stts', 'stts', 0, 8),
        value(path + '/stts', 'durations-count-too-many', 'CountMismatch', 8, u32(3)),
        *leaf(path + '/ctts', 'ctts', 1, 8),
        value(path + '/ctts', 'offsets-count-too-few', 'CountMismatch', 16, u32(1)),
        *([] if is_wide else [value(path + '/ctts', 'offset-too-large-in-ctts', 'OffsetTooLarge',
                                    12, u32(1 << 31))]),
        *of_chunks(is_wide, path),
        *leaf(path + '/stss', 'stss', 0, 8),
        value(path + '/stss', 'sync-sample-zero', 'BadOrder', 8, u32(0)),
        *leaf(path + '/sdtp', 'sdtp', 0, 7, rows=False),
        *leaf(path + '/sgpd', 'sgpd', 1, 8, rows=False),
        *of_groupings(is_wide, path, ''),
        value(second + '/stts', 'second-durations-count-too-many', 'CountMismatch', 8, u32(3)),
        value(second + '/stsc', 'description-zero-in-second-stsc', 'BadDescriptionIndex', 16,
              u32(0)),
        value(second + '/stss', 'sync-samples-that-fall', 'BadOrder', 12, u32(1)),
    ]


def of_chunks(is_wide: bool, path: str) -> list[Fault]:
    places = path + ('/co64' if is_wide else '/stco')
    name, rows = name_of(places), path + '/stsc'
    return [
        *leaf(places, name, 0, 8),
        *leaf(rows, 'stsc', 0, 8),
        value(rows, 'chunk-rows-that-stay', 'BadOrder', 20, u32(1)),
        value(rows, 'chunks-count-too-many', 'CountMismatch', 12, u32(3)),
        value(rows, 'description-two-in-stsc', 'BadDescriptionIndex', 16, u32(2)),
        value(places, f'sample-outside-the-file-in-{name}', 'SampleOutsideFile', 8,
              time(is_wide, LARGE)),
    ]


def of_groupings(is_wide: bool, path: str, label: str) -> list[Fault]:
    """Faults of an `sbgp`, and of a second one of its key."""
    rows = 16 if is_wide else 12
    own = label + 'sbgp'
    return [
        *leaf(path + '/sbgp', own, 1, rows),
        value(path + '/sbgp', f'group-index-65536-in-{own}', 'BadValue', rows + 4, u32(65536)),
        value(path + '/sbgp', f'groups-count-too-many-in-{own}', 'CountMismatch', rows, u32(4)),
        Fault(f'two-{own}-of-one-key', 'DuplicateBox', path + '/sbgp[1]', added_copy(path, 'sbgp')),
    ]


def of_fragments(is_wide: bool) -> list[Fault]:
    path, head = 'moof/traf', 'moof/traf/tfhd'
    front, version, short = leaf(head, 'tfhd', 0, 24 if is_wide else 28, rows=False)
    return [
        *headers_in('moof', 'mvhd', ['mfhd'], ['mfhd']),
        *headers_in(path, 'sgpd', ['tfhd', 'tfdt'], ['tfhd']),
        front,
        version,
        value(head, 'tfhd-with-an-unknown-flag', 'BadFlags', 1, u8(4)),
        short,
        value(head, 'tfhd-of-no-track', 'UnknownTrack', 4, u32(3)),
        *leaf(path + '/tfdt', 'tfdt', 1, 12 if is_wide else 8, rows=False),
        *of_run(is_wide, path + '/trun'),
        value(path + '/trun[1]', 'second-trun-of-version-2', 'BadVersion', 0, u8(2)),
        value(head, 'description-two-in-tfhd', 'BadDescriptionIndex',
              8 if is_wide else 16, u32(2)),
        *of_groupings(is_wide, path, 'fragment-'),
        value(path + '/tfdt', 'gap', 'Gap', 4, time(is_wide, 1525)),
        *of_later_fragments(is_wide),
    ]


def of_run(is_wide: bool, path: str) -> list[Fault]:
    front, version, short, rows = leaf(path, 'trun', 1, 12)
    claim = u8(int(is_wide)) + u8(0) + u16(1) + u32(2**32 - 1)
    return [
        front,
        version,
        value(path, 'trun-with-an-unknown-flag', 'BadFlags', 2, u8(0x1e)),
        value(path, 'trun-with-flags-twice', 'BadFlags', 3, u8(5)),
        short,
        rows,
        value(path, 'too-many-samples-in-trun', 'TooManySamples', 0, claim, gone=path + '/rows'),
        value(path, 'sample-outside-the-file-in-trun', 'SampleOutsideFile', 8, i32(LARGE)),
        *([] if is_wide else [value(path, 'offset-too-large-in-trun', 'OffsetTooLarge', 32,
                                    u32(1 << 31))]),
    ]


def of_later_fragments(is_wide: bool) -> list[Fault]:
    return [
        value('moof/traf[1]/tfhd', 'second-tfhd-of-version-1', 'BadVersion', 0, u8(1)),
        value('moof/traf[1]/tfdt', 'gap-in-the-second-track', 'Gap', 4, time(is_wide, 1523)),
        Fault('second-mfhd-in-second-moof', 'DuplicateBox', 'moof[1]/mfhd[1]',
              added_copy('moof[1]', 'mfhd')),
        value('moof[1]/traf/tfhd', 'tfhd-of-a-later-fragment-of-version-1', 'BadVersion', 0, u8(1)),
        value('moof[1]/traf/tfdt', 'gap-in-a-later-fragment', 'Gap', 4, time(is_wide, 3059)),
    ]


def long_edit(path: str) -> Callable:
    return naming(path + '/tkhd', put(path + '/edts/elst', 8, u64(1 << 63)))


def of_edits() -> list[Fault]:
    """An edit of 2^63 units; version 0 has no room for it."""
    return [Fault(name, 'TimeTooLarge', path + '/tkhd', long_edit(path)) for name, path in (
        ('track-too-long', 'moov/trak'), ('second-track-too-long', 'moov/trak[1]'))]


def in_order(is_wide: bool) -> list[Fault]:
    """All faults of a file, in the order in which they are looked for."""
    early = Fault('fragment-before-the-moov', 'FragmentBeforeMovie', 'moof-before',
                  added('', Box('moof'), before='moov'))
    return [early, *headers_in('', 'uuid', ['moov']), *of_movie(is_wide), *of_tables(is_wide),
            *of_fragments(is_wide), *(of_edits() if is_wide else [])]


def neighbours(faults: list[Fault]) -> Iterator:
    """Each fault with the next one that can be in one file with it and has another answer."""
    for place, first in enumerate(faults):
        for second in faults[place + 1:]:
            if first.goes_with(second):
                yield first, second
                break
