"""Further files: more ways to have a fault, pairs of faults that the order's neighbours leave out,
and files that are just within what is allowed."""
from __future__ import annotations

from collections.abc import Callable, Sequence
from . import answers, lister
from .boxes import KEPT, Box, full, no_samples, numbers, sbgp, stz2, u8, u16, u32, u64
from .edits import (added, added_bytes, added_copy, all_of, changed, fields, longer, moved, name_of,
                    naming, put, removed, replaced, rows)
from .faults import LARGE, one_more_counted
from .movies import moof_of, whole

STBL = 'moov/trak/mdia/minf/stbl'
STTS, CTTS, STSC, STSZ, STZ2, STCO, STSS = (
    f'{STBL}/{kind}' for kind in ('stts', 'ctts', 'stsc', 'stsz', 'stz2', 'stco', 'stss'))
SECOND_STBL = 'moov/trak[1]/mdia/minf/stbl'
DREF, ELST = 'moov/trak/mdia/minf/dinf/dref', 'moov/trak/edts/elst'
TRAF, LATER = 'moof/traf', 'moof[1]/traf'
TFHD, TFDT, TRUN = (f'{TRAF}/{kind}' for kind in ('tfhd', 'tfdt', 'trun'))
FOUR = (b'one ', b'two ', b'thre', b'four')
CONTAINERS = ('', 'moov', 'moov/trak', 'moov/trak/edts', 'moov/trak/mdia', 'moov/trak/mdia/minf',
              'moov/trak/mdia/minf/dinf', STBL, 'moov/mvex', 'moof', TRAF)
# The length of a `moof` of `fragment` with a `tfhd` of one field and a `trun` of a data offset
# alone.
LAST = 72


class Extra:
    """A file: its name, what it is for, the kind of its fault (none: it is accepted), its changes,
    of which the first says what the fault names."""

    def __init__(self, name: str, reason: str, kind: str | None, *breaks, is_wide: bool = False):
        self.name, self.reason, self.kind = name, reason, kind
        self.breaks, self.is_wide = breaks, is_wide

    def build(self) -> tuple:
        """The file, and what its fault names."""
        file = whole(self.is_wide)
        named = all_of(*self.breaks)(file) if self.breaks else None
        file.settle()
        return file, named

    def make(self) -> tuple:
        """The file, and the line that refuses it, if one does."""
        file, named = self.build()
        return file, line_of(self.kind, named) if self.kind else None

    def asked(self) -> tuple:
        """The bytes of the file, and what is wanted of each command."""
        file, line = self.make()
        data = file.spelled()
        wanted = answers.of_refused(line) if line else answers.of_accepted(data)
        return data, answers.of_boxes(data) + wanted


def line_of(kind: str, named: tuple) -> str:
    name, box = named
    return f"refused: {kind} in {lister.printed(name.encode('latin-1'))} at {box.place}"


def fine(name: str, reason: str, *breaks, is_wide: bool = False) -> Extra:
    """A file that is accepted."""
    return Extra(name, reason, None, *breaks, is_wide=is_wide)


def without_descriptions(stbl: str) -> Callable:
    """A track whose `stsd` has no entry."""
    def change(box):
        box.fields, box.children = full(0) + u32(0), []
    return changed(stbl + '/stsd', change)


def trex_of(number: int) -> Box:
    return Box('trex', full(0) + u32(number) + bytes(16))


def groupings(path: str, *kinds, groups: Sequence = ((1, 1),),
              before: str | None = None) -> Callable:
    """Groupings of these types more; the fault names the last."""
    def breaks(file):
        return [added(path, sbgp(kind, groups), before=before)(file) for kind in kinds][-1]
    return breaks


def run(flags: int, count: int, *rest) -> Box:
    return Box('trun', full(0, flags) + numbers(count, *rest))


def head(flags: int, track: int, *rest) -> Box:
    return Box('tfhd', full(0, flags) + numbers(track, *rest))


def time_of(number: int) -> Box:
    return Box('tfdt', full(0) + u32(number))


def fragment(*boxes, named: int = 0) -> Callable:
    """A `moof` of a `traf` of these boxes at the end of the file; the fault names one of them."""
    def breaks(file):
        copies = [box.copied() for box in boxes]
        file.children.append(moof_of(3, copies))
        return copies[named].kind, copies[named]
    return breaks


def without_tracks(file) -> tuple:
    """A movie of its header alone, without fragments."""
    movie = file.at('moov')
    movie.children = [child for child in movie.children if child.kind == 'mvhd']
    return removed('', 'moof')(file)


def emptied(number: int) -> Callable:
    """A track whose tables have no samples."""
    def breaks(file):
        stbl = file.at(f'moov/trak[{number}]/mdia/minf/stbl')
        kept = [child for child in stbl.children if child.kind in ('stsd', 'sgpd')]
        stbl.children = kept + no_samples()
        return stbl.kind, stbl
    return breaks


def two_trafs(first: Callable, flags: int = 0) -> Callable:
    """A `moof` of a `traf` of the first track, whose boxes are made of the data box and the `moof`,
    and of one of the second track that has no place of its own but by these flags."""
    def breaks(file):
        data, moof = Box('mdat', b'hhhhiii'), Box('moof')
        second = [head(0x000010 | flags, 2, 3), run(0, 1)]
        moof.children = [Box('mfhd'), Box('traf', b'', first(data, moof)), Box('traf', b'', second)]
        file.children += [moof, data]
        return moof.kind, moof
    return breaks


def run_at(count: int, at: int) -> Callable:
    """The boxes of a `traf` whose run, of samples of four bytes, begins at this byte of data."""
    return lambda data, moof: [head(0x000010, 1, 4), Box('trun', lambda: (
        full(0, 1) + numbers(count, data.place + at - moof.place)))]


def headers() -> list[Extra]:
    wide_free = Box('free', bytes(8), wide=True)
    cut_wide = u32(1) + b'free' + bytes(4)
    found = []
    for path in ('', 'moov', 'moov/trak/edts', STBL, 'moov/mvex', 'moof', TRAF):
        label = name_of(path)
        found += [
            Extra(f'long-header-of-size-15-in-{label}', 'a size of eight bytes below 16', 'BadSize',
                  added(path, wide_free, 15)),
            Extra(f'long-header-cut-short-in-{label}', 'fewer than 16 bytes for a header of 16',
                  'ShortHeader', added_bytes(path, cut_wide)),
            Extra(f'largest-size-in-{label}', 'a size of 2^64 - 1', 'Overrun',
                  added(path, wide_free, 2**64 - 1)),
        ]
        if path:
            found.append(Extra(f'size-zero-in-{label}', '"to the end of the file" in a container',
                               'BadSize', added(path, Box('free', bytes(8)), 0)))
            found.append(Extra(f'one-byte-past-{label}', 'a box ends one byte behind its container',
                               'Overrun', added(path, Box('free', bytes(8)), 17)))
    return found


def pairs_of_headers() -> list[Extra]:
    """The same box has both faults, or a box has the one and the box behind it the other."""
    found = []
    for path in ('', 'moov', STBL, 'moof', TRAF):
        label, free = name_of(path), Box('free', bytes(8))
        found += [
            Extra(f'unknown-box-of-size-seven-in-{label}', 'BadSize before BoxNotInProfile',
                  'BadSize', added(path, Box('emsg', bytes(8)), 7)),
            Extra(f'unknown-box-past-{label}', 'Overrun before BoxNotInProfile', 'Overrun',
                  added(path, Box('emsg', bytes(8)), LARGE)),
            Extra(f'unknown-box-before-size-seven-in-{label}', 'one box after the other',
                  'BoxNotInProfile', added(path, Box('emsg', bytes(8))), added(path, free, 7)),
            Extra(f'unknown-box-before-bytes-in-{label}', 'one box after the other',
                  'BoxNotInProfile', added(path, Box('emsg', bytes(8))), added_bytes(path, b'\0')),
        ]
    return found + [
        Extra('no-moov', 'a file without fragments', 'MissingBox', removed('', 'moov'),
              removed('', 'moof')),
        Extra('no-moov-but-a-moof', 'FragmentBeforeMovie before MissingBox', 'FragmentBeforeMovie',
              naming('moof', removed('', 'moov'))),
        Extra('second-moov-past-the-file', 'Overrun before DuplicateBox', 'Overrun',
              added('', Box('moov'), LARGE)),
        Extra('second-moov-before-an-unknown-box', 'one box after the other', 'DuplicateBox',
              added('', Box('moov')), added('', Box('uuid'))),
        Extra('second-mvhd-before-an-unknown-box', 'one box after the other', 'DuplicateBox',
              added_copy('moov', 'mvhd'), added('moov', Box('uuid'))),
        Extra('second-tfhd-before-an-unknown-box', 'one box after the other', 'DuplicateBox',
              added_copy(TRAF, 'tfhd'), added(TRAF, Box('uuid'))),
        Extra('unknown-box-of-moov-and-mvhd-of-version-2', 'headers before what is inside',
              'BoxNotInProfile', added('moov', Box('uuid')), put('moov/mvhd', 0, u8(2))),
        Extra('unknown-box-of-stbl-and-dref-of-version-1', 'one child of minf after the other',
              'BadVersion', put(DREF, 0, u8(1)), added(STBL, Box('uuid'))),
        Extra('bad-mvhd-and-an-unknown-box-of-trak', 'one child of moov after the other',
              'BadVersion', put('moov/mvhd', 0, u8(2)), added('moov/trak', Box('uuid'))),
        Extra('bad-tables-and-a-bad-second-track', 'the moov before all tables', 'BadValue',
              put('moov/trak[1]/mdia/mdhd', 12, u32(0)), put(STSZ, 0, u8(1))),
        Extra('bad-tables-and-a-bad-trex', 'the moov before all tables', 'BadValue',
              put('moov/mvex/trex[1]', 4, u32(1)), put(STTS, 8, u32(9))),
        Extra('bad-second-tables-and-a-bad-fragment', 'all tables before fragments',
              'CountMismatch', put(SECOND_STBL + '/stts', 8, u32(9)), added('moof', Box('uuid'))),
        Extra('gap-and-a-bad-second-fragment', 'one moof after the other', 'Gap',
              put(TFDT, 4, u32(9)), added('moof[1]', Box('uuid'))),
        Extra('bad-moof-header-and-a-bad-movie', 'headers of the file before the moov',
              'BoxNotInProfile', added('', Box('emsg')), put('moov/mvhd', 0, u8(2))),
        Extra('later-traf-with-bad-headers', 'one traf after the other', 'Gap',
              put(TFDT, 4, u32(9)), added('moof/traf[1]', Box('uuid'))),
        Extra('two-moofs-of-unknown-boxes', 'one moof after the other', 'BadVersion',
              put(TRUN, 0, u8(2)), added('moof[1]', Box('uuid'))),
    ]


def of_leaves() -> list[Extra]:
    """Other values of the same faults."""
    entry = STBL + '/stsd/mp4v'
    return [
        Extra('description-of-reference-zero', 'index 0', 'BadValue', put(entry, 6, u16(0))),
        Extra('both-descriptions-at-fault',
              'all counted headers before the inside of the first entry',
              'ShortHeader', one_more_counted(STBL + '/stsd'), put(entry, 6, u16(2))),
        Extra('three-references', 'more than one', 'OutsideData', put(DREF, 4, u32(3))),
        Extra('reference-of-another-type-that-is-short', 'the type before the room', 'OutsideData',
              replaced(DREF + '/url ', Box('urn ', b'\0'))),
        Extra('mvhd-of-version-255', 'the largest version', 'BadVersion',
              put('moov/mvhd', 0, u8(255))),
        *(Extra(f'{name_of(path)}-of-version-1-with-the-room-of-version-0',
                f'{what} need more room', 'ShortBox', put(path, 0, u8(1)))
          for path, what in (('moov/mvhd', 'fields of eight bytes'),
                             ('moov/trak/tkhd', 'fields of eight bytes'),
                             ('moov/trak/mdia/mdhd', 'fields of eight bytes'),
                             (ELST, 'rows of 20 bytes'))),
        Extra('elst-that-claims-all-rows', '2^32 - 1 rows', 'ShortBox',
              put(ELST, 4, u32(2**32 - 1))),
        Extra('tfdt-of-version-1-with-the-room-of-version-0', 'a time of eight bytes', 'ShortBox',
              put(TFDT, 0, u8(1))),
        Extra('durations-count-too-few', 'one sample without a duration', 'CountMismatch',
              put(STTS, 8, u32(1))),
        Extra('durations-count-2-to-the-32', 'a sum past 32 bits', 'CountMismatch',
              put(STTS, 8, u32(2**32 - 1) + u32(1) + u32(4))),
        Extra('offsets-count-too-many', 'one offset without a sample', 'CountMismatch',
              put(CTTS, 16, u32(3))),
        Extra('counts-of-offsets-before-large-offsets', 'CountMismatch before OffsetTooLarge',
              'CountMismatch', put(CTTS, 16, u32(3) + u32(1 << 31))),
        Extra('large-offset-of-no-sample', 'a row of count 0 is looked at', 'OffsetTooLarge',
              rows(CTTS, (3, 0), (0, 1 << 31))),
        Extra('stsc-without-rows', 'there are chunks', 'BadOrder', rows(STSC)),
        Extra('chunk-rows-from-zero', 'the first row is of chunk 0', 'BadOrder',
              rows(STSC, (0, 2, 1), (2, 1, 1))),
        Extra('chunk-rows-from-two', 'the first row is of chunk 2', 'BadOrder',
              rows(STSC, (2, 2, 1), (3, 1, 1))),
        Extra('chunk-rows-that-fall-behind-the-last-chunk', 'all rows must rise', 'BadOrder',
              rows(STSC, (1, 2, 1), (2, 1, 1), (9, 1, 1), (8, 1, 1))),
        Extra('chunk-order-before-counts', 'BadOrder before CountMismatch in stsc', 'BadOrder',
              rows(STSC, (1, 9, 1), (1, 1, 1))),
        Extra('chunk-counts-before-descriptions', 'CountMismatch before BadDescriptionIndex',
              'CountMismatch', rows(STSC, (1, 9, 7), (2, 1, 1))),
        Extra('chunks-count-too-few', 'one sample in no chunk', 'CountMismatch',
              rows(STSC, (1, 1, 1))),
        Extra('description-zero-in-stsc', 'index 0', 'BadDescriptionIndex', put(STSC, 28, u32(0))),
        Extra('no-descriptions', 'samples, and no entry in stsd', 'BadDescriptionIndex',
              naming(STSC, without_descriptions(STBL))),
        Extra('sync-sample-past-the-last', 'number N + 1', 'BadOrder', rows(STSS, (1,), (4,))),
        Extra('sync-samples-that-stay', 'the same number twice', 'BadOrder',
              rows(STSS, (3,), (3,))),
        Extra('places-before-sync-samples', 'SampleOutsideFile before BadOrder in stss',
              'SampleOutsideFile', put(STCO, 8, u32(LARGE)), put(STSS, 8, u32(0))),
        Extra('one-chunk-offset-outside', 'the last chunk alone', 'SampleOutsideFile',
              put(STCO, 12, u32(LARGE))),
        Extra('stsz-short-and-too-many', 'ShortBox before TooManySamples', 'ShortBox',
              put(STSZ, 8, u32(2**24 + 1))),
        Extra('one-sample-too-many-in-a-run', '2^24 + 1 samples', 'TooManySamples',
              fragment(head(0x020038, 1, 0, 0, 0), run(0, 2**24 - 14), named=1)),
        Extra('stsz-of-many-rows', '2^24 + 1 sizes, all there', 'TooManySamples',
              fields(STSZ, bytes(8) + u32(2**24 + 1) + bytes(4 * (2**24 + 1)))),
        Extra('stz2-short-and-too-many', 'ShortBox before TooManySamples', 'ShortBox',
              put(STZ2, 8, u32(2**24 + 1)), is_wide=True),
        Extra('stz2-too-many-of-five-bits', 'TooManySamples before BadValue', 'TooManySamples',
              put(STZ2, 7, u8(5) + u32(2**32 - 1)), is_wide=True),
        Extra('too-many-samples-in-stz2', '2^24 + 1 sizes of four bits', 'TooManySamples',
              replaced(STSZ, stz2(4, 2**24 + 1, bytes(2**23 + 1)))),
        *(Extra(name, f'sizes of {bits or "no"} bits', 'BadValue',
                put(STZ2, 7, u8(bits)), is_wide=True)
          for name, bits in (('field-size-zero', 0), ('field-size-32', 32))),
        Extra('too-many-samples-in-the-second-track', 'all tracks count together', 'TooManySamples',
              fields(SECOND_STBL + '/stsz', numbers(0, 1, 2**24 - 2))),
        Extra('trex-of-two-descriptions-too-many', 'the index of trex, where tfhd has none',
              'BadDescriptionIndex', replaced(TFHD, head(0x020038, 1, 512, 4, 0x01010000)),
              put('moov/mvex/trex', 8, u32(2)), is_wide=True),
        Extra('description-zero-in-tfhd', 'index 0', 'BadDescriptionIndex', put(TFHD, 16, u32(0))),
        Extra('no-trex-for-the-track', 'the movie does not extend the track', 'UnknownTrack',
              naming(TFHD, put('moov/mvex/trex', 4, u32(8)))),
        Extra('two-trexes-of-no-track', 'an ID that no track has, twice', 'BadValue',
              added('moov/mvex', trex_of(99)), added('moov/mvex', trex_of(99), before='trex')),
        Extra('no-mvex', 'the movie extends no track', 'UnknownTrack',
              naming(TFHD, removed('moov', 'mvex'))),
        Extra('unknown-track-before-tfdt', 'tfhd before tfdt', 'UnknownTrack',
              put(TFHD, 4, u32(3)), put(TFDT, 0, u8(2))),
        Extra('unknown-track-without-runs', 'a traf without samples must be readable',
              'UnknownTrack', fragment(head(0, 7))),
        Extra('bad-description-before-groups', 'BadDescriptionIndex before the sbgp of a traf',
              'BadDescriptionIndex', put(TFHD, 16, u32(0)), put(TRAF + '/sbgp', 0, u8(2))),
        Extra('groups-before-a-gap', 'the sbgp of a traf before Gap', 'CountMismatch',
              put(TRAF + '/sbgp', 12, u32(9)), put(TFDT, 4, u32(0))),
        Extra('flags-before-room-in-tfhd', 'BadFlags before ShortBox', 'BadFlags',
              replaced(TFHD, head(0x00002b | 4, 1))),
        Extra('flags-before-room-in-trun', 'BadFlags before ShortBox', 'BadFlags',
              replaced(TRUN, run(0x2001, 9))),
        Extra('trun-short-and-too-many', 'ShortBox before TooManySamples', 'ShortBox',
              replaced(TRUN, run(0x200, 2**32 - 1))),
        Extra('late-sample-outside-before-a-large-offset', 'kinds go over the whole leaf',
              'SampleOutsideFile', replaced(TRUN, run(0xa00, 2, 1, 1 << 31, LARGE, 0))),
        Extra('too-many-before-places-in-trun', 'TooManySamples before SampleOutsideFile',
              'TooManySamples', replaced(TRUN, run(1, 2**32 - 1, LARGE))),
        Extra('too-many-samples-with-those-of-tables', 'tables and runs count together',
              'TooManySamples', replaced(LATER + '/trun', run(0, 2**24 - 11))),
        Extra('sample-one-byte-past-the-file', 'its last byte is missing', 'SampleOutsideFile',
              fragment(head(0x020010, 1, 1), run(1, 1, LAST), named=1)),
        Extra('empty-sample-past-the-file', 'size 0 must lie in the file too', 'SampleOutsideFile',
              fragment(head(0x020010, 1, 0), run(1, 1, LAST + 1), named=1)),
        Extra('sample-before-the-file', 'a place below 0', 'SampleOutsideFile',
              replaced(TRUN, run(1, 1, -1 << 31))),
        Extra('gap-without-tfdt-before', 'the first fragment has no tfdt, the next one is late',
              'Gap', put(LATER + '/tfdt', 4, u32(3061)), removed(TRAF, 'tfdt')),
        Extra('gap-of-a-track-of-tables', 'tfdt 0 behind samples of tables', 'Gap',
              put(TFDT, 4, u32(0))),
        Extra('five-keys-in-stbl', 'a fifth grouping key', 'BadValue', groupings(STBL, *FOUR)),
        Extra('fifth-key-in-traf', 'four keys of the tables, one more in a fragment', 'BadValue',
              groupings(TRAF, b'new '), groupings(STBL, *FOUR[:3])),
        Extra('five-keys-without-rows', 'a grouping without rows names its key', 'BadValue',
              groupings(STBL, b'four', groups=()),
              groupings(STBL, *FOUR[:3], groups=(), before='sgpd')),
        Extra('fifth-key-in-traf-without-samples', 'its groupings name their keys', 'BadValue',
              fragment(head(0, 1), *[sbgp(kind, ()) for kind in FOUR], named=4)),
        Extra('fifth-key-before-counts', 'BadValue before CountMismatch', 'BadValue',
              groupings(STBL, b'five', groups=[(9, 1)]), groupings(STBL, *FOUR[:3], before='sgpd')),
        *(Extra(name + where, reason, kind, change(path))
          for name, reason, kind, change in (
              ('large-index-of-no-sample', 'a row of count 0 is looked at', 'BadValue',
               lambda path: fields(path + '/sbgp', sbgp(b'roll', ((3, 1), (0, 65536))).fields)),
              ('key-twice-before-its-index', 'DuplicateBox before BadValue', 'DuplicateBox',
               lambda path: groupings(path, b'roll', groups=[(1, 65536)])),
              ('key-twice-that-is-short', 'ShortBox before DuplicateBox', 'ShortBox',
               lambda path: added(path, Box('sbgp', full(0) + b'roll' + u32(1)))))
          for where, path in (('', STBL), ('-in-traf', TRAF))),
        Extra('index-before-counts-in-traf', 'BadValue of a late row before CountMismatch',
              'BadValue', fields(TRAF + '/sbgp', sbgp(b'roll', ((9, 1), (0, 65536))).fields)),
        Extra('sgpd-behind-a-bad-sbgp', 'sgpd and sbgp in file order', 'CountMismatch',
              groupings(STBL, b'late', groups=[(9, 1)]),
              added(STBL, Box('sgpd', full(2) + bytes(4)))),
        Extra('iloc-at-the-end', 'the last four bytes', 'ItemLocation',
              fields('moov/udta', b'a movie with iloc')),
        Extra('end-at-2-to-the-63', 'a track that ends at 2^63', 'TimeTooLarge',
              naming('moov/trak/tkhd', emptied(0), emptied(1), put(TFDT, 4, u64(2**63 - 3072)),
                     put(LATER + '/tfdt', 4, u64(2**63 - 1536))), is_wide=True),
    ]


def accepted() -> list[Extra]:
    """Files that are just within what is allowed."""
    return [
        fine('narrow', 'the file that the cases break'),
        fine('wide', 'the file that the cases break, in larger forms', is_wide=True),
        fine('four-keys', 'four grouping keys', groupings(STBL, *FOUR[:3])),
        fine('two-keys-of-one-type', 'no parameter, and parameter 0, are two keys',
             added(STBL, sbgp(b'roll', [(2, 5)], 0)), added(TRAF, sbgp(b'roll', [(1, 6)], 0))),
        fine('keys-in-file-order', 'keys that do not stand in the order of the normal form',
             groupings(STBL, b'zzzz', b'aaaa'), groupings(TRAF, b'aaaa', groups=[(2, 3)])),
        fine('group-index-65535', 'the largest index', put(STBL + '/sbgp', 16, u32(65535))),
        fine('large-offset', 'the largest offset of version 0', put(CTTS, 12, u32(LARGE))),
        fine('sizes-of-four-bits', 'three sizes in two bytes',
             replaced(STSZ, stz2(4, 3, b'\x50\x7f'))),
        fine('sizes-of-16-bits', 'sizes in two bytes each',
             replaced(STSZ, stz2(16, 3, u16(5) + u16(0) + u16(7)))),
        fine('one-size-for-all', 'a size for all samples', fields(STSZ, numbers(0, 4, 3))),
        fine('chunk-row-behind-the-last-chunk', 'a row that applies to no chunk',
             rows(STSC, (1, 2, 1), (2, 1, 1), (9, 4, 7))),
        fine('chunks-without-samples', 'a description that no sample has',
             rows(STSC, (1, 3, 1), (2, 0, 7))),
        fine('traf-without-samples', 'its time, its description and its flags count for nothing',
             fragment(head(2, 1, 9), time_of(77), run(1, 0, 5))),
        fine('empty-sample-at-the-end', 'a sample of size 0 at the end of the file',
             fragment(head(0x020010, 1, 0), run(1, 1, LAST))),
        fine('sample-of-a-fragment-header', 'a sample need not lie in an mdat',
             fragment(head(0x020010, 1, LAST), run(1, 1, 0))),
        fine('mfhd-and-ftyp-of-eight-bytes', 'boxes that are not read may be short',
             fields('moof/mfhd', b''), fields('ftyp', b''), fields(STBL + '/cslg', b''),
             fields('moov/mvex/mehd', b'')),
        fine('free-space-in-every-container', 'free, skip and wide may stand everywhere',
             *[added(path, Box(kind, b'?')) for path in CONTAINERS
               for kind in ('free', 'skip', 'wide')]),
        fine('iloc-in-free-space', 'what is not kept may name places',
             *[added(path, Box('free', b'iloc')) for path in CONTAINERS]),
        fine('dropped-boxes', 'styp, sidx and mfra of the file', added('', Box('styp')),
              added('', Box('sidx', b'?')), added('', Box('mfra', b'??')), added('', Box('ftyp'))),
        fine('two-of-each-kept-box', 'in any number, in file order',
             *[added(path, Box(kind, kind.encode() + b' again')) for path,
               kinds in KEPT.items() for kind in kinds]),
        fine('edts-without-elst', 'no edits', removed('moov/trak/edts', 'elst')),
        fine('elst-without-rows', 'no edits', rows(ELST)),
        fine('edit-of-no-duration', 'the length is that of the samples', put(ELST, 8, u32(0)),
              put('moov/trak[1]/edts/elst', 8, u32(0))),
        fine('movie-at-the-end', 'a plain file whose moov is its last box', moved('', 'moov', None),
              removed('', 'moof')),
        fine('no-tracks', 'a movie header alone', without_tracks),
        fine('tracks-without-tables', 'all samples in fragments, the second track from 1524 on',
             emptied(0), emptied(1)),
        fine('start-behind-a-traf-without-samples', 'its time is not the start of the track',
             emptied(0), emptied(1),
             added('', moof_of(3, [head(0, 1), time_of(5)]), before='moof')),
        fine('flags-of-32-bits', 'the four highest bits of flags are ignored',
             put(TRUN, 16, u32(0xf2000000))),
        fine('trex-of-no-track', 'a trex that no track has is ignored',
             added('moov/mvex', trex_of(99))),
        fine('bytes-behind-the-fields', 'these are ignored', longer('moov/mvhd', b'behind'),
              longer('moov/trak/tkhd', b'behind'), longer(STSZ, b'behind'), longer(TFHD, b'behind'),
              longer(STBL + '/sbgp', b'behind')),
        fine('flags-that-are-ignored', 'flags of full boxes count in four of them alone',
             put('moov/mvhd', 1, b'\xff\xff\xff'), put(STTS, 1, b'\xff\xff\xff'),
             put(TFDT, 1, b'\xff\xff\xff'), put(DREF + '/url ', 1, b'\xff\xff\xff'),
             put(TFHD, 1, b'\x01')),
        fine('versions-that-are-ignored', 'of boxes that say the same in each version',
             put('moov/trak/mdia/hdlr', 0, u8(9)), put(DREF + '/url ', 0, u8(9)),
             put('moov/mvex/mehd', 0, u8(9)), put(STBL + '/cslg', 0, u8(9)),
             put('moof/mfhd', 0, u8(9))),
        fine('no-descriptions-and-no-samples', 'an index is wanted of samples alone', emptied(0),
             without_descriptions(STBL), removed('', 'moof')),
        fine('end-at-2-to-the-63-less-one', 'the latest end of a track', emptied(0), emptied(1),
             put(TFDT, 4, u64(2**63 - 3073)), put(LATER + '/tfdt', 4, u64(2**63 - 1537)),
             is_wide=True),
        fine('time-that-is-due-in-eight-bytes', 'a tfdt of version 1',
             fields(TFDT, full(1) + u64(1524))),
        fine('base-behind-the-traf-before',
              'a traf without base data begins behind the one before', two_trafs(run_at(1, 8))),
        fine('base-at-the-moof', 'a later traf with default-base-is-moof begins at the moof',
             two_trafs(run_at(1, 8), 0x020000)),
    ]


def all_extras() -> list[Extra]:
    return [*accepted(), *headers(), *pairs_of_headers(), *of_leaves()]
