"""Files on which a close reading of the format's description shows: what is easily misread.

`misreadings` says which misreadings; edits of the program for others are in
`left_out_misreadings.edit`.
"""
from __future__ import annotations

from collections.abc import Callable
from .boxes import KEPT, Box, full, i32, i64, numbers, sbgp, u8, u16, u32, u64
from .edits import added, fields, moved, name_of, put, removed, renamed, replaced, rows
from .extras import (CONTAINERS, DREF, ELST, FOUR, LATER, SECOND_STBL, STBL, STCO, STSC, STSZ, STTS,
                     TFDT, TFHD, TRAF, TRUN, Extra, emptied, fine, fragment, groupings, head, run,
                     run_at, trex_of, two_trafs)
from .faults import LARGE
from .lister import INSIDE
from .movies import moof_of

MDIA, TKHD = 'moov/trak/mdia', 'moov/trak/tkhd'
MINF = MDIA + '/minf'
SBGP = TRAF + '/sbgp'
# Flags of `tfhd` and `trun` that have a meaning, and those of the files.
KNOWN = {'tfhd': 0x03003b, 'trun': 0x000f05}
SAID = {'tfhd': 0x00002b, 'trun': 0x000e01}
# Types of all containers whose boxes `boxes` lists.
OPENED = ('moov', 'moof', *[kind for path, kinds in INSIDE.items() if path for kind in kinds])


def base_at(at: int) -> Callable:
    """The boxes of a `traf` without runs, whose base is at this byte of the data box."""
    return lambda data, _: [Box('tfhd', lambda: full(0, 1) + u32(1) + u64(data.place + at))]


def of_trafs_without_samples() -> list[Extra]:
    roll = sbgp(b'roll', ())
    return [
        fine('empty-run-moves-the-next-traf',
             'a traf without samples has a place, where the next one begins',
             two_trafs(run_at(0, 12))),
        fine('empty-traf-of-a-base-moves-the-next', 'so has one without runs',
             two_trafs(base_at(12))),
        Extra('groups-of-a-traf-without-samples', 'its sbgp are judged', 'CountMismatch',
              fragment(head(0, 1), sbgp(b'roll', [(1, 1)]), named=1)),
        Extra('key-twice-in-a-traf-without-samples', 'its sbgp are judged', 'DuplicateBox',
              fragment(head(0, 1), roll, roll, named=2)),
        Extra('large-index-in-a-traf-without-samples', 'its sbgp are judged', 'BadValue',
              fragment(head(0, 1), sbgp(b'roll', [(0, 65536)]), named=1)),
        Extra('fifth-key-behind-a-traf-without-samples', 'its keys are counted', 'BadValue',
              keys_in_two_trafs),
    ]


def keys_in_two_trafs(file) -> tuple:
    """Three keys more in a `traf` without samples, and one more in the next."""
    *others, named = [sbgp(kind, ()) for kind in FOUR]
    file.children += [moof_of(3, [head(0, 1), *others]), moof_of(3, [head(0, 1), named])]
    return named.kind, named


def of_listed_boxes() -> list[Extra]:
    """Boxes of containers' types where the table has none: `boxes` doesn't look into them."""
    found = []
    for path in CONTAINERS:
        others = [kind for kind in OPENED if kind not in INSIDE.get(path, ())]
        found.append(Extra(f'other-containers-in-{name_of(path)}',
                           'a container is listed whole where the table has none',
                           'BoxNotInProfile',
                           *[added(path, Box(kind, b'', [Box('free', b'?')])) for kind in others]))
    inner = [Box('moov', b'', [Box('trak', b'', [Box('free')])]), Box('moof'), Box('iods')]
    return found + [
        fine('boxes-in-kept-boxes', 'kept boxes are listed whole',
             *[replaced(f'{path}/{kind}', Box(kind, b'', inner))
               for path, kinds in KEPT.items() for kind in kinds]),
        fine('boxes-in-free-space', 'so is free space',
             *[added(path, Box('free', b'', inner)) for path in CONTAINERS]),
    ]


def of_room_and_versions() -> list[Extra]:
    handler = full(0) + bytes(4) + b'vide' + bytes(12)
    return [
        fine('iloc-in-elng', 'it is kept, and may name places', fields(MDIA + '/elng', b'iloc')),
        fine('iloc-in-a-media-header', 'it is kept, and may name places',
             fields(MINF + '/vmhd', b'iloc')),
        fine('iloc-in-what-is-kept-of-others', 'a handler, an entry of stsd, an sgpd',
             fields(MDIA + '/hdlr', handler + b'iloc'),
             fields(STBL + '/stsd/mp4v', bytes(6) + u16(1) + b'iloc'),
             fields(STBL + '/sgpd', full(0) + b'roll' + b'iloc')),
        fine('sgpd-of-eight-bytes', 'its room is that of the grouping type',
             fields(STBL + '/sgpd', full(0) + b'roll')),
        fine('sgpd-of-eight-bytes-of-version-1', 'the same room in version 1',
             fields(STBL + '/sgpd', full(1) + b'roll')),
        fine('hdlr-of-24-bytes', 'a handler without a name', fields(MDIA + '/hdlr', handler)),
        fine('versions-of-kept-boxes', 'no version of what is kept is judged',
             put(MDIA + '/elng', 0, u8(9)), put(MINF + '/vmhd', 0, u8(9)),
             put('moov/trak[1]/mdia/minf/smhd', 0, u8(255)), fields('moov/meta', full(9)),
             fields('moov/udta', full(1))),
        fine('kept-boxes-of-no-bytes', 'nor its room', fields(MINF + '/vmhd', b''),
             *[fields(f'{path}/{kind}', b'') for path, kinds in KEPT.items() for kind in kinds]),
        fine('trex-of-id-zero', 'no track has it', added('moov/mvex', trex_of(0))),
    ]


def of_chunks() -> list[Extra]:
    one_place = rows(STCO, (0,))
    return [
        fine('chunk-rows-from-two-without-chunks',
             'a first row of chunk 1 is due where there are chunks', emptied(0),
             rows(STSC, (2, 1, 1), (3, 1, 1))),
        fine('chunk-rows-from-zero-without-chunks', 'nor has it to be above 0', emptied(0),
             rows(STSC, (0, 1, 1))),
        Extra('chunk-rows-that-stay-without-chunks', 'they have to rise all the same', 'BadOrder',
              of_emptied(rows(STSC, (2, 1, 1), (2, 1, 1)))),
        Extra('chunk-without-rows-and-samples', 'a chunk wants a row', 'BadOrder',
              of_emptied(rows(STSC), one_place)),
        Extra('chunk-without-samples-and-rows-from-two', 'a chunk wants a row of its own',
              'BadOrder', of_emptied(rows(STSC, (2, 0, 1)), one_place)),
        fine('chunk-of-no-samples', 'a row of no samples is enough', emptied(0),
             rows(STSC, (1, 0, 9)), one_place),
        fine('empty-sample-of-a-chunk-at-the-end', 'a sample of size 0 at the end of the file',
             chunk_at_the_end(0)),
        Extra('empty-sample-of-a-chunk-past-the-file', 'it lies in the file too',
              'SampleOutsideFile', chunk_at_the_end(1)),
    ]


def of_emptied(named: Callable, *others) -> Callable:
    """Changes of a track without samples in its tables, of which the first says what is named."""
    def breaks(file):
        emptied(0)(file)
        return [change(file) for change in (named, *others)][0]
    return breaks


def chunk_at_the_end(behind: int) -> Callable:
    """Three chunks of a sample each; the second, of size 0, lies so many bytes behind the file."""
    def breaks(file):
        data, last = file.at('mdat'), file.children[-1]
        rows(STSC, (1, 1, 1))(file)

        def places():
            start = data.place + 8
            return full(0) + numbers(3, start, last.place + last.length() + behind, start + 5)
        return fields(STCO, places)(file)
    return breaks


def unknown_flags(kind: str) -> dict:
    """The names of files with a flag that has no meaning in a type of box, and that flag."""
    flags = [1 << bit for bit in range(24)]
    return {f'{kind}-with-flag-{flag:06x}': flag for flag in flags if not KNOWN[kind] & flag}


def of_flags() -> list[Extra]:
    found = [Extra(name, 'a flag that has no meaning here', 'BadFlags',
                   put(f'{TRAF}/{kind}', 1, u32(SAID[kind] | flag)[1:]))
             for kind in KNOWN for name, flag in unknown_flags(kind).items()]
    high = 0xf2000000
    return found + [
        fine('flags-of-32-bits-in-tfhd', 'the four highest bits of defaults are ignored',
             fragment(head(0x020030, 1, 4, high), run(1, 2, 0))),
        fine('flags-of-32-bits-in-trex', 'so are those of trex',
             put('moov/mvex/trex', 20, u32(high)), fragment(head(0x020010, 1, 4), run(1, 2, 0))),
        fine('first-sample-flags-of-32-bits', 'and of first_sample_flags',
             fragment(head(0x020010, 1, 4), run(5, 2, 0, high))),
    ]


def of_numbers() -> list[Extra]:
    rate = u16(0xfffe) + u16(0x8000)
    return [
        fine('edits-of-negative-rates', 'both numbers of a rate have a sign', put(ELST, 16, rate)),
        fine('edits-of-negative-times', 'media_time has a sign', put(ELST, 12, i32(-1024)),
             put(ELST, 24, i32(-1 << 31))),
        fine('edits-of-negative-times-in-eight-bytes', 'the same in version 1',
             put(ELST, 16, i64(-1 << 63)), put(ELST, 24, rate), is_wide=True),
        fine('composition-times-past-2-to-the-63', 'limits are of decode times', emptied(0),
             emptied(1), put(TFDT, 4, u64(2**63 - 3073)), put(TRUN, 32, i32(LARGE)),
             put(LATER + '/tfdt', 4, u64(2**63 - 1537)), put(LATER + '/trun', 32, i32(LARGE)),
             is_wide=True),
        Extra('five-keys-of-index-zero', 'a key counts where it has no group', 'BadValue',
              groupings(STBL, *FOUR, groups=[(3, 0)])),
        fine('four-keys-of-index-zero', 'four of them are allowed',
             groupings(STBL, *FOUR[:3], groups=[(3, 0)])),
    ]


def types_of(*types) -> list[Callable]:
    """Of each of the two tracks the type of its description and that of its handler."""
    changes = []
    for track, (entry, handler) in enumerate(types):
        name = 'mp4a' if track else 'mp4v'
        mdia = f'moov/trak[{track}]/mdia'
        changes += [renamed(f'{mdia}/minf/stbl/stsd/{name}', entry),
                    fields(f'{mdia}/hdlr', full(0) + bytes(4) + handler + bytes(13))]
    return changes


def of_types() -> list[Extra]:
    return [
        fine('types-with-quotes', 'quotes and backslashes are escaped in JSON',
             *types_of(('"\\"\\', b'a"b\\'), ('a/b\'', b'\\u00'))),
        fine('types-of-the-edges', 'from space to tilde a byte is printable',
             *types_of((' ~  ', b'  a '), (' \x7f~ ', b'\x1f~~~'))),
        fine('types-of-zeros-and-high-bytes', 'eight digits in small letters',
             *types_of(('\0\0\0\0', bytes(4)), ('\xff\xfe\xfd\xfc', b'\xa9nam'))),
        Extra('type-of-a-high-byte', 'a refusal names the type in hexadecimal digits',
              'BoxNotInProfile', added('', Box('\xa9nam'))),
        Extra('type-of-a-high-byte-in-moov', 'a refusal names the type in hexadecimal digits',
              'BoxNotInProfile', added('moov', Box('na\n\0'))),
        Extra('type-with-spaces', 'they are part of the type', 'BoxNotInProfile',
              added('', Box(' ab '))),
    ]


def of_the_normal_form() -> list[Extra]:
    return [
        fine('second-track-begins-before-the-first', 'its early samples are in the first fragment',
             emptied(0), emptied(1), put(TFDT, 4, u32(9000)), put(LATER + '/tfdt', 4, u32(10536))),
        fine('first-track-without-samples', 'there is one fragment', emptied(0),
             put(SECOND_STBL + '/stts', 12, u32(60000)), removed('', 'moof')),
    ]


def in_front(path: str, kind: str) -> Callable:
    """The first box of a type as the first of its container."""
    return moved(path, kind, 0)


def turned(file) -> None:
    """The boxes of each container of the movie and of each `traf` in the other order."""
    for path in [path for path in CONTAINERS if path not in ('', 'moof')]:
        file.at(path).children.reverse()


def of_order() -> list[Extra]:
    """Two faults, of which the one that stands first in the file is named, also where the others'
    boxes have another place in other files."""
    no_id, no_scale = put(TKHD, 12, u32(0)), put(MDIA + '/mdhd', 12, u32(0))
    no_reference = put(DREF, 4, u32(0))
    moof, uuid = (added('', Box(kind), before='moov') for kind in ('moof', 'uuid'))
    return [
        fine('boxes-in-the-other-order', 'the table says no order', turned),
        Extra('bad-track-before-bad-user-data', 'in the moov in file order', 'BadValue', no_id,
              fields('moov/udta', b'iloc'), in_front('moov', 'trak'), in_front('moov', 'mvhd')),
        Extra('bad-trex-before-bad-tracks', 'in the moov in file order', 'BadValue',
              put('moov/mvex/trex[1]', 4, u32(1)), no_id, in_front('moov', 'mvex')),
        Extra('bad-media-before-a-bad-tkhd', 'depth first, in file order', 'BadValue', no_scale,
              no_id, in_front('moov/trak', 'mdia')),
        Extra('bad-information-before-a-bad-mdhd', 'depth first, in file order', 'OutsideData',
              no_reference, no_scale, in_front(MDIA, 'minf')),
        Extra('bad-description-before-a-bad-dref', 'depth first, in file order', 'BadValue',
              put(STBL + '/stsd/mp4v', 6, u16(2)), no_reference, in_front(MINF, 'stbl')),
        Extra('bad-run-behind-a-bad-sbgp', 'runs first, wherever they stand', 'BadVersion',
              put(TRUN, 0, u8(2)), put(SBGP, 0, u8(2)), in_front(TRAF, 'sbgp')),
        Extra('bad-tfhd-behind-a-bad-run', 'tfhd first, wherever it stands', 'BadVersion',
              put(TFHD, 0, u8(1)), put(TRUN, 0, u8(2)), in_front(TRAF, 'trun')),
        Extra('bad-durations-before-bad-sizes', 'sizes first, wherever they stand', 'BadVersion',
              put(STSZ, 0, u8(1)), put(STTS, 0, u8(1)), in_front(STBL, 'stts')),
        Extra('early-fragment-before-an-unknown-box', 'one box after the other',
              'FragmentBeforeMovie', moof, uuid),
        Extra('unknown-box-before-an-early-fragment', 'one box after the other',
              'BoxNotInProfile', uuid, moof),
    ]


def all_extras() -> list[Extra]:
    return [*of_trafs_without_samples(), *of_listed_boxes(), *of_room_and_versions(),
            *of_chunks(), *of_flags(), *of_numbers(), *of_types(), *of_the_normal_form(),
            *of_order()]
