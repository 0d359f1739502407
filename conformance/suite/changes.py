"""Changes of one value of the wide file, and the line of `compare` that tells of each, written by
hand."""
from __future__ import annotations

from collections.abc import Callable
from . import entries
from .boxes import Box, full, i32, numbers, u16, u32, u64
from .edits import all_of, exchanged, fields, gone, longer, put, removed, renamed, rows
from .movies import whole as made

MDIA = 'moov/trak/mdia'
STBL = MDIA + '/minf/stbl'
SECOND = 'moov/trak[1]/mdia/minf/stbl'


def whole(*changes):
    """The wide file, in which each word of `--without` leaves something out, with changes."""
    file = made(True)
    file.at(STBL + '/stsd/mp4v').fields = entries.pictures(entries.btrt())
    file.at(SECOND + '/stsd/mp4a').fields = entries.sound(0, entries.esds(entries.RATES))
    all_of(put(SECOND + '/ctts', 12, i32(100)), *changes)(file)
    file.settle()
    return file


def second_description(file) -> None:
    stsd = file.at(STBL + '/stsd')
    stsd.children.append(Box('mp4v', bytes(6) + u16(1) + b'less'))
    stsd.patches.append((4, u32(2)))


def short_of_a_fragment(file) -> None:
    del file.children[-2:]


def durations(*found) -> Callable:
    """Other durations in the tables of the second track, and the decode time behind them."""
    end = sum(count * duration for count, duration in found)
    return all_of(rows(SECOND + '/stts', *found), put('moof/traf[1]/tfdt', 4, u64(end)))


def offsets(*found, stbl: str = STBL) -> Callable:
    """Other composition offsets in tables."""
    return rows(stbl + '/ctts', *((1, offset) for offset in found), version=1)


def last_run(flags: int, *columns, moof: str = 'moof[1]') -> Callable:
    """The last run of the first track in a fragment, with these columns too."""
    return fields(moof + '/traf/trun[1]', full(1, 0x204 | flags) + numbers(1, 0x02000000, *columns))


def moved_in(moof: str) -> Callable:
    """The offsets of the first track in a fragment are 1000 more."""
    return all_of(put(moof + '/traf/trun', 20, i32(1000)), put(moof + '/traf/trun', 32, i32(744)),
                  last_run(0x800, 2, 1000, moof=moof))


LAST_LONGER = last_run(0x100, 1024, 2)
MOVED = all_of(offsets(1000, 1256, 1256), moved_in('moof'), moved_in('moof[1]'))
# All offsets of both tracks are 1000 of 12800 more, or as many of 25600.
MOVED_ALIKE = all_of(MOVED, rows(SECOND + '/ctts', (1, 2100), (2, 2256), version=1),
                     put('moof/traf[1]/trun', 20, i32(2000)),
                     put('moof/traf[1]/trun', 32, i32(1744)),
                     fields('moof/traf[1]/trun[1]',
                            full(1, 0xa04) + numbers(1, 0x02000000, 2, 2000)))
# All times of the movie said in a timescale three times as large, and those of the first track.
MOVIE_SCALED = all_of(put('moov/mvhd', 20, u32(3000)),
                      *(all_of(put(f'{trak}/edts/elst', 8, u64(120)),
                               put(f'{trak}/edts/elst', 28, u64(360)))
                        for trak in ('moov/trak', 'moov/trak[1]')))
# All begins a second later, by the empty edits of both tracks.
LATER = all_of(*(put(f'{trak}/edts/elst', 8, u64(1040)) for trak in ('moov/trak', 'moov/trak[1]')))
SCALED = all_of(put('moov/trak/edts/elst', 36, u64(3072)), put(MDIA + '/mdhd', 20, u32(38400)),
                rows(STBL + '/stts', (2, 1536), (1, 1500)), offsets(0, 768, 768),
                *(all_of(put(moof + '/traf/tfhd', 12, u32(1536)),
                         put(moof + '/traf/tfdt', 4, u64(3 * time)),
                         put(moof + '/traf/trun', 32, i32(-768)))
                  for moof, time in (('moof', 1524), ('moof[1]', 3060))))
# The second track has ID 3.
OTHER_ID = all_of(put('moov/trak[1]/tkhd', 20, u32(3)), put('moov/mvex/trex[1]', 4, u32(3)),
                  put('moof/traf[1]/tfhd', 4, u32(3)))


def one(change: Callable, line: str, words: str = '', **others) -> tuple:
    """A change, its line, the words that leave it out, and other lines with some words."""
    return change, line, words.split(), {word.replace('_', '-'): it for word, it in others.items()}


# How long the second track waits of which it doesn't count how tracks begin: its first sample, of
# offset 100, is shown at (100 - 1024) / 25600 behind the 40 of 1000 that its empty edit lasts, and
# that of the first track at -1024 / 12800 behind as many. That is 0.04390625 seconds.
WAIT = 'track 2: edit 1: segment duration 43906 | '

CHANGES = [
    # mvhd of version 1: creation at 4, modification at 12, timescale at 20, rate at 32, volume at
    # 36, matrix at 48.
    one(put('moov/mvhd', 4, u64(3800000001)), 'movie: creation time 11 | 3800000001', 'times'),
    one(put('moov/mvhd', 12, u64(22)), 'movie: modification time 12 | 22', 'times'),
    one(put('moov/mvhd', 20, u32(600)), 'movie: timescale 1000 | 600', 'timing lead-ins',
        timescales='movie: timescale 25 | 15'),
    one(MOVIE_SCALED, 'movie: timescale 1000 | 3000', 'timescales lead-ins',
        timing='track 1: edit 1: segment duration 40 | 120'),
    one(put('moov/mvhd', 32, i32(-65536)), 'movie: rate 65536 | -65536'),
    one(put('moov/mvhd', 36, u16(0)), 'movie: volume 256 | 0'),
    one(put('moov/mvhd', 80, u32(1)), 'movie: matrix entry 9 1073741824 | 1'),
    one(gone('moov/udta'), 'movie: kept boxes 3 | 2', 'metadata'),
    one(put('moov/udta', 2, b'x'), 'movie: kept box 1: byte 3 of 7: 6d | 78', 'metadata'),
    one(exchanged('moov', 'udta', 'iods'), 'movie: kept box 1: type udta | iods', 'metadata'),
    one(longer('moov/iods'), 'movie: kept box 2: bytes 10 | 11', 'metadata'),
    one(all_of(gone('moov/trak[1]'), gone('moov/mvex/trex[1]'), gone('moof/traf[1]')),
        'movie: tracks 2 | 1'),
    # tkhd of version 1: track_ID at 20, layer at 44, alternate_group at 46, volume at 48, matrix at
    # 52, width at 88, height at 92.
    one(put('moov/trak/tkhd', 3, b'\7'), 'track 1: flags 000003 | 000007', 'roles'),
    one(put('moov/trak/tkhd', 1, b'\x80'), 'track 1: flags 000003 | 800003', 'roles'),
    one(put('moov/trak/tkhd', 3, b'\2'), 'track 1: flags 000003 | 000002',
        roles='track 1: flags 000001 | 000000'),
    one(put('moov/trak/tkhd', 4, u64(23)), 'track 1: creation time 13 | 23', 'times'),
    one(put('moov/trak/tkhd', 12, u64(24)), 'track 1: modification time 14 | 24', 'times'),
    one(OTHER_ID, 'track 2: id 2 | 3', 'ids'),
    one(put('moov/trak/tkhd', 44, b'\xff\xff'), 'track 1: layer 1 | -1', 'roles'),
    one(put('moov/trak/tkhd', 46, u16(3)), 'track 1: alternate group 2 | 3', 'roles'),
    one(put('moov/trak/tkhd', 48, u16(0)), 'track 1: volume 256 | 0'),
    one(put('moov/trak/tkhd', 52, u32(0)), 'track 1: matrix entry 1 65536 | 0'),
    one(put('moov/trak[1]/tkhd', 88, u32(65)), 'track 2: width 64 | 65'),
    one(put('moov/trak[1]/tkhd', 92, u32(49)), 'track 2: height 48 | 49'),
    one(gone('moov/trak/edts'), 'track 1: edits 2 | 0', 'edits', lead_ins=WAIT + '3906'),
    # Rows of elst of version 1 begin at 8 and have 20 bytes.
    one(put('moov/trak/edts/elst', 8, u64(41)), 'track 1: edit 1: segment duration 40 | 41',
        'edits', timescales='movie: timescale 25 | 1000', lead_ins=WAIT + '42906'),
    one(put('moov/trak/edts/elst', 36, u64(1025)), 'track 1: edit 2: media time 1024 | 1025',
        'edits', timescales='track 1: edit 2: media time 256 | 1025', lead_ins=WAIT + '43984'),
    one(LATER, 'track 1: edit 1: segment duration 40 | 1040', 'edits lead-ins',
        timescales='track 1: edit 1: segment duration 1 | 26'),
    one(put('moov/trak/edts/elst', 28, u64(121)), 'track 1: edit 2: segment duration 120 | 121',
        'edits lead-ins', timescales='movie: timescale 25 | 1000'),
    one(SCALED, 'track 1: edit 2: media time 1024 | 3072', 'timescales',
        edits='track 1: timescale 12800 | 38400', lead_ins='track 1: timescale 12800 | 38400'),
    one(all_of(SCALED, rows(STBL + '/stts', (1, 1536), (1, 1537), (1, 1500)),
               put('moof/traf/tfdt', 4, u64(4573)), put('moof[1]/traf/tfdt', 4, u64(9181))),
        'track 1: edit 2: media time 1024 | 3072', edits='track 1: timescale 12800 | 38400',
        timescales='track 1: edit 2: media time 256 | 3072',
        lead_ins='track 1: timescale 12800 | 38400'),
    # Of an empty edit the rate doesn't matter where it doesn't count how tracks begin; by another
    # one the plain edit says more, so that all edits stay.
    one(put('moov/trak/edts/elst', 24, u16(2)), 'track 1: edit 1: rate integer 1 | 2',
        'edits lead-ins'),
    one(put('moov/trak/edts/elst', 26, b'\xff\xff'), 'track 1: edit 1: rate fraction 0 | -1',
        'edits lead-ins'),
    one(put('moov/trak/edts/elst', 44, u16(2)), 'track 1: edit 2: rate integer 1 | 2', 'edits',
        lead_ins='movie: timescale 1000000 | 1000'),
    one(put('moov/trak/edts/elst', 46, u16(1)), 'track 1: edit 2: rate fraction 0 | 1', 'edits',
        lead_ins='movie: timescale 1000000 | 1000'),
    one(gone('moov/trak/tref'), 'track 1: kept boxes 3 | 2', metadata='track 1: kept boxes 1 | 0'),
    one(put('moov/trak/meta', 5, b'x'), 'track 1: kept box 3: byte 6 of 10: 74 | 78', 'metadata'),
    one(put(MDIA + '/mdhd', 4, u64(25)), 'track 1: media creation time 15 | 25', 'times'),
    one(put(MDIA + '/mdhd', 12, u64(26)), 'track 1: media modification time 16 | 26', 'times'),
    one(put(MDIA + '/mdhd', 20, u32(12801)), 'track 1: timescale 12800 | 12801', 'timing',
        timescales='track 1: edit 2: media time 256 | 1024'),
    one(put(MDIA + '/mdhd', 32, u16(0x15c7)), 'track 1: language 55c4 | 15c7'),
    one(put(MDIA + '/hdlr', 11, b'x'), 'track 1: handler: byte 12 of 25: 65 | 78',
        labels='track 1: handler: byte 12 of 24: 65 | 78'),
    one(longer(MDIA + '/hdlr'), 'track 1: handler: bytes 25 | 26', 'labels'),
    one(gone(MDIA + '/elng'), 'track 1: extended languages 1 | 0'),
    one(put(MDIA + '/elng', 4, b'f'), 'track 1: extended language 1: byte 5 of 7: 65 | 66'),
    one(renamed(MDIA + '/minf/vmhd', 'nmhd'), 'track 1: media header: type vmhd | nmhd'),
    one(put(MDIA + '/minf/vmhd', 11, b'\1'), 'track 1: media header: byte 12 of 12: 00 | 01'),
    one(second_description, 'track 1: descriptions 1 | 2'),
    one(renamed(STBL + '/stsd/mp4v', 'avc1'), 'track 1: description 1: type mp4v | avc1'),
    one(put(STBL + '/stsd/mp4v', 8, b'x'), 'track 1: description 1: byte 9 of 98: 00 | 78',
        bitrates='track 1: description 1: byte 9 of 78: 00 | 78'),
    one(longer(STBL + '/stsd/mp4v'), 'track 1: description 1: bytes 98 | 99',
        bitrates='track 1: description 1: bytes 78 | 99'),
    one(put(STBL + '/stsd/mp4v', 89, b'\7'), 'track 1: description 1: byte 90 of 98: 01 | 07',
        'bitrates'),
    one(put(SECOND + '/stsd/mp4a', 49, b'\7'), 'track 2: description 1: byte 50 of 64: 01 | 07',
        'bitrates'),
    one(put(SECOND + '/stsd/mp4a', 42, u16(2)), 'track 2: description 1: byte 44 of 64: 01 | 02',
        'ids'),
    one(put(STBL + '/stsd/mp4v', 50, b'x'), 'track 1: description 1: byte 51 of 98: 00 | 78',
        'labels', bitrates='track 1: description 1: byte 51 of 78: 00 | 78'),
    one(gone(STBL + '/sgpd'), 'track 1: group descriptions 1 | 0', 'groups'),
    one(put(STBL + '/sgpd', 17, b'\xfe'), 'track 1: group description 1: byte 18 of 18: ff | fe',
        'groups'),
    one(short_of_a_fragment, 'track 1: samples 9 | 6'),
    # The durations of the last fragment, at 12 of its tfhd.
    one(put('moof[1]/traf/tfhd', 12, u32(500)), 'track 1: sample 7: duration 512 | 500', 'timing',
        timescales='track 1: sample 7: duration 128 | 125'),
    one(durations((1, 600), (1, 512), (1, 500)), 'track 2: sample 1: duration 512 | 600',
        'ends timing', timescales='track 2: sample 1: duration 128 | 150'),
    one(LAST_LONGER, 'track 1: sample 9: duration 512 | 1024', 'ends timing',
        timescales='track 1: sample 9: duration 128 | 256'),
    one(put(STBL + '/ctts', 20, i32(-256)), 'track 1: sample 2: offset 256 | -256', 'timing',
        timescales='track 1: sample 2: offset 64 | -64'),
    one(put(STBL + '/ctts', 12, i32(8)), 'track 1: sample 1: offset 0 | 8', 'timing',
        origins='track 1: sample 2: offset 256 | 248',
        lead_ins='track 1: sample 2: offset 256 | 248',
        timescales='track 1: sample 1: offset 0 | 2'),
    one(MOVED, 'track 1: sample 1: offset 0 | 1000', 'origins timing',
        timescales='track 1: sample 1: offset 0 | 250', lead_ins='track 1: edits 0 | 2'),
    one(MOVED_ALIKE, 'track 1: sample 1: offset 0 | 1000', 'origins timing lead-ins',
        timescales='track 1: sample 1: offset 0 | 250'),
    one(put(STBL + '/sdtp', 4, b'\x10'), 'track 1: sample 1: flags 02000000 | 01000000', 'flags'),
    one(put(STBL + '/stss', 12, u32(2)), 'track 1: sample 2: flags 01810000 | 01800000',
        flags='track 1: sample 2: flags 00010000 | 00000000'),
    one(put(STBL + '/sbgp', 20, u32(2)), 'track 1: sample 1: group roll 7: 1 | 2', 'groups'),
    one(put(STBL + '/stz2', 12, b'\4'), 'track 1: sample 1: size 5 | 4'),
    one(put('mdat', 4, b'z'), 'track 1: sample 1: byte 5 of 5: 61 | 7a'),
]



def fragments_alone(file) -> None:
    """The samples of the second track are those of fragments alone."""
    for kind in ('stts', 'ctts', 'stss', 'stsc', 'co64'):
        fields(f'{SECOND}/{kind}', bytes(8))(file)
    all_of(fields(SECOND + '/stz2', bytes(7) + b'\x08' + bytes(4)),
           fields(SECOND + '/sdtp', bytes(4)), removed(SECOND, 'sbgp'))(file)


def tables_alone(file) -> None:
    """All samples are those of tables."""
    del file.children[file.children.index(file.at('moof')):]


# Changes by the words that hide them: a row of the table of docs/COMPARING.md each. The words are
# left out one after the other, the first five at once; what some of them hide, more hide too.
HIDDEN = [
    ('frames dropped', short_of_a_fragment, None),
    ('a byte of a frame', put('mdat', 4, b'z'), None),
    ('a sync flag', put(STBL + '/stss', 12, u32(2)), None),
    ('a matrix', put('moov/trak/tkhd', 52, u32(0)), None),
    ('a language', put(MDIA + '/mdhd', 32, u16(0x15c7)), None),
    ('a track that is disabled', put('moov/trak/tkhd', 3, b'\2'), None),
    ('tracks swapped', exchanged('moov', 'trak', 'trak[1]'), None),
    ('another type of handler', put(MDIA + '/hdlr', 11, b'x'), None),
    ('another byte of a sample description', put(STBL + '/stsd/mp4v', 8, b'x'), None),
    ('sound later by an empty edit', put('moov/trak[1]/edts/elst', 8, u64(1040)), 'edits'),
    ('all later by empty edits', LATER, 'edits lead-ins'),
    ('a second cut off in front of all', all_of(
        put('moov/trak/edts/elst', 36, u64(13824)), put('moov/trak[1]/edts/elst', 36, u64(26624))),
     'edits lead-ins'),
    ('one cut off elsewhere at its end', put('moov/trak/edts/elst', 28, u64(121)),
     'edits lead-ins'),
    ('a btrt of other numbers', put(STBL + '/stsd/mp4v', 86, u32(7)), 'bitrates'),
    ('no btrt', fields(STBL + '/stsd/mp4v', entries.pictures()), 'bitrates'),
    ('an esds of other rates', put(SECOND + '/stsd/mp4a', 49, entries.OTHERS), 'bitrates'),
    ('the last frame twice as long', LAST_LONGER, 'ends timing'),
    ('the first frame a second longer', durations((1, 26112), (1, 512), (1, 500)), 'ends timing'),
    ('sound a second later by tfdt', put('moof/traf[1]/tfdt', 4, u64(27124)), 'origins timing'),
    ('all offsets moved', MOVED, 'origins timing'),
    ('all offsets of both tracks moved alike', MOVED_ALIKE, 'origins timing lead-ins'),
    ('another name of a handler', longer(MDIA + '/hdlr'), 'labels'),
    ('another name of a compressor', put(STBL + '/stsd/mp4v', 50, b'x'), 'labels'),
    ('other flags of a track', put('moov/trak/tkhd', 1, b'\xff\xff\xff'), 'roles'),
    ('another layer', put('moov/trak/tkhd', 44, u16(1000)), 'roles'),
    ('another alternate group', put('moov/trak/tkhd', 46, b'\xff\xff'), 'roles'),
    ('another ID of a track', OTHER_ID, 'ids'),
    ('another ID of a stream', put(SECOND + '/stsd/mp4a', 42, u16(2)), 'ids'),
    ('the times of the movie in another timescale', MOVIE_SCALED,
     'timing timescales lead-ins'),
    ('the times of a track in another timescale', SCALED, 'timing timescales'),
    ('all durations doubled', all_of(durations((2, 1024), (1, 1000)),
                                     put('moof/traf[1]/tfhd', 12, u32(1024))), 'timing'),
    ('one frame inside longer', durations((1, 512), (1, 612), (1, 500)), 'timing'),
    ('two frames exchanged in composition', offsets(0, 768, -256), 'timing'),
]
