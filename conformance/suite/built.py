"""All files that are built when the suite runs."""
from __future__ import annotations

from collections.abc import Iterator
from . import answers, close_cases, extras, faults, stored
from .boxes import Box, File, Hole, stz2, table, u32
from .extras import STBL, Extra, line_of
from .movies import whole

# Bytes before a movie and its data, past all numbers of 32 bits.
FAR = 5 * 2**30
# The largest number of samples.
MOST = 2**24


def form(is_wide: bool) -> str:
    return 'wide' if is_wide else 'narrow'


def single_faults() -> Iterator:
    """A file for each fault in the order of checks, in both forms."""
    for is_wide in (False, True):
        for fault in faults.in_order(is_wide):
            yield Extra(f'{form(is_wide)}-{fault.name}', 'this fault alone', fault.kind,
                        fault.breaks, is_wide=is_wide)


def neighbouring_faults() -> Iterator:
    """A file for each two neighbours in the order of checks, in both forms."""
    for is_wide in (False, True):
        for first, second in faults.neighbours(faults.in_order(is_wide)):
            yield Extra(f'{form(is_wide)}-{first.name}-and-{second.name}', 'the first is named',
                        first.kind, first.breaks, second.breaks, is_wide=is_wide)


def all_extras() -> list[Extra]:
    return [*extras.all_extras(), *close_cases.all_extras()]


def accepted_files() -> Iterator:
    """The names and the bytes of accepted files of a few kilobytes, of which each two are compared:
    not those for a close reading, of which each is like one of these but for what it is for."""
    names = {case['file'] for case in stored.cases() if case['command'] != 'boxes'
             and not (case['status'] or 'length' in case or 'first_bytes' in case)}
    for name in sorted(names):
        yield name, stored.bytes_of('files', name + '.mp4')
    for extra in extras.all_extras():
        if extra.kind is None:
            yield extra.name, extra.make()[0].spelled()


def all_files() -> Iterator:
    yield from all_extras()
    yield from single_faults()
    yield from neighbouring_faults()


def alone() -> File:
    """The wide file's movie with one track alone."""
    movie = whole(True).at('moov')
    movie.children.remove(File([movie]).at('moov/trak[1]'))
    return File([movie])


def with_run_of(count):
    """A track without tables, and a run of so many samples of no bytes and no duration."""
    file = alone()
    extras.emptied(0)(file)
    traf = Box('traf', b'', [extras.head(0x020038, 1, 0, 0, 0), extras.run(0, count)])
    return File([*file.children, Box('moof', b'', [Box('mfhd'), traf])])


def with_tables_of(count: int) -> File:
    """A track with tables of so many samples of no bytes and no duration, in one chunk."""
    file = alone()
    stbl = file.at(STBL)
    stbl.children = [file.at(STBL + '/stsd'), table('stts', [(count, 0)]),
                     table('stsc', [(1, count, 1)]), table('stco', [(0,)]),
                     stz2(4, count, bytes(count // 2))]
    return file


def of_most_samples(make):
    """A file of 2^24 samples, and what is wanted of it.

    All samples are alike, so what is written of them is what is written of two, but for their
    count. Their list would be too long to compare.
    """
    two = make(2).spelled()
    normal_form, shown = answers.form(two), answers.shown(two)
    # The count stands before the data offset and the header of the empty data.
    place = len(normal_form) - 8 - 4 - 4
    normal_form = normal_form[:place] + u32(MOST) + normal_form[place + 4:]
    shown = shown.replace(b'"samples":2,', b'"samples":%d,' % MOST)
    data = make(MOST).spelled()
    return data, [*answers.of_boxes(data), answers.done('show', shown),
                  answers.done('normalise', normal_form), answers.done('extract', b'', 1)]


# Files of the largest number of samples: name, and how a file of so many is made.
FULL_FILES = [('most-samples', with_run_of), ('most-samples-in-tables', with_tables_of)]


def with_hole(kind: str, before: str, size: int) -> File:
    """The wide file with a box of so many bytes before the first of a type."""
    file = whole(True)
    kinds = [box.kind for box in file.children]
    file.children.insert(kinds.index(before), Hole(kind, size))
    return file


def far_files() -> list[tuple]:
    """Files whose movie or fragments lie far behind. Without the hole each is the wide file."""
    return [
        ('movie-behind-five-gigabytes', with_hole('free', 'moov', FAR)),
        ('fragments-behind-five-gigabytes', with_hole('mdat', 'moof', FAR)),
        ('movie-behind-eight-terabytes', with_hole('free', 'moov', 2**43 - 2**20)),
        ('movie-behind-2-to-the-48', with_hole('free', 'moov', 2**48)),
    ]


def with_long_movie() -> File:
    """The wide file without fragments, and at its end a `moov` with user data of 2^30 bytes."""
    file = whole(True)
    movie = file.at('moov')
    file.children = [file.at('ftyp'), file.at('mdat'), movie]
    movie.children.append(Hole('udta', 2**30))
    return file


def large_files() -> list[tuple]:
    """Files of more than 2^30 bytes that are refused: name, file, line."""
    too_long, both = with_long_movie(), with_long_movie()
    named = faults.long_edit('moov/trak[1]')(both)
    too_long.settle()
    both.settle()
    return [
        ('movie-too-long', too_long, line_of('MovieTooLarge', ('moov', too_long.at('moov')))),
        ('track-too-long-and-movie-too-long', both, line_of('TimeTooLarge', named)),
    ]
