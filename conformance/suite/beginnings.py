"""Films whose tracks begin at other times, and what is left of them where it doesn't count how they
begin: each written by hand, and films at random."""
from __future__ import annotations

from collections.abc import Callable, Iterator
from dataclasses import replace
from random import Random

from .boxes import Box, File, Hole
from .movies import movie_header
from .scales import LARGEST, Times, frames, track_of

MICROSECONDS, LONGEST = 10**6, 2**64 - 1


def waiting(wait: int) -> tuple:
    """The edits of a track that waits so many microseconds."""
    return (wait, -1), (0, 0)


TWO = frames(10, 10)
PICTURES, SOUND = Times(1000, TWO), Times(48000, frames(1024, 1024))
LATE = replace(PICTURES, start=1)


def sound(start: int) -> Times:
    """Sound that begins later."""
    return replace(SOUND, start=start)


def late_sound(wait: int) -> Times:
    """Sound that is told to wait."""
    return replace(SOUND, edits=waiting(wait))


def late_pictures(wait: int) -> Times:
    """Pictures that are told to wait."""
    return replace(PICTURES, edits=waiting(wait))


# One begins at the last time that is possible, one as long before 0 as an edit can say.
FAR, BEFORE = Times(LARGEST, frames(1), (), 2**62), Times(LARGEST, frames(1), ((0, 2**63 - 1),))


def told(*tracks: Times) -> tuple:
    """A film whose edits say how long tracks wait."""
    return (MICROSECONDS, *tracks)


def pictures(*edits: tuple) -> Times:
    """Pictures with edits."""
    return replace(PICTURES, edits=edits)


def cut_off(track: Times) -> tuple:
    """A film of pictures and of this track."""
    return 1000, PICTURES, track


# A film: the movie's timescale, and its tracks; and what is left of it.
CASES = [
    ('no edits', (1000, PICTURES, SOUND), told(PICTURES, SOUND)),
    ('a start', (1000, PICTURES, sound(24000)), told(PICTURES, late_sound(500_000))),
    ('starts of both', (1000, replace(PICTURES, start=5000), sound(240000)),
     told(PICTURES, SOUND)),
    ('the first track is later', (
        1000, replace(PICTURES, start=5001), sound(240000)),
     told(late_pictures(1000), SOUND)),
    ('the second of three is the first', (
        1000, replace(PICTURES, start=30), replace(PICTURES, start=10),
        replace(PICTURES, start=20)),
     told(late_pictures(20_000), PICTURES, late_pictures(10_000))),
    ('the last of three is the first', (
        1000, replace(PICTURES, start=30), replace(PICTURES, start=20),
        replace(PICTURES, start=10)),
     told(late_pictures(20_000), late_pictures(10_000), PICTURES)),
    ('offsets', (1000, Times(1000, ((10, 20), (10, -10))), Times(1000, ((10, 5),))),
     told(Times(1000, ((10, 0), (10, -30)), waiting(15_000)), Times(1000, frames(10)))),
    ('a start and an offset that is less', (
        1000, Times(1000, ((10, -20), (10, 0)), (), 25), Times(1000, ((10, 2),))),
     told(Times(1000, ((10, 0), (10, 20)), waiting(3000)), Times(1000, frames(10)))),
    ('the offsets farthest apart', (
        1000, Times(1, ((1, 2**31 - 1),)), Times(1, ((1, -2**31),))),
     told(Times(1, frames(1), waiting(LARGEST * MICROSECONDS)), Times(1, frames(1)))),
    ('an empty edit', cut_off(replace(SOUND, edits=((500, -1), (7, 0)))),
     told(PICTURES, late_sound(500_000))),
    ('an empty edit, and a media time', cut_off(replace(SOUND, edits=((500, -1), (7, 12000)))),
     told(PICTURES, late_sound(250_000))),
    ('a media time alone', cut_off(replace(SOUND, edits=((7, 12000),))),
     told(late_pictures(250_000), SOUND)),
    ('a plain edit at 0', cut_off(replace(SOUND, edits=((7, 0),))), told(PICTURES, SOUND)),
    ('empty edits of any rates', cut_off(replace(SOUND, edits=(
        (100, -1, 0, 0), (200, -1, -5, 7), (300, -1, 2, 0), (0, 0)))),
     told(PICTURES, late_sound(600_000))),
    ('empty edits of no time', cut_off(replace(SOUND, edits=((0, -1), (0, -1), (1, 0)))),
     told(PICTURES, SOUND)),
    # 4,294,967.295 seconds, less 2,147,483,647 of 48,000, which are 44,739.242645833..
    ('edits of 32 bits', cut_off(replace(
        SOUND, edits=((LARGEST, -1), (0, 2**31 - 1)), are_narrow=True)),
     told(PICTURES, late_sound(4_294_967_295_000 - 44_739_242_646))),
    ('all ways at once', (
        600, Times(1000, ((10, 25), (10, 5)), ((60, -1), (30, -1), (0, 100)), 50),
        Times(1000, frames(10), (), 100)),
     told(Times(1000, ((10, 0), (10, -20)), waiting(25_000)), Times(1000, frames(10)))),
    ('a step of both, each by its own way', (
        600, replace(SOUND, edits=((300, -1), (9, 4))), replace(PICTURES, start=500),
        replace(SOUND, edits=((0, 4),), start=24000)),
     told(SOUND, late_pictures(83), SOUND)),
    ('samples in tables', cut_off(replace(SOUND, edits=((500, -1), (0, 0)), tabled=2)),
     told(PICTURES, late_sound(500_000))),
    ('samples in tables and in a fragment', (1000, replace(PICTURES, start=1), Times(
        1000, ((10, 4), (10, 7), (10, 9)), (), 0, 1)),
     told(PICTURES, Times(1000, ((10, 0), (10, 3), (10, 5)), waiting(3000)))),
    # Rounding: down, so that what is a little less than a microsecond is none.
    ('a third of a second', cut_off(Times(3, frames(1), (), 1)),
     told(PICTURES, Times(3, frames(1), waiting(333_333)))),
    ('two thirds of a second', cut_off(Times(3, frames(1), (), 2)),
     told(PICTURES, Times(3, frames(1), waiting(666_666)))),
    ('less than a microsecond', cut_off(Times(MICROSECONDS + 1, frames(1), (), 1)),
     told(PICTURES, Times(MICROSECONDS + 1, frames(1)))),
    ('a microsecond', cut_off(Times(MICROSECONDS, frames(1), (), 1)),
     told(PICTURES, Times(MICROSECONDS, frames(1), waiting(1)))),
    ('a little more than one', cut_off(Times(MICROSECONDS - 1, frames(1), (), 1)),
     told(PICTURES, Times(MICROSECONDS - 1, frames(1), waiting(1)))),
    ('a little less than two', cut_off(Times(MICROSECONDS + 1, frames(1), (), 2)),
     told(PICTURES, Times(MICROSECONDS + 1, frames(1), waiting(1)))),
    ('the difference is rounded, not the times', (
        1, Times(3, frames(1), (), 2), Times(3, frames(1), (), 4)),
     told(Times(3, frames(1)), Times(3, frames(1), waiting(666_666)))),
    ('the difference of timescales', (1, Times(3, frames(1), (), 1), Times(2, frames(1), (), 1)),
     told(Times(3, frames(1)), Times(2, frames(1), waiting(166_666)))),
    ('the largest timescales', (
        LARGEST, Times(LARGEST, frames(1), (), 1), Times(LARGEST - 1, frames(1), (), LARGEST)),
     told(Times(LARGEST, frames(1)), Times(LARGEST - 1, frames(1), waiting(MICROSECONDS)))),
    ('the largest timescale, a tick', (LARGEST, Times(LARGEST, frames(1)), Times(
        LARGEST, frames(1), ((1, -1), (0, 0)))),
     told(Times(LARGEST, frames(1)), Times(LARGEST, frames(1)))),
    # Widths.
    ('a start of 2^62', (LARGEST, PICTURES, FAR),
     told(PICTURES, replace(FAR, start=0, edits=waiting(2**62 * MICROSECONDS // LARGEST)))),
    ('a media time of 2^63 - 1', (LARGEST, PICTURES, BEFORE),
     told(late_pictures((2**63 - 1) * MICROSECONDS // LARGEST), Times(LARGEST, frames(1)))),
    ('both', (1, FAR, BEFORE),
     told(replace(FAR, start=0, edits=waiting((2**62 + 2**63 - 1) * MICROSECONDS // LARGEST)),
          Times(LARGEST, frames(1)))),
    ('a tick behind 2^62', (1, FAR, replace(FAR, start=2**62 + 2**13)),
     told(replace(FAR, start=0), replace(FAR, start=0, edits=waiting(1)))),
    ('a start of 2^62 seconds', (1, PICTURES, Times(1, frames(1), (), 2**62)),
     told(PICTURES, Times(1, frames(1), waiting(LONGEST)))),
    ('an empty edit of 2^63', (LARGEST, PICTURES, replace(SOUND, edits=((2**63, -1), (0, 0)))),
     told(PICTURES, late_sound(2**63 * MICROSECONDS // LARGEST))),
    ('an empty edit of 2^64 - 1', (
        LARGEST, PICTURES, replace(SOUND, edits=((LONGEST, -1), (0, 0)))),
     told(PICTURES, late_sound(LONGEST * MICROSECONDS // LARGEST))),
    ('empty edits of more than 64 bits', (
        LARGEST, PICTURES, replace(SOUND, edits=((LONGEST, -1),) * 4 + ((0, 0),))),
     told(PICTURES, late_sound(4 * LONGEST * MICROSECONDS // LARGEST))),
    ('empty edits of more than 64 bits in both', (
        LARGEST, pictures((LONGEST, -1), (LONGEST, -1), (0, 0)),
        replace(SOUND, edits=((LONGEST, -1), (LONGEST - LARGEST, -1), (0, 0)))),
     told(late_pictures(MICROSECONDS), SOUND)),
    # As long as an edit can last.
    *((f'{LONGEST + more} microseconds', (MICROSECONDS, PICTURES, replace(
        SOUND, edits=((LONGEST - 2, -1), (2 + more, -1), (0, 0)))),
       told(PICTURES, late_sound(min(LONGEST, LONGEST + more)))) for more in range(-2, 3)),
    ('2^64 - 1 seconds', (1, PICTURES, replace(SOUND, edits=((LONGEST, -1), (0, 0)))),
     told(PICTURES, late_sound(LONGEST))),
    # Tracks without samples.
    ('a track without samples', (1000, pictures((40, -1), (0, 0)), Times(90000)),
     told(PICTURES, Times(90000))),
    ('edits of a track without samples', (1000, PICTURES, Times(90000, (), ((500, -1), (0, 7)))),
     told(PICTURES, Times(90000))),
    ('odd edits of a track without samples', (
        1000, Times(90000, (), ((9, 7, 2, 0), (5, -2))), SOUND),
     told(Times(90000), SOUND)),
    ('no samples', (1000, Times(90000, (), ((500, -1), (0, 7))), Times(600)),
     told(Times(90000), Times(600))),
    ('no tracks', (1000,), told()),
]
# Edits that say more than when a track begins.
SAYING_MORE = [
    ('an empty edit behind the plain one', ((500, -1), (7, 0), (9, -1))),
    ('an empty edit of no time behind it', ((7, 0), (0, -1))),
    ('two plain edits', ((7, 0), (7, 336))),
    ('an empty edit between plain ones', ((7, 0), (500, -1), (7, 336))),
    ('an empty edit alone', ((500, -1),)),
    ('two empty edits alone', ((500, -1), (0, -1))),
    ('twice as fast', ((500, -1), (7, 0, 2, 0))),
    ('no rate', ((7, 0, 0, 0),)),
    ('a rate below 0', ((7, 0, -1, 0),)),
    ('a fraction of a rate', ((7, 0, 1, 1),)),
    ('a fraction below 0', ((7, 0, 1, -1),)),
    ('a media time below -1', ((500, -1), (7, -2))),
    ('the least media time', ((7, -2**63),)),
    ('a media time below -1 before a plain edit', ((7, -2), (7, 0))),
]
# A film whose sound has such edits, and begins at a start, with an offset; the start and the first
# offset are left out all the same.
CASES += [(name, (1000, replace(PICTURES, start=3), Times(
    48000, ((1024, 5), (1024, -5)), edits, 24000)),
    (1000, PICTURES, Times(48000, ((1024, 0), (1024, -10)), edits))) for name, edits in SAYING_MORE]
# The same of the first track, and beside a track without samples.
CASES += [
    ('the first track says more', (
        1000, pictures((7, 0), (7, 3)), sound(24000), Times(600)),
     (1000, pictures((7, 0), (7, 3)), SOUND, Times(600))),
    ('both say more', (1000, pictures((7, 0), (7, 3)), replace(SOUND, edits=((7, 0, 3, 0),))),
     (1000, pictures((7, 0), (7, 3)), replace(SOUND, edits=((7, 0, 3, 0),)))),
]

# ---- two films


def third(wait: int) -> tuple:
    """A film whose sound waits so many thirds of a second."""
    return 3, PICTURES, replace(SOUND, edits=((wait, -1), (0, 0)))


def micro(wait: int) -> tuple:
    """A film whose sound waits so many microseconds."""
    return MICROSECONDS, PICTURES, replace(SOUND, edits=((wait, -1), (0, 0)))


WAITS = 'track 2: edit 1: segment duration'
# Two films, and the first difference without lead-ins: none where they are the same.
PAIRS = [
    ('a second later as a whole', (1000, PICTURES, SOUND), (
        1000, replace(PICTURES, start=1000), sound(48000)), ''),
    ('a second later by starts and edits', (1000, PICTURES, SOUND), (
        600, replace(PICTURES, start=1000), replace(SOUND, edits=((600, -1), (0, 0)))), ''),
    ('a second later by offsets and edits', (1000, PICTURES, SOUND), (
        600, Times(1000, ((10, 1000), (10, 1000))), replace(SOUND, edits=((600, -1), (0, 0)))), ''),
    ('an empty edit in place of starts', (
        1000, replace(PICTURES, start=7), sound(24000)), (
        1000, pictures((7, -1), (0, 0)), replace(SOUND, edits=((500, -1), (0, 0)))), ''),
    ('cut off elsewhere', (1000, pictures((9, 0)), SOUND), (1000, pictures((12, 0)), SOUND), ''),
    ('sound half a second later', (1000, PICTURES, SOUND), (
        1000, PICTURES, sound(24000)), 'track 2: edits 0 | 2'),
    ('sound that waits half as long', (
        1000, replace(PICTURES, start=1000), sound(96000)), (1000, PICTURES, sound(24000)),
     WAITS + ' 1000000 | 500000'),
    ('pictures half a second later', (1000, PICTURES, SOUND), (
        1000, replace(PICTURES, start=500), SOUND), 'track 1: edits 0 | 2'),
    ('the same within a microsecond', third(1), micro(333_333), ''),
    ('a microsecond more', third(1), micro(333_334), WAITS + ' 333333 | 333334'),
    ('a microsecond less', third(1), micro(333_332), WAITS + ' 333333 | 333332'),
    ('two thirds', third(2), micro(666_666), ''),
    ('two thirds, rounded up', third(2), micro(666_667), WAITS + ' 666666 | 666667'),
    ('one says more, waiting the same', micro(500_000), (
        MICROSECONDS, PICTURES, replace(SOUND, edits=((500_000, -1), (0, 0), (0, -1)))),
     'track 2: edits 2 | 3'),
    ('one says more, in a movie of milliseconds', micro(500_000), (
        1000, PICTURES, replace(SOUND, edits=((500, -1), (0, 0, 2, 0)))),
     'movie: timescale 1000000 | 1000'),
    ('none has samples', (1000, Times(600, (), ((5, 0),))), (600, Times(600, (), ((6, 0, 2, 0),))),
     ''),
    ('edits of a track without samples', (1000, PICTURES, Times(600, (), ((5, 0),))), (
        1000, PICTURES, Times(600, (), ((6, 0, 2, 0),))), ''),
    ('longer than an edit can last', (1, PICTURES, replace(SOUND, edits=((LONGEST, -1), (0, 0)))), (
        1, PICTURES, replace(SOUND, edits=((2**63, -1), (0, 0)))), ''),
]

# ---- what is told passes a limit

# So many units of time of a track are as long as may be in microseconds, where one is a second.
MOST_SECONDS = (2**63 - 1) // MICROSECONDS
FAR_OFFSETS = ((1, -2**31), (1, 2**31 - 1))


def lasting(seconds: int, offsets: tuple = (), **others) -> Times:
    """A track of samples that last so many seconds, and of some with offsets."""
    whole, rest = divmod(seconds - len(offsets), LARGEST)
    return Times(1, (*offsets, *frames(*[LARGEST] * whole, rest)), **others)


# A film, and by words what refuses it where tracks are told how long they wait: the number of a
# track, or None. Without lead-ins it has a normal form.
TOO_LONG = [
    ('as long as may be', (1, lasting(MOST_SECONDS)), {'lead-ins': None, 'edits,lead-ins': None}),
    ('a second more', (1, lasting(MOST_SECONDS + 1)), {
        '': None, 'edits': None, 'timescales': None, 'lead-ins': 0, 'timing,lead-ins': 0,
        'timescales,lead-ins': 0, 'edits,timing,lead-ins': 0, 'packaging-2': 0, 'media-2': 0}),
    ('the second track', (1, PICTURES, lasting(MOST_SECONDS + 1), lasting(MOST_SECONDS + 2)),
     {'lead-ins': 1, 'media-2': 1}),
    ('two seconds a unit', (1, PICTURES, replace(lasting(2 * MOST_SECONDS + 1), scale=2)),
     {'lead-ins': None}),
    ('a unit more of two a second', (1, PICTURES, replace(lasting(2 * MOST_SECONDS + 2), scale=2)),
     {'lead-ins': 1}),
    ('far offsets before it', (1, Times(1, FAR_OFFSETS), lasting(MOST_SECONDS + 1)),
     {'': None, 'lead-ins': 1, 'timing,lead-ins': 1}),
    ('its own edits say that it is short', (1, lasting(MOST_SECONDS + 1, edits=((9, -1), (9, 0)))),
     {'': None, 'lead-ins': 0}),
    ('its edits say more', (1, lasting(MOST_SECONDS + 1, edits=((9, 0), (9, 5)))),
     {'lead-ins': None, 'edits,lead-ins': None, 'packaging-2': None}),
    ('the edits of another track say more', (
        1, lasting(MOST_SECONDS + 1), pictures((9, 0), (9, 5))), {'lead-ins': None}),
]


def of_length(moov: Callable, more: int) -> File:
    """A film of which a track waits that has no edits of its own. Its `moov` has so many bytes in
    the normal form of what is told, by user data at its end; `moov` says how many it has of such a
    file."""
    def made(size: int) -> File:
        data = Box('mdat', b'ab')
        tracks = Times(1000, frames(10), (), 0, 1), Times(1000, ((10, 500),), (), 0, 1)
        movie = Box('moov', b'', [movie_header(True), *(
            track_of(number, data, times, number - 1) for number, times in enumerate(tracks, 1))])
        movie.children.append(Hole('udta', size))
        file = File([data, movie])
        file.settle()
        return file
    # A header of a box of user data has 16 bytes here, and 8 in the normal form.
    return made(16 + more - moov(made(16)))


# ---- films at random


def any_edits(random: Random, unit: int) -> tuple:
    """Edits, most of which say no more than when a track begins."""
    lasts = [0, 1, 40, 500, 2**31, 2**63, LONGEST, unit * random.randint(1, 9),
             random.getrandbits(64)]
    rates = [(), (), (0, 0), (2, 0), (-1, 7)]
    empty = [(random.choice(lasts), -1, *random.choice(rates))
             for _ in range(random.choice((0, 0, 1, 1, 2)))]
    media_time = random.choice((0, 0, 7, 1024, random.randint(1, 2**20), 2**62, 2**63 - 1,
                                random.getrandbits(63)))
    # Without a duration of 0 edits say how long a track is, which may be too long.
    plain = [(0, media_time)] * (1 if empty else random.randint(0, 1))
    more = [random.choice([(0, -1), (9, 5), (0, 3, 2, 0)])] if random.random() < .06 else []
    return (*empty, *plain, *more)


def any_times(random: Random) -> Times:
    """The times of a track."""
    scale = random.choice((1, 2, 3, 600, 1000, 12800, 44100, 48000, 90000, MICROSECONDS, LARGEST,
                           random.randint(1, LARGEST)))
    count = random.choice((0, 1, 1, 2, 3, 4))
    offsets = [random.choice((0, 0, 5, random.randint(-2**20, 2**20), 2**31 - 1))
               for _ in range(count)]
    samples = tuple((random.randint(0, 2000), offset) for offset in offsets)
    tabled = random.choice((0, 0, count, count // 2))
    begins = random.choice((0, 0, 1, scale // 2, scale, random.randint(0, 2**33),
                            random.getrandbits(62), 2**62))
    edits = any_edits(random, scale) if random.random() < .6 else ()
    are_narrow = all(lasts < 2**32 and at < 2**31 for lasts, at, *_ in edits)
    return Times(scale, samples, edits, 0 if tabled or not count else begins, tabled, are_narrow)


def any_film(random: Random) -> tuple:
    """A film of up to three tracks."""
    scale = random.choice((1, 2, 600, 1000, 90000, MICROSECONDS, LARGEST,
                           random.randint(1, LARGEST)))
    return (scale, *(any_times(random) for _ in range(random.randint(1, 3))))


def with_empty(times: Times, wait: int) -> Times:
    """A track that begins so many units of the movie later, by an empty edit."""
    return replace(times, edits=((wait, -1), *(times.edits or ((0, 0),))), are_narrow=False)


def later(film: tuple, seconds: int, random: Random) -> tuple:
    """A film that begins so many seconds later as a whole: each track by a way of its own."""
    movie, *tracks = film

    def moved(times: Times) -> Times:
        if not times.samples:
            return times
        offset = seconds * times.scale
        at = times.start + offset
        ways = [with_empty(times, seconds * movie)]
        if not times.tabled and at < 2**62 + 2**61:
            ways.append(replace(times, start=at))
        if all(-2**31 <= it + offset < 2**31 for _, it in times.samples):
            ways.append(replace(times, samples=tuple(
                (lasts, it + offset) for lasts, it in times.samples)))
        return random.choice(ways)
    return (movie, *map(moved, tracks))


def other_by_a_half(film: tuple) -> Iterator[tuple]:
    """Films of which one track with samples begins half a second later, where the movie's timescale
    can say that."""
    movie, *tracks = film
    for number, times in enumerate(tracks):
        if times.samples and movie % 2 == 0:
            yield movie, *tracks[:number], with_empty(times, movie // 2), *tracks[number + 1:]
