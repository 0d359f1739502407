"""Files whose times are given one by one, and what is left of them where it doesn't count in which
timescale they are said: each written by hand."""
from __future__ import annotations

from collections.abc import Callable, Iterator
from dataclasses import dataclass, replace
from random import Random
from .boxes import (Box, File, full, i32, i64, no_samples, numbers, one_size, table, u16, u32,
                    u64)
from .movies import chunk_places, moof_of, movie_header, with_tables

LARGEST = 2**32 - 1


@dataclass(frozen=True)
class Times:
    """The times of a track: its timescale, how long each sample lasts and its composition offset,
    how long each edit lasts, its media time and its rate (1 where none is given), and when the
    track begins. So many of its samples are in tables; and edits may have 32 bits."""
    scale: int
    samples: tuple = ()
    edits: tuple = ()
    start: int = 0
    tabled: int = 0
    are_narrow: bool = False


def tables_of(data: Box, samples: tuple, first: int) -> list[Box]:
    """The tables of samples of a byte each, from this byte on."""
    if not samples:
        return no_samples()
    return [table('stts', [(1, lasts) for lasts, _ in samples]),
            table('ctts', [(1, offset) for _, offset in samples], 1),
            table('stsc', [(1, len(samples), 1)]), one_size(1, len(samples)),
            chunk_places(True, data, first)]


def edits_of(times: Times) -> Box:
    """The edits of a track."""
    length, place = (u32, i32) if times.are_narrow else (u64, i64)
    rows = [length(lasts) + place(at) + b''.join(u16(it % 2**16) for it in rate or (1, 0))
            for lasts, at, *rate in times.edits]
    return Box('edts', b'', [table('elst', rows, int(not times.are_narrow))])


def track_of(number: int, data: Box, times: Times, first: int) -> Box:
    """A track, of which those samples that its tables have begin at this byte."""
    tables = tables_of(data, times.samples[:times.tabled], first)
    track = with_tables(number, data, *tables, plainly=True)
    track.children[-1].children[0].patches.append((20, u32(times.scale)))
    if times.edits:
        track.children.insert(1, edits_of(times))
    return track


def fragment_of(number: int, moof: Callable, data: Box, times: Times, first: int) -> list[Box]:
    """The boxes of a `traf` with those samples of a track that its tables don't have, a byte each;
    the first sample of the track is this byte."""
    tabled, samples = times.samples[:times.tabled], times.samples[times.tabled:]

    def run():
        place = data.place + data.header_length() + first + len(tabled) - moof().place
        rows = b''.join(numbers(lasts, 1, offset) for lasts, offset in samples)
        return full(1, 0xb01) + numbers(len(samples), place) + rows
    time = times.start + sum(lasts for lasts, _ in tabled)
    return [Box('tfhd', full(0, 0x020000) + u32(number)), Box('tfdt', full(1) + u64(time)),
            Box('trun', run)]


def tree_of(scale: int, *tracks: Times, content: bytes = b'') -> File:
    """A file of a movie with this timescale, and of tracks with these times; each sample has a byte
    of the content, or all the same."""
    data = Box('mdat', content or b'a' * sum(len(times.samples) for times in tracks))
    header = movie_header(True)
    header.patches.append((20, u32(scale)))
    extends = [Box('trex', full(0) + numbers(number, 1, 0, 0, 0))
               for number in range(1, len(tracks) + 1)]
    movie = Box('moov', b'', [header])
    moof, first = moof_of(1), 0
    for number, times in enumerate(tracks, 1):
        movie.children.append(track_of(number, data, times, first))
        if times.samples[times.tabled:]:
            boxes = fragment_of(number, lambda: moof, data, times, first)
            moof.children.append(Box('traf', b'', boxes))
        first += len(times.samples)
    movie.children.append(Box('mvex', b'', extends))
    return File([movie, moof, data])


def file_of(scale: int, *tracks: Times, content: bytes = b'') -> bytes:
    """The bytes of such a file."""
    return tree_of(scale, *tracks, content=content).spelled()


def frames(*durations: int) -> tuple:
    """Samples of these durations without offsets."""
    return tuple((duration, 0) for duration in durations)


def largest(start: int) -> Times:
    return Times(3 * 2**20, frames(3 * 2**21), (), start)


ALONE = 'timescales'
PICTURES, SHIFTED = frames(1024, 1024, 1024), ((3000, -3000), (3000, 6000), (3000, -1500))
EMPTY, BELOW = (500, -1), (1000, -2)

# A movie's timescale and its tracks; and of these what is left, by the words that are left out.
CASES = [
    ('timescales of 1', (1, Times(1, frames(4, 6))), {
        ALONE: (1, Times(1, frames(4, 6))), f'ends,{ALONE}': (1, Times(1, frames(1, 1)))}),
    ('the largest timescales', (LARGEST, Times(LARGEST, frames(LARGEST, LARGEST))), {
        ALONE: (1, Times(1, frames(1, 1)))}),
    ('a tick less than the largest', (LARGEST, Times(LARGEST, frames(LARGEST, LARGEST - 1))), {
        ALONE: (1, Times(LARGEST, frames(LARGEST, LARGEST - 1))),
        f'ends,{ALONE}': (1, Times(1, frames(1, 1)))}),
    ('a prime', (1009, Times(1009, frames(1009, 2018, 1009))), {
        ALONE: (1, Times(1, frames(1, 2, 1)))}),
    ('negative offsets', (1000, Times(90000, SHIFTED)), {
        ALONE: (1, Times(60, ((2, -2), (2, 4), (2, -1)))),
        f'origins,{ALONE}': (1, Times(60, ((2, 0), (2, 6), (2, 1)))),
        f'ends,{ALONE}': (1, Times(60, ((1, -2), (2, 4), (1, -1)))),
        f'timing,{ALONE}': (1000, Times(1000, frames(1, 1, 1)))}),
    ('the least offset', (1000, Times(2**31, ((2**31, -2**31), (2**31, 0)))), {
        ALONE: (1, Times(1, ((1, -1), (1, 0)))),
        f'origins,{ALONE}': (1, Times(1, ((1, 0), (1, 1))))}),
    ('offsets that all are one', (1000, Times(600, ((60, 70), (60, 70), (60, 70)))), {
        ALONE: (1, Times(60, ((6, 7), (6, 7), (6, 7)))),
        f'origins,{ALONE}': (1, Times(10, frames(1, 1, 1)))}),
    ('a start', (1000, Times(48000, PICTURES, (), 96024)), {
        ALONE: (1, Times(6000, frames(128, 128, 128), (), 12003)),
        f'origins,{ALONE}': (1, Times(375, frames(8, 8, 8))),
        f'timing,{ALONE}': (1000, Times(1000, frames(1, 1, 1)))}),
    ('a start of more than 32 bits', (1000, largest(3 * 2**40)), {
        ALONE: (1, Times(1, frames(2), (), 2**20)),
        f'ends,{ALONE}': (1, Times(1, frames(1), (), 2**20))}),
    ('a start that only 1 divides', (1000, largest(3 * 2**40 + 1)), {
        ALONE: (1, largest(3 * 2**40 + 1)), f'origins,{ALONE}': (1, Times(1, frames(2)))}),
    ('durations of ends that differ', (1000, Times(600, frames(7, 60, 90, 11))), {
        ALONE: (1, Times(600, frames(7, 60, 90, 11))),
        f'ends,{ALONE}': (1, Times(20, frames(1, 2, 3, 1)))}),
    ('durations of 0', (1000, Times(600, frames(0, 0, 0))), {
        ALONE: (1, Times(1, frames(0, 0, 0))), f'ends,{ALONE}': (1, Times(1, frames(1, 0, 1)))}),
    ('one sample', (1000, Times(600, frames(25))), {
        ALONE: (1, Times(24, frames(1))), f'ends,{ALONE}': (1, Times(1, frames(1)))}),
    ('no samples', (1000, Times(600)), {
        ALONE: (1, Times(1)), f'timing,{ALONE}': (1000, Times(1000))}),
    ('no samples, but an edit', (1000, Times(600, (), ((250, 45),))), {
        ALONE: (4, Times(40, (), ((1, 3),))), f'edits,{ALONE}': (1, Times(1)),
        f'timing,{ALONE}': (1000, Times(1000, (), ((1, 1),)))}),
    ('no tracks', (1000,), {ALONE: (1,), f'timing,{ALONE}': (1000,)}),
    ('a media time', (1000, Times(12800, PICTURES, ((2000, 300),))), {
        ALONE: (1, Times(3200, frames(256, 256, 256), ((2, 75),))),
        f'edits,{ALONE}': (1, Times(25, frames(2, 2, 2))),
        f'timing,{ALONE}': (1000, Times(1000, frames(1, 1, 1), ((1, 1),))),
        f'edits,timing,{ALONE}': (1000, Times(1000, frames(1, 1, 1)))}),
    ('a media time that only 1 divides', (1000, Times(12800, PICTURES, ((2000, 301),))), {
        ALONE: (1, Times(12800, PICTURES, ((2, 301),)))}),
    ('an edit of no time at 0', (1000, Times(12800, PICTURES, ((0, 0),))), {
        ALONE: (1, Times(25, frames(2, 2, 2), ((0, 0),))),
        f'timing,{ALONE}': (1000, Times(1000, frames(1, 1, 1), ((0, 0),)))}),
    ('an empty edit', (1000, Times(12800, PICTURES, (EMPTY, (2000, 300)))), {
        ALONE: (2, Times(3200, frames(256, 256, 256), ((1, -1), (4, 75)))),
        f'timing,{ALONE}': (1000, Times(1000, frames(1, 1, 1), ((1, -1), (4, 1))))}),
    ('an empty edit alone', (1000, Times(12800, PICTURES, (EMPTY,))), {
        ALONE: (2, Times(25, frames(2, 2, 2), ((1, -1),)))}),
    ('a media time below -1', (1000, Times(12800, PICTURES, (BELOW,))), {
        ALONE: (1, Times(12800, PICTURES, ((1, -2),))),
        f'edits,{ALONE}': (1, Times(25, frames(2, 2, 2))),
        f'timing,{ALONE}': (1000, Times(1000, frames(1, 1, 1), ((1, -2),)))}),
    ('one below -1 beside others', (1000, Times(12800, PICTURES, (EMPTY, (1000, -1024), (1500, 1024)))), {
        ALONE: (2, Times(12800, PICTURES, ((1, -1), (2, -1024), (3, 1024))))}),
    ('the least media time', (1000, Times(2**31, frames(2**31), ((1000, -2**63),))), {
        ALONE: (1, Times(2**31, frames(2**31), ((1, -2**63),)))}),
    ('one below -1 in the other track', (
        1000, Times(600, frames(60), (BELOW,)), Times(600, frames(60))), {
        ALONE: (1, Times(600, frames(60), ((1, -2),)), Times(10, frames(1)))}),
    ('edits of two tracks', (
        600, Times(50, frames(100), ((300, 0),)), Times(70, frames(140), ((450, 0),))), {
        ALONE: (4, Times(1, frames(2), ((2, 0),)), Times(1, frames(2), ((3, 0),)))}),
    ('edits of more than 32 bits', (2**31, Times(50, frames(100), ((2**62, 2**40),))), {
        ALONE: (1, Times(25, frames(50), ((2**31, 2**39),)))}),
    ('two tracks of other timescales', (
        1000, Times(90000, frames(3600, 3600)), Times(44100, frames(1050, 1050, 1050))), {
        ALONE: (1, Times(25, frames(1, 1)), Times(42, frames(1, 1, 1)))}),
]

# ---- the same times in other timescales

# A film with all that has a time: sound that begins later, an empty edit, offsets of both signs.
FILM = (100, Times(250, ((10, -20), (10, 20), (12, 0), (10, 5)), ((30, -1), (170, 20))),
        Times(441, frames(9, 9, 7), ((60, 0),), 27))
PLAIN = (100, Times(250, frames(10, 10, 12, 10)), Times(441, frames(9, 9, 7)))
# By what its movie's times and those of each track are multiplied.
FACTORS = [(1, 2, 1), (1, 1, 3), (7, 1, 1), (10, 10, 10), (9, 48, 100), (2**16, 2**20, 2**19 - 1)]


def scaled(film: tuple, factors: tuple) -> tuple:
    """The same times in other timescales."""
    movie, *tracks = film
    of_movie, *owns = factors
    return (movie * of_movie, *(
        Times(times.scale * own, tuple((lasts * own, offset * own) for lasts, offset in times.samples),
              tuple((lasts * of_movie, at * own if at > 0 else at) for lasts, at in times.edits),
              times.start * own) for times, own in zip(tracks, owns)))


def other_by_a_tick(film: tuple) -> Iterator[tuple]:
    """A film in which one time is a tick more: what it is, and the film."""
    movie, *tracks = film
    if any(times.edits for times in tracks):
        yield 'timescale of the movie', (movie + 1, *tracks)
    for number, times in enumerate(tracks):
        for told, other in ticks(times):
            yield f'track {number + 1}: {told}', (movie, *tracks[:number], other, *tracks[number + 1:])


def ticks(times: Times) -> Iterator[tuple]:
    """The times of a track of which one is a tick more."""
    def more(rows: tuple, row: int, column: int) -> tuple:
        new = list(rows[row])
        new[column] += 1
        return (*rows[:row], tuple(new), *rows[row + 1:])
    yield 'timescale', replace(times, scale=times.scale + 1)
    yield 'start', replace(times, start=times.start + 1)
    for row in range(len(times.samples)):
        for column, told in enumerate(('duration', 'offset')):
            yield f'{told} {row + 1}', replace(times, samples=more(times.samples, row, column))
    for row in range(len(times.edits)):
        for column, told in enumerate(('segment duration', 'media time')):
            yield f'{told} {row + 1}', replace(times, edits=more(times.edits, row, column))


# ---- films at random

def any_times(random: Random) -> Times:
    """The times of a track, of which most have a divisor in common."""
    unit = random.choice((1, 1, 2, 6, 512, 2**20 + 1))

    def time(least: int = 0) -> int:
        return unit * random.randint(least, 12)
    samples = tuple((time(), time(-12)) for _ in range(random.randint(0, 4)))
    media_times = [random.choice((time(), time(), -1, -1, -random.randint(2, 9)))
                   for _ in range(random.choice((0, 0, 1, 2)))]
    edits = tuple((random.randint(0, 9) * 50, at) for at in media_times)
    return Times(time(1), samples, edits, random.choice((0, time())) if samples else 0)


def any_film(random: Random) -> tuple:
    """A film of up to three tracks."""
    tracks = [any_times(random) for _ in range(random.randint(1, 3))]
    return (random.choice((1, 100, 600, 90000)), *tracks)
