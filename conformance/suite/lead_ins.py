"""What is left of a movie where it doesn't count how its tracks begin, but how long each of them
waits, by its description: in fractions.

Each track with samples waits as long as its first sample is shown later than the first of all. One
empty edit says it, and a movie whose edits say more stays as it is.
"""
from __future__ import annotations

from fractions import Fraction

from . import normal

WORD = 'lead-ins'
# How many are a second of what edits last then, and as long as an edit can last.
MICROSECONDS, LONGEST = 10**6, 2**64 - 1
# What a presentation may be at most: the last time of a track, and the bytes of its `moov`.
MOST_TIME, MOST_MOOV = 2**63 - 1, 2**30


def with_origins(words: frozenset) -> frozenset:
    """All that is left out where these words are: with lead-ins origins too."""
    return words | {'origins'} if WORD in words else words


def is_empty(edit: list[int]) -> bool:
    """Whether nothing of the track is shown in an edit; its rate doesn't matter then."""
    return edit[1] == -1


def begins_simply(edits: list[list[int]]) -> bool:
    """Whether edits say no more than when a track begins: there are none, or empty ones, and behind
    these one from its media time on, as fast as it is."""
    if not edits:
        return True
    *before, last = edits
    return all(map(is_empty, before)) and last[1] >= 0 and last[2:] == [1, 0]


def first_shown(track, movie_timescale: int) -> Fraction:
    """When the first sample of a track is shown, in seconds."""
    empty = sum(edit[0] for edit in track.edits if is_empty(edit))
    shown_from = next((edit[1] for edit in track.edits if not is_empty(edit)), 0)
    begins = track.start + track.samples[0].offset - shown_from
    return Fraction(empty, movie_timescale) + Fraction(begins, track.timescale)


def waits(movie) -> list[int] | None:
    """How many microseconds each track waits; None where edits say more."""
    shown = [track for track in movie.tracks if track.samples]
    if not all(begins_simply(track.edits) for track in shown):
        return None
    times = {track.id: first_shown(track, movie.timescale) for track in shown}
    first = min(times.values(), default=Fraction(0))
    # A track without samples waits for nothing.
    late = [times.get(track.id, first) - first for track in movie.tracks]
    return [min(LONGEST, it.numerator * MICROSECONDS // it.denominator) for it in late]


def edits_of(wait: int) -> list[list[int]]:
    """The edits of a track that waits so long."""
    return [[wait, -1, 1, 0], [0, 0, 1, 0]] if wait else []


def tell(movie) -> str | None:
    """Tells the tracks of a movie, of which nothing is left out yet, how long they wait. Answers
    the line that refuses it then, if it passes a limit."""
    found = waits(movie)
    if found is not None:
        movie.timescale = MICROSECONDS
        for track, wait in zip(movie.tracks, found):
            track.edits = edits_of(wait)
    return refusal(movie)


def refusal(movie) -> str | None:
    """The line that refuses a movie which passes a limit."""
    for track in movie.tracks:
        if max(track.start + track.duration(), track.length(movie.timescale)) > MOST_TIME:
            return f'refused: TimeTooLarge in tkhd at {track.header.place}'
    if normal.movie_box(movie).length() > MOST_MOOV:
        return f'refused: MovieTooLarge in moov at {movie.moov.place}'
    return None
