"""What MP4 files say, by mp4norm: show, samples, columns, boxes, compare, normalise, check, sum.

    import mp4norm

    movie = mp4norm.show("movie.mp4")
    assert mp4norm.compare("want.mp4", "made.mp4", without=["times"])

A file is a name, or the bytes of a file; bytes go to the program's standard input. A file that the
program refuses raises Refused, all else that goes wrong Failed. Only `normalise` writes, and only
where it is given a name for what it writes.

The program is the one that MP4NORM names in the environment; else `mp4norm` beside this module;
else the one that was installed with it; else the one on the path. docs/PYTHON.md says which of its
answers this module rests on.

Where there is the C library, files are looked at in this process, and the program is run only for
what the library doesn't have: a new file, `foreign`, a track alone, and files that aren't read into
memory. It is the one that MP4NORM_LIBRARY names, and none where that is empty; else, unless MP4NORM
is set, the one beside this module, or installed with it.

In a clone of the repository both are those of its dist/.
"""
from __future__ import annotations

import contextlib
import functools
import json
import os
import re
import shutil
import stat
import struct
import subprocess
import tempfile
import unicodedata
from dataclasses import dataclass, field, fields
from fractions import Fraction
from typing import (IO, Any, Callable, ContextManager, Dict, Iterable, Iterator, List, Mapping,
                    NamedTuple, Optional, Sequence, Tuple, Type, TypeVar, Union, cast)

__all__ = ["Alignment", "Between", "Box", "Comparison", "Difference", "Edit", "Error", "Failed",
           "Movie", "Refused", "Sample", "Track", "boxes", "check", "columns", "compare",
           "normalise", "program", "samples", "show", "sum", "uses"]

Name = Union[str, "os.PathLike[str]"]
File = Union[Name, bytes]
Words = Union[str, Iterable[str]]
Made = TypeVar("Made")

# The last line of standard error; before it the name of a file may stand.
SAID = re.compile(r"(?:(.*): )?(?:refused: (\w+) in (.{4}|[0-9a-f]{8}) at (\d+)|failed: (.+))",
                  re.DOTALL)
DIFFERENT, INVALID = 5, 64
# As many bytes of a file are read into memory for the library; so many of a text are first asked
# for.
LONGEST, ROOM = 1 << 30, 1 << 16
# With this an open waits for nobody who writes to a pipe.
NOT_WAITING = getattr(os, "O_NONBLOCK", 0)
# What the library answers (include/mp4norm.h): status, kind, type of a box, which of two files,
# place, length. And what it is asked of two: words, listing, limit, syntax; all, as JSON, aligned.
ANSWER, ASKED = "=4I2Q", "=4I"
DONE, REFUSED, MEMORY, NO_TRACK = 0, 1, 2, 4
ALL, JSON, ALIGNED = 1, 1, 2
# Where programs and libraries are, from the folder of this module: in a clone, and installed.
PUBLISHED = "../dist/x86_64-linux"
# Kinds of fault, from number 1 on; and words that may be left out, from the lowest bit on.
KINDS = ("ShortHeader BadSize Overrun ShortBox BoxNotInProfile DuplicateBox MissingBox BadVersion"
         " BadFlags BadValue OutsideData CountMismatch BadOrder BadDescriptionIndex"
         " SampleOutsideFile UnknownTrack Gap OffsetTooLarge ItemLocation TooManySamples"
         " TimeTooLarge MovieTooLarge FragmentBeforeMovie").split()
FLAGS = {word: 1 << bit for bit, word in enumerate(
    ("times edits flags groups metadata bitrates ends origins labels timing roles ids timescales"
     " lead-ins").split())}
FLAGS.update({"packaging-1": 255, "media-1": 1023, "packaging-2": 15485, "media-2": 15741})


class State(NamedTuple):
    """What the system tells of a file, and changes with it: which it is, its length, when it was
    last written to, and when that or its rights were last changed."""

    device: int
    inode: int
    length: int
    modified: int
    changed: int


class Error(Exception):
    """What the program said in place of an answer. `file` is the name that was given, `-` where
    bytes were."""

    file: str


class Refused(Error):
    """The file has a fault: its kind, the type of the box that has it, and the place of that box in
    the file. docs/FORMAT.md has the kinds."""

    def __init__(self, file: str, kind: str, box: str, offset: int) -> None:
        super().__init__(file, kind, box, offset)
        self.file, self.kind, self.box, self.offset = file, kind, box, offset

    def __str__(self) -> str:
        return f"{self.file}: {self.kind} in {self.box} at {self.offset}"


class Failed(Error):
    """`what` is `memory`, `store`, `store changed`, `write` or `no such track`, as docs/OUTPUT.md
    says; or what is wrong with the arguments, or with the program itself. `cause` is what the
    system says of it, where that is known; its words may change."""

    def __init__(self, file: str, what: str, cause: Optional[str] = None) -> None:
        super().__init__(file, what, cause)
        self.file, self.what, self.cause = file, what, cause

    def __str__(self) -> str:
        return f"{self.file}: {self.what}" + (f": {self.cause}" if self.cause else "")


@dataclass(frozen=True)
class Edit:
    """How long it is, in the movie's timescale; where in the track it begins, in the track's, -1
    for an empty edit; its rate as two numbers of 16 bits."""

    segment_duration: int
    media_time: int
    rate_integer: int
    rate_fraction: int


@dataclass(frozen=True)
class Track:
    """Times are in the track's timescale; `descriptions` are the types of sample descriptions."""

    id: int
    handler: str
    descriptions: Sequence[str]
    timescale: int
    start: int
    duration: int
    samples: int
    bytes: int
    edits: Sequence[Edit]


@dataclass(frozen=True)
class Movie:
    """`mehd` is the length of the longest track in the movie's timescale."""

    timescale: int
    mehd: int
    tracks: Sequence[Track]


@dataclass(frozen=True)
class Sample:
    """Times are in the track's timescale, which is so many units a second, and in seconds as exact
    fractions (`float` makes them floats); `number` and `description` count from 1. `at` is the place
    of its first byte in the file, and `fragment` the number of its `moof`, 0 for the tables."""

    number: int
    decode_time: int
    composition_time: int
    duration: int
    flags: int
    description: int
    size: int
    at: int
    fragment: int
    timescale: int = 1

    @property
    def sync(self) -> bool:
        """Whether the flags say that decoding can begin here."""
        return not self.flags >> 16 & 1

    @property
    def decode_seconds(self) -> Fraction:
        """When it is decoded, in seconds."""
        return Fraction(self.decode_time, self.timescale)

    @property
    def composition_seconds(self) -> Fraction:
        """When it is shown, in seconds, before edits."""
        return Fraction(self.composition_time, self.timescale)

    @property
    def duration_seconds(self) -> Fraction:
        """How long it lasts, in seconds."""
        return Fraction(self.duration, self.timescale)


@dataclass(frozen=True)
class Box:
    """`depth` is the number of containers around it, `size` has its header in it. `foreign` says
    that the profile doesn't have the box there. `uuid` is the extended type of a `uuid` box.
    `fields`, where they are asked for and the profile reads the box, has what it says by the names
    in the standard, as the objects of docs/FIELDS.md have them."""

    depth: int
    type: str
    offset: int
    size: int
    uuid: Optional[str] = None
    foreign: bool = False
    fields: Optional[Dict[str, Any]] = field(default=None, hash=False)


@dataclass(frozen=True)
class Difference:
    """The way to a value, as `("track", 1, "sample", 7, "duration")`, and the value in each file.
    Where it is a byte, `of` is how many there are. Of a sample `seconds` is when it is decoded in
    the first file. docs/COMPARING.md has the lines and kinds."""

    at: Tuple[Union[str, int], ...]
    a: Union[int, str]
    b: Union[int, str]
    kind: str
    line: str
    of: Optional[int] = None
    seconds: Optional[Fraction] = None

    def __str__(self) -> str:
        return self.line


@dataclass(frozen=True)
class Between:
    """How many samples of one file stand between those that are the same, and when the sample
    behind those in front is decoded, in the track's timescale: 0 where there is none."""

    samples: int
    decode_time: int
    timescale: int

    @property
    def decode_seconds(self) -> Fraction:
        """That time in seconds."""
        return Fraction(self.decode_time, self.timescale)


@dataclass(frozen=True)
class Alignment:
    """How two tracks lie beside each other whose samples are not the same: their number, from 1;
    how many samples in front are the same, and of the rest how many at the end; what stands
    between, in each file."""

    track: int
    front: int
    end: int
    a: Between
    b: Between
    line: str

    def __str__(self) -> str:
        return self.line


@dataclass(frozen=True, repr=False)
class Comparison:
    """True if the two say the same. `total` counts all differences, and `kinds` those of each kind;
    there may be more where `at_least`. `words` make the two the same if they are left out; None if
    no words do. `aligned` says how tracks lie beside each other, where that was asked for. As text
    it is a line for each of these, one for each difference, and one that counts them."""

    same: bool
    total: int
    at_least: bool
    kinds: Mapping[str, int]
    words: Optional[Sequence[str]]
    differences: Sequence[Difference]
    aligned: Sequence[Alignment] = ()

    def __bool__(self) -> bool:
        return self.same

    def _lines(self) -> List[str]:
        if self.same:
            return ["the same"]
        most = "at least " if self.at_least else ""
        last = f"{most}{self.total} difference{'' if self.total == 1 else 's'}: "
        last += ", ".join(f"{kind} {count}" for kind, count in self.kinds.items())
        last += ("; no words make them the same" if self.words is None
                 else f"; the same without {','.join(self.words)}")
        return [it.line for it in (*self.aligned, *self.differences)] + [last]

    def __str__(self) -> str:
        return "\n".join(self._lines())

    def __repr__(self) -> str:
        # In one line, the first difference in front and the counts last: pytest shows both ends.
        return f"<{'; '.join(self._lines())}>"


def program() -> str:
    """The name of the program that is run; Failed if there is none."""
    beside = _beside("mp4norm", "../../../bin")
    found = os.environ.get("MP4NORM") or next((it for it in beside if _is_program(it)), None)
    found = found or shutil.which("mp4norm")
    if not found:
        raise Failed("mp4norm", "there is no such program: install it, or set MP4NORM to its name")
    return found


def uses() -> str:
    """What looks at files: `library`, in this process, or `program`."""
    return "library" if _library() else "program"


def show(file: File) -> Movie:
    """The movie and its tracks."""
    found = _text("show", file)
    told = json.loads(_run(["show"], [file]) if found is None else found)
    for track in told["tracks"]:
        track["edits"] = [Edit(*edit) for edit in track["edits"]]
    told["tracks"] = [_made(Track, track) for track in told["tracks"]]
    return _made(Movie, told)


def samples(file: File, track: int) -> List[Sample]:
    """All samples of the track with this ID, in decoding order."""
    is_id = isinstance(track, int) and 0 < track < 1 << 32
    with _one_file(file):
        found = _text("samples", file, track, 2) if is_id else None
        if found is None:
            found = _run(["samples", "--json", "--track", str(track)], [file])
        told = _objects(found)
        scales = [it.timescale for it in show(file).tracks if it.id == track] if told else [1]
    if not scales:
        raise Failed(_name(file), "store changed")
    return [_made(Sample, {**one, "timescale": scales[0]}) for one in told]


def columns(file: File, track: int) -> Dict[str, List[Any]]:
    """The samples of the track with this ID by columns, each a list with a value for each sample,
    as `pandas.DataFrame` takes them: what a `Sample` has but its timescale, then `sync`, and the
    times in seconds as floats."""
    found = samples(file, track)
    names = [field.name for field in fields(Sample) if field.name != "timescale"] + ["sync"]
    made = {name: [getattr(it, name) for it in found] for name in names}
    for name in ("decode", "composition", "duration"):
        made[f"{name}_seconds"] = [float(getattr(it, f"{name}_seconds")) for it in found]
    return made


def boxes(file: File, rows: Optional[int] = None) -> List[Box]:
    """The boxes of the file, in their order, containers before what is in them. With `rows`, from 0
    to 2^64 - 1, each that the profile reads has its `fields`, and at most so many of its rows."""
    if rows is None:
        found = _text("boxes", file, 1)
        found = _run(["boxes", "--json"], [file]) if found is None else found
    else:
        if not isinstance(rows, int) or not 0 <= rows < 1 << 64:
            raise ValueError(f"no number of rows: {rows}")
        found = _text("fields", file, 1, rows)
        asked = ["boxes", "--json", "--fields", "--rows", str(rows)]
        found = _run(asked, [file]) if found is None else found
    return [_made(Box, told) for told in _objects(found)]


def compare(a: File, b: File, without: Words = (), limit: int = 100, foreign: bool = False,
            lossy: bool = False, align: bool = False,
            tracks: Optional[Tuple[int, int]] = None) -> Comparison:
    """Compares what the two say, but for what these words leave out (docs/COMPARING.md has them),
    and lists at most `limit` of the differences. With `foreign` boxes that the profile refuses are
    read as free space; where something is lost with one, only with `lossy`. With `align` it says
    too how tracks lie beside each other whose samples are not the same, and lists and counts
    samples only of tracks that have the same number of them in both. With `tracks` a track of each
    is compared, by its ID, as if its file had no other; both are track 1 in what is said then."""
    left, freed, alone = _without(without), _foreign(foreign, lossy), _alone(tracks)
    text = None if freed or alone else _compared(a, b, _flags(left), limit, align)
    if text is None:
        listed = "--align" if align else "--all"
        words = ["compare", "--json", listed, "--limit", str(limit), *left, *freed, *alone]
        text = _run(words, [a, b], (0, DIFFERENT))
    *told, last = _objects(text)
    differences = [_difference(it) for it in told if it["kind"] != "aligned"]
    return Comparison(last["differences"] == 0, last["differences"], last["at_least"],
                      last["kinds"], last["without"], differences,
                      [_aligned(it) for it in told if it["kind"] == "aligned"])


def _difference(told: Dict[str, Any]) -> Difference:
    seconds = told.get("seconds")
    return _made(Difference, {**told, "at": tuple(told["at"]),
                              "seconds": None if seconds is None else Fraction(seconds)})


def _aligned(told: Dict[str, Any]) -> Alignment:
    sides = {side: _made(Between, told[side]) for side in ("a", "b")}
    return _made(Alignment, {**told, **sides})


def normalise(file: File, new: Optional[Name] = None, without: Words = (), replace: bool = False,
              foreign: bool = False, lossy: bool = False, track: Optional[int] = None) -> bytes:
    """The normal form. With `new` it goes to a file of that name, which must not be there unless
    it is to be replaced; then no bytes are returned. With `foreign` boxes that the profile refuses
    are read as free space; where something is lost with one, only with `lossy`. With `track` it is
    that of the track with this ID, as if the file had no other."""
    left, freed, alone = _without(without), _foreign(foreign, lossy), _alone(track)
    flags = _flags(left)
    if new is None and not (replace or freed or alone) and flags is not None:
        found = _text("normal", file, flags)
        if found is not None:
            return found
    words = ["normalise", "--out", "-" if new is None else _word(new), *left, *freed,
             *alone]
    return _run(words + ["--replace"] * replace, [file], new=new)


def check(*files: Name, foreign: bool = False,
          lossy: bool = False) -> Dict[Name, Optional[Error]]:
    """For the name of each file, as it was given: None if it has a normal form, else what
    `normalise` would raise. There may be any number of files; each is opened and judged, whatever
    is wrong with others."""
    freed = _foreign(foreign, lossy)
    told = _told(["check", *freed], files, None if freed else 0)
    return {file: _verdict(_name(file), one) for file, one in told}


def sum(*files: Name, without: Words = (), foreign: bool = False,
        lossy: bool = False, track: Optional[int] = None) -> Dict[Name, Union[str, Error]]:
    """For the name of each file, as it was given: the SHA-256 of its normal form, of what is left
    of it, in hexadecimal digits; or what `normalise` would raise. Files with the same content have
    the same sum. There may be any number of files. With `track` it is that of the track with this
    ID, as if each file had no other."""
    left, freed, alone = _without(without), _foreign(foreign, lossy), _alone(track)
    told = _told(["sum", *left, *freed, *alone], files,
                 None if freed or alone else _flags(left))
    return {file: _verdict(_name(file), one) or one["sha256"] for file, one in told}


def _told(words: Sequence[str], files: Sequence[Name],
          flags: Optional[int]) -> List[Tuple[Name, Dict[str, Any]]]:
    """These files, and what is told of each: by the library, and of those that it doesn't look at
    by the program."""
    names = [os.fspath(file) for file in files]
    if not all(isinstance(name, str) for name in names):
        raise TypeError(f"{words[0]} takes names of files, and no bytes: `normalise` takes those")
    if any("\0" in name for name in names):
        raise ValueError("embedded null byte")
    found = {name: _looked(words[0], name, flags) for name in names}
    rest = [name for name in names if found[name] is None]
    found.update(_told_by_program(words, rest) if rest else ())
    return [(file, found[name] or {}) for file, name in zip(files, names)]


def _told_by_program(words: Sequence[str], names: List[str]) -> List[Tuple[str, Dict[str, Any]]]:
    listed = b"".join(os.fsencode(name) + b"\0" for name in names)
    done = _call([*words, "--json", "--names-from", "-"], listed)
    told = _objects(done.stdout)
    if len(told) != len(names):
        raise _error(done, names)
    return list(zip(names, told))


def _library() -> Any:
    """The library; None where there is none, and the program is run."""
    named = os.environ.get("MP4NORM_LIBRARY")
    if named is not None or os.environ.get("MP4NORM"):
        return _loaded(named) if named else None
    for path in _beside("libmp4norm.so.0", "../../../lib", "../../x86_64-linux-gnu",
                        "../../aarch64-linux-gnu"):
        if os.path.isfile(path):
            try:
                return _loaded(path)
            except Failed:
                pass
    return None


def _beside(name: str, *installed: str) -> List[str]:
    """Where a file of this name can be: beside this module, installed with it, or in its clone."""
    here = os.path.dirname(os.path.realpath(__file__))
    return [os.path.normpath(os.path.join(here, folder, name))
            for folder in (".", *installed, PUBLISHED)]


@functools.lru_cache(maxsize=None)
def _loaded(name: str) -> Any:
    try:
        import ctypes
        return ctypes.CDLL(name)
    except (ImportError, OSError) as error:
        raise Failed(name, f"it can't be loaded: {error}") from None


@contextlib.contextmanager
def _content(file: File) -> Iterator[Optional[bytes]]:
    """The bytes of a file, which has to stay as it is until they were looked at, or has changed, as
    the program says; None where the program has to look at it."""
    if isinstance(file, bytes):
        yield file
        return
    name = os.fspath(file)
    with _opened(name) as opened:
        first = opened and _state_at(opened, name)
        if not opened or not first or first.length > LONGEST:
            yield None
            return
        try:
            yield _read(opened, name, first.length)
        finally:
            if _state_at(opened, name) != first:
                raise Failed(name, "store changed")


def _opened(name: str) -> ContextManager[Optional[IO[bytes]]]:
    """A file that is open. What has a name that isn't UTF-8, and what is no file, isn't opened; and
    what has just come to this name isn't waited for."""
    try:
        os.fsencode(name).decode()
        if _state(os.stat(name)) is None:
            return contextlib.nullcontext()
        return open(name, "rb", opener=lambda path, flags: os.open(path, flags | NOT_WAITING))
    except UnicodeDecodeError:
        return contextlib.nullcontext()
    except OSError as error:
        raise _unreadable(name, error) from None


def _read(opened: IO[bytes], name: str, length: int) -> bytes:
    try:
        return opened.read(length)
    except OSError as error:
        raise _unreadable(name, error) from None


def _state_at(opened: IO[bytes], name: str) -> Optional[State]:
    try:
        return _state(os.fstat(opened.fileno()))
    except OSError as error:
        raise _unreadable(name, error) from None


def _unreadable(name: str, error: OSError) -> Failed:
    return Failed(name, "store", (error.strerror or "").lower())


def _state(about: os.stat_result) -> Optional[State]:
    """What the system tells of a file; None of what is no file."""
    if not stat.S_ISREG(about.st_mode):
        return None
    return State(about.st_dev, about.st_ino, about.st_size, about.st_mtime_ns, about.st_ctime_ns)


@contextlib.contextmanager
def _one_file(file: File) -> Iterator[None]:
    """What is looked at twice within this is one file, as it was; else it has changed."""
    first = _state_of(file)
    yield
    if _state_of(file) != first:
        raise Failed(_name(file), "store changed")


def _state_of(file: File) -> Optional[State]:
    """The same of a name; None of bytes, and of what isn't there."""
    try:
        return None if isinstance(file, bytes) else _state(os.stat(file))
    except OSError:
        return None


def _ask(library: Any, files: Sequence[File], call: str, *words: Any) -> int:
    """A call of the library, of the bytes of these files: the length that it answers."""
    from ctypes import create_string_buffer
    answer = create_string_buffer(struct.calcsize(ANSWER))
    getattr(library, f"mp4norm_{call}")(*words, answer)
    status, kind, box, number, offset, length = struct.unpack(ANSWER, answer.raw)
    if status in (DONE, DIFFERENT):
        return int(length)
    name = _name(files[number])
    if status == REFUSED:
        code = box.to_bytes(4, "big")
        is_plain = all(31 < byte < 127 for byte in code)
        raise Refused(name, KINDS[kind - 1], code.decode() if is_plain else code.hex(), offset)
    what = {MEMORY: "memory", NO_TRACK: "no such track"}
    raise Failed(name, what.get(status, f"status {status} of the library"))


def _given(content: bytes) -> Tuple[Any, Any]:
    """The bytes of a file as a call takes them."""
    from ctypes import c_size_t
    return content, c_size_t(len(content))


def _windows(ask: Callable[..., int], room: int, step: int) -> bytes:
    """All of a text that a call puts from a place on: first into so much room, and then into so
    many times what is there. Each call makes the text again."""
    from ctypes import c_size_t, c_uint64, create_string_buffer, string_at
    found: List[bytes] = []
    at = 0
    while True:
        out = create_string_buffer(room)
        length = ask(c_uint64(at), out, c_size_t(room))
        found.append(string_at(out, length))
        at += length
        if length < room:
            return b"".join(found)
        room = step * at


def _text(call: str, file: File, *numbers: int) -> Optional[bytes]:
    """All that a call of the library puts; None where the program has to be run."""
    library = _library()
    # A library of before has no fields.
    if not hasattr(library, f"mp4norm_{call}_range"):
        return None
    with _content(file) as content:
        return None if content is None else _text_of(library, call, file, content, numbers)


def _text_of(library: Any, call: str, file: File, content: bytes, numbers: Sequence[int]) -> bytes:
    """The same, of the bytes of a file."""
    from ctypes import c_uint32, c_uint64
    # The rows of fields are the one number of 64 bits.
    words = _given(content) + tuple(c_uint64(it) if call == "fields" and at else c_uint32(it)
                                    for at, it in enumerate(numbers))

    def ask(*window: Any) -> int:
        return _ask(library, [file], f"{call}_range", *words, *window)

    # A normal form is seldom longer than its file by a quarter. Texts can be.
    is_normal = call == "normal"
    return _windows(ask, ROOM + (len(content) * 5 // 4 if is_normal else 0), 1 if is_normal else 4)


def _compared(a: File, b: File, flags: Optional[int], limit: int,
              align: bool) -> Optional[bytes]:
    """What the library tells of all differences, as JSON; None as of `_text`."""
    library = _library()
    # A library of before doesn't compare, and one that knows no fields doesn't align.
    call = "mp4norm_fields_range" if align else "mp4norm_compare_range"
    if (flags is None or not isinstance(limit, int) or not 0 <= limit < 1 << 32
            or not hasattr(library, call)):
        return None
    asked = struct.pack(ASKED, flags, ALIGNED if align else ALL, limit, JSON)
    with _content(a) as one, _content(b) as other:
        if one is None or other is None:
            return None
        words = _given(one) + _given(other)

        def ask(*window: Any) -> int:
            return _ask(library, [a, b], "compare_range", *words, asked, *window)

        return _windows(ask, ROOM + 256 * min(limit, ROOM), 4)


def _looked(call: str, name: str, flags: Optional[int]) -> Optional[Dict[str, Any]]:
    """What the library tells of a file, as an object of the program; None as of `_text`."""
    library = _library()
    if library is None or flags is None:
        return None
    try:
        with _content(name) as content:
            return None if content is None else _looked_at(library, call, name, content, flags)
    except Refused as error:
        return {"refused": {"kind": error.kind, "box": error.box, "offset": error.offset}}
    except Failed as error:
        if error.file != name:
            raise
        return {"failed": error.what}


def _looked_at(library: Any, call: str, name: str, content: bytes, flags: int) -> Dict[str, Any]:
    """The same of a file that has an answer, by its bytes."""
    if call == "check":
        _ask(library, [name], call, *_given(content))
        return {"status": DONE}
    from ctypes import c_uint32, create_string_buffer
    digest = create_string_buffer(32)
    _ask(library, [name], call, *_given(content), c_uint32(flags), digest)
    return {"sha256": digest.raw.hex()}


def _flags(left: Sequence[str]) -> Optional[int]:
    """These words as numbers of the library; None where there is one that it doesn't know."""
    flags = 0
    for word in left[1].split(",") if left else ():
        if word not in FLAGS:
            return None
        flags |= FLAGS[word]
    return flags


def _is_program(name: str) -> bool:
    return os.path.isfile(name) and os.access(name, os.X_OK)


def _made(kind: Type[Made], told: Mapping[str, Any]) -> Made:
    """Of an object what this module knows: a later program may tell more."""
    known = {field.name for field in fields(cast(Any, kind))}
    return kind(**{key: value for key, value in told.items() if key in known})


def _objects(lines: bytes) -> List[Dict[str, Any]]:
    return [json.loads(line) for line in lines.splitlines()]


def _verdict(name: str, told: Mapping[str, Any]) -> Optional[Error]:
    if "refused" in told:
        fault = told["refused"]
        return Refused(name, fault["kind"], fault["box"], fault["offset"])
    return Failed(name, told["failed"]) if "failed" in told else None


def _without(words: Words) -> List[str]:
    listed = words if isinstance(words, str) else ",".join(words)
    return ["--without", listed] if listed else []


def _foreign(foreign: bool, lossy: bool) -> List[str]:
    if lossy and not foreign:
        raise ValueError("lossy is of use only with foreign")
    return ["--foreign"] * foreign + ["--lossy"] * lossy


def _alone(track: Union[int, Tuple[int, int], None]) -> List[str]:
    """A track that is looked at alone, or one of each of two files."""
    if track is None:
        return []
    if isinstance(track, int):
        return ["--track", str(track)]
    first, second = track
    return ["--track", f"{first}:{second}"]


def _name(file: File) -> str:
    return "-" if isinstance(file, bytes) else os.fspath(file)


def _word(file: File) -> str:
    """A file as a word of the command line: never an option, nor a list of files."""
    name = _name(file)
    is_plain = isinstance(file, bytes) or not name.startswith(("-", "@"))
    return name if is_plain else "./" + name


def _shown(name: str) -> str:
    """A name as it stands on standard error."""
    shown = ""
    for character in os.fsencode(name).decode("utf-8", "surrogateescape"):
        code = ord(character)
        is_format = unicodedata.category(character) in ("Cf", "Zl", "Zp")
        if code < 32 or 127 <= code < 160 or 0xDC80 <= code < 0xDD00 or is_format:
            coded = character.encode("utf-8", "surrogateescape")
            shown += "".join(f"\\x{byte:02x}" for byte in coded)
        else:
            shown += "\\\\" if character == "\\" else character
    return shown


def _program_for(words: Sequence[str]) -> str:
    """The program for these words of a command line. Where there is none, the error says what is
    wrong with them, or why the library doesn't do."""
    try:
        return program()
    except Failed as error:
        listed = words[words.index("--without") + 1] if "--without" in words else ""
        wrong = [word for word in listed.split(",") if word and word not in FLAGS]
        if wrong:
            known = f"invalid value '{wrong[0]}' for `without`: not one of {', '.join(FLAGS)}"
            raise Failed(error.file, known) from None
        if _library():
            why = f"the C library doesn't do {_beyond(words)}; {error.what}"
            raise Failed(error.file, why) from None
        raise


def _beyond(words: Sequence[str]) -> str:
    """What of a command the library lacks."""
    if "--out" in words and words[words.index("--out") + 1] != "-":
        return "new files"
    said = {"--foreign": "`foreign`", "--track": "a track alone"}
    return next((it for word, it in said.items() if word in words),
                "a file of this kind, name or length")


def _call(words: Sequence[str], given: bytes) -> subprocess.CompletedProcess[bytes]:
    name = _program_for(words)
    try:
        return subprocess.run([name, *words], input=given, capture_output=True, check=False)
    except OSError as error:
        raise Failed(name, f"it can't be run: {error.strerror}") from None


def _run(words: Sequence[str], files: Sequence[File], fine: Sequence[int] = (0,),
         new: Optional[Name] = None) -> bytes:
    """What the program puts, if its status is one of these."""
    if len(files) == 2 and isinstance(files[0], bytes) and isinstance(files[1], bytes):
        # One of them goes to standard input.
        with tempfile.NamedTemporaryFile(prefix="mp4norm-") as other:
            other.write(files[1])
            other.flush()
            try:
                return _run(words, [files[0], other.name], fine)
            except Error as error:
                if error.file != other.name:
                    raise
                raise type(error)("-", *error.args[1:]) from None
    given = next((file for file in files if isinstance(file, bytes)), b"")
    done = _call([*words, "--explain", *map(_word, files)], given)
    if done.returncode not in fine:
        raise _error(done, [*files, *([] if new is None else [new])])
    return done.stdout


def _error(done: subprocess.CompletedProcess[bytes], files: Sequence[File]) -> Error:
    """What the program said on standard error. Of a comparison the file's name stands in front of
    the last line; else it is the first of these files, or the one that the line `file: ` names."""
    lines = done.stderr.decode("utf-8", "replace").rstrip("\n").split("\n")
    said = SAID.fullmatch(lines[-1])
    first = _name(files[0]) if files else "-"
    if done.returncode == INVALID:
        return Failed(first, lines[0])
    if not said:
        signal = f"it was ended by signal {-done.returncode}"
        return Failed(program(), signal if done.returncode < 0 else lines[-1] or "it says nothing")
    where, kind, box, offset, what = said.groups()
    told = dict(line.split(": ", 1) for line in lines[:-1] if ": " in line)
    names = {_shown(_word(file)): _name(file) for file in files}
    file = names.get(where or told.get("file", ""), first)
    return Refused(file, kind, box, int(offset)) if kind else Failed(file, what, told.get("cause"))
