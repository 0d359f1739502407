#!/usr/bin/env python3
"""Makes the files that `bench/run` measures.

  large      a plain file of 2 GB: one track, 250 samples of 8,000,000 bytes
  small      a plain file of 5,000,000 samples of 20 to 200 bytes, with a row of stts and ctts for each sample
  fragments  20,000 movie fragments of one track, 30 samples of 500 bytes each
  tracks     one hour of three interleaved tracks: 25 pictures a second, two sounds, a chunk for each half second
  heads      1,000 tracks without samples: nothing but heads to read and write
  parts      10,000 movie fragments of 15 KB; beside it parts.list, which names them and their head, each in a file of its own
  verdicts   a small file, 2,000 links to it, and verdicts.names, which names these
  differences  300,000 samples, and differences.other, in which each has another duration

The files hold made-up data in correct boxes (ISO/IEC 14496-12); nothing needs to be installed.
"""
from __future__ import annotations

import os
import random
import struct
import sys
from collections.abc import Callable

sys.path.insert(0, os.path.join(os.path.dirname(os.path.abspath(__file__)), '..', 'conformance'))
from trials import options


def box(kind: bytes, *parts) -> bytes:
    payload = b''.join(parts)
    return struct.pack('>I4s', 8 + len(payload), kind) + payload


def full(kind: bytes, flags: int, *parts, version: int = 0) -> bytes:
    """A box with a version and flags."""
    return box(kind, struct.pack('>I', version << 24 | flags), *parts)


def numbers(*values) -> bytes:
    """Numbers of 32 bits."""
    return struct.pack(f'>{len(values)}I', *values)


MATRIX = struct.pack('>9i', 0x10000, 0, 0, 0, 0x10000, 0, 0, 0, 0x40000000)
URL = full(b'dref', 0, struct.pack('>I', 1), full(b'url ', 1))


# Codings that other tools copy without looking at the data: JPEG pictures of 64 by 64, MP3 sound.
PICTURE = box(b'jpeg', bytes(6), struct.pack('>H', 1), bytes(16),
              struct.pack('>2H3IH32s2H', 64, 64, 0x480000, 0x480000, 0, 1, b'', 24, 0xffff))
SOUND = box(b'.mp3', bytes(6), struct.pack('>H', 1), bytes(8), struct.pack('>2H2HI', 2, 16, 0, 0, 48000 << 16))


def mvhd(scale: int) -> bytes:
    return full(b'mvhd', 0, struct.pack('>4I', 0, 0, scale, 0), struct.pack('>IH10x', 0x10000, 0x100), MATRIX, bytes(24),
                struct.pack('>I', 99))


def trak(number: int, kind: bytes, scale: int, tables: list[bytes]) -> bytes:
    volume = 0x100 if kind == b'soun' else 0
    tkhd = full(b'tkhd', 7, struct.pack('>5I', 0, 0, number, 0, 0), bytes(8), struct.pack('>4h', 0, 0, volume, 0), MATRIX,
                struct.pack('>2I', 0, 0))
    mdhd = full(b'mdhd', 0, struct.pack('>4I', 0, 0, scale, 0), struct.pack('>2H', 0x55c4, 0))
    hdlr = full(b'hdlr', 0, bytes(4), kind, bytes(12), b'\0')
    header = full(b'smhd', 0, bytes(4)) if kind == b'soun' else full(b'vmhd', 1, bytes(8))
    stsd = full(b'stsd', 0, struct.pack('>I', 1), SOUND if kind == b'soun' else PICTURE)
    return box(b'trak', tkhd, box(b'mdia', mdhd, hdlr, box(b'minf', header, box(b'dinf', URL), box(b'stbl', stsd, *tables))))


def table(kind: bytes, count: int, rows: list) -> bytes:
    return full(kind, 0, numbers(count, *rows))


def stsz(sizes: list) -> bytes:
    return full(b'stsz', 0, numbers(0, len(sizes), *sizes))


def co64(places: list[int]) -> bytes:
    return full(b'co64', 0, numbers(len(places)), struct.pack('>%dQ' % len(places), *places))


# Tables of a track without samples, and what its fragments begin with.
NO_SAMPLES = [table(b'stts', 0, []), table(b'stsc', 0, []), stsz([]), table(b'stco', 0, [])]
TREX = full(b'trex', 0, numbers(1, 1, 512, 0, 0x10000))


FTYP = box(b'ftyp', b'isom', bytes(4), b'isommp41')


def put_data(file, total: int) -> None:
    """So many bytes that don't repeat soon."""
    block = random.Random(1).randbytes(1 << 20)
    while total > 0:
        file.write(block[:min(total, len(block))])
        total -= len(block)


def plain(path: str, scale: int, tracks: Callable, total: int) -> None:
    """A plain file: `tracks` says the trak boxes for data that begins at a place."""
    length = len(box(b'moov', mvhd(scale), *tracks(0)))
    begin = len(FTYP) + length + 16
    with open(path, 'wb') as file:
        file.write(FTYP)
        file.write(box(b'moov', mvhd(scale), *tracks(begin)))
        file.write(struct.pack('>I4sQ', 1, b'mdat', 16 + total))
        put_data(file, total)


def large(path: str) -> None:
    count, size = 250, 8_000_000
    tables = lambda at: [
        table(b'stts', 1, [count, 512]), table(b'stss', 1, [1]), table(b'stsc', 1, [1, 1, 1]), stsz([size] * count),
        co64([at + size * n for n in range(count)])]
    plain(path, 1000, lambda at: [trak(1, b'vide', 12800, tables(at))], count * size)


def chunk_places(sizes: list[int], each: int) -> tuple:
    """Where chunks of so many samples begin, one behind the other, and where the last ends."""
    places, at = [], 0
    for n in range(0, len(sizes), each):
        places.append(at)
        at += sum(sizes[n:n + each])
    return places, at


def small(path: str, count: int = 5_000_000, duration: int = 500) -> None:
    source, each = random.Random(2), 30
    sizes = [20 + source.randrange(181) for _ in range(count)]
    places, at = chunk_places(sizes, each)
    rows = [it for n in range(count) for it in (1, duration + n % 3)]
    offsets = [it for n in range(count) for it in (1, 1000 + n % 2)]
    keys = range(1, count, 250)
    chunks = [1, each, 1, len(places), count - each * (len(places) - 1), 1]
    tables = lambda begin: [
        table(b'stts', count, rows), table(b'ctts', count, offsets), table(b'stss', len(keys), list(keys)),
        table(b'stsc', 2, chunks), stsz(sizes), co64([begin + place for place in places])]
    plain(path, 1000, lambda begin: [trak(1, b'vide', 12800, tables(begin))], at)


def fragments(path: str, count: int = 20_000, each: int = 30, stride: int = 1) -> None:
    """Fragments of so many samples. Each `stride` of them have the same bytes, and one sync sample, the first."""
    size = 500
    with open(path, 'wb') as file:
        file.write(FTYP)
        file.write(box(b'moov', mvhd(1000), trak(1, b'vide', 12800, NO_SAMPLES), box(b'mvex', TREX)))
        for n in range(count):
            flags = [0x2000000 if n % stride == 0 else 0x10000]
            head, time = full(b'tfhd', 0x20000, numbers(1)), full(b'tfdt', 0, struct.pack('>Q', n * each * 512), version=1)
            trun = lambda offset: full(b'trun', 0x205, numbers(each, offset), numbers(*flags), numbers(*[size] * each))
            boxes = lambda offset: box(b'moof', full(b'mfhd', 0, numbers(n + 1)), box(b'traf', head, time, trun(offset)))
            offset = len(boxes(0)) + 8
            file.write(boxes(offset))
            file.write(box(b'mdat', bytes([n // stride % 251]) * (each * size)))


def tracks(path: str) -> None:
    """Chunks of the three tracks in turn, one for each half second of an hour."""
    source = random.Random(3)
    kinds = [(b'vide', 12800, 512, 13, (1000, 12000)), (b'soun', 48000, 1024, 24, (300, 500)),
             (b'soun', 44100, 1024, 22, (200, 400))]
    chunks = 7200
    sizes, places, at = [[], [], []], [[], [], []], 0
    for _ in range(chunks):
        for k, (_, _, _, each, span) in enumerate(kinds):
            places[k].append(at)
            new = [source.randrange(*span) for _ in range(each)]
            sizes[k] += new
            at += sum(new)
    def boxes(begin):
        made = []
        for k, (kind, scale, duration, each, _) in enumerate(kinds):
            keys = list(range(1, chunks * each, 50))
            made.append(trak(k + 1, kind, scale, [
                table(b'stts', 1, [chunks * each, duration]), *([table(b'stss', len(keys), keys)] if kind == b'vide' else []),
                table(b'stsc', 1, [1, each, 1]), stsz(sizes[k]), co64([begin + place for place in places[k]])]))
        return made
    plain(path, 1000, boxes, at)


def heads(path: str) -> None:
    plain(path, 1000, lambda begin: [trak(k + 1, b'vide', 12800, NO_SAMPLES) for k in range(1000)], 0)


def parts(path: str) -> None:
    fragments(path, 10_000)
    folder = path + '.parts'
    os.makedirs(folder, exist_ok=True)
    with open(path, 'rb') as file:
        data = file.read()
    cuts, at = [0], 0
    while at < len(data):
        length, kind = struct.unpack('>I4s', data[at:at + 8])
        cuts += [at] if kind == b'moof' else []
        at += length
    names = [f'{folder}/{number}.m4s' for number in range(len(cuts))]
    for name, begin, end in zip(names, cuts, [*cuts[1:], len(data)]):
        with open(name, 'wb') as file:
            file.write(data[begin:end])
    with open(path.removesuffix('.mp4') + '.list', 'w', encoding='utf-8') as file:
        file.write('\n'.join(map(os.path.abspath, names)))


def verdicts(path: str) -> None:
    small(path, 100)
    folder = path + '.links'
    os.makedirs(folder, exist_ok=True)
    names = [os.path.join(folder, f'{number}.mp4') for number in range(2_000)]
    for name in names:
        os.path.exists(name) or os.link(path, name)
    with open(path.removesuffix('.mp4') + '.names', 'w', encoding='utf-8') as file:
        file.write(''.join(name + '\0' for name in names))


def differences(path: str) -> None:
    small(path, 300_000)
    small(path.removesuffix('.mp4') + '.other', 300_000, 600)


MAKERS = {make.__name__: make for make in (large, small, fragments, tracks, heads, parts, verdicts, differences)}


def make(folder: str, name: str) -> str:
    """Makes a file, if it isn't there; its path."""
    path = os.path.join(folder, name + '.mp4')
    os.makedirs(folder, exist_ok=True)
    if not os.path.exists(path):
        MAKERS[name](path)
    return path


def main():
    names = ','.join(MAKERS)
    args = options(__doc__, 'folder', epilog=None,
                   files={'default': names, 'help': f'some of {names}'})
    for name in args.files.split(','):
        if name not in MAKERS:
            sys.exit(f'no such file: {name}')
        path = make(args.folder, name)
        print(path, os.path.getsize(path))


if __name__ == '__main__':
    main()
