"""Makes MP4 files that the page's tests open: made-up pictures and sound in correct boxes (ISO/IEC 14496-12)."""
from __future__ import annotations

import os
import random
import struct
import sys

sys.path.insert(0, os.path.join(os.path.dirname(os.path.dirname(os.path.realpath(__file__))), 'bench'))
from make_inputs import FTYP, MATRIX, PICTURE, SOUND, URL, box, full, mvhd, numbers, stsz, table

# Pictures: 25 a second on a timescale of 12,800, a sync sample each second; two of three are shown after the next one.
FPS, SCALE, FRAME, SECOND = 25, 12800, 512, 25
# Sound: 48,000 a second, 1,024 in a sample.
RATE, GRAIN = 48000, 1024
ENGLISH = 0x15c7
# Pictures of this size; profile, constraints and level of AVC (High, level 3.1).
WIDTH, HEIGHT = 640, 360
HIGH = bytes([1, 0x64, 0, 0x1f, 0xff, 0xe0, 0])
# An AudioSpecificConfig: AAC-LC, 48,000 a second, two channels; and an ES_Descriptor around it (ISO/IEC 14496-1, 7.2.6).
LOW = b'\x05\x02\x11\x90'
ES = b'\x03\x19' + bytes(3) + b'\x04\x11\x40\x15' + bytes(11) + LOW + b'\x06\x01\x02'
# Entries of `stsd`, as AVC and AAC have them.
AVC = box(b'avc1', PICTURE[8:32], struct.pack('>2H', WIDTH, HEIGHT), PICTURE[36:], box(b'avcC', HIGH))
AAC = box(b'mp4a', SOUND[8:24], struct.pack('>4HI', 2, 16, 0, 0, RATE << 16), full(b'esds', 0, ES))


def elst(*rows) -> bytes:
    """An edit list: of each edit how long it is, and where in the track it begins."""
    return box(b'edts', full(b'elst', 0, struct.pack('>I', len(rows)),
                             *(struct.pack('>IiHH', lasts, media, 1, 0) for lasts, media in rows)))


def trak(number: int, kind: bytes, scale: int, edits: bytes, tables: list[bytes]) -> bytes:
    """A track of English language."""
    volume = 0x100 if kind == b'soun' else 0
    tkhd = full(b'tkhd', 7, struct.pack('>5I', 0, 0, number, 0, 0), bytes(8), struct.pack('>4h', 0, 0, volume, 0), MATRIX,
                struct.pack('>2I', 0, 0))
    mdhd = full(b'mdhd', 0, struct.pack('>4I', 0, 0, scale, 0), struct.pack('>2H', ENGLISH, 0))
    hdlr = full(b'hdlr', 0, bytes(4), kind, bytes(12), b'\0')
    header = full(b'smhd', 0, bytes(4)) if kind == b'soun' else full(b'vmhd', 1, bytes(8))
    stsd = full(b'stsd', 0, struct.pack('>I', 1), AAC if kind == b'soun' else AVC)
    minf = box(b'minf', header, box(b'dinf', URL), box(b'stbl', stsd, *tables))
    return box(b'trak', tkhd, edits, box(b'mdia', mdhd, hdlr, minf))


class Film:
    """Pictures and sound of so many seconds. `flips` are numbers of pictures, from 1, whose last byte is another."""

    def __init__(self, seconds: int = 10, seed: int = 7, flips: tuple = (), scale: float = 1):
        source = random.Random(seed)
        count = seconds * FPS
        places = [k % SECOND for k in range(count)]
        base = [9000 if place == 0 else 4200 if place % 3 == 1 else 1900 for place in places]
        self.sizes = [int(scale * source.randrange(size * 7 // 10, size * 13 // 10)) for size in base]
        self.offsets = [(1 if place == 0 else 3 if place % 3 == 1 else 0) * FRAME for place in places]
        self.grains = [int(scale * source.randrange(220, 420)) for _ in range(seconds * RATE // GRAIN)]
        self.pictures = [source.randbytes(size) for size in self.sizes]
        self.sounds = [source.randbytes(size) for size in self.grains]
        for number in flips:
            old = self.pictures[number - 1]
            self.pictures[number - 1] = old[:-1] + bytes([old[-1] ^ 255])
        self.seconds = seconds

    def edits(self, delay: int) -> tuple:
        """The edits of both tracks: pictures from their first on; sound so many thousandths later."""
        length = 1000 * self.seconds
        return elst((length - 40, FRAME)), elst((delay, -1), (length - delay - 200, GRAIN)) if delay else b''

    def plain(self, delay: int = 200) -> bytes:
        """A plain file: all pictures in one chunk, all sound in another."""
        count, grains = len(self.sizes), len(self.grains)
        rows = [it for offset in self.offsets for it in (1, offset)]
        keys = list(range(1, count + 1, SECOND))
        of_pictures, of_sound = self.edits(delay)

        def moov(at: int) -> bytes:
            places = at, at + sum(self.sizes)
            pictures = [table(b'stts', 1, [count, FRAME]), table(b'ctts', count, rows), table(b'stss', len(keys), keys),
                        table(b'stsc', 1, [1, count, 1]), stsz(self.sizes), table(b'stco', 1, [places[0]])]
            sound = [table(b'stts', 1, [grains, GRAIN]), table(b'stsc', 1, [1, grains, 1]), stsz(self.grains),
                     table(b'stco', 1, [places[1]])]
            return box(b'moov', mvhd(1000), trak(1, b'vide', SCALE, of_pictures, pictures),
                       trak(2, b'soun', RATE, of_sound, sound))

        data = b''.join([*self.pictures, *self.sounds])
        return FTYP + moov(len(FTYP) + len(moov(0)) + 8) + box(b'mdat', data)

    def fragmented(self, delay: int = 200, late: int | None = None, astray: int | None = None) -> bytes:
        """The same content in a fragment a second; the decode time of one, counted from 0, is late, and the pictures of one
        do not lie in the file."""
        none = [table(b'stts', 0, []), table(b'stsc', 0, []), stsz([]), table(b'stco', 0, [])]
        of_pictures, of_sound = self.edits(delay)
        trex = [full(b'trex', 0, numbers(number, 1, 0, 0, 0)) for number in (1, 2)]
        made = [FTYP, box(b'moov', mvhd(1000), trak(1, b'vide', SCALE, of_pictures, none),
                          trak(2, b'soun', RATE, of_sound, none), box(b'mvex', *trex))]
        at = 0
        for second in range(self.seconds):
            grains = ((second + 1) * RATE // GRAIN if second + 1 < self.seconds else len(self.grains)) - at
            made.append(self.fragment(second, at, grains, 640 if second == late else 0, 1 << 30 if second == astray else 0))
            at += grains
        return b''.join(made)

    def fragment(self, second: int, grain: int, grains: int, late: int, astray: int) -> bytes:
        """A fragment of a second of pictures, and of so many grains of sound."""
        first = second * SECOND
        keys = range(first, first + SECOND)
        data = b''.join([*self.pictures[first:first + SECOND], *self.sounds[grain:grain + grains]])

        def moof(at: int) -> bytes:
            rows = [it for k in keys for it in (self.sizes[k], 0 if k % SECOND == 0 else 0x10000, self.offsets[k])]
            pictures = box(b'traf', full(b'tfhd', 0x20008, numbers(1, FRAME)),
                           full(b'tfdt', 0, struct.pack('>Q', first * FRAME + late), version=1),
                           full(b'trun', 0xe01, numbers(SECOND, at + astray, *rows)))
            sound = box(b'traf', full(b'tfhd', 0x20008, numbers(2, GRAIN)),
                        full(b'tfdt', 0, struct.pack('>Q', grain * GRAIN), version=1),
                        full(b'trun', 0x201, numbers(grains, at + sum(self.sizes[first:first + SECOND]),
                                                     *self.grains[grain:grain + grains])))
            return box(b'moof', full(b'mfhd', 0, numbers(second + 1)), pictures, sound)

        return moof(len(moof(0)) + 8) + box(b'mdat', data)


def crowd() -> bytes:
    """A file of some 700 bytes with 2^24 samples of no bytes."""
    none = [table(b'stts', 0, []), table(b'stsc', 0, []), stsz([]), table(b'stco', 0, [])]
    moov = box(b'moov', mvhd(1000), trak(1, b'vide', 1000, b'', none), box(b'mvex', full(b'trex', 0, numbers(1, 1, 1, 0, 0))))
    traf = box(b'traf', full(b'tfhd', 0x20000, numbers(1)), full(b'trun', 0, numbers(1 << 24)))
    return FTYP + moov + box(b'moof', full(b'mfhd', 0, numbers(1)), traf)


def hostile() -> bytes:
    """A file of 2 MB with 65,536 samples of 1 MB each, which lie over one another: 69 GB in all."""
    data = bytes(1 << 21)
    chunks = 1 << 16

    def moov(at: int) -> bytes:
        tables = [table(b'stts', 1, [chunks, 1]), table(b'stsc', 1, [1, 1, 1]),
                  full(b'stsz', 0, numbers(1 << 20, chunks)), table(b'stco', chunks, [at] * chunks)]
        return box(b'moov', mvhd(1000), trak(1, b'vide', 1000, b'', tables))

    return FTYP + moov(len(FTYP) + len(moov(0)) + 8) + box(b'mdat', data)
