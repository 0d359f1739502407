"""What sample descriptions say of bit rates and buffers, which `--without bitrates` leaves out, and
of IDs of streams, which `--without ids` does."""
from __future__ import annotations

from collections.abc import Container

from .boxes import Box

# Where the boxes of a description begin: of pictures, and of sound by QuickTime's version.
PICTURES, SOUND = 78, {0: 28, 1: 44, 2: 64}
# How many zero bytes may stand behind the boxes of a description of pictures.
ZEROS = 4
# Which bytes of a DecoderConfigDescriptor are bufferSizeDB, maxBitrate and avgBitrate.
RATES = slice(2, 13)
# How a `btrt` at the end of other descriptions begins, and how many bytes stand before it.
LAST, FRONT = b'\0\0\0\x14btrt', 8


def left(handler: bytes, data: bytes, words: Container = ('bitrates',)) -> bytes:
    """What is left of a description's payload; the handler is the type of its track's."""
    if handler == b'vide':
        return behind(data, words, PICTURES, ZEROS)
    if handler == b'soun':
        return behind(data, words, SOUND.get(int.from_bytes(data[8:10], 'big'), len(data)))
    while 'bitrates' in words and len(data) >= FRONT + 20 and data[-20:-12] == LAST:
        data = data[:-20]
    return data


def behind(data: bytes, words: Container, start: int, zeros: int = 0) -> bytes:
    """The payload with what is left of the boxes behind its fields."""
    return data[:start] + boxes_left(data[start:], words, zeros)


def boxes_left(data: bytes, words: Container, zeros: int = 0, in_wave: bool = False) -> bytes:
    """What is left of boxes; all of it where these and at most so many zero bytes don't fill
    it."""
    made, at = b'', 0
    while len(data) - at >= 8:
        size = int.from_bytes(data[at:at + 4], 'big')
        if size < 8 or size > len(data) - at:
            return data
        made += box_left(data[at + 4:at + 8], data[at + 8:at + size], words, in_wave)
        at += size
    is_filled = len(data) - at <= zeros and not any(data[at:])
    return made + data[at:] if is_filled else data


def box_left(kind: bytes, payload: bytes, words: Container, in_wave: bool) -> bytes:
    if kind == b'btrt' and 'bitrates' in words:
        return b''
    if kind == b'esds' and 'bitrates' in words:
        payload = without_rates(payload)
    if kind == b'esds' and 'ids' in words:
        payload = without_id(payload)
    if kind == b'wave' and not in_wave:
        payload = boxes_left(payload, words, in_wave=True)
    return Box(kind.decode('latin-1'), payload).spelled()


def without_rates(esds: bytes) -> bytes:
    """The payload of an `esds` with zeros as rates, if its descriptors are well formed."""
    at, stream = descriptor(esds, 4, 3)
    flags = int.from_bytes(stream[at + 2:at + 3], 'big')
    at += 3 + (2 if flags & 0x80 else 0)
    at += 1 + int.from_bytes(stream[at:at + 1], 'big') if flags & 0x40 else 0
    at, decoder = descriptor(stream, at + (2 if flags & 0x20 else 0), 4)
    if len(decoder) < at + RATES.stop:
        return esds
    return esds[:at + RATES.start] + bytes(11) + esds[at + RATES.stop:]


def without_id(esds: bytes) -> bytes:
    """The payload of an `esds` with zeros as ES_ID, if its descriptor is well formed."""
    at, stream = descriptor(esds, 4, 3)
    return esds[:at] + bytes(2) + esds[at + 2:] if len(stream) >= at + 2 else esds


def descriptor(data: bytes, at: int, tag: int) -> tuple:
    """Where the content of a descriptor begins, and the data up to its end: no data where there is
    none, or it doesn't end within what there is."""
    length = 0
    for place in range(at + 1, min(at + 5, len(data))) if data[at:at + 1] == bytes([tag]) else ():
        length = length << 7 | data[place] & 0x7f
        if data[place] < 0x80:
            end = place + 1 + length
            return place + 1, data[:end] if end <= len(data) else b''
    return 0, b''
