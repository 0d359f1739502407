"""Sample descriptions that say bit rates or IDs of streams, or nearly, and what is left of each
without these, written by hand."""
from __future__ import annotations

from collections.abc import Iterator
from .boxes import Box, u16, u32, u64

# Bytes that each description begins with, and rates of an `esds`: some, others, none.
FRONT = bytes(6) + u16(1)
RATES, OTHERS, NONE = bytes(range(1, 12)), bytes(range(21, 32)), bytes(11)


def box(kind: str, *parts) -> bytes:
    return Box(kind, b''.join(parts)).spelled()


def pictures(*parts) -> bytes:
    return FRONT + bytes(70) + b''.join(parts)


def sound(version: int, *parts) -> bytes:
    """A description of sound of a version of QuickTime; of others the fields of version 0."""
    length = {1: 44, 2: 64}.get(version, 28)
    return FRONT + u16(version) + bytes(length - 10) + b''.join(parts)


def other(*parts) -> bytes:
    return FRONT + b''.join(parts)


def btrt(first: int = 1) -> bytes:
    return box('btrt', u32(first), u32(2), u32(3))


def descriptor(tag: int, content: bytes, width: int = 1, said=None) -> bytes:
    """A descriptor with its length in so many bytes, which may say another one."""
    length = len(content) if said is None else said
    digits = [length >> 7 * k & 0x7f | (0x80 if k else 0) for k in reversed(range(width))]
    return bytes([tag, *digits]) + content


def decoder(rates: bytes, width: int = 1, said=None, tag: int = 4,
            more: bytes = descriptor(5, b'\x12\x10')) -> bytes:
    return descriptor(tag, b'\x40\x15' + rates + more, width, said)


def stream(inner: bytes, fields: bytes = b'\0', width: int = 1, said=None, tag: int = 3,
           number: int = 1) -> bytes:
    """The payload of an `esds`: the fields are its flags, and what these say is there."""
    return bytes(4) + descriptor(tag, u16(number) + fields + inner, width, said)


def esds(rates: bytes, number: int = 1) -> bytes:
    return box('esds', stream(decoder(rates), number=number))


def of_boxes() -> Iterator:
    """Where boxes begin, and how they fill a description."""
    front, behind, rate = box('avcC', b'\1'), box('pasp', u64(1)), btrt()
    yield 'a btrt', b'vide', pictures(rate), pictures()
    yield 'a btrt between boxes', b'vide', pictures(front, rate, behind), pictures(front, behind)
    yield 'two btrt', b'vide', pictures(rate, front, rate), pictures(front)
    yield 'no box', b'vide', pictures(), pictures()
    for size in (8, 9, 21):
        yield f'a btrt of {size}', b'vide', pictures(box('btrt', bytes(size - 8))), pictures()
    for count in range(9):
        zeros = bytes(count)
        left = pictures(zeros) if count <= 4 else pictures(rate, zeros)
        yield f'{count} zero bytes behind', b'vide', pictures(rate, zeros), left
        left = sound(0, zeros) if count == 0 else sound(0, rate, zeros)
        yield f'{count} zero bytes behind sound', b'soun', sound(0, rate, zeros), left
    for count in (1, 8):
        wrong = pictures(rate, b'\1' * count)
        yield f'{count} other bytes behind', b'vide', wrong, wrong
    sizes = [u32(size) + b'free' + bytes(8) for size in (0, 1, 7, 17)]
    sizes.append(u32(1) + b'free' + u64(24) + bytes(8))
    for number, wrong in enumerate(sizes):
        for parts in ((rate, wrong), (wrong, rate)):
            data = pictures(*parts)
            yield f'wrong size {number}, {parts[0] == rate}', b'vide', data, data
    yield 'a box of 8 bytes', b'vide', pictures(box('free'), rate), pictures(box('free'))
    for kind, whole in ((b'vide', pictures(rate)), (b'soun', sound(0, rate)),
                        (b'soun', sound(1, rate)), (b'soun', sound(2, rate))):
        for length in (8, 9, 10, len(whole) - 21, len(whole) - 13, len(whole) - 1):
            cut = whole[:length]
            yield f'{len(whole)} bytes cut to {length}', kind, cut, cut
    for version in range(3):
        yield f'version {version}', b'soun', sound(version, rate, behind), sound(version, behind)
    for version, begin in ((3, 0), (256, 0), (65535, 0), (1, 0), (2, 0), (2, 1), (0, 1)):
        data = bytearray(sound(begin, rate))
        data[8:10] = u16(version)
        yield f'version {version} as {begin}', b'soun', bytes(data), bytes(data)
    yield 'pictures of sound', b'soun', pictures(rate), pictures(rate)


def of_waves() -> Iterator:
    """A `wave` of QuickTime."""
    rate, some, none = btrt(), esds(RATES), esds(NONE)
    end = u32(8) + bytes(4)
    for kind, made in ((b'soun', lambda *parts: sound(1, *parts)), (b'vide', pictures)):
        for name, parts, left in (
                ('', (box('frma', b'mp4a'), some, rate, end), (box('frma', b'mp4a'), none, end)),
                (' of nothing', (), ()), (' of a btrt', (rate,), ()),
                (' that is not filled', (some, b'\1\2\3'), (some, b'\1\2\3')),
                (' in a wave', (rate, box('wave', some, rate)), (box('wave', some, rate),))):
            yield (f'a wave{name}, {kind}', kind, made(box('wave', *parts), rate),
                   made(box('wave', *left)))
    yield 'a wave with zero bytes', b'soun', *2 * (sound(1, box('wave', some, bytes(4))),)
    # What isn't boxes of pictures or of sound is bytes.
    yield 'a wave of text', b'text', other(box('wave', rate)), other(u32(28), b'wave')


def of_streams() -> Iterator:
    """Descriptors of an `esds`: the payload, and whether it has rates."""
    for width in range(1, 6):
        yield f'lengths of {width}', lambda it: stream(decoder(it, width), width=width), width < 5
        yield f'a length of {width}', lambda it: stream(decoder(it, width)), width < 5
    for fields in (b'\x1f', b'\x80ab', b'\x40\0', b'\x40\3url', b'\x20ab', b'\xe0ab\3urlcd',
                   b'\xc0ab\1u', b'\x60\1uab'):
        yield f'fields {fields}', lambda it: stream(decoder(it), fields), True
    for fields in (b'', b'\x80', b'\x40', b'\x40\xff', b'\x20', b'\0\0'):
        yield f'wrong fields {fields}', lambda it: stream(decoder(it), fields), False
    yield 'no decoder', lambda it: stream(it), False
    yield 'another stream', lambda it: stream(decoder(it), tag=2), False
    yield 'another decoder', lambda it: stream(decoder(it, tag=5)), False
    yield 'rates alone', lambda it: stream(decoder(it, more=b'')), True
    yield 'rates cut short', lambda it: stream(decoder(it[:10], more=b'')), False
    inner = len(decoder(RATES)) - 2
    for said in (0, 12, 13, inner - 1, inner, inner + 1, 127):
        yield f'a decoder of {said}', lambda it: stream(decoder(it, said=said)), 13 <= said <= inner
    whole = 3 + inner + 2
    for said in (0, 2, 3, whole - 1, whole, whole + 1, 127):
        yield f'a stream of {said}', lambda it: stream(decoder(it), said=said), said == whole
    yield 'bytes behind', lambda it: stream(decoder(it)) + b'end', True
    yield 'a decoder past its stream', lambda it: (
        stream(decoder(it, said=inner + 1), said=whole) + b'end'), False
    yield 'other flags', lambda it: b'\1\2\3\4' + stream(decoder(it))[4:], True
    for length in range(len(stream(decoder(RATES)))):
        yield f'{length} bytes', lambda it: stream(decoder(it))[:length], False


def of_esds() -> Iterator:
    """Each `esds` in sound, and some in pictures."""
    for name, made, has_rates in of_streams():
        some, left = (box('esds', made(it)) for it in (RATES, NONE if has_rates else RATES))
        yield f'esds: {name}', b'soun', sound(0, some, btrt()), sound(0, left)
    yield 'esds of pictures', b'vide', pictures(esds(RATES), btrt()), pictures(esds(NONE))
    yield 'two esds', b'soun', sound(2, esds(RATES), esds(OTHERS)), sound(2, 2 * esds(NONE))
    yield 'esds of text', b'text', *2 * (other(esds(RATES)),)


def of_others() -> Iterator:
    """Descriptions of tracks that have neither pictures nor sound."""
    rate = btrt()
    for kind in (b'text', b'sbtl', b'VIDE', bytes(4)):
        yield f'a btrt of {kind}', kind, other(b'words', rate), other(b'words')
    yield 'two btrt of text', b'text', other(rate, rate), other()
    yield 'three btrt of text', b'text', other(b'x', 3 * rate), other(b'x')
    yield 'a btrt and another', b'text', other(rate, box('free'), rate), other(rate, box('free'))
    yield 'a longer btrt of text', b'text', *2 * (other(box('btrt', bytes(13))),)
    yield 'a shorter btrt of text', b'text', *2 * (other(box('btrt', bytes(11))),)
    yield 'a byte behind the btrt of text', b'text', *2 * (other(rate, b'\0'),)
    yield 'a btrt that says more', b'text', *2 * (other(u32(21), rate[4:]),)
    yield 'pictures of text', b'text', pictures(rate, bytes(4)), pictures(rate, bytes(4))


def of_numbers() -> Iterator:
    """IDs of streams: what is left without these, and what without bit rates too."""
    rate = btrt()
    for kind, made in ((b'soun', lambda *parts: sound(0, *parts)), (b'vide', pictures)):
        yield (f'an ID, {kind}', kind, made(esds(RATES), rate), made(esds(RATES, 0), rate),
               made(esds(NONE, 0)))
        yield (f'an ID in a wave, {kind}', kind, made(box('wave', esds(RATES), rate)),
               made(box('wave', esds(RATES, 0), rate)), made(box('wave', esds(NONE, 0))))
        yield (f'an ID behind what is no box, {kind}', kind,
               *3 * (made(u32(7) + bytes(8), esds(RATES)),))
        yield f'a btrt and no ID, {kind}', kind, *2 * (made(rate),), made()
    yield 'an ID of text', b'text', *3 * (other(esds(RATES)),)
    yield 'IDs of two', b'soun', sound(1, 2 * esds(NONE)), *2 * (sound(1, 2 * esds(NONE, 0)),)
    for width in range(1, 6):
        number = 1 if width == 5 else 0
        some, none = (box('esds', stream(b'x', width=width, number=it)) for it in (1, number))
        yield f'an ID behind a length of {width}', b'soun', sound(0, some), *2 * (sound(0, none),)
    for said in range(6):
        number = 1 if said in (0, 1, 5) else 0
        some, none = (box('esds', stream(b'x', said=said, number=it)) for it in (1, number))
        yield f'an ID in a stream of {said}', b'soun', sound(0, some), *2 * (sound(0, none),)
    some = box('esds', stream(decoder(RATES), tag=2))
    yield 'an ID of another descriptor', b'soun', *3 * (sound(0, some),)
    for length in range(8):
        yield f'an esds of {length}', b'soun', *3 * (sound(0, box('esds', stream(b'')[:length])),)


def cases() -> Iterator:
    """Of each case its name, the type of the handler, the payload, what is left of it."""
    for found in (of_boxes, of_waves, of_esds, of_others):
        yield from found()
