// What sample entries say of codecs (ISO/IEC 14496-12, 8.5.2 and 12; RFC 6381), for people.

// Two hexadecimal digits of a byte.
function hex(byte) {
    return byte.toString(16).toUpperCase().padStart(2, '0');
}

function two(number) {
    return String(number).padStart(2, '0');
}

// The payload of the first child box of a type in a range of bytes; nothing where there is none.
function childOf(read, type, at, end) {
    while (end - at >= 8) {
        const size = read.u32(at);
        if (size < 8 || size > end - at) return null;
        if (read.text(at + 4) === type) return { at: at + 8, end: at + size };
        at += size;
    }
    return null;
}

// AVC: profile, constraints and level (ISO/IEC 14496-15, 5.3.3).
function avc(read, { at, end }) {
    return end - at < 4 ? '' : `.${hex(read.u8(at + 1))}${hex(read.u8(at + 2))}${hex(read.u8(at + 3))}`;
}

// The bits of a number of 32 bits in the other order.
function reversed(number) {
    let found = 0;
    for (let bit = 0; bit < 32; bit += 1) found = (found << 1) | ((number >>> bit) & 1);
    return found >>> 0;
}

// HEVC: profile, compatibility, tier and level, constraints (ISO/IEC 14496-15, E.3).
function hevc(read, { at, end }) {
    if (end - at < 13) return '';
    const first = read.u8(at + 1), space = ['', 'A', 'B', 'C'][first >> 6];
    const bytes = [6, 7, 8, 9, 10, 11].map(k => read.u8(at + k));
    while (bytes.length && !bytes.at(-1)) bytes.pop();
    return [
        '', `${space}${first & 31}`, reversed(read.u32(at + 2)).toString(16).toUpperCase(),
        `${first & 32 ? 'H' : 'L'}${read.u8(at + 12)}`,
        ...bytes.map(byte => byte.toString(16).toUpperCase())
    ].join('.');
}

// AV1: profile, level and tier, bits of a sample (AV1 Codec ISO Media File Format Binding, 5).
function av1(read, { at, end }) {
    if (end - at < 3) return '';
    const levels = read.u8(at + 1), bits = read.u8(at + 2);
    const depth = bits & 64 ? (bits & 32 ? 12 : 10) : 8;
    return `.${levels >> 5}.${two(levels & 31)}${bits & 128 ? 'H' : 'M'}.${two(depth)}`;
}

// VP8 and VP9: profile, level, bits of a sample (VP Codec ISO Media File Format Binding).
function vp(read, { at, end }) {
    return end - at < 7 ? '' : [4, 5].map(k => `.${two(read.u8(at + k))}`).join('')
            + `.${two(read.u8(at + 6) >> 4)}`;
}

// The tag, the length and the place of the contents of a descriptor (ISO/IEC 14496-1, 8.3.3).
function descriptor(read, at) {
    let size = 0, next = at + 1, byte;
    do {
        byte = read.u8(next);
        next += 1;
        size = (size << 7) | (byte & 127);
    } while (byte & 128 && next - at < 5);
    return { tag: read.u8(at), size, at: next };
}

// The codec of an `esds`: its object type, and of AAC the audio object type (RFC 6381, 3.3).
function mpeg4(read, { at, end }) {
    const own = descriptor(read, at + 4), flags = read.u8(own.at + 2);
    const behind = own.at + 3 + (flags & 128 ? 2 : 0);
    const skipped = behind + (flags & 64 ? 1 + read.u8(behind) : 0) + (flags & 32 ? 2 : 0);
    const config = descriptor(read, skipped);
    if (own.tag !== 3 || config.tag !== 4 || config.at + 13 > end) return '';
    const type = `.${hex(read.u8(config.at))}`, next = config.at + 13;
    if (type !== '.40' || next + 4 > end) return type;
    const info = descriptor(read, next);
    if (info.tag !== 5 || info.at + 2 > end) return type;
    const bits = read.u16(info.at), object = bits >> 11;
    return `${type}.${object === 31 ? 32 + ((bits >> 5) & 63) : object}`;
}

// Of each type of sample entry, which box says more, and what it says.
const MORE = {
    avc1: ['avcC', avc], avc2: ['avcC', avc], avc3: ['avcC', avc], avc4: ['avcC', avc],
    hvc1: ['hvcC', hevc], hev1: ['hvcC', hevc],
    av01: ['av1C', av1], vp08: ['vpcC', vp], vp09: ['vpcC', vp],
    mp4a: ['esds', mpeg4], mp4v: ['esds', mpeg4],
};

// Where the boxes of an audio sample entry begin: QuickTime has more fields in some.
function audioBoxes(read, at) {
    return at + ({ 1: 52, 2: 72 }[read.u16(at + 16)] ?? 36);
}

// What one sample entry says, whose box has this place and size, in a track of this kind.
function entryOf(read, at, size, handler) {
    const format = read.text(at + 4), end = at + size;
    const isVideo = handler === 'vide' && size >= 86, isAudio = handler === 'soun' && size >= 36;
    const [type, said] = MORE[format] ?? [];
    const boxes = isVideo ? at + 86 : isAudio ? audioBoxes(read, at) : end;
    const box = type ? childOf(read, type, boxes, end) : null;
    return {
        codec: format + (box ? said(read, box) : ''),
        ...(isVideo ? { width: read.u16(at + 32), height: read.u16(at + 34) } : {}),
        ...(isAudio ? { channels: read.u16(at + 24), rate: read.u32(at + 32) / 65536 } : {}),
    };
}

/**
 * What the sample entries of an `stsd` say, whose payload lies from `at` to `end`, in a track of this
 * kind: the codec by its name of RFC 6381, as far as it is known here; of video its size, of audio
 * its channels and its sample rate.
 */
export function entriesOf(read, at, end, handler) {
    const found = [];
    for (let next = at + 8, left = read.u32(at + 4); left > 0 && end - next >= 16; left -= 1) {
        const size = read.u32(next);
        if (size < 16 || size > end - next) break;
        try {
            found.push(entryOf(read, next, size, handler));
        } catch (error) {
            if (!(error instanceof RangeError)) throw error;
            found.push({ codec: read.text(next + 4) });
        }
        next += size;
    }
    return found;
}
