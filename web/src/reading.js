// What the module's answers say, as values; and the few fields of a file that no answer has:
// languages, and which samples a fragment holds. All that is read here is of a file that was
// accepted, unless it says otherwise.

import { entriesOf } from './entries.js';

// How many lines a text has.
function linesIn(text) {
    let count = 0;
    for (let at = text.indexOf('\n'); at >= 0; at = text.indexOf('\n', at + 1)) count += 1;
    return count;
}

/** Room for the values of so many samples. */
export function columns(count) {
    return {
        count,
        decode: new Float64Array(count),
        offset: new Float64Array(count),
        duration: new Uint32Array(count),
        flags: new Uint32Array(count),
        description: new Uint32Array(count),
        size: new Uint32Array(count),
    };
}

// From decoding to showing, where the two times stand in a text from these places on, a space
// behind each.
function distance(text, decode, show) {
    const number = at => BigInt(text.slice(at, text.indexOf(' ', at)));
    return Number(number(show) - number(decode));
}

/**
 * The samples that `samples` lists, a line each, as columns: `decode` is the time from the first
 * sample on, `offset` from decoding to showing, both in units of the track's timescale.
 */
export function samplesOf(text) {
    const found = columns(linesIn(text));
    const fields = new Float64Array(7), begins = new Float64Array(7);
    let at = 0, time = 0;
    for (let k = 0; k < found.count; k += 1) {
        for (let column = 0; column < 7; column += 1) {
            const base = column === 4 ? 16 : 10;
            const isBelow = text.charCodeAt(at) === 45;
            let value = 0;
            begins[column] = at;
            if (isBelow) at += 1;
            for (let code = text.charCodeAt(at); code > 32; code = text.charCodeAt(at)) {
                // 97 is the letter a, of a number with 16 digits.
                value = value * base + (code > 96 ? code - 87 : code - 48);
                at += 1;
            }
            fields[column] = isBelow ? -value : value;
            at += 1;
        }
        const isExact =
            fields[1] <= Number.MAX_SAFE_INTEGER && Math.abs(fields[2]) <= Number.MAX_SAFE_INTEGER;
        found.decode[k] = time;
        found.offset[k] = isExact ? fields[2] - fields[1] : distance(text, begins[1], begins[2]);
        found.duration[k] = fields[3];
        found.flags[k] = fields[4];
        found.description[k] = fields[5];
        found.size[k] = fields[6];
        time += fields[3];
    }
    return found;
}

/** Whether a sample can be decoded by itself, by its flags. */
export function isSync(flags) {
    return (flags & 0x10000) === 0;
}

/** Numbers and types of a file, the highest byte first. */
export function reader(bytes) {
    const view = new DataView(bytes.buffer, bytes.byteOffset, bytes.byteLength);
    return {
        u8: at => view.getUint8(at),
        u16: at => view.getUint16(at),
        u32: at => view.getUint32(at),
        u64: at => view.getBigUint64(at),
        text: at => typeAt(bytes, at),
    };
}

/** Where the payload of a box begins: its header has 16 bytes where its size does not fit four. */
export function inside(read, box) {
    return Number(box.offset) + (read.u32(Number(box.offset)) === 1 ? 16 : 8);
}

/**
 * A language of `mdhd` as its three letters (ISO/IEC 14496-12, 8.4.2); where the bits spell none,
 * as four digits.
 */
export function letters(language) {
    const parts = [10, 5, 0].map(by => (language >> by) & 31);
    const spells = parts.every(part => part >= 1 && part <= 26) && language < 0x8000;
    return spells ? String.fromCharCode(...parts.map(part => part + 96))
                  : `0x${language.toString(16).padStart(4, '0')}`;
}

// The tracks of a file by the boxes of its `moov`: ID, language, sample entries, and how many samples
// its tables have.
function heads(read, boxes) {
    const found = [];
    for (const box of boxes) {
        const at = inside(read, box);
        const track = found.at(-1);
        if (box.type === 'trak') found.push({ id: 0, language: '', inTables: 0 });
        else if (!track) continue;
        else if (box.type === 'tkhd') track.id = read.u32(at + (read.u32(at) >>> 24 ? 20 : 12));
        else if (box.type === 'mdhd')
            track.language = letters(read.u16(at + (read.u32(at) >>> 24 ? 32 : 20)));
        else if (box.type === 'hdlr') track.handler = read.text(at + 8);
        else if (box.type === 'stsd')
            track.stsd = { at, end: Number(box.offset) + Number(box.size) };
        else if (box.type === 'stsz' || box.type === 'stz2') track.inTables = read.u32(at + 8);
    }
    for (const track of found) {
        const { stsd, handler } = track;
        track.entries = stsd ? entriesOf(read, stsd.at, stsd.end, handler) : [];
    }
    return found;
}

/**
 * Languages, sample entries and fragments of an accepted file, of which `boxes` are all. Of each
 * track, in their order: its ID, its language, what its sample entries say (`entriesOf`), how many
 * samples stand in its tables, and its `pieces`, which are the samples of each `traf` that has some:
 * the number of the first one, from 0, how many, and where its `moof` begins.
 */
export function outline(bytes, boxes) {
    const read = reader(bytes);
    const tracks = heads(read, boxes.filter(box => box.depth > 0));
    const byId = new Map(tracks.map(
        track => [track.id, Object.assign(track, { pieces: [], next: track.inTables })]));
    let moof = 0, track = null, piece = null;
    for (const box of boxes) {
        if (box.depth === 0) moof = box.offset;
        if (box.type === 'traf') piece = null;
        else if (box.depth !== 2) continue;
        else if (box.type === 'tfhd') track = byId.get(read.u32(inside(read, box) + 4));
        else if (box.type === 'trun' && track) {
            const count = read.u32(inside(read, box) + 4);
            if (count && !piece) track.pieces.push(piece = { first: track.next, count: 0, moof });
            if (piece) piece.count += count;
            track.next += count;
        }
    }
    return tracks.map(
        ({ id, language, entries, inTables, pieces }) => ({ id, language, entries, inTables, pieces }));
}

// The containers that are opened, where each has to lie (docs/FORMAT.md, "Boxes").
const OPENED = {
    file: ['moov', 'moof'],
    moov: ['trak', 'mvex'],
    trak: ['edts', 'mdia'],
    mdia: ['minf'],
    minf: ['dinf', 'stbl'],
    moof: ['traf'],
};

// A type as four characters, or as eight digits where one can't be printed.
function typeAt(bytes, at) {
    const raw = [...bytes.subarray(at, at + 4)];
    return raw.every(byte => byte > 31 && byte < 127) ? String.fromCharCode(...raw)
        : raw.map(byte => byte.toString(16).padStart(2, '0')).join('');
}

/**
 * The boxes of a file as far as headers can be read, for one that has a broken header, of which
 * `boxes` says nothing: up to `most` of them. A box with a broken header has `isBroken`, and
 * reaches to the end of its container.
 */
export function sketch(bytes, most) {
    const read = reader(bytes), found = [];
    const walk = (at, end, container, depth) => {
        const own = [];
        while (end - at >= 8 && found.length < most) {
            const box = headerAt(read, at, end, depth);
            if (!box) break;
            found.push(box);
            own.push(box);
            if (box.isBroken) break;
            if (OPENED[container]?.includes(box.type)) {
                walk(at + box.header, at + box.size, box.type, depth + 1);
            }
            at += box.size;
        }
        if (at < end && depth) own.forEach(box => { box.isUnsure = true; });
    };
    walk(0, bytes.length, 'file', 0);
    return found;
}

// The box whose header begins at a place, in a container that ends at another; nothing where its
// header is cut short.
function headerAt(read, at, end, depth) {
    const short = read.u32(at), header = short === 1 ? 16 : 8;
    if (end - at < header) return null;
    const size = short === 1 ? Number(read.u64(at + 8)) : short || (depth ? 0 : end - at);
    const isBroken = size < header || size > end - at;
    const type = read.text(at + 4);
    return { depth, offset: at, size: isBroken ? end - at : size, type, header, isBroken };
}

/**
 * The way to the box of a fault, as `--explain` says it: the boxes in which it lies, and its own
 * type last. A number says which of several of a type it is in its container; a `moof` always has
 * one.
 */
export function wayTo(boxes, { kind, type, offset }) {
    if (type === 'file') return 'file';
    const way = boxesOver(boxes, Number(offset));
    // Where a header is cut short behind the last of boxes, their container ends there, and is the
    // one that is named.
    const isBehind = kind === 'ShortHeader' && way.at(-1)?.type !== type && offset > 0;
    const all = isBehind ? boxesOver(boxes, Number(offset) - 1) : way;
    // The way ends where a header in the same container can't be read.
    const unsure = all.findIndex(box => box.isUnsure);
    const best = unsure < 0 ? all : all.slice(0, unsure);
    const last = best.at(-1);
    const isThere = kind === 'ShortHeader' || Number(last?.offset) === Number(offset);
    if (last?.type !== type || !isThere) best.push({ type, number: 0 });
    return best.map(box => `${box.type}${isNumbered(boxes, box) ? ` ${box.number}` : ''}`)
        .join(' / ');
}

// The boxes that lie over a place, the outermost first; of each, which of its type it is in its
// container.
function boxesOver(boxes, offset) {
    const way = [], counts = [new Map()];
    const last = boxes.findLastIndex(box => box.offset <= offset);
    // Of each box before the place: which of its type it is in its container, and up to where that
    // reaches.
    for (let k = 0; k <= last; k += 1) {
        const box = boxes[k];
        counts.length = box.depth + 1;
        const number = (counts[box.depth].get(box.type) ?? 0) + 1;
        counts[box.depth].set(box.type, number);
        counts.push(new Map());
        way.length = box.depth;
        way.push({ ...box, number, at: k });
    }
    return way.filter(box => Number(box.offset) + Number(box.size) > offset);
}

// Whether another box of its type stands in its container.
function isNumbered(boxes, box) {
    if (!box.number || box.number > 1 || box.type === 'moof') return box.number > 0;
    for (let k = box.at + 1; k < boxes.length && boxes[k].depth >= box.depth; k += 1) {
        if (boxes[k].depth === box.depth && boxes[k].type === box.type) return true;
    }
    return false;
}
