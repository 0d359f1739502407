// The numbers that go with a fault, as `--explain` tells them: of a table that counts other than
// the samples are, and of a sample that does not lie in the file. What is read here comes before
// the fault in the order of checks, and so has passed them.
import { inside, reader } from './reading.js';

// The boxes in the container that has this number among all.
function childrenOf(boxes, k) {
    let end = k + 1;
    while (end < boxes.length && boxes[end].depth > boxes[k].depth) end += 1;
    return boxes.slice(k + 1, end);
}

// The number of the container of a type that a box lies in; -1 without one.
function containerOf(boxes, k, type) {
    for (let at = k - 1; at >= 0; at -= 1) {
        if (boxes[at].depth < boxes[k].depth) return boxes[at].type === type ? at : -1;
    }
    return -1;
}

// Where the payloads of the boxes of a type begin.
function payloads(read, boxes, ...types) {
    return boxes.filter(box => types.includes(box.type)).map(box => inside(read, box));
}

// The sum of the first column of a table of two, whose count stands at a place.
function sumOfRows(read, at) {
    let all = 0n;
    for (let row = 0; row < read.u32(at); row += 1) all += BigInt(read.u32(at + 4 + 8 * row));
    return all;
}

// How many samples each chunk has, by an `stsc`, for so many chunks.
function* chunksOf(read, stsc, chunks) {
    const rows = read.u32(stsc + 4);
    for (let k = 0, at = stsc + 8; k < rows; k += 1, at += 12) {
        const next = k + 1 < rows ? read.u32(at + 12) : chunks + 1;
        const count = Math.max(0, Math.min(next, chunks + 1) - read.u32(at));
        yield { count, each: read.u32(at + 4) };
    }
}

// How many samples a table of an `stbl` counts.
function countedBy(read, type, at, table) {
    if (type === 'sbgp') return sumOfRows(read, at + (read.u8(at) ? 12 : 8));
    if (type !== 'stsc') return sumOfRows(read, at + 4);
    const [places] = payloads(read, table, 'stco', 'co64');
    let all = 0n;
    for (const { count, each } of chunksOf(read, at, read.u32(places + 4))) {
        all += BigInt(count) * BigInt(each);
    }
    return all;
}

// The counts of a CountMismatch.
function counts(read, boxes, k) {
    const { type } = boxes[k], at = inside(read, boxes[k]);
    const traf = containerOf(boxes, k, 'traf'), stbl = containerOf(boxes, k, 'stbl');
    const inFragment = traf >= 0;
    const table = childrenOf(boxes, inFragment ? traf : stbl);
    const samples = inFragment
        ? payloads(read, table, 'trun').reduce((sum, run) => sum + read.u32(run + 4), 0)
        : read.u32(payloads(read, table, 'stsz', 'stz2')[0] + 8);
    return `counted ${countedBy(read, type, at, table)}, samples ${samples}`;
}

// The size of a sample of an `stbl`, by its number from 0.
function sizer(read, table) {
    const [stsz] = payloads(read, table, 'stsz');
    if (stsz !== undefined) {
        const all = read.u32(stsz + 4);
        return k => all || read.u32(stsz + 12 + 4 * k);
    }
    const [stz2] = payloads(read, table, 'stz2'), bits = read.u8(stz2 + 7);
    if (bits === 4) return k => (read.u8(stz2 + 12 + (k >> 1)) >> (k % 2 ? 0 : 4)) & 15;
    return bits === 8 ? k => read.u8(stz2 + 12 + k) : k => read.u16(stz2 + 12 + 2 * k);
}

// A sample that does not lie in a file of so many bytes; nothing, where it does.
function outside(at, size, length) {
    if (at + BigInt(size) <= length && at >= 0n) return null;
    return at < 0n || at >= 1n << 64n ? '' : `sample at ${at}, size ${size}, file ${length}`;
}

// The first sample of an `stbl` that does not lie in the file.
function outsideOfTable(read, boxes, k, length) {
    const table = childrenOf(boxes, containerOf(boxes, k, 'stbl'));
    const at = inside(read, boxes[k]), wide = boxes[k].type === 'co64';
    const size = sizer(read, table), [stsc] = payloads(read, table, 'stsc');
    let chunk = 0, sample = 0;
    for (const { count, each } of chunksOf(read, stsc, read.u32(at + 4))) {
        for (const end = chunk + count; chunk < end; chunk += 1) {
            let place = wide ? read.u64(at + 8 + 8 * chunk) : BigInt(read.u32(at + 8 + 4 * chunk));
            for (let left = each; left > 0; left -= 1, sample += 1) {
                const told = outside(place, size(sample), length);
                if (told !== null) return told;
                place += BigInt(size(sample));
            }
        }
    }
    return '';
}

// What a `tfhd` says: where data begins, if it does, and the size of samples, if it does.
function headOf(read, at) {
    const flags = read.u32(at) & 0xffffff;
    const size = at + 8 + (flags & 1 ? 8 : 0) + (flags & 2 ? 4 : 0) + (flags & 8 ? 4 : 0);
    return {
        track: read.u32(at + 4), base: flags & 1 ? read.u64(at + 8) : null,
        isOwn: (flags & 0x20000) !== 0, size: flags & 16 ? read.u32(size) : null,
    };
}

// The samples of a `trun`, which begin at `from`, unless it says where, from `base` on: where they
// end, or what there is to tell of the first that does not lie in the file.
function runOf(read, at, base, from, size, length) {
    const flags = read.u32(at) & 0xffffff, count = read.u32(at + 4);
    const each = [0x100, 0x200, 0x400, 0x800].reduce((sum, bit) => sum + (flags & bit ? 4 : 0), 0);
    const rows = at + 8 + (flags & 1 ? 4 : 0) + (flags & 4 ? 4 : 0) + (flags & 0x100 ? 4 : 0);
    let place = flags & 1 ? base + BigInt(read.u32(at + 8) | 0) : from;
    for (let k = 0; k < count; k += 1) {
        const bytes = flags & 0x200 ? read.u32(rows + each * k) : size;
        const told = outside(place, bytes, length);
        if (told !== null) return { told };
        place += BigInt(bytes);
    }
    return { ends: place };
}

// The size that samples of a track have where nothing else says one.
function defaultSize(read, boxes, track) {
    const trex = payloads(read, boxes, 'trex').find(at => read.u32(at + 4) === track);
    return trex === undefined ? 0 : read.u32(trex + 16);
}

// The first sample of a `trun` that does not lie in the file. The data of a `traf` without a base
// of its own begins where that of the one before ends.
function outsideOfRun(read, boxes, k, length) {
    const traf = containerOf(boxes, k, 'traf'), moof = containerOf(boxes, traf, 'moof');
    const begin = BigInt(boxes[moof].offset);
    let ends = begin;
    for (let at = moof + 1; at <= traf; at += 1) {
        if (boxes[at].type !== 'traf' || boxes[at].depth !== 1) continue;
        const own = childrenOf(boxes, at), head = headOf(read, payloads(read, own, 'tfhd')[0]);
        const base = head.base ?? (head.isOwn ? begin : ends);
        const size = head.size ?? defaultSize(read, boxes, head.track);
        let from = base;
        ends = base;
        for (const run of own.filter(box => box.type === 'trun')) {
            const found = runOf(read, inside(read, run), base, from, size, length);
            if (found.told !== undefined) return found.told;
            from = ends = found.ends;
        }
    }
    return '';
}

/**
 * The numbers of a CountMismatch or a SampleOutsideFile; nothing where there are none, or they
 * can't be told.
 */
export function numbersOf(bytes, boxes, { kind, type, offset }) {
    const isThere = box => Number(box.offset) === Number(offset) && box.type === type;
    const k = boxes.findLastIndex(isThere);
    const read = reader(bytes), length = BigInt(bytes.length);
    try {
        if (kind === 'CountMismatch') return counts(read, boxes, k);
        if (kind !== 'SampleOutsideFile') return '';
        return (type === 'trun' ? outsideOfRun : outsideOfTable)(read, boxes, k, length);
    } catch (error) {
        if (error instanceof RangeError || error instanceof TypeError) return '';
        throw error;
    }
}
