// Of a file that is refused for a fault in a fragment: its samples up to there, by their times of
// decoding. All that is read here comes before the fault in the order of checks, and has passed.
import { columns, inside, letters, reader } from './reading.js';

// Samples of a track, one added after the other.
class Track {
    constructor() {
        Object.assign(this, {
            id: 0,
            handler: '',
            descriptions: [],
            language: '',
            timescale: 1,
            start: 0,
            time: 0,
            edits: []
        });
        Object.assign(this, {
            durations: [],
            sizes: [],
            flags: [],
            pieces: [],
            defaults: [0, 0, 0],
            hasStart: false
        });
    }

    add(duration, size, flags) {
        this.durations.push(duration);
        this.sizes.push(size);
        this.flags.push(flags);
        this.time += duration;
    }
}

// What the boxes of a `moov` say of a track.
const HEADS = {
    tkhd: (read, at, track) => { track.id = read.u32(at + (read.u8(at) ? 20 : 12)); },
    mdhd: (read, at, track) => {
        const by = read.u8(at) ? 20 : 12;
        track.timescale = read.u32(at + by);
        track.language = letters(read.u16(at + by + (read.u8(at) ? 12 : 8)));
    },
    hdlr: (read, at, track) => { track.handler = read.text(at + 8); },
    stsd: (read, at, track) => { if (read.u32(at + 4)) track.descriptions = [read.text(at + 12)]; },
    stts: (read, at, track) => { track.rows = at; },
    stsz: (read, at, track) => { track.table = at; },
    stz2: (read, at, track) => { track.compact = at; },
    stss: (read, at, track) => { track.syncs = at; },
};

// The size of a sample in `stsz` or `stz2`.
function sizeOf(read, track, k) {
    if (track.table !== undefined)
        return read.u32(track.table + 4) || read.u32(track.table + 12 + 4 * k);
    const at = track.compact + 12;
    const bits = read.u8(track.compact + 7);
    if (bits === 16) return read.u16(at + 2 * k);
    return bits === 8 ? read.u8(at + k) : (read.u8(at + (k >> 1)) >> (k % 2 ? 0 : 4)) & 15;
}

// The samples of a track's tables.
function addTables(read, track, most) {
    const count = read.u32((track.table ?? track.compact) + 8);
    if (count > most) throw new RangeError('too many samples');
    const keys = new Set();
    for (let k = 0; track.syncs && k < read.u32(track.syncs + 4); k += 1)
        keys.add(read.u32(track.syncs + 8 + 4 * k));
    for (let row = track.rows + 8; track.durations.length < count; row += 8) {
        for (let left = read.u32(row); left > 0 && track.durations.length < count; left -= 1) {
            const k = track.durations.length;
            track.add(
                read.u32(row + 4), sizeOf(read, track, k),
                !track.syncs || keys.has(k + 1) ? 0 : 0x10000);
        }
    }
    track.hasStart = count > 0;
}

// What a `tfhd` gives in place of the defaults of `trex`: duration, size, flags.
function defaultsOf(read, at, track) {
    const flags = read.u32(at) & 0xffffff;
    let place = at + 8 + (flags & 1 ? 8 : 0) + (flags & 2 ? 4 : 0);
    return [8, 16, 32].map((bit, k) => {
        if (!(flags & bit)) return track.defaults[k];
        place += 4;
        return read.u32(place - 4);
    });
}

// The samples of a `trun`.
function addRun(read, at, track, defaults, most) {
    const flags = read.u32(at) & 0xffffff, count = read.u32(at + 4);
    if (track.durations.length + count > most) throw new RangeError('too many samples');
    let place = at + 8 + (flags & 1 ? 4 : 0);
    const first = flags & 4 ? read.u32(place) : null;
    if (flags & 4) place += 4;
    for (let k = 0; k < count; k += 1) {
        const row = [0x100, 0x200, 0x400].map((bit, column) => {
            if (!(flags & bit)) return defaults[column];
            place += 4;
            return read.u32(place - 4);
        });
        if (flags & 0x800) place += 4;
        track.add(row[0], row[1], k === 0 && first !== null ? first : row[2]);
    }
}

// The tracks of a `moov` with the samples of their tables, and its timescale.
function openMovie(read, boxes, most) {
    const tracks = [], all = { tracks, timescale: 1 };
    for (const box of boxes) {
        const at = inside(read, box);
        if (box.type === 'trak') tracks.push(new Track());
        else if (box.type === 'mvhd') all.timescale = read.u32(at + (read.u8(at) ? 20 : 12));
        else if (box.type === 'trex') {
            const track = tracks.find(it => it.id === read.u32(at + 4));
            if (track) track.defaults = [12, 16, 20].map(by => read.u32(at + by));
        } else if (tracks.length && HEADS[box.type]) HEADS[box.type](read, at, tracks.at(-1));
    }
    tracks.forEach(track => addTables(read, track, most));
    return all;
}

// Adds the samples of a `traf`, or tells of the gap before them.
function addFragment(read, boxes, tracks, moof, most) {
    const found = type => boxes.filter(box => box.type === type).map(box => inside(read, box));
    const [tfhd] = found('tfhd'), [tfdt] = found('tfdt');
    const track = tracks.find(it => it.id === read.u32(tfhd + 4));
    const runs = found('trun').filter(at => read.u32(at + 4));
    if (!track || !runs.length) return null;
    const time = tfdt === undefined ? null
        : read.u8(tfdt)             ? Number(read.u64(tfdt + 4))
                                    : read.u32(tfdt + 4);
    if (time !== null && !track.hasStart) track.start = time;
    else if (time !== null && time !== track.start + track.time)
        return { track, found: time, due: track.start + track.time };
    track.hasStart = true;
    track.pieces.push({ first: track.durations.length, count: 0, moof });
    const defaults = defaultsOf(read, tfhd, track);
    runs.forEach(at => addRun(read, at, track, defaults, most));
    return null;
}

// A track as `show` and `samples` would have it.
function finished(track) {
    const count = track.durations.length, samples = columns(count);
    let time = 0;
    for (let k = 0; k < count; k += 1) {
        samples.decode[k] = time;
        time += track.durations[k];
    }
    samples.duration.set(track.durations);
    samples.size.set(track.sizes);
    samples.flags.set(track.flags.map(flags => flags & 0xfffffff));
    samples.description.fill(1);
    const { id, handler, descriptions, language, timescale, start, edits, pieces } = track;
    const heads = { id, handler, descriptions, language, timescale, start, edits, pieces };
    return { ...heads, samples: count, duration: time, columns: samples };
}

// Of a fault in a `moof`: the number of the box with which reading ends, which is the `traf` that
// has the fault, or the `moof`, where its own boxes have it; -1 of a fault that is found before.
function endOf(boxes, { kind, type, offset }) {
    const place = Number(offset), isInside = kind === 'MissingBox' || kind === 'ShortHeader';
    const named = boxes.find(box => Number(box.offset) === place && box.type === type);
    const moof = boxes.findLastIndex(box => box.depth === 0 && Number(box.offset) <= place);
    if (boxes[moof]?.type !== 'moof' || named?.depth === 0 && !isInside) return -1;
    const isOfTraf = named?.depth > 1 || type === 'traf' && isInside;
    if (!isOfTraf) return moof;
    return boxes.findLastIndex(box => box.type === 'traf' && Number(box.offset) <= place);
}

// The track that a `traf` is of, as far as it can be read.
function trackOf(read, boxes, tracks) {
    const head = boxes.find(box => box.type === 'tfhd' && !box.isBroken && box.size >= 16);
    return head && tracks.find(it => it.id === read.u32(inside(read, head) + 4));
}

/**
 * The tracks before a fault in a fragment: of each what `show` would say, its samples as `columns`,
 * and its `pieces`; the `place` of the track that has the fault; and of a Gap the ID of the track,
 * the time that was found, and the one that is due. Nothing of a fault that is found before.
 */
export function beforeFault(bytes, boxes, verdict, most) {
    const read = reader(bytes), end = endOf(boxes, verdict);
    if (end < 0) return null;
    const moov = boxes.findIndex(box => box.depth === 0 && box.type === 'moov');
    const movie = openMovie(read, within(boxes, moov), most), { tracks } = movie;
    let moof = 0;
    for (let k = 0; k < end; k += 1) {
        if (boxes[k].depth === 0) moof = Number(boxes[k].offset);
        if (boxes[k].depth === 1 && boxes[k].type === 'traf') {
            addFragment(read, within(boxes, k), tracks, moof, most);
        }
    }
    const isGap = verdict.kind === 'Gap', last = within(boxes, end);
    const gap = isGap ? addFragment(read, last, tracks, moof, most) : null;
    const track = boxes[end].type === 'traf' ? trackOf(read, last, tracks) : null;
    return {
        timescale: movie.timescale, tracks: tracks.map(finished),
        place: Math.max(0, tracks.indexOf(track)), said: `${verdict.kind} in ${verdict.type}`,
        gap: gap && { id: gap.track.id, found: gap.found, due: gap.due },
    };
}

// The boxes in a container.
function within(boxes, k) {
    let end = k + 1;
    while (end < boxes.length && boxes[end].depth > boxes[k].depth) end += 1;
    return boxes.slice(k + 1, end);
}
