// A file as pictures see it: lanes of samples on one axis of seconds.
import { isSync } from './reading.js';
import { counted, timed } from './pen.js';

const HANDLERS = {
    vide: 'video',
    soun: 'audio',
    text: 'text',
    subt: 'subtitles',
    sbtl: 'subtitles',
    hint: 'hints',
    meta: 'metadata',
    pict: 'images',
    auxv: 'auxiliary video',
    tmcd: 'time code',
    clcp: 'captions',
};

/** What a handler's type means, for people; the type itself where that isn't known. */
export function handled(type) {
    return HANDLERS[type] ?? type;
}

// The order in which samples are shown, by these times. They are nearly in order, so each moves a
// little; where that takes too long, they are sorted as a whole.
function shownOrder(times) {
    const order = new Uint32Array(times.length);
    let moves = 64 * times.length + 1024;
    for (let k = 0; k < times.length; k += 1) {
        let at = k;
        while (at > 0 && times[order[at - 1]] > times[k] && moves > 0) {
            order[at] = order[at - 1];
            at -= 1;
            moves -= 1;
        }
        order[at] = k;
        if (moves <= 0) break;
    }
    return moves > 0 ? order : order.map((_, k) => k).sort((a, b) => times[a] - times[b] || a - b);
}

// Where a track's edits show what: on the movie's time line, and in the track. One of length 0
// lasts as long as the track.
function editsOf(track, scale, length) {
    let at = 0;
    return track.edits.map(([lasts, media, whole, part]) => {
        const seconds = Number(lasts) / scale || (Number(media) < 0 ? 0 : length);
        const rate = whole + part / 65536;
        const edit = {
            at,
            seconds,
            media: Number(media) < 0 ? null : Number(media) / track.timescale,
            rate
        };
        at += seconds;
        return edit;
    });
}

/**
 * A lane of a track: what `show` says of it, its samples as columns, and what `outline` says of
 * it. `cuts` are the numbers, from 0, of samples with which a piece of the normal form begins.
 */
export function laneOf(track, place, scale, samples, found, cuts) {
    const start = Number(track.start);
    const shown = Float64Array.from(
        samples.decode, (time, k) => (start + time + samples.offset[k]) / track.timescale);
    const order = shownOrder(shown);
    let longest = 0, largest = 1, syncs = 0;
    for (let k = 0; k < samples.count; k += 1) {
        longest = Math.max(longest, samples.duration[k]);
        largest = Math.max(largest, samples.size[k]);
        syncs += isSync(samples.flags[k]) ? 1 : 0;
    }
    const ends =
        samples.count ? shown[order.at(-1)] + samples.duration[order.at(-1)] / track.timescale : 0;
    return {
        ...track,
        place,
        samples,
        inAll: Number(track.samples),
        shown,
        order,
        largest,
        syncs,
        longest: longest / track.timescale,
        ends,
        cuts,
        from: samples.count ? shown[order[0]] : 0,
        language: found.language,
        pieces: found.pieces,
        edits: editsOf(track, scale, Number(track.duration) / track.timescale),
    };
}

/**
 * The lanes of tracks before a fault (`beforeFault`), on the time line of decoding; that with the
 * fault has it in `fault`: from when to when, in seconds, and what is said of it.
 */
export function lanesBefore(found) {
    return found.tracks.map((track, k) => {
        const lane = laneOf(track, k, found.timescale, track.columns, track, []);
        const seconds = time => time / track.timescale, { gap } = found;
        const [due, there] = gap ? [gap.due, gap.found].map(seconds) : [lane.ends, lane.ends];
        const said = gap ? `expected ${timed(due)}, found ${timed(there)}` : found.said;
        const from = Math.min(due, there), to = Math.max(due, there);
        if (k === found.place) lane.fault = { from, to, said };
        return lane;
    });
}

/**
 * The movie fragments of lanes, in the order of the file: of each the offset of its `moof`, how many
 * samples it has, when the first is decoded and the last ends, in seconds, their bytes, and whether
 * it begins with a sync sample in each video track, or without one in each track.
 */
export function fragmentsOf(lanes) {
    const found = new Map();
    const hasVideo = lanes.some(lane => lane.handler === 'vide');
    for (const lane of lanes) {
        const { samples } = lane, leads = !hasVideo || lane.handler === 'vide';
        for (const { first, count, moof } of lane.pieces) {
            if (first + count > samples.count) continue;
            const own = found.get(moof) ?? { moof, samples: 0, bytes: 0, from: Infinity, to: 0, isSync: true };
            const last = first + count - 1, start = Number(lane.start);
            own.samples += count;
            for (let k = first; k <= last; k += 1) own.bytes += samples.size[k];
            own.from = Math.min(own.from, (start + samples.decode[first]) / lane.timescale);
            own.to = Math.max(
                own.to, (start + samples.decode[last] + samples.duration[last]) / lane.timescale);
            own.isSync &&= !leads || isSync(samples.flags[first]);
            found.set(moof, own);
        }
    }
    return [...found.values()].sort((a, b) => Number(a.moof) - Number(b.moof));
}

/**
 * How many seconds later than by its own times a lane's samples are shown where its edits are
 * applied; null where these do more than delay it and cut it off.
 */
export function shiftOf(lane) {
    if (!lane.edits.length) return 0;
    const { at, media, rate } = lane.edits.at(-1);
    const isSimple = lane.edits.slice(0, -1).every(edit => edit.media === null)
        && media !== null && rate === 1;
    return isSimple ? at - media : null;
}

/**
 * A lane as its edits present it, on the movie's time line; the lane itself where they say nothing,
 * or more than when it begins.
 */
export function presented(lane) {
    const moved = shiftOf(lane);
    if (!moved) return lane;
    lane.presented ??= {
        ...lane,
        moved,
        shown: lane.shown.map(seconds => seconds + moved),
        from: lane.from + moved,
        ends: lane.ends + moved,
    };
    return lane.presented;
}

// When the edits of a lane end, on the movie's time line; 0 where its samples begin behind that, as
// those of live films do.
function editsEnd(lane) {
    const ends = Math.max(0, ...lane.edits.map(edit => edit.at + edit.seconds));
    return lane.from <= ends ? ends : 0;
}

/**
 * The first and the last second of lanes, with their edits. The first is 0, unless samples begin so
 * late that they would be hard to see then.
 */
export function extent(lanes) {
    let from = Infinity, to = 0;
    for (const lane of lanes.filter(it => it.samples.count || it.edits.length)) {
        from = Math.min(from, editsEnd(lane) ? Math.min(0, lane.from) : lane.from);
        to = Math.max(to, lane.ends, editsEnd(lane));
        if (lane.fault) to = Math.max(to, lane.fault.to) + (to - from) / 12;
    }
    if (from > 0 && from < (to - from) / 2 || from === Infinity) from = 0;
    return { from, to: to > from ? to : from + 1 };
}

/** How many of the samples, in the order of showing, begin before a time. */
export function before(lane, seconds) {
    let low = 0, high = lane.samples.count;
    while (low < high) {
        const middle = (low + high) >> 1;
        if (lane.shown[lane.order[middle]] < seconds) low = middle + 1;
        else high = middle;
    }
    return low;
}

/**
 * The number, from 0, of the sample that is shown at a time, or of the nearest one within some
 * seconds; -1 without one.
 */
export function sampleAt(lane, seconds, within) {
    const next = before(lane, seconds + 1e-12);
    const candidates =
        [next - 1, next].filter(at => at >= 0 && at < lane.samples.count).map(at => lane.order[at]);
    const distance = k => {
        const ends = lane.shown[k] + lane.samples.duration[k] / lane.timescale;
        return seconds < lane.shown[k] ? lane.shown[k] - seconds : Math.max(0, seconds - ends);
    };
    candidates.sort((a, b) => distance(a) - distance(b));
    return candidates.length && distance(candidates[0]) <= within ? candidates[0] : -1;
}

/** A track in a line: `Track 1 · video · avc1 · eng`. */
export function titled(lane) {
    const codecs = [...new Set(lane.descriptions)].join(' ');
    return [`Track ${lane.id}`, handled(lane.handler), codecs, lane.language].filter(Boolean).join(
        ' \u00b7 ');
}

/** How many samples a lane has, and of which how many are sync samples. */
export function tallied(lane) {
    if (lane.inAll > lane.samples.count)
        return `${counted(lane.inAll, 'sample')}: too many to be drawn`;
    const sync = !lane.inAll        ? ''
        : lane.syncs === lane.inAll ? ', all sync'
                                    : `, ${counted(lane.syncs, 'sync sample')}`;
    return counted(lane.inAll, 'sample') + sync;
}
