// All answers on one file that pictures are made of, by calls of the module; for the page's worker
// and for Node.
import { laneOf } from './film.js';
import { numbersOf } from './numbers.js';
import { outline, samplesOf, sketch } from './reading.js';
import { beforeFault } from './refused.js';

/** A track with more samples than this is not drawn. */
export const MOST_SAMPLES = 1 << 22;
/** Of so many tracks at most samples are drawn. */
export const MOST_LANES = 40;
/** So many rows of a box are shown at most. */
export const MOST_ROWS = 16;
/** So many boxes are drawn at most. */
export const MOST_BOXES = 1 << 18;
/**
 * Cuts of the normal form are looked for where files, and their samples together, have no more
 * bytes than this,
 */
export const MOST_NORMAL = 1 << 28;
/** and where they have no more samples. */
export const MOST_CUT = 1 << 21;

/** The boxes of a file that is open; where a header is broken, as far as headers can be read. */
export function boxesOf(open, bytes) {
    try {
        const boxes = open.boxes();
        return boxes.length > MOST_BOXES ? boxes.slice(0, MOST_BOXES) : boxes;
    } catch {
        return sketch(bytes, MOST_BOXES);
    }
}

/** The samples of a track; none where there are too many. */
export function columnsOf(open, track) {
    return samplesOf(track.samples > MOST_SAMPLES ? '' : open.samplesText(track.id));
}

/** The fields of the box that these bytes are; nothing where it has none, or can't be read. */
export function fieldsOf(lib, bytes) {
    try {
        return lib.fields(bytes, MOST_ROWS)[0]?.fields ?? null;
    } catch (error) {
        if (error.code === 'refused') return null;
        throw error;
    }
}

/** What `outline` says of a file; without fragments where not all boxes are there. */
export function outlineOf(bytes, boxes) {
    return outline(
        bytes, boxes.length < MOST_BOXES ? boxes : boxes.filter(box => box.type !== 'trun'));
}

/**
 * The numbers, from 0, of the samples of each track with which a piece of the normal form begins.
 */
export function cutsOf(lib, normal) {
    return outline(normal, lib.boxes(normal)).map(track => track.pieces.map(piece => piece.first));
}

/** The tracks of a refused file before its fault; nothing where there are none to be drawn. */
export function partOf(bytes, boxes, verdict) {
    try {
        return verdict.status === 1 ? beforeFault(bytes, boxes, verdict, MOST_SAMPLES) : null;
    } catch {
        return null;
    }
}

/** The numbers that go with a fault, as `--explain` has them; nothing where there are none. */
export function numbersTold(bytes, boxes, verdict, before) {
    if (verdict.kind !== 'Gap') return numbersOf(bytes, boxes, verdict);
    const gap = before?.gap;
    return gap ? `track ${gap.id}: time ${gap.found}, due ${gap.due}` : '';
}

/**
 * Whether the normal form is short enough to be made for a picture alone, of a file of so many
 * bytes.
 */
export function isShort(show, size) {
    const sum = what => show.tracks.reduce((all, track) => all + Number(track[what]), 0);
    return Math.max(sum('bytes'), size) <= MOST_NORMAL && sum('samples') <= MOST_CUT;
}

/** All lanes of an accepted file. */
export function lanesOf(lib, bytes) {
    const open = lib.open(bytes);
    try {
        const show = open.show(), boxes = boxesOf(open, bytes);
        const found = outlineOf(bytes, boxes);
        const cuts = isShort(show, bytes.length) ? cutsOf(lib, open.normalise()) : [];
        return show.tracks.slice(0, MOST_LANES).map((track, k) =>
            laneOf(track, k, show.timescale, columnsOf(open, track), found[k], cuts[k]));
    } finally {
        open.close();
    }
}
