// What the page knows: two places for files, and what is left out of both.
import { laneOf, lanesBefore } from './film.js';

let keys = 0;

/** A file that was chosen, and what is known of it so far. */
export function slotOf(file) {
    keys += 1;
    return { key: keys, file, name: file.name, size: file.size, samples: [], isBusy: true };
}

/**
 * All that the page knows. `words` are those that are left out; `isPresented` says whether edits are
 * applied in the picture in time, null where nobody chose: then they are where there are two files.
 */
export const state = {
    slots: {a: null, b: null},
    words: new Set(),
    comparison: null,
    filter: null,
    chosen: [],
    shown: 200,
    unfolded: new Set(),
    isPresented: null
};

/** The places that have files, as `[name, slot]`. */
export function taken() {
    return Object.entries(state.slots).filter(([, slot]) => slot);
}

/** Whether a file was accepted. */
export function isAccepted(slot) {
    return slot?.verdict?.status === 0;
}

/** Takes over a part of what the worker found of a file. */
export function learn(slot, part) {
    if (part.part === 'verdict') Object.assign(slot, { verdict: part.verdict, took: part.took });
    if (part.part === 'boxes') {
        const { boxes, head, around, before, numbers } = part;
        Object.assign(slot, { boxes, head, around, before, numbers });
    }
    if (part.part === 'tracks') Object.assign(slot, { show: part.show, outline: part.outline });
    if (part.part === 'samples') slot.samples = part.samples;
    if (part.part === 'cuts') slot.cuts = part.cuts;
    if (part.part === 'samples' || part.part === 'cuts') slot.lanes = slot.fragments = null;
}

/**
 * The lanes of a file, as far as its samples are there; of one with a fault in a fragment, up to
 * that.
 */
export function lanesOfSlot(slot) {
    if (slot?.before) return slot.lanes ??= lanesBefore(slot.before);
    if (!slot?.show) return [];
    slot.lanes ??= slot.show.tracks.slice(0, slot.samples.length).map((track, k) =>
        laneOf(track, k, slot.show.timescale, slot.samples[k], slot.outline[k], slot.cuts?.[k]));
    return slot.lanes;
}

/**
 * Whether to hash all samples of a file takes no longer than one would wait without having asked:
 * they add up to no more than some gigabytes, and hardly lie over one another.
 */
export function isQuick(slot) {
    const bytes = bytesInAll(slot);
    return bytes <= 2e9 && bytes <= 4 * slot.size + 1e6
        && slot.show.tracks.reduce((sum, it) => sum + Number(it.samples), 0) <= 1 << 22;
}

/** How many bytes the samples of a file have together. */
export function bytesInAll(slot) {
    return slot.show ? slot.show.tracks.reduce((sum, track) => sum + Number(track.bytes), 0) : 0;
}

/** What is left out, in the order of the program: `times,edits`, or nothing. */
export function wordList(facts) {
    return facts.words.map(([word]) => word).filter(word => state.words.has(word));
}
