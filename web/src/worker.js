// What works beside the page: it holds the module and the files, and answers one message after the
// other.
import {
    boxesOf,
    columnsOf,
    cutsOf,
    fieldsOf,
    isShort,
    MOST_LANES,
    numbersTold,
    outlineOf,
    partOf
} from './answers.js';
import { hasMemory64, load } from '../mp4norm.mjs';

// So many bytes are read at once.
const READ = 1 << 23;
// A module whose memory has 32-bit addresses holds no file of more bytes than this.
const MOST_32 = 3.6e9;
// Of a refused file so many bytes are shown around the fault.
const AROUND = 96;

/** What went wrong, for the page: a word of its kind, and what the browser says. */
class Trouble extends Error {
    constructor(kind, said = '') {
        super(said);
        this.kind = kind;
    }
}

let lib = null, modules = null;
const slots = new Map();

// Bytes of a text of base64, unpacked.
async function unpacked(text) {
    const packed = Uint8Array.from(atob(text), sign => sign.charCodeAt(0));
    const stream = new Blob([packed]).stream().pipeThrough(new DecompressionStream('gzip'));
    return new Uint8Array(await new Response(stream).arrayBuffer());
}

// The module for a file of so many bytes.
async function library(size) {
    const isWide = size > MOST_32 / 2 && Boolean(modules.wide) && hasMemory64();
    if (size > MOST_32 && !isWide) throw new Trouble('large');
    if (!lib) lib = await load(await unpacked(isWide ? modules.wide : modules.narrow));
    return lib;
}

// The bytes of a file, all of them; it has to stay as it was chosen.
async function bytesOfFile(file, tell) {
    let bytes;
    try {
        bytes = new Uint8Array(file.size);
    } catch (error) {
        throw new Trouble('memory', error.message);
    }
    for (let at = 0; at < file.size; at += READ) {
        tell({ part: 'read', done: at, of: file.size });
        bytes.set(await piece(file, at, Math.min(READ, file.size - at)), at);
    }
    return bytes;
}

// So many bytes of a file from a place on.
async function piece(file, at, length) {
    let read;
    try {
        read = new Uint8Array(await file.slice(at, at + length).arrayBuffer());
    } catch (error) {
        throw new Trouble(error.name === 'RangeError' ? 'memory' : 'changed', error.message);
    }
    if (read.length !== length) throw new Trouble('changed');
    return read;
}

// Gives up the file of a place.
function drop(slot) {
    slots.get(slot)?.open.close();
    slots.delete(slot);
}

// A file in the module's memory, read anew unless it is there.
async function opened(message, tell) {
    const held = slots.get(message.slot);
    if (held?.key === message.key) return held;
    drop(message.slot);
    const using = await library(message.file.size);
    const bytes = await bytesOfFile(message.file, tell);
    tell({ part: 'step', text: 'Checking' });
    const fresh = { key: message.key, file: message.file, bytes, open: using.open(bytes) };
    slots.set(message.slot, fresh);
    return fresh;
}

// All that is shown of a file at once, a part after the other.
async function inspect(message, tell) {
    // What was read before is not all there any more.
    drop(message.slot);
    const held = await opened(message, tell);
    const begun = performance.now();
    const verdict = held.open.check();
    tell({ part: 'verdict', verdict, took: performance.now() - begun });
    const boxes = boxesOf(held.open, held.bytes);
    const before = partOf(held.bytes, boxes, verdict);
    const numbers = verdict.status === 1 ? numbersTold(held.bytes, boxes, verdict, before) : '';
    const head = held.bytes.slice(0, 8);
    tell({ part: 'boxes', boxes, head, around: around(held.bytes, verdict), before, numbers });
    if (verdict.status === 0) await lanes(held, boxes, tell);
    // Only the module's copy is kept of what is large.
    held.bytes = null;
    await piece(held.file, 0, Math.min(1, held.file.size));
    return {};
}

// What pictures in time are made of.
async function lanes(held, boxes, tell) {
    const show = held.open.show();
    const outline = outlineOf(held.bytes, boxes);
    tell({ part: 'tracks', show, outline });
    const samples = [];
    for (const track of show.tracks.slice(0, MOST_LANES)) {
        tell({ part: 'step', text: `Listing the samples of track ${track.id}` });
        samples.push(columnsOf(held.open, track));
    }
    tell(
        { part: 'samples', samples },
        samples.flatMap(
            it => Object.values(it).filter(column => column.buffer).map(column => column.buffer)));
    if (isShort(show, held.file.size)) {
        tell({ part: 'step', text: 'Finding the movie fragments of the normal form' });
        tell({ part: 'cuts', cuts: cutsOf(lib, held.open.normalise()) });
    }
}

// The bytes around the box that has a fault, from the place `at` on.
function around(bytes, verdict) {
    if (verdict.status !== 1 || verdict.type === 'file') return null;
    const at = Math.max(0, Number(verdict.offset) - 16);
    return { at, bytes: bytes.slice(at, at + AROUND) };
}

// Whether two pieces of one length are the same, of files that were read.
function areEqual(one, other) {
    const count = one.length >> 2;
    const [a, b] = [one, other].map(it => new Uint32Array(it.buffer, 0, count));
    for (let k = 0; k < count; k += 1) {
        if (a[k] !== b[k]) return false;
    }
    return one.subarray(4 * count).every((byte, k) => byte === other[4 * count + k]);
}

// Whether two files have the same bytes.
async function areAlike(one, other, tell) {
    if (one.size !== other.size) return false;
    for (let at = 0; at < one.size; at += READ) {
        tell({ part: 'read', done: at, of: one.size });
        const length = Math.min(READ, one.size - at);
        const [a, b] = [await piece(one, at, length), await piece(other, at, length)];
        if (!areEqual(a, b)) return false;
    }
    return true;
}

async function compare(message, tell) {
    const a = await opened({ slot: 'a', ...message.a }, tell);
    const b = await opened({ slot: 'b', ...message.b }, tell);
    const alike = await areAlike(a.file, b.file, tell);
    tell({ part: 'step', text: 'Comparing' });
    return { alike, ...a.open.compare(b.open, message.words, message.limit) };
}

const WORK = {
    start: async message => {
        modules = message;
        lib = await load(await unpacked(message.narrow));
        return { version: lib.version };
    },
    inspect,
    compare,
    sum: async (message, tell) => {
        const { open } = await opened(message, tell);
        tell({ part: 'step', text: 'Summing the normal form' });
        return { sum: open.sum(message.words) };
    },
    normal: async (message, tell) => {
        const { open } = await opened(message, tell);
        tell({ part: 'step', text: 'Making the normal form' });
        return { bytes: open.normalise(message.words) };
    },
    print: async (message, tell) => {
        const { open } = await opened(message, tell);
        tell({ part: 'step', text: 'Printing the content' });
        return { bytes: open.printBytes(message.words) };
    },
    fields: async ({ file, offset, size }) =>
        ({ fields: fieldsOf(lib, await piece(file, Number(offset), Number(size))) }),
    drop: async message => {
        drop(message.slot);
        return {};
    },
};

// A trouble as the page is told of it.
function told(error) {
    if (error instanceof Trouble) return { kind: error.kind, said: error.message };
    if (error.code === 'refused')
        return { kind: 'refused', said: error.message, fault: { ...error } };
    const isMemory =
        error.code === 'memory' || error instanceof RangeError || error.name === 'NotAllowedError';
    const isTrap = error instanceof WebAssembly.RuntimeError;
    return { kind: isMemory ? 'memory' : 'failed', said: `${error.message}`, isTrap };
}

async function answer(message) {
    const tell = (part, moved = []) => self.postMessage({ id: message.id, ...part }, moved);
    try {
        const result = await WORK[message.work](message, tell);
        self.postMessage({ id: message.id, result }, result.bytes ? [result.bytes.buffer] : []);
    } catch (error) {
        self.postMessage({ id: message.id, trouble: told(error) });
    }
}

let queue = Promise.resolve();
self.onmessage = ({ data }) => {
    queue = queue.then(() => answer(data));
};
