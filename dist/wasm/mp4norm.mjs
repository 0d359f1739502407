// mp4norm for JavaScript: what MP4 files (ISO/IEC 14496-12 and -14) say, of bytes in memory.
//
//     import { load } from './mp4norm.mjs';
//     const lib = await load();
//     const movie = lib.open(bytes);
//     console.log(movie.check(), movie.show().tracks, movie.sum('packaging-2'));
//     movie.close();
//
// For browsers and Node, without dependencies. What is proved, and what isn't: docs/MACHINES.md.

/**
 * What a call comes to: `done`; `refused`, the file has a fault; `memory`, an allocation was
 * refused; `device`, never of bytes in memory; `noTrack`, no track has the ID; `differ`, two files
 * are not the same; `usage`, what was asked for is not known.
 */
export const STATUS = Object.freeze({
    done: 0, refused: 1, memory: 2, device: 3, noTrack: 4, differ: 5, usage: 64,
});

/** The kinds of fault, from number 1 on (docs/FORMAT.md says what each means). */
export const KINDS = Object.freeze([
    'ShortHeader', 'BadSize', 'Overrun', 'ShortBox', 'BoxNotInProfile', 'DuplicateBox',
    'MissingBox', 'BadVersion', 'BadFlags', 'BadValue', 'OutsideData', 'CountMismatch', 'BadOrder',
    'BadDescriptionIndex', 'SampleOutsideFile', 'UnknownTrack', 'Gap', 'OffsetTooLarge',
    'ItemLocation', 'TooManySamples', 'TimeTooLarge', 'MovieTooLarge', 'FragmentBeforeMovie',
]);

/** What may be left out of a file, and the flag of each (docs/COMPARING.md). */
export const WORDS = Object.freeze({
    times: 1, edits: 2, flags: 4, groups: 8, metadata: 16, bitrates: 32, ends: 64, origins: 128,
    labels: 256, timing: 512, roles: 1024, ids: 2048, timescales: 4096, 'lead-ins': 8192,
    'packaging-1': 255, 'media-1': 1023, 'packaging-2': 15485, 'media-2': 15741,
});

// All of them at once.
const ALL_WORDS = Object.values(WORDS).reduce((all, flags) => all | flags, 0);

const FORMS = Object.freeze({ plain: 0, named: 1, json: 2 });
const SYNTAXES = Object.freeze({ lines: 0, json: 1 });
// Bytes of an answer, of a digest, and of what is asked of a comparison.
const ANSWER = 32, DIGEST = 32, ASKED = 16;
// So many bytes of a text are asked for at first; and at most so many at once.
const ROOM = 1 << 16, MOST = 1 << 28;

/** What a call answers in place of what it was asked for. `code` is a name of STATUS. */
export class Mp4Error extends Error {
    constructor(code, message) {
        super(message);
        this.name = 'Mp4Error';
        this.code = code;
    }
}

/**
 * A fault of a file: its kind, the type of the box that has it (four letters, or eight hexadecimal
 * digits), the place of that box's first byte; and of two files that were compared which has it, 0
 * or 1.
 */
export class Mp4Fault extends Mp4Error {
    constructor({ kind, type, offset, file }) {
        super('refused', `refused: ${kind} in ${type} at ${offset}`);
        this.name = 'Mp4Fault';
        Object.assign(this, { kind, type, offset, file });
    }
}

/** Whether this engine knows memories with addresses of 64 bits, which mp4norm.wasm has. */
export function hasMemory64() {
    return WebAssembly.validate(Uint8Array.of(0, 97, 115, 109, 1, 0, 0, 0, 5, 3, 1, 4, 1));
}

/**
 * Loads the module.
 *
 * @param source its bytes, a URL of them, a Response, or a WebAssembly.Module. Without it
 *     mp4norm.wasm beside this file, or mp4norm32.wasm where the engine doesn't know memory64.
 * @returns {Promise<Mp4Norm>}
 */
export async function load(source) {
    const given = await bytesOfModule(source ?? besideThis());
    const made = await WebAssembly.instantiate(given, {});
    return new Mp4Norm((made.instance ?? made).exports);
}

// Where the module is that this engine can run. Bundlers find files by URLs that stand there literally.
function besideThis() {
    return hasMemory64() ? new URL('./mp4norm.wasm', import.meta.url)
        : new URL('./mp4norm32.wasm', import.meta.url);
}

async function bytesOfModule(source) {
    if (typeof Response === 'function' && source instanceof Response) {
        return answered(source);
    }
    if (!(source instanceof URL) && typeof source !== 'string') {
        return source;
    }
    const base = globalThis.document?.baseURI ?? globalThis.location?.href;
    const url = new URL(source, base ?? import.meta.url);
    if (url.protocol === 'file:' && globalThis.process?.versions?.node) {
        return (await import('node:fs/promises')).readFile(url);
    }
    return answered(await fetch(url));
}

async function answered(response) {
    if (!response.ok) {
        throw new Error(`mp4norm: ${response.url}: status ${response.status}`);
    }
    return response.arrayBuffer();
}

/** The calls, each of the bytes of a file or of what `open` made of them. */
class Mp4Norm {
    #of;

    constructor(exports) {
        this.#of = new Machine(exports);
    }

    /**
     * Takes over the bytes of a file, for more than one call: they are copied once. Close it when
     * it is done with; what is not closed keeps its room in the module's memory.
     */
    open(bytes) {
        return new Mp4File(this.#of, bytes);
    }

    /** The version of mp4norm, as `0.3.0`; `undefined` of a module that can't tell. */
    get version() {
        return this.#of.version();
    }

    #once(file, work) {
        if (file instanceof Mp4File) {
            return work(file);
        }
        const opened = this.open(file);
        try {
            return work(opened);
        } finally {
            opened.close();
        }
    }

    check(file) { return this.#once(file, it => it.check()); }
    sum(file, words) { return this.#once(file, it => it.sum(words)); }
    normalLength(file, words) { return this.#once(file, it => it.normalLength(words)); }
    normalise(file, words) { return this.#once(file, it => it.normalise(words)); }
    show(file) { return this.#once(file, it => it.show()); }
    samples(file, track) { return this.#once(file, it => it.samples(track)); }
    samplesText(file, track, form) { return this.#once(file, it => it.samplesText(track, form)); }
    boxes(file) { return this.#once(file, it => it.boxes()); }
    boxesText(file, syntax) { return this.#once(file, it => it.boxesText(syntax)); }
    fields(file, rows) { return this.#once(file, it => it.fields(rows)); }
    fieldsText(file, rows, syntax) { return this.#once(file, it => it.fieldsText(rows, syntax)); }
    print(file, words) { return this.#once(file, it => it.print(words)); }
    printBytes(file, words) { return this.#once(file, it => it.printBytes(words)); }
    extract(file, track) { return this.#once(file, it => it.extract(track)); }

    compare(file, other, words, limit, align) {
        return this.#once(file, a => this.#once(other, b => a.compare(b, words, limit, align)));
    }
}

/** A file whose bytes are in the module's memory. After `close` every call throws. */
class Mp4File {
    #of;
    #at;
    #length;

    constructor(of, bytes) {
        const given = bytesOf(bytes);
        this.#of = of;
        this.#length = given.length;
        this.#at = of.take(given.length);
        of.put(this.#at, given);
    }

    /** How many bytes the file has. */
    get length() {
        return this.#length;
    }

    close() {
        if (this.#at !== undefined) {
            this.#of.free(this.#at);
        }
        this.#at = undefined;
    }

    // Where the file is: the first two arguments of each call.
    get #place() {
        if (this.#at === undefined) {
            throw new TypeError('mp4norm: the file is closed');
        }
        return [this.#at, BigInt(this.#length)];
    }

    /** Whether the file has a normal form. It throws for nothing but want of memory. */
    check() {
        const told = this.#of.call('check', this.#place);
        if (told.status === STATUS.memory) {
            throw this.#of.error(told);
        }
        const { status, kind, type, offset, len } = told;
        return { status, kind, type, offset, len };
    }

    /** The SHA-256 of the normal form of what is left of the file, in hexadecimal digits. */
    sum(words) {
        return this.#of.digest(this.#place, flagsOf(words));
    }

    /** How many bytes the normal form has. It takes as long as to make it, and less memory. */
    normalLength(words) {
        return this.#of.done('normal_len', this.#place, flagsOf(words)).len;
    }

    /** The normal form of what is left of the file. */
    normalise(words) {
        const guess = this.#length + (this.#length >> 2) + ROOM;
        return this.#of.text('normal_range', [...this.#place, flagsOf(words)], guess);
    }

    /** The movie and its tracks (docs/OUTPUT.md, `show`). */
    show() {
        return exactly(decoded(this.#of.text('show_range', this.#place)));
    }

    /** An object for each sample of a track (docs/OUTPUT.md, `samples`). */
    samples(track) {
        return objects(this.samplesText(track, 'json'));
    }

    /** The same as text: `plain`, a line each; `named`, behind a line of names; `json`. */
    samplesText(track, form = 'plain') {
        const words = [idOf(track), numberOf(FORMS, form, 'form')];
        return decoded(this.#of.text('samples_range', [...this.#place, ...words]));
    }

    /** An object for each box (docs/OUTPUT.md, `boxes`). */
    boxes() {
        return objects(this.boxesText('json'));
    }

    /** The same as text: `lines` or `json`. */
    boxesText(syntax = 'lines') {
        const words = [numberOf(SYNTAXES, syntax, 'syntax')];
        return decoded(this.#of.text('boxes_range', [...this.#place, ...words]));
    }

    /** An object for each box, with its fields and at most so many of its rows (docs/OUTPUT.md, `boxes --fields`). */
    fields(rows = 16) {
        return objects(this.fieldsText(rows, 'json'));
    }

    /** The same as text: `lines` or `json`. */
    fieldsText(rows = 16, syntax = 'lines') {
        const words = [numberOf(SYNTAXES, syntax, 'syntax'), BigInt(limitOf(rows))];
        return decoded(this.#of.text('fields_range', [...this.#place, ...words]));
    }

    /** What is left of the file as text, a line for each value and sample. */
    print(words) {
        return decoded(this.printBytes(words));
    }

    /** The same in UTF-8, also where it is longer than a string can be. */
    printBytes(words) {
        return this.#of.text('print_range', [...this.#place, flagsOf(words)]);
    }

    /** The bytes of a track's samples, one after the other. */
    extract(track) {
        const id = idOf(track);
        const guess = Math.min(this.#length, MOST) + 1;
        return this.#of.text('extract_range', [...this.#place, id], guess);
    }

    /**
     * Compares what is left of two files, and lists at most `limit` of the differences. With `align`
     * it says too how tracks lie beside each other whose samples are not the same, and lists and
     * counts samples only of tracks that have the same number of them in both.
     */
    compare(other, words, limit = 100, align = false) {
        if (!(other instanceof Mp4File)) {
            throw new TypeError('mp4norm: a file that is open is compared with another such');
        }
        const asked = [flagsOf(words), align ? 2 : 1, limitOf(limit), SYNTAXES.json];
        return this.#of.compared(this.#place, other.#place, asked);
    }
}

if (Symbol.dispose) {
    Mp4File.prototype[Symbol.dispose] = Mp4File.prototype.close;
}

// The module: its memory and its calls (include/mp4norm.h). Addresses are BigInts.
class Machine {
    constructor(exports) {
        this.exports = exports;
        // Calls are made one at a time, so that one answer, digest and question does.
        this.answer = this.take(ANSWER + DIGEST + ASKED);
        this.digestAt = this.answer + BigInt(ANSWER);
        this.asked = this.digestAt + BigInt(DIGEST);
    }

    // Room for so many bytes, or nothing.
    room(length) {
        return this.exports.malloc(BigInt(Math.max(length, 1))) || undefined;
    }

    take(length) {
        const at = this.room(length);
        if (at === undefined) {
            throw new Mp4Error('memory', `memory: no room for ${length} bytes`);
        }
        return at;
    }

    free(at) {
        this.exports.free(at);
    }

    // The bytes there. The memory's buffer is another one once it has grown.
    bytes(at, length) {
        return new Uint8Array(this.exports.memory.buffer, Number(at), length);
    }

    put(at, bytes) {
        this.bytes(at, bytes.length).set(bytes);
    }

    copy(at, length) {
        try {
            return this.bytes(at, length).slice();
        } catch (error) {
            throw new Mp4Error('memory', `memory: ${error.message}`);
        }
    }

    // What a call answers, whatever its status.
    call(name, ...words) {
        const call = this.exports[`mp4norm_${name}`];
        if (!call) {
            throw new Mp4Error('usage', `usage: this module has no mp4norm_${name}`);
        }
        call(...words.flat(), this.answer);
        const view = new DataView(this.exports.memory.buffer, Number(this.answer), ANSWER);
        return {
            status: view.getUint32(0, true),
            kind: KINDS[view.getUint32(4, true) - 1] ?? '',
            type: view.getUint32(4, true) ? typeOf(view.getUint32(8, true)) : '',
            file: view.getUint32(12, true),
            offset: exact(view.getBigUint64(16, true)),
            len: exact(view.getBigUint64(24, true)),
        };
    }

    error(told) {
        if (told.status === STATUS.refused) {
            return new Mp4Fault(told);
        }
        const code = Object.keys(STATUS).find(name => STATUS[name] === told.status);
        const said = { memory: 'memory', noTrack: 'no such track', device: 'store' }[code];
        return new Mp4Error(code ?? 'usage', said ?? `status ${told.status}`);
    }

    // What a call answers that is to be done.
    done(name, ...words) {
        const told = this.call(name, ...words);
        if (told.status !== STATUS.done && told.status !== STATUS.differ) {
            throw this.error(told);
        }
        return told;
    }

    digest(place, flags) {
        this.done('sum', place, flags, this.digestAt);
        const bytes = [...this.bytes(this.digestAt, DIGEST)];
        return bytes.map(byte => byte.toString(16).padStart(2, '0')).join('');
    }

    // All that such a call puts. Each try goes over the file again, so that rooms grow.
    text(name, words, guess = ROOM) {
        return this.told(name, words, guess).bytes;
    }

    // The same, with the call's status.
    told(name, words, guess = ROOM) {
        const pieces = [];
        let from = 0, room = guess;
        for (;;) {
            const { at, length } = this.some(room);
            let told, piece;
            try {
                told = this.done(name, words, BigInt(from), at, BigInt(length));
                piece = this.copy(at, told.len);
            } finally {
                this.free(at);
            }
            pieces.push(piece);
            from += told.len;
            if (told.len < length) {
                return { status: told.status, bytes: joined(pieces, from) };
            }
            room = Math.min(4 * from, MOST);
        }
    }

    // Room for so many bytes, or for fewer where there is none.
    some(length) {
        for (let some = length; some > ROOM; some = Math.ceil(some / 2)) {
            const at = this.room(some);
            if (at !== undefined) {
                return { at, length: some };
            }
        }
        return { at: this.take(Math.min(length, ROOM)), length: Math.min(length, ROOM) };
    }

    compared(place, other, asked) {
        const view = new DataView(this.exports.memory.buffer, Number(this.asked), ASKED);
        asked.forEach((word, at) => view.setUint32(4 * at, word, true));
        const { status, bytes } = this.told('compare_range', [...place, ...other, this.asked]);
        const told = objects(decoded(bytes));
        const last = told.pop();
        return {
            same: status === STATUS.done,
            total: last.differences,
            atLeast: last.at_least,
            kinds: last.kinds,
            words: last.without,
            differences: told.filter(it => it.kind !== 'aligned'),
            aligned: told.filter(it => it.kind === 'aligned'),
        };
    }

    version() {
        if (!this.exports.mp4norm_version) {
            return undefined;
        }
        this.exports.mp4norm_version(this.asked);
        const view = new DataView(this.exports.memory.buffer, Number(this.asked), ASKED);
        return [0, 4, 8].map(at => view.getUint32(at, true)).join('.');
    }
}

// The bytes that were given.
function bytesOf(given) {
    if (given instanceof Uint8Array) {
        return given;
    }
    if (ArrayBuffer.isView(given)) {
        return new Uint8Array(given.buffer, given.byteOffset, given.byteLength);
    }
    const tag = Object.prototype.toString.call(given);
    if (tag === '[object ArrayBuffer]' || tag === '[object SharedArrayBuffer]') {
        return new Uint8Array(given);
    }
    throw new TypeError('mp4norm: no bytes: give a Uint8Array or an ArrayBuffer'
        + ' (of a Blob: await blob.arrayBuffer())');
}

// The flags of words: of a text with commas, of a list, or the flags themselves.
function flagsOf(words = 0) {
    if (Number.isInteger(words) && words >= 0 && words <= ALL_WORDS) {
        return words;
    }
    const names = typeof words === 'string' ? words.split(',') : words;
    if (!Array.isArray(names)) {
        throw new TypeError('mp4norm: no words: give a text, a list, or flags of WORDS');
    }
    return names.filter(name => name !== '')
        .reduce((flags, name) => flags | numberOf(WORDS, name, 'word'), 0);
}

function numberOf(names, name, what) {
    if (!Object.hasOwn(names, name)) {
        throw new TypeError(`mp4norm: no such ${what}: ${name} (${Object.keys(names).join(' ')})`);
    }
    return names[name];
}

function idOf(track) {
    if (!Number.isInteger(track) || track < 1 || track > 0xffffffff) {
        throw new TypeError('mp4norm: a track ID is a whole number from 1 to 2^32 - 1');
    }
    return track;
}

function limitOf(limit) {
    if (!Number.isInteger(limit) || limit < 0 || limit > 0xffffffff) {
        throw new TypeError('mp4norm: a limit is a whole number from 0 to 2^32 - 1');
    }
    return limit;
}

// The type of a box: four letters, or hexadecimal digits.
function typeOf(number) {
    const bytes = [24, 16, 8, 0].map(shift => number >>> shift & 255);
    return bytes.every(byte => byte > 31 && byte < 127) ? String.fromCharCode(...bytes)
        : number.toString(16).padStart(8, '0');
}

// A whole number as it is: a BigInt where a Number would not be exact.
function exact(number) {
    return number <= Number.MAX_SAFE_INTEGER && number >= Number.MIN_SAFE_INTEGER ? Number(number)
        : number;
}

function joined(pieces, length) {
    if (pieces.length === 1) {
        return pieces[0];
    }
    const all = new Uint8Array(length);
    let at = 0;
    for (const piece of pieces) {
        all.set(piece, at);
        at += piece.length;
    }
    return all;
}

function decoded(bytes) {
    try {
        return new TextDecoder().decode(bytes);
    } catch (error) {
        throw new Mp4Error('memory', `memory: ${error.message}`);
    }
}

// The objects of lines of JSON.
function objects(text) {
    return exactly(`[${text.trimEnd().replaceAll('\n', ',')}]`);
}

// What a text of JSON says, with a BigInt for each number that a Number can't be.
function exactly(text) {
    if (!/[0-9]{16}/.test(text)) {
        return JSON.parse(text);
    }
    let mark = 'n';
    while (text.includes(`"${mark}`)) {
        mark += 'n';
    }
    const marked = text.replace(/"(?:[^"\\]|\\.)*"|-?[0-9]{16,}/g, found =>
        found[0] === '"' || Number.isSafeInteger(Number(found)) ? found : `"${mark}${found}"`);
    return JSON.parse(marked, (_, value) =>
        typeof value === 'string' && value.startsWith(mark) ? BigInt(value.slice(mark.length))
            : value);
}
