// Compares what the calls of the module for JavaScript give with a table of calls (wrapper_calls.py), field by field. A line for
// each call, with what is wrong behind a tab, if anything is; the last line is `end`. Behind each call the module has to have
// given back all memory that it took.
//
// usage: node javascript_values.mjs PACKAGE MODULE TABLE [--first-failure]
//
// TABLE lies beside the files that it names.
import { createHash } from 'node:crypto';
import { readFileSync } from 'node:fs';
import { dirname } from 'node:path';
import { pathToFileURL } from 'node:url';

const [folder, module, table, only] = process.argv.slice(2);
const live = new Set();
let answered = () => undefined;

// The module's exports, of which each block of memory is counted, and `check` may be made to answer other numbers.
const instantiate = WebAssembly.instantiate;
WebAssembly.instantiate = async (...words) => {
    const made = await instantiate(...words);
    const { exports } = made.instance ?? made;
    const malloc = length => {
        const at = exports.malloc(length);
        live.add(at);
        return at;
    };
    const free = at => {
        live.delete(at);
        exports.free(at);
    };
    const mp4norm_check = (...given) => {
        exports.mp4norm_check(...given);
        answered(new DataView(exports.memory.buffer, Number(given.at(-1)), 32));
    };
    return { instance: { exports: { ...exports, malloc, free, mp4norm_check } } };
};

const { load, Mp4Error, Mp4Fault } = await import(pathToFileURL(`${folder}/mp4norm.mjs`));
const lib = await load(readFileSync(module));
const kept = live.size;

// What JSON.stringify gives, with the keys of objects in order, and of BigInts too.
function spelled(value) {
    if (Array.isArray(value)) {
        return `[${value.map(spelled).join(',')}]`;
    }
    if (value !== null && typeof value === 'object') {
        return `{${Object.keys(value).sort().map(key => `${JSON.stringify(key)}:${spelled(value[key])}`).join(',')}}`;
    }
    return typeof value === 'bigint' ? String(value) : JSON.stringify(value);
}

// A text of JSON, with the keys of objects in order, and numbers as they are written.
function ordered(text) {
    const numbers = [];
    const marked = text.replace(/"(?:[^"\\]|\\.)*"|-?[0-9]{16,}/g, it => it[0] === '"' ? it : `"#${numbers.push(it) - 1}#"`);
    return spelled(JSON.parse(marked)).replace(/"#([0-9]+)#"/g, (_, at) => numbers[at]);
}

function digest(put) {
    const bytes = Buffer.from(put);
    return { length: bytes.length, sha256: createHash('sha256').update(bytes).digest('hex') };
}

// The bytes of a file, by turns in each way that is taken.
const WAYS = [
    bytes => bytes,
    bytes => Uint8Array.from(bytes).buffer,
    bytes => new DataView(Uint8Array.from([1, 2, 3, ...bytes, 4]).buffer, 3, bytes.length),
    bytes => Uint8Array.from([7, ...bytes, 8, 9]).subarray(1, bytes.length + 1),
];
const CALLS = {
    version: () => lib.version,
    show: it => it.show(), samples: (it, { track }) => it.samples(track), boxes: it => it.boxes(), fields: (it, { rows }) => it.fields(rows),
    check: it => it.check(), sum: (it, { words }) => it.sum(words), normalLength: (it, { words }) => it.normalLength(words),
    normalise: (it, { words }) => digest(it.normalise(words)), extract: (it, { track }) => digest(it.extract(track)),
    samplesText: (it, { track, form }) => digest(it.samplesText(track, form)), boxesText: (it, { syntax }) => digest(it.boxesText(syntax)),
    fieldsText: (it, { rows }) => digest(it.fieldsText(rows)),
    print: (it, { words }, turn) => digest(turn % 2 ? it.print(words) : it.printBytes(words)),
    compare: (it, { words, limit, align }, turn, other) => it.compare(other, words, limit, align),
};

// The calls of the library on bytes, in the form of those on a file that is open.
function onBytes(bytes) {
    return new Proxy({}, { get: (_, name) => (...words) => lib[name](bytes, ...words) });
}

// What a call gives; by turns on bytes, and on files that are open.
function told(entry, files, turn) {
    const isOpen = turn % 3 === 0;
    const given = files.map((bytes, at) => WAYS[(turn + at) % WAYS.length](bytes));
    const open = isOpen ? given.map(it => lib.open(it)) : [];
    const words = entry.words !== undefined && turn % 2 ? { ...entry, words: entry.words.split(',') } : entry;
    try {
        return CALLS[entry.call](isOpen ? open[0] : onBytes(given[0]), words, turn, isOpen ? open[1] : given[1]);
    } catch (error) {
        if (error instanceof Mp4Fault) {
            return { fault: [error.kind, error.type, error.offset, error.file] };
        }
        return error instanceof Mp4Error ? { fails: error.message } : { thrown: String(error) };
    } finally {
        open.forEach(it => it.close());
    }
}

function note(name, wrong) {
    console.log(wrong ? `${name}\t${wrong.replaceAll('\n', ' ')}` : name);
}

function difference(got, due) {
    let at = 0;
    while (at < due.length && got[at] === due[at]) {
        at++;
    }
    return got === due ? '' : `${got.slice(Math.max(at - 40, 0), at + 80)}, not ${due.slice(Math.max(at - 40, 0), at + 80)}`;
}

const entries = JSON.parse(readFileSync(table, 'utf8'));
for (const [turn, entry] of entries.entries()) {
    if (!(entry.call in CALLS) || entry.alone) {
        continue;
    }
    const files = entry.files.map(name => readFileSync(`${dirname(table)}/${name}`));
    const got = spelled(told(entry, files, turn));
    const { due, text, ...asked } = entry;
    const lost = live.size - kept;
    const wrong = difference(got, ordered(due)) || (lost ? `${lost} blocks of memory are not given back` : '');
    note(JSON.stringify(asked), wrong);
    if (wrong && only === '--first-failure') {
        process.exit(1);
    }
}

// Numbers that no file of this size has: a place and a length of more than 32 bits, and one of more than 53.
for (const [place, length] of [[2 ** 40 + 5, 2 ** 33 + 1], [2n ** 63n + 1n, 2n ** 53n + 1n]]) {
    answered = view => {
        [1, 17, 0x74666474, 0].forEach((number, at) => view.setUint32(4 * at, number, true));
        view.setBigUint64(16, BigInt(place), true);
        view.setBigUint64(24, BigInt(length), true);
    };
    const due = { status: 1, kind: 'Gap', type: 'tfdt', offset: place, len: length };
    note(`a fault at ${place}`, difference(spelled(lib.check(new Uint8Array(8))), spelled(due)));
}
console.log('end');
