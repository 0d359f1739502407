// What the script `javascript` tries of the module by itself. A line for each thing, with what is wrong behind a tab, if anything is;
// the last line is `end`.
//
// usage: node --wasm-max-mem-pages=PAGES javascript_trial.mjs PACKAGE MODULE FILES
//
// PAGES bound how long a memory gets, in 64 KiB.
import { readFileSync } from 'node:fs';
import { pathToFileURL } from 'node:url';

const [folder, module, files] = process.argv.slice(2);
const { load, hasMemory64, Mp4Error, Mp4Fault, STATUS, WORDS } = await import(pathToFileURL(`${folder}/mp4norm.mjs`));
const bytes = readFileSync(module);
const lib = await load(bytes);
const plain = readFileSync(`${files}/plain.mp4`), gap = readFileSync(`${files}/gap-between-fragments.mp4`);
const other = readFileSync(`${files}/edits.mp4`);

function note(name, wrong = '') {
    console.log(wrong ? `${name}\t${wrong}` : name);
}

function same(name, got, due) {
    const [one, two] = [got, due].map(it => JSON.stringify(it, (_, value) => typeof value === 'bigint' ? `${value}n` : value));
    note(name, one === two ? '' : `${one}, not ${two}`);
}

// What a call throws: its type, and a part of its message.
function throws(name, call, type, part) {
    try {
        call();
        note(name, 'nothing was thrown');
    } catch (error) {
        note(name, error.constructor === type && error.message.includes(part) ? '' : `${error.constructor.name} ${error.message}`);
    }
}

// ---- what is given as a file

const sum = lib.sum(plain);
const copy = Uint8Array.from(plain);
for (const [name, given] of Object.entries({
    'an array of bytes': copy, 'a buffer': copy.buffer, 'a view': new DataView(copy.buffer),
    'a part of a buffer': Uint8Array.from([1, 2, ...copy, 3]).subarray(2, copy.length + 2),
})) {
    same(name, lib.sum(given), sum);
}
for (const given of [undefined, null, 'plain.mp4', 7, [...copy], new Blob([copy]), {}]) {
    throws(`no bytes: ${Object.prototype.toString.call(given)}`, () => lib.sum(given), TypeError, 'no bytes');
}
same('an empty file', lib.check(new Uint8Array()), { status: 1, kind: 'MissingBox', type: 'file', offset: 0, len: 0 });

// ---- words, tracks, forms

for (const words of ['edits,times', ['times', 'edits'], 3, ['times', 'times', 'edits'], 'times,,edits']) {
    same(`words ${JSON.stringify(words)}`, lib.sum(other, words), lib.sum(other, 'times,edits'));
}
same('no words', [lib.sum(other, ''), lib.sum(other, []), lib.sum(other, 0)], Array(3).fill(lib.sum(other)));
same('words as flags, the last of all', lib.sum(other, WORDS['lead-ins']), lib.sum(other, 'lead-ins'));
same('flags of sets', [WORDS['packaging-2'], WORDS['media-2']], [15485, 15741]);
for (const words of ['time', ['edits', 'colour'], 'constructor', 'Times', ' times']) {
    throws(`unknown words ${words}`, () => lib.sum(other, words), TypeError, 'no such word');
}
for (const words of [16384, 32768, -1, 1.5, null, {}, true]) {
    throws(`words that are none: ${words}`, () => lib.sum(other, words), TypeError, 'words');
}
for (const track of [0, -1, 1.5, 2 ** 32, '1', undefined, 1n]) {
    throws(`track ${String(track)} ${typeof track}`, () => lib.samples(plain, track), TypeError, 'track ID');
}
throws('a form that is none', () => lib.samplesText(plain, 1, 'lines'), TypeError, 'no such form');
throws('a syntax that is none', () => lib.boxesText(plain, 'plain'), TypeError, 'no such syntax');
throws('a track that is not there', () => lib.samples(plain, 2), Mp4Error, 'no such track');
throws('a fault', () => lib.sum(gap), Mp4Fault, 'refused: Gap in ');
try {
    lib.show(gap);
} catch ({ name, code, kind, type, offset, message }) {
    const { status, ...told } = lib.check(gap);
    same('what a fault has', [name, code, kind, type, offset], ['Mp4Fault', 'refused', told.kind, told.type, told.offset]);
    same('how a fault is said', message, `refused: ${kind} in ${type} at ${offset}`);
    same('its status', status, STATUS.refused);
}

// ---- files that are open

const open = lib.open(plain);
plain.fill(0, 8, 100);
same('bytes are copied when a file is opened', open.sum(), sum);
same('calls of a file that is open', lib.sum(open), sum);
same('how long it is', open.length, plain.length);
open.close();
open.close();
for (const call of ['check', 'sum', 'normalise', 'show', 'boxes', 'print', 'normalLength']) {
    throws(`${call} of a file that is closed`, () => open[call](), TypeError, 'closed');
}
if (open.compare && lib.version) {
    const [a, b] = [lib.open(copy), lib.open(gap)];
    throws('a comparison with bytes of a file that is open', () => a.compare(copy), TypeError, 'open');
    try {
        a.compare(b);
        note('which file has the fault', 'nothing was thrown');
    } catch (error) {
        same('which file has the fault', error.file, 1);
    }
    same('the same file twice', a.compare(a).same, true);
    throws('a limit that is none', () => a.compare(a, 0, -1), TypeError, 'limit');
    same('so many differences', lib.compare(copy, other, 0, 0).differences, []);
    const changed = Uint8Array.from(copy);
    changed[changed.length - 1] ^= 1;
    const [apart] = lib.compare(copy, changed, 0, 9, true).aligned;
    same('aligned', [apart.track, apart.front, apart.end, apart.a.samples, apart.b.decode_time], [1, 2, 0, 1, 1024]);
    same('not aligned', lib.compare(copy, changed).aligned, []);
    a.close();
    b.close();
}
const rooms = [];
for (let k = 0; k < 200; k++) {
    const file = lib.open(copy);
    file.print();
    file.close();
    rooms.push(lib.open(new Uint8Array(1)));
    rooms.pop().close();
}
same('after many files', lib.sum(copy), sum);

// ---- ways to load it

const compiled = await WebAssembly.compile(bytes);
same('a module', (await load(compiled)).sum(copy), sum);
same('a response', (await load(new Response(bytes, { headers: { 'content-type': 'application/wasm' } }))).sum(copy), sum);
same('a URL', (await load(pathToFileURL(module))).sum(copy), sum);
same('what this engine knows', (await load()).sum(copy), sum);
same('memory64', hasMemory64(), process.execArgv.some(word => word.includes('memory64')) || hasMemory64());
await load(new Uint8Array(8)).then(() => note('bytes that are no module', 'nothing was thrown'),
    error => note('bytes that are no module', error instanceof WebAssembly.CompileError ? '' : String(error)));


// ---- no memory, and the allocator

const { instance } = await WebAssembly.instantiate(bytes, {});
const { malloc, realloc, free, memory } = instance.exports;
// A generator of numbers: xorshift of 32 bits, from a seed.
let state = 0x12345678;
function next(below) {
    state ^= state << 13;
    state ^= state >>> 17;
    state ^= state << 5;
    return (state >>> 0) % below;
}
const blocks = [];
let wrong = '';
// Each block is filled with a byte of its own, which it keeps until it is given back.
function whole(block) {
    const view = new Uint8Array(memory.buffer, Number(block.at), block.length);
    return view[0] === block.seed && view[block.length - 1] === block.seed && view[block.length >> 1] === block.seed;
}
for (let turn = 0; turn < 20000 && !wrong; turn++) {
    const choice = next(3), length = 1 + next([40, 3000, 100000, 3000000][next(4)]);
    if (choice === 0 || blocks.length < 10) {
        const block = { at: malloc(BigInt(length)), length, seed: next(256) };
        wrong ||= block.at === 0n || block.at % 16n ? `a place ${block.at}` : '';
        new Uint8Array(memory.buffer, Number(block.at), length).fill(block.seed);
        blocks.push(block);
    } else {
        const at = next(blocks.length), block = blocks[at];
        wrong ||= whole(block) ? '' : 'another block was written over';
        if (choice === 1) {
            free(block.at);
            blocks.splice(at, 1);
        } else {
            const kept = Math.min(block.length, length);
            block.at = realloc(block.at, BigInt(length));
            const view = new Uint8Array(memory.buffer, Number(block.at), length);
            wrong ||= view[0] === block.seed && view[kept - 1] === block.seed ? '' : 'a longer block lost bytes';
            view.fill(block.seed);
            block.length = length;
        }
    }
    while (blocks.length > 60) {
        free(blocks.pop().at);
    }
}
note('blocks keep their bytes', wrong || (blocks.every(whole) ? '' : 'a block was written over'));
blocks.splice(0).forEach(block => free(block.at));
const before = memory.buffer.byteLength;
for (let k = 0; k < 1000; k++) {
    const at = malloc(3000000n + BigInt(k));
    free(at);
}
same('what is given back is used again', memory.buffer.byteLength, before);
same('more than there can be', [malloc(2n ** 41n), malloc(2n ** 64n - 1n), malloc(2n ** 63n)], [0n, 0n, 0n]);

// All memory that the engine gives is taken. Calls say so, or have their answer, as of bytes before; and all is as before once
// there is room again.
const CALLS = ['check', 'sum', 'normalise', 'normalLength', 'show', 'boxes', 'print'];
const movie = lib.open(copy), right = Object.fromEntries(CALLS.map(call => [call, movie[call]()]));
const taken = [];
for (let length = 2 ** 24; length >= 16;) {
    try {
        taken.push(lib.open(new Uint8Array(length)));
    } catch (error) {
        note(`no room for ${length} bytes`, error instanceof Mp4Error && error.code === 'memory' ? '' : String(error));
        length /= 2;
    }
}
throws('a file where there is no room', () => lib.sum(copy), Mp4Error, 'memory');
for (const call of CALLS) {
    try {
        same(`${call} without memory`, movie[call](), right[call]);
    } catch (error) {
        note(`${call} without memory, said so`, error instanceof Mp4Error && error.code === 'memory' ? '' : String(error));
    }
}
throws('a text without memory', () => movie.print(), Mp4Error, 'memory');
throws('a sum without memory', () => movie.sum(), Mp4Error, 'memory');
taken.forEach(file => file.close());
CALLS.forEach(call => same(`${call}, when there is room again`, movie[call](), right[call]));
same('when there is room again', lib.sum(copy), sum);
note('end');
