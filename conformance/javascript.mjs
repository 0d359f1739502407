// Answers for the script `javascript`, by the module for JavaScript.
//
// usage: node javascript.mjs PACKAGE MODULE
//
// PACKAGE is where mp4norm.mjs is, MODULE the WebAssembly module. Each line of standard input is a list: the path of a file, then
// questions, each a list of a command and its words. The answer is a line with a list: of each question status, the line that the
// program says on standard error, how many bytes there are, and their SHA-256.
import { createHash } from 'node:crypto';
import { readFileSync } from 'node:fs';
import { createInterface } from 'node:readline';
import { pathToFileURL } from 'node:url';

const [folder, module] = process.argv.slice(2);
const { load, Mp4Error, Mp4Fault } = await import(pathToFileURL(`${folder}/mp4norm.mjs`));
const lib = await load(readFileSync(module));

// What JSON.stringify gives, of BigInts too.
function spelled(value) {
    if (Array.isArray(value)) {
        return `[${value.map(spelled).join(',')}]`;
    }
    if (value !== null && typeof value === 'object') {
        return `{${Object.keys(value).map(key => `${JSON.stringify(key)}:${spelled(value[key])}`).join(',')}}`;
    }
    return typeof value === 'bigint' ? String(value) : JSON.stringify(value);
}

const lines = list => list.map(one => spelled(one) + '\n').join('');

const COMMANDS = {
    'boxes-input': file => file.boxesText(),
    boxes: file => file.boxesText('lines'),
    'boxes-json': file => lines(file.boxes()),
    fields: (file, rows) => file.fieldsText(rows),
    'fields-json': (file, rows) => lines(file.fields(rows)),
    show: file => spelled(file.show()) + '\n',
    samples: (file, track) => file.samplesText(track),
    'samples-json': (file, track) => lines(file.samples(track)),
    extract: (file, track) => file.extract(track),
    normalise: (file, words) => file.normalise(words),
    length: (file, words) => String(file.normalLength(words)),
    sum: (file, words) => file.sum(words),
    print: (file, words) => file.print(words),
    compare: (file, other, words) => compared(file, readFileSync(other), words),
};

// As the program's `compare --all --json` puts it; an answer by bytes and by files that are open has to be one.
function compared(file, other, words) {
    const found = lib.compare(file, other, words);
    const { total, atLeast, kinds, differences } = found;
    const last = { at_least: atLeast, differences: total, kinds, without: found.words };
    return { status: found.same ? 0 : 5, put: lines([...differences, last]) };
}

function answer(file, [command, ...words]) {
    try {
        if (command === 'check') {
            const { status, kind, type, offset } = file.check();
            return [status, '', `${status ? `refused: ${kind} in ${type} at ${offset}` : 'accepted'}\n`];
        }
        const found = COMMANDS[command](file, ...words.filter(word => word !== null));
        return found.put === undefined ? [0, '', found] : [found.status, '', found.put];
    } catch (error) {
        if (error instanceof Mp4Fault) {
            return [1, `${error.message}\n`, ''];
        }
        if (error instanceof Mp4Error) {
            const status = { memory: 2, noTrack: 4 }[error.code] ?? 64;
            return [status, `failed: ${error.message}\n`, ''];
        }
        return [70, `${error}\n`, ''];
    }
}

for await (const line of createInterface({ input: process.stdin })) {
    const [path, ...questions] = JSON.parse(line);
    const file = lib.open(readFileSync(path));
    const told = questions.map(question => {
        const [status, said, put] = answer(file, question);
        const bytes = Buffer.from(put);
        return [status, said, bytes.length, createHash('sha256').update(bytes).digest('hex')];
    });
    file.close();
    console.log(JSON.stringify(told));
}
