#!/usr/bin/env node
// Draws a picture of an MP4 file, by the code that draws those of the page: its tracks in time, or
// its boxes.
//
// usage: node picture.mjs FILE [--boxes] [--dark] [--width N] [--module FILE] >picture.svg
//
// Of a refused file its boxes are drawn, with the fault marked; of one with a fault in a fragment
// its tracks up to there. The module is the published one, without --module.
import { readFileSync } from 'node:fs';
import { basename } from 'node:path';
import { parseArgs } from 'node:util';
import { load } from './mp4norm.mjs';
import { boxesOf, lanesOf, partOf } from './src/answers.js';
import { drawBoxes } from './src/boxes.js';
import { lanesBefore } from './src/film.js';
import { drawLanes } from './src/lanes.js';
import { PALETTE } from './src/palette.js';

// The module that is published.
const MODULE = new URL('../dist/wasm/mp4norm32.wasm', import.meta.url);

const USAGE =
    'usage: node picture.mjs FILE [--boxes] [--dark] [--width N] [--module FILE] >picture.svg';

// What a file's name and words ask for; ends where they are wrong.
function asked() {
    try {
        const { values, positionals } = parseArgs({
            allowPositionals: true,
            options: {
                boxes: { type: 'boolean' },
                dark: { type: 'boolean' },
                width: { type: 'string', default: '1120' },
                module: { type: 'string' }
            }
        });
        const width = Number(values.width);
        if (positionals.length !== 1 || !(width >= 200 && width <= 20000)) throw new Error(USAGE);
        return { ...values, width, file: positionals[0] };
    } catch (error) {
        console.error(error.message === USAGE ? USAGE : `picture.mjs: ${error.message}\n${USAGE}`);
        process.exit(64);
    }
}

// The picture of boxes, with the fault marked that a check told.
function boxesPicture(lib, bytes, view, told) {
    const open = lib.open(bytes);
    const boxes = boxesOf(open, bytes);
    open.close();
    const fault = told.status ? boxes.findIndex(
                      box => Number(box.offset) === Number(told.offset) && box.type === told.type)
                              : -1;
    const title = told.status
        ? `${view.title}: refused: ${told.kind} in ${told.type} at ${told.offset}`
        : view.title;
    return drawBoxes(boxes, bytes.length, { ...view, title, fault, names: true }).svg;
}

// The picture of tracks; that of boxes where a fault leaves none to be drawn.
function timePicture(lib, bytes, view, told) {
    if (!told.status) return drawLanes(lanesOf(lib, bytes), view).svg;
    const open = lib.open(bytes);
    const before = partOf(bytes, boxesOf(open, bytes), told);
    open.close();
    return before ? drawLanes(lanesBefore(before), view).svg : boxesPicture(lib, bytes, view, told);
}

const words = asked();
let bytes, code;
try {
    bytes = readFileSync(words.file);
    code = readFileSync(words.module ?? MODULE);
} catch (error) {
    console.error(`picture.mjs: ${error.message}`);
    process.exit(3);
}
const lib = await load(code);
const told = lib.check(bytes);
const view = {
    width: words.width,
    colours: PALETTE[words.dark ? 'dark' : 'light'],
    title: basename(words.file)
};
if (told.status) console.error(`refused: ${told.kind} in ${told.type} at ${told.offset}`);
const svg =
    words.boxes ? boxesPicture(lib, bytes, view, told) : timePicture(lib, bytes, view, told);
process.stdout.write(`${svg}\n`);
process.exitCode = told.status ? 1 : 0;
