// Prints what the page says of refused files, an object of JSON for each: for its tests, which
// compare it with what the program says.
//
// usage: node explained.mjs MODULE FACTS FILE..
import { readFileSync } from 'node:fs';
import { load } from './mp4norm.mjs';
import { boxesOf, numbersTold, partOf } from './src/answers.js';
import { explained } from './src/faults.js';

const [module, facts, ...files] = process.argv.slice(2);
const lib = await load(readFileSync(module));
const tables = JSON.parse(readFileSync(facts, 'utf8'));
for (const file of files) {
    const bytes = new Uint8Array(readFileSync(file));
    const open = lib.open(bytes), verdict = open.check();
    if (verdict.status === 1) {
        const boxes = boxesOf(open, bytes), before = partOf(bytes, boxes, verdict);
        const numbers = numbersTold(bytes, boxes, verdict, before);
        const said = explained(tables, verdict, bytes.slice(0, 8), boxes);
        console.log(JSON.stringify({ file, ...said, ...(numbers && { numbers }) }));
    }
    open.close();
}
