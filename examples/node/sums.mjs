// Prints the SHA-256 of the normal form of each file, as `mp4norm sum` does: files that say the same have the same sum.
//
//     node sums.mjs FILE..
//
// It wants the package mp4norm: npm install PATH/dist/wasm.
import { readFile } from 'node:fs/promises';
import { load, Mp4Error } from 'mp4norm';

const lib = await load();
for (const name of process.argv.slice(2)) {
    try {
        console.log(`${lib.sum(await readFile(name))}  ${name}`);
    } catch (error) {
        // A fault says its kind, its box and its place; what can't be read says its name.
        console.error(error instanceof Mp4Error ? `${name}: ${error.message}` : error.message);
        process.exitCode = 1;
    }
}
