// The page: takes files, has them read, and draws what is found.
import {
    drawDownloads,
    drawFaults,
    drawSlot,
    drawTracks,
    drawWords,
    makeWords,
    troubled
} from './cards.js';
import { drawComparison } from './compared.js';
import { keep, one } from './dom.js';
import { sized } from './pen.js';
import { BoxPicture, TimePicture } from './pictures.js';
import { isAccepted, isQuick, learn, slotOf, state, taken, wordList } from './state.js';
import { Work } from './work.js';

// So many differences are asked for.
const MOST_DIFFERENCES = 100000;

const facts = JSON.parse(one('#facts').textContent);
const time = new TimePicture();
const maps = new Map();
const work = new Work(busy, version => {
    one('#version').textContent = version ? `mp4norm ${version}` : '';
});

// Says what is being done, and how far it is.
function busy(what) {
    const bar = one('#work progress');
    one('#work').hidden = !what;
    if (!what) return;
    one('#work p').textContent =
        what.of ? `${what.text}: ${sized(what.done)} of ${sized(what.of)}` : `${what.text}\u2026`;
    if (what.of) Object.assign(bar, { max: what.of, value: what.done });
    else bar.removeAttribute('value');
}

// A line on what can't be done; none takes it away.
function trouble(text = '') {
    one('#trouble').textContent = text;
    one('#trouble').hidden = !text;
}

// What can have the focus in the card that has it now, and how far lists of cards are moved, stay
// where they were.
function steady(act) {
    const card = document.activeElement?.closest('main .card, main .slot');
    const same = card
        && (card.id ? `#${card.id}`
                    : `.${card.className.split(' ').join('.')}[data-slot="${card.dataset.slot}"]`);
    const all = within => [...within.querySelectorAll('button, input, [tabindex]')];
    const at = card ? all(card).indexOf(document.activeElement) : -1;
    const tops = [...document.querySelectorAll('.differences')].map(list => list.scrollTop);
    act();
    document.querySelectorAll('.differences').forEach((list, k) => {
        list.scrollTop = tops[k] ?? 0;
    });
    if (at >= 0 && document.activeElement === document.body)
        all(one(same) ?? document.body)[at]?.focus({ preventScroll: true });
}

function draw() {
    steady(drawAll);
}

function drawAll() {
    Object.keys(state.slots).forEach(name => drawSlot(name, acts));
    drawWords(facts);
    drawFaults(facts, acts);
    drawComparison(facts, acts);
    time.refresh();
    drawTracks();
    drawMaps();
    drawDownloads(facts, acts);
}

// Pictures of boxes stay where their files do.
function drawMaps() {
    const shown = taken().filter(([, slot]) => slot.boxes);
    for (const [name, slot] of shown) {
        if (maps.get(name)?.slot === slot) continue;
        maps.get(name)?.element.remove();
        const ask = async ({ offset, size }) =>
            (await work.ask({ work: 'fields', ...held(name), offset, size }, { isQuiet: true }))
                .fields;
        const map = new BoxPicture(name, slot, ask);
        map.element = map.card();
        maps.set(name, map);
    }
    for (const [name, map] of maps) {
        if (state.slots[name] !== map.slot) {
            map.element.remove();
            maps.delete(name);
        }
    }
    for (const [name] of shown)
        if (!maps.get(name).element.isConnected) one('#maps').append(maps.get(name).element);
}

// What the worker has to know of a file.
function held(name) {
    const { key, file } = state.slots[name];
    return { slot: name, key, file };
}

function nameOf(slot) {
    return Object.keys(state.slots).find(name => state.slots[name] === slot);
}

// Reads a file and shows what it says.
async function inspect(name) {
    const slot = state.slots[name];
    Object.assign(slot, { isBusy: true, isDone: false, trouble: null });
    draw();
    try {
        await work.ask({ work: 'inspect', ...held(name) }, {
            text: `Reading ${slot.name}`,
            onPart: part => {
                learn(slot, part);
                if (state.slots[name] === slot) draw();
            }
        });
        slot.isDone = true;
    } catch (error) {
        slot.trouble = error;
    }
    slot.isBusy = false;
    if (state.slots[name] !== slot) return;
    draw();
    await answer();
}

// Answers what follows from the words: sums, and whether the two are the same.
async function answer() {
    const { a, b } = state.slots;
    const asks = taken()
                     .map(([, slot]) => slot)
                     .filter(slot => isAccepted(slot) && slot.isDone && !slot.sum && isQuick(slot))
                     .map(sum);
    if ([a, b].every(slot => isAccepted(slot) && slot.isDone && isQuick(slot)) && !state.comparison)
        asks.unshift(compare());
    await Promise.all(asks);
}

async function sum(slot) {
    const words = wordList(facts), name = nameOf(slot);
    Object.assign(slot, { sumTrouble: null, isSummed: true });
    draw();
    try {
        const told =
            await work.ask({ work: 'sum', ...held(name), words }, { text: `Summing ${slot.name}` });
        if (String(words) === String(wordList(facts))) slot.sum = told.sum;
    } catch (error) {
        if (String(words) === String(wordList(facts))) slot.sumTrouble = error;
    }
    slot.isSummed = false;
    draw();
}

// The numbers, from 0, of samples that differ, by the place of their track.
function bySample(differences) {
    const found = new Map();
    for (const { at } of differences) {
        if (at[0] !== 'track' || at[2] !== 'sample') continue;
        if (!found.has(at[1] - 1)) found.set(at[1] - 1, new Set());
        found.get(at[1] - 1).add(at[3] - 1);
    }
    return found;
}

async function compare() {
    const words = wordList(facts), { a, b } = state.slots;
    const isStill = () =>
        state.slots.a === a && state.slots.b === b && String(words) === String(wordList(facts));
    state.comparison = null;
    draw();
    let told;
    try {
        told = await work.ask(
            { work: 'compare', a: held('a'), b: held('b'), words, limit: MOST_DIFFERENCES },
            { text: 'Comparing' });
        told.bySample = bySample(told.differences);
    } catch (error) {
        told = { trouble: error };
    }
    if (!isStill()) return;
    Object.assign(
        state,
        { comparison: told, filter: null, shown: 200, jumped: null, unfolded: new Set() });
    draw();
}

// Begins anew with what depends on the files or the words.
function forget() {
    Object.assign(state, { comparison: null, chosen: [], jumped: null });
}

function change() {
    forget();
    taken().forEach(([, slot]) => Object.assign(slot, { sum: null, sumTrouble: null }));
    draw();
    answer();
}

function take(name, file) {
    const old = state.slots[name];
    trouble();
    forget();
    state.slots[name] = slotOf(file);
    if (old && work.isAsked(old.key)) work.cancel();
    one(`.slot[data-slot=${name}] input`).value = '';
    return inspect(name);
}

// Takes one file, or two, from a place on.
function takeAll(files, name) {
    if (files.length > 2) trouble('More than two files: the first two are taken.');
    const first = name ?? (state.slots.a && !state.slots.b ? 'b' : 'a');
    const rest = first === 'a' ? ['a', 'b'] : ['b'];
    const some = files.slice(0, files.length > 1 ? 2 : 1);
    (some.length > 1 ? ['a', 'b'] : rest)
        .slice(0, some.length)
        .forEach((to, k) => take(to, some[k]));
    if (files.length > 2) trouble('More than two files: the first two are taken.');
}

// Makes something of a file that is kept.
async function make(kind, slot, then) {
    trouble();
    try {
        then(await work.ask(
            { work: kind, ...held(nameOf(slot)), words: wordList(facts) }, { text: slot.name }));
    } catch (error) {
        trouble(`${slot.name}: ${troubled(error)}`);
    }
}

// How the page moves, for those who don't like it to.
function gently() {
    return matchMedia('(prefers-reduced-motion: reduce)').matches ? 'auto' : 'smooth';
}

// Leads to the place of a difference.
function jump(difference) {
    const { at } = difference;
    state.jumped = difference.line;
    const isSample = at[0] === 'track' && at[2] === 'sample';
    if (isSample) time.visit(at[1] - 1, at[3] - 1);
    else {
        state.chosen = [];
        time.pane.act('all');
    }
    draw();
    const isOfTime = at[0] === 'track' && /^(sample|edit|start)/.test(at[2]);
    one(isOfTime ? '#time' : '#tracks').scrollIntoView({ block: 'nearest', behavior: gently() });
}

const acts = {
    again: inspect,
    remove: name => {
        forget();
        const slot = state.slots[name];
        state.slots[name] = null;
        if (work.isAsked(slot.key)) work.cancel();
        else work.ask({ work: 'drop', slot: name }, { isQuiet: true }).catch(() => {});
        draw();
        one(`.slot[data-slot=${name}] input`).focus();
    },
    sum,
    compare,
    place: name => {
        maps.get(name).visitFault();
        maps.get(name).element.scrollIntoView({ block: 'nearest', behavior: gently() });
    },
    leaveOut: words => {
        state.words = new Set(words);
        change();
    },
    filter: kind => {
        Object.assign(state, { filter: kind, shown: 200 });
        draw();
    },
    unfold: line => {
        state.unfolded.add(line);
        draw();
    },
    more: () => {
        state.shown += 200;
        draw();
    },
    jump,
    keepNormal: (slot, name) => make('normal', slot, ({ bytes }) => keep(name, bytes, 'video/mp4')),
    keepPrint: (slot, name) => make('print', slot, ({ bytes }) => keep(name, bytes, 'text/plain')),
    keepSum: async (slot, then) => {
        if (!slot.sum) await sum(slot);
        if (slot.sum) then();
        else if (slot.sumTrouble) trouble(`${slot.name}: ${troubled(slot.sumTrouble)}`);
    },
};

// What was dropped: files, and a word on what is none.
function dropped(transfer) {
    const items = [...(transfer.items ?? [])].filter(item => item.kind === 'file');
    const folder = items.map(item => item.webkitGetAsEntry?.()).find(entry => entry?.isDirectory);
    if (folder) {
        trouble(`${folder.name} is a folder. Drop a file of it.`);
        return [];
    }
    const files = [...transfer.files];
    if (!files.length) trouble('What was dropped is no file.');
    return files;
}

function listen() {
    document.querySelectorAll('.slot input')
        .forEach(input => input.addEventListener('change', () => {
            const files = [...input.files];
            if (files.length) takeAll(files, input.closest('.slot').dataset.slot);
        }));
    const over = target => document.querySelectorAll('.slot').forEach(
        slot => slot.classList.toggle('is-over', slot === target));
    document.addEventListener('dragover', event => {
        event.preventDefault();
        over(event.target.closest?.('.slot'));
    });
    document.addEventListener('dragleave', event => event.relatedTarget || over(null));
    document.addEventListener('drop', event => {
        event.preventDefault();
        over(null);
        const files = dropped(event.dataTransfer);
        if (files.length) takeAll(files, event.target.closest?.('.slot')?.dataset.slot);
    });
    one('#cancel').addEventListener('click', () => work.cancel());
    one('#example').addEventListener('click', () => {
        const file = ({ name, bytes }) =>
            new File([Uint8Array.from(atob(bytes), sign => sign.charCodeAt(0))], name);
        takeAll(facts.examples.map(file));
    });
}

makeWords(facts, change);
listen();
// The worker begins once the page is seen.
requestAnimationFrame(() => setTimeout(() => work.wake(), 0));
document.documentElement.dataset.ready = 'yes';
