// The cards of the two files, what is left out, faults, tracks, and what can be kept.
import { button, element, fill, keep, one } from './dom.js';
import { explained, rows } from './faults.js';
import { fragmentsOf, handled } from './film.js';
import { counted, grouped, rated, sized, timed } from './pen.js';
import {
    bytesInAll,
    isAccepted,
    isQuick,
    lanesOfSlot,
    state,
    taken,
    wordList
} from './state.js';

const TROUBLES = {
    changed: 'The file changed while it was read, or can\u2019t be read any more. Choose it again.',
    memory:
        'The browser gave this page no memory for it. Close other tabs, or use the program'
        + ' mp4norm, which reads files by offset.',
    large:
        'The file is larger than a page can hold, which is 3.6 GB. The program mp4norm reads it'
        + ' by offset.',
    cancelled: 'Stopped, as you wished.',
};

/** What a trouble is, for people. */
export function troubled(trouble) {
    if (trouble.kind === 'refused')
        return `With these categories ignored it has no normal form: ${trouble.said}`;
    return TROUBLES[trouble.kind]
        ?? `Something went wrong here: ${trouble.said}. Choose the file again.`;
}

// A word of a verdict, with its sign.
function verdictOf(slot) {
    const { verdict } = slot;
    if (slot.trouble && !verdict)
        return element(
            'span', { className: 'verdict bad' },
            slot.trouble.kind === 'cancelled' ? 'stopped' : 'not read');
    if (!verdict) return element('span', { className: 'verdict wait' }, 'reading');
    if (verdict.status === 0) return element('span', { className: 'verdict good' }, 'accepted');
    return element('span', { className: 'verdict bad' }, 'refused');
}

// The sum of a file, or how to get it.
function sumOf(slot, acts) {
    if (!isAccepted(slot)) return null;
    if (slot.sumTrouble) {
        return element(
            'p', { className: 'sum' }, `No sum: ${troubled(slot.sumTrouble)} `,
            slot.sumTrouble.kind === 'refused'
                ? null
                : button('Compute it', () => acts.sum(slot), { className: 'plain-button' }));
    }
    if (slot.sum) {
        const copy = event => navigator.clipboard?.writeText(slot.sum).then(() => {
            event.target.textContent = 'copied';
        }, () => {});
        return element(
            'p', { className: 'sum' }, 'Sum of the normal form',
            button(
                'copy', copy,
                { className: 'plain-button', aria: { label: `Copy the sum of ${slot.name}` } }),
            element('b', { className: 'mono' }, slot.sum));
    }
    if (!slot.isDone || slot.isSummed || isQuick(slot))
        return element('p', { className: 'sum' }, 'Sum of the normal form: on its way');
    return element('p', { className: 'sum' },
        `Its samples have ${sized(bytesInAll(slot))} in all, so its sum takes a while. `,
        button('Compute it', () => acts.sum(slot), { className: 'plain-button' }));
}

/** Draws the card of a place for a file. */
export function drawSlot(name, acts) {
    const card = one(`.slot[data-slot=${name}]`), slot = state.slots[name];
    one('.drop', card).hidden = Boolean(slot);
    const told = one('.told', card);
    told.hidden = !slot;
    if (!slot) return;
    const again =
        slot.trouble && !slot.isBusy ? button('Read it again', () => acts.again(name)) : null;
    fill(
        told,
        ...[element('p', { className: 'name', data: { key: slot.key } }, slot.name),
            element(
                'p', { className: 'row' }, verdictOf(slot),
                element('span', { className: 'quiet' }, sized(slot.size))),
            slot.trouble ? element('p', { className: 'line' }, troubled(slot.trouble)) : null,
            sumOf(slot, acts),
            element('div', { className: 'row' }, again, button('Remove', () => acts.remove(name), {
                        aria: { label: `Remove ${slot.name}` }
                    })),
    ]);
}

/** Makes the ticks of what may be left out, once. */
export function makeWords(facts, change) {
    one('#word-list').append(...facts.words.map(([word, hides]) => element('label', {},
        element('input', { type: 'checkbox', value: word, on: { change: event => {
            state.words[event.target.checked ? 'add' : 'delete'](word);
            change();
        } } }), element('b', {}, word), element('span', {}, hides))));
    const sets = { nothing: [], ...facts.sets };
    one('#word-sets').append(...Object.entries(sets).map(([name, words]) => button(name, () => {
        state.words = new Set(words);
        change();
    }, { data: { set: words.join(',') } })));
}

/** Shows which ticks are set. */
export function drawWords(facts) {
    const words = wordList(facts);
    one('#words-card').hidden = !taken().some(([, slot]) => isAccepted(slot));
    one('#words-told').textContent = words.length ? words.join(', ') : 'nothing';
    document.querySelectorAll('#word-list input').forEach(tick => {
        tick.checked = state.words.has(tick.value);
    });
    document.querySelectorAll('#word-sets button')
        .forEach(it => it.setAttribute('aria-pressed', it.dataset.set === words.join(',')));
}

// Bytes around a fault.
function dump(slot) {
    if (!slot.around?.bytes.length) return null;
    const from = Number(slot.verdict.offset), lines = [];
    for (const row of rows(slot.around.at, slot.around.bytes)) {
        const digits =
            row.digits
                .map(
                    (it, k) =>
                        row.at + k >= from && row.at + k < from + 8 ? element('mark', {}, it) : it)
                .flatMap(it => [it, ' ']);
        lines.push(
            `${String(row.at).padStart(10)}  `, ...digits, ' '.repeat(3 * (16 - row.digits.length)),
            ` ${row.signs}\n`);
    }
    return element(
        'pre',
        { className: 'bytes mono', tabIndex: 0, aria: { label: 'Bytes around the box at fault' } },
        lines);
}

// What there is to say of a refused file.
function faultCard(name, slot, facts, acts) {
    const { verdict } = slot;
    const said = explained(facts, verdict, slot.head, slot.boxes);
    const entry =
        (what, text) => [element('dt', {}, what), element('dd', { data: { told: what } }, text)];
    return element(
        'section', { className: 'card fault-card', data: { slot: name, key: slot.key } },
        element('h2', {}, `${slot.name} is refused`),
        element('p', { className: 'line' }, said.meaning),
        element(
            'dl', { className: 'facts' },
            entry('fault', `${verdict.kind} in ${verdict.type} at ${verdict.offset}`),
            entry('way', said.way), entry('clause', said.clause),
            slot.numbers ? entry('numbers', slot.numbers) : null),
        dump(slot),
        slot.boxes.length
            ? element('p', { className: 'row' }, button('Show the box', () => acts.place(name)))
            : null);
}

/** Draws the faults of refused files. */
export function drawFaults(facts, acts) {
    const refused = taken().filter(([, slot]) => slot.verdict?.status === 1 && slot.boxes);
    fill(one('#faults'), ...refused.map(([name, slot]) => faultCard(name, slot, facts, acts)));
}

// The edits of a track, in a few words.
function editsTold(track, scale) {
    if (!track.edits.length) return 'none';
    return track.edits.map(([lasts, media, whole, part]) => {
        const time = timed(Number(lasts) / scale);
        const rate = whole + part / 65536;
        const speed = rate === 1 ? '' : ` at rate ${Number(rate.toFixed(3))}`;
        return Number(media) < 0 ? `${time} empty`
                                 : `${time} from ${timed(Number(media) / track.timescale)}${speed}`;
    }).join(', then ');
}

// Values of all sample entries of a track, each once.
function ofEntries(entries, value) {
    return [...new Set(entries.map(value).filter(Boolean))].join(', ');
}

// The size of pictures and how many a second there are, or the sample rate and the channels.
function formatOf(track, found, seconds) {
    const many = seconds ? Number(track.samples) / seconds : 0;
    const speed = track.handler === 'vide' && many ? `, ${Number(many.toFixed(3))} fps` : '';
    return ofEntries(found.entries, entry => entry.width ? `${entry.width} \u00d7 ${entry.height}${speed}`
        : entry.channels ? `${entry.rate / 1000} kHz, ${counted(entry.channels, 'channel')}` : '');
}

// A row of the table of tracks.
function trackRow(track, slot, k) {
    const seconds = Number(track.duration) / track.timescale;
    const found = slot.outline[k];
    const syncs = slot.lanes?.[k] ? slot.lanes[k].syncs : null;
    const of = syncs === null || !track.samples ? ''
        : syncs === track.samples               ? 'all'
                                                : grouped(syncs);
    const cells = [
        ['Track', String(track.id)],
        ['Kind', handled(track.handler)],
        ['Codec', ofEntries(found.entries, entry => entry.codec)],
        ['Format', formatOf(track, found, seconds)],
        ['Language', found.language],
        ['Duration', timed(seconds), 'number'],
        ['Timescale', grouped(track.timescale), 'number'],
        ['Samples', grouped(track.samples), 'number'],
        ['Sync', of, 'number'],
        ['Bytes', sized(track.bytes), 'number'],
        ['Bit rate', seconds ? rated(Number(track.bytes) * 8 / seconds) : '', 'number'],
        ['Starts', timed(Number(track.start) / track.timescale), 'number'],
        ['Edits', editsTold(track, slot.show.timescale)],
    ];
    return cells;
}

// So many tracks, or fragments, of a file are listed at most.
const MOST_ROWS = 200;

// A table of rows, each a list of cells: a label, a text, and whether it is a number. `said` stands
// above it.
function table(slot, said, rows) {
    const head = ([label, , className = '']) => element('th', { scope: 'col', className }, label);
    const cell = ([label, text, className = '']) =>
        element('td', { className, data: { label } }, element('span', {}, text));
    const more = rows.length > MOST_ROWS ? `; the first ${MOST_ROWS} of them` : '';
    return element(
        'table', {}, element('caption', { data: { key: slot.key } }, said + more),
        element('thead', {}, element('tr', {}, rows[0]?.map(head) ?? [])),
        element(
            'tbody', {},
            rows.slice(0, MOST_ROWS).map(row => element('tr', {}, row.map(cell)))));
}

// The tracks of a file.
function trackTable(slot) {
    const { show } = slot, lasts = show.timescale ? timed(Number(show.mehd) / show.timescale) : '';
    return table(
        slot, `${slot.name}: ${counted(show.tracks.length, 'track')}, ${lasts}`,
        show.tracks.map((track, k) => trackRow(track, slot, k)));
}

// A row of the table of movie fragments.
function fragmentRow({ moof, samples, bytes, from, to, isSync }, k) {
    return [
        ['Fragment', String(k + 1)],
        ['Offset', grouped(moof), 'number'],
        ['Decoded at', timed(from), 'number'],
        ['Lasts', timed(to - from), 'number'],
        ['Samples', grouped(samples), 'number'],
        ['Bytes', sized(bytes), 'number'],
        ['Bit rate', to > from ? rated(bytes * 8 / (to - from)) : '', 'number'],
        ['Begins with', isSync ? 'a sync sample' : 'another sample'],
    ];
}

// The movie fragments of a file, where it has some, to be unfolded.
function fragmentTable(slot) {
    const found = slot.fragments ??= fragmentsOf(lanesOfSlot(slot));
    if (!found.length) return null;
    const said = `${slot.name}: ${counted(found.length, 'movie fragment')}`;
    const toggle = event => {
        slot.isListed = event.target.open;
    };
    return element(
        'details', { open: Boolean(slot.isListed), on: { toggle } }, element('summary', {}, said),
        table(slot, said, found.map(fragmentRow)));
}

/** Draws the tables of tracks and of movie fragments. */
export function drawTracks() {
    const shown = taken().filter(([, slot]) => slot.show && slot.outline);
    const card = one('#tracks');
    card.hidden = !shown.length;
    fill(
        card, element('h2', {}, 'Tracks'),
        ...shown.flatMap(([, slot]) => [trackTable(slot), fragmentTable(slot)]));
}

// A file's name without what stands behind its last point.
function stem(name) {
    return name.replace(/\.[^.]*$/, '') || name;
}

/** A line of a list of sums, as `sum` prints it and `sum --check` reads it. */
export function sumText(sum, name, words) {
    const odd = /[\\\n\r]/.test(name);
    const shown =
        odd ? name.replace(/\\/g, '\\\\').replace(/\n/g, '\\n').replace(/\r/g, '\\r') : name;
    return `# mp4norm sum: normal form 1, without ${words.length ? words.join(',') : 'nothing'}\n${
        odd ? '\\' : ''}${sum}  ${shown}\n`;
}

/** Draws what can be kept of the accepted files. */
export function drawDownloads(facts, acts) {
    const accepted = taken().filter(([, slot]) => isAccepted(slot) && slot.isDone);
    const card = one('#downloads'), words = wordList(facts);
    card.hidden = !accepted.length;
    const row = ([name, slot]) => element(
        'div', { data: { keep: name, key: slot.key } },
        element('h3', { className: 'name' }, slot.name),
        element(
            'div', { className: 'row' },
            button(
                'Normal form (.mp4)', () => acts.keepNormal(slot, `${stem(slot.name)}.normal.mp4`)),
            button(
                'Content as text (.txt)',
                () => acts.keepPrint(slot, `${stem(slot.name)}.print.txt`)),
            button(
                'Sum (.txt)',
                () => acts.keepSum(
                    slot,
                    () => keep(
                        `${stem(slot.name)}.sum.txt`, sumText(slot.sum, slot.name, wordList(facts)),
                        'text/plain')))));
    fill(
        card, element('h2', {}, 'Download'),
        element(
            'p', { className: 'quiet' },
            words.length ? `Without ${words.join(', ')}.` : 'Nothing is ignored.'),
        ...accepted.map(row));
}
