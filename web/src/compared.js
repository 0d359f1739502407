// Whether two files are the same, and what differs.
import { button, element, fill, one } from './dom.js';
import { counted } from './pen.js';
import { isAccepted, isQuick, state, wordList } from './state.js';
import { troubled } from './cards.js';

// So many differences are listed at first, and with each press of the button.
const STEP = 200;
// So many differences of one value, in samples that follow one another, are told in one line,
const LONG = 4;
// and so many lines are shown at most.
const MOST = 20000;

// What stands under the verdict.
function under(told, facts) {
    const words = wordList(facts);
    const left = words.length ? `Ignored: ${words.join(', ')}. ` : '';
    if (!told.same) return left;
    const { a, b } = state.slots;
    const isOne =
        a.name === b.name && a.size === b.size && a.file.lastModified === b.file.lastModified;
    const bytes = told.alike ? 'Their bytes are the same, too.'
                             : 'Their bytes differ: they encode the same content in other ways.';
    return `${left}${isOne && told.alike ? 'They seem to be one file, chosen twice. ' : ''}${
        bytes}`;
}

// With which words left out the two are the same.
function hint(told, facts, acts) {
    if (told.same) return null;
    if (!told.words) return element('p', {}, 'No categories make them the same.');
    const more = told.words.filter(word => !state.words.has(word));
    return element(
        'p', { className: 'row' }, `They are the same without ${wordsTold(told.words)}.`,
        button(
            `Ignore ${more.length === 1 ? 'this' : 'these'}`, () => acts.leaveOut(told.words)));
}

function wordsTold(words) {
    return words.length < 2 ? words.join('')
                            : `${words.slice(0, -1).join(', ')} and ${words.at(-1)}`;
}

// Kinds of difference, of which one may be picked.
function kinds(told, acts) {
    const entries = Object.entries(told.kinds);
    if (entries.length < 2) return null;
    const chip = (kind, text) =>
        button(text, () => acts.filter(kind), { aria: { pressed: state.filter === kind } });
    return element(
        'div', { className: 'chips', role: 'group', aria: { label: 'Kinds of difference' } },
        chip(null, 'all'),
        entries.map(([kind, count]) => chip(kind, `${kind} ${count.toLocaleString('en')}`)));
}

// Which value of a sample a difference is of, and of which track; nothing where it is of no sample.
function valueOf({ at }) {
    if (at[0] !== 'track' || at[2] !== 'sample') return null;
    return [at[1], at[4], at[4] === 'group' ? at.slice(5).join(' ') : ''].join(' ');
}

/**
 * Differences in groups: those of one value of samples that follow one another are one, the others
 * stand alone. A group stands where its first difference does.
 */
export function inRuns(differences) {
    const groups = [], open = new Map();
    for (const difference of differences) {
        const value = valueOf(difference), last = open.get(value)?.at(-1);
        if (value !== null && last?.at[3] + 1 === difference.at[3]) open.get(value).push(difference);
        else {
            groups.push([difference]);
            if (value !== null) open.set(value, groups.at(-1));
        }
    }
    return groups;
}

// A difference as a line that leads to its place.
function row(it, acts) {
    const made = element('li', {}, button('', () => acts.jump(it), {}));
    made.firstChild.append(
        element('span', { className: 'kind' }, it.kind), element('code', {}, it.line));
    if (state.jumped === it.line) made.firstChild.setAttribute('aria-current', 'true');
    return made;
}

// A group of differences: its lines; of a long one the first, and how many more there are.
function rows(group, acts) {
    if (group.length < LONG || state.unfolded.has(group[0].line)) return group.map(it => row(it, acts));
    const made = row(group[0], acts), count = (group.length - 1).toLocaleString('en');
    made.append(button(
        `and ${count} more, up to sample ${group.at(-1).at[3].toLocaleString('en')}`,
        () => acts.unfold(group[0].line), { className: 'plain-button' }));
    return [made];
}

// The differences, a line each that leads to its place.
function list(told, acts) {
    const all = inRuns(told.differences.filter(it => !state.filter || it.kind === state.filter));
    const items = all.slice(0, state.shown).flatMap(group => rows(group, acts)).slice(0, MOST);
    const more = all.length > state.shown
        ? element(
            'p', { className: 'row' },
            button(`Show ${Math.min(STEP, all.length - state.shown)} more`, acts.more))
        : null;
    return [
        element('ol', { className: 'differences', aria: { label: 'Differences' } }, items), more
    ];
}

// All that there is to say of two files that were compared.
function result(told, facts, acts) {
    const count = `${told.atLeast ? 'at least ' : ''}${counted(told.total, 'difference')}`;
    const { a, b } = state.slots;
    return [
        element(
            'p', { className: told.same ? 'verdict good' : 'verdict bad', id: 'same' },
            told.same ? 'The same content' : `Not the same: ${count}`),
        element('p', { className: 'quiet' }, under(told, facts)),
        told.same ? null
                  : element(
                      'p', { className: 'quiet' },
                      `In each line the value of ${a.name} comes first, then that of ${b.name}.`),
        hint(told, facts, acts),
        told.same ? null : kinds(told, acts),
        ...(told.same ? [] : list(told, acts)),
    ].filter(Boolean);
}

/** Draws the comparison, where there are two files. */
export function drawComparison(facts, acts) {
    const card = one('#comparison'), { a, b } = state.slots;
    card.hidden = !(a && b);
    if (card.hidden) return;
    const head = element('h2', { data: { key: `${a.key} ${b.key}` } }, 'Do they have the same content?');
    const said = text => fill(card, head, element('p', { className: 'quiet' }, text));
    const told = state.comparison;
    if (told?.trouble)
        fill(
            card, head, element('p', { className: 'line' }, troubled(told.trouble)),
            button('Compare', acts.compare));
    else if (told) fill(card, head, ...result(told, facts, acts));
    else if ([a, b].some(slot => slot.verdict?.status === 1))
        said('Only files that are accepted can be compared.');
    else if (a.trouble || b.trouble) said('One of them could not be read.');
    else if (
        isAccepted(a) && isAccepted(b) && a.isDone && b.isDone && !(isQuick(a) && isQuick(b))) {
        fill(
            card, head,
            element(
                'p', { className: 'quiet' }, 'Samples overlap, so it takes a while. '),
            button('Compare', acts.compare));
    } else said('Comparing\u2026');
}
