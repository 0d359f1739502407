// The fields of a box that was chosen, by their names in the standard.
import { element } from './dom.js';
import { grouped } from './pen.js';

/** Fields of a longer box are not shown. */
export const MOST_BOX = 1 << 26;

// Boxes that only hold others, or bytes that no field names.
const BARE = new Set(
    'moov trak mdia minf stbl edts dinf mvex moof traf mfra mdat free skip wide'.split(' '));

// Counts that the list of fields has beside them.
const BESIDE = new Set(['bytes', 'rows', 'more_rows']);

/**
 * Whether a box may have fields that are shown: it isn't bare, its header is whole, and it isn't
 * long.
 */
export function mayHaveFields(box) {
    return !box.isBroken && !BARE.has(box.type) && Number(box.size) <= MOST_BOX;
}

// A value as it is read: numbers of a list apart by spaces, a part of a box by its names.
function spelled(value) {
    if (Array.isArray(value)) return value.map(spelled).join(' ');
    if (value !== null && typeof value === 'object')
        return Object.entries(value).map(([key, it]) => `${key} ${spelled(it)}`).join(', ');
    return String(value);
}

// The rows of a box, under the names of their fields.
function table(rows) {
    const names = [...new Set(rows.flatMap(row => Object.keys(row)))];
    const cells = row => names.map(name => element('td', {}, spelled(row[name] ?? '')));
    return element(
        'table', { className: 'rows' },
        element('thead', {}, element('tr', {}, names.map(name => element('th', {}, name)))),
        element('tbody', {}, rows.map(row => element('tr', {}, cells(row)))));
}

/** Elements that show fields: names and values, and then rows. */
export function shownFields(fields) {
    if (!fields) return [];
    const pairs = Object.entries(fields).filter(([name]) => !BESIDE.has(name));
    const list = element(
        'dl', { className: 'values' },
        pairs.flatMap(
            ([name, value]) => [element('dt', {}, name), element('dd', {}, spelled(value))]));
    const rows = fields.rows ?? [];
    const more = fields.more_rows ? `${grouped(fields.more_rows)} more entries` : '';
    return [
        list, rows.length > 0 && table(rows), more && element('p', { className: 'more' }, more)
    ];
}
