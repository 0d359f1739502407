// What there is to say of a fault, as `--explain` says it. The tables are made from those of the
// program (`facts`).
import { wayTo } from './reading.js';

// Whether a file begins with a box of a type that is known.
function looksLikeMp4(facts, head) {
    const type = String.fromCharCode(...head.subarray(4, 8));
    return head.length === 8 && (type in facts.clauses || facts.firstTypes.includes(type));
}

/**
 * The way to the box at fault, the clause of the standard that tells of it, and what the fault
 * means.
 */
export function explained(facts, fault, head, boxes) {
    const isOfOrigin = fault.kind === 'OffsetTooLarge' && fault.type === 'tkhd';
    const meaning = !looksLikeMp4(facts, head)
        ? facts.noMp4
        : facts.meanings[isOfOrigin ? 'OffsetTooLarge tkhd' : fault.kind];
    return {
        way: wayTo(boxes, fault),
        clause: `ISO/IEC 14496-12, ${facts.clauses[fault.type] ?? '4.2'}`,
        meaning: meaning ?? '',
    };
}

/** Rows of bytes as people read them: place, digits, characters. */
export function rows(at, bytes) {
    const found = [];
    for (let k = 0; k < bytes.length; k += 16) {
        const some = [...bytes.subarray(k, k + 16)];
        found.push({
            at: at + k,
            digits: some.map(byte => byte.toString(16).padStart(2, '0')),
            signs: some.map(byte => byte > 31 && byte < 127 ? String.fromCharCode(byte) : '.')
                       .join(''),
        });
    }
    return found;
}
