// Types of mp4norm.mjs. Whole numbers are `number`, and `bigint` where a `number` would not be exact.

/** A whole number: a `bigint` only above 2^53 - 1 or below its negative. */
export type Whole = number | bigint;

/** The bytes of a file. Of a Blob or File: `await blob.arrayBuffer()`. */
export type Bytes = Uint8Array | ArrayBuffer | SharedArrayBuffer | ArrayBufferView;

export type Word = 'times' | 'edits' | 'flags' | 'groups' | 'metadata' | 'bitrates' | 'ends'
    | 'origins' | 'labels' | 'timing' | 'roles' | 'ids' | 'timescales' | 'lead-ins' | 'packaging-1'
    | 'media-1' | 'packaging-2' | 'media-2';

/**
 * What is left out: names in a text with commas, or in a list; or flags of WORDS. Of a text types check
 * the first two names, of a list all; what isn't a name throws in either.
 */
export type Words = '' | Word | `${Word},${Word}` | `${Word},${Word},${string}` | readonly Word[] | number;

export type Kind = 'ShortHeader' | 'BadSize' | 'Overrun' | 'ShortBox' | 'BoxNotInProfile'
    | 'DuplicateBox' | 'MissingBox' | 'BadVersion' | 'BadFlags' | 'BadValue' | 'OutsideData'
    | 'CountMismatch' | 'BadOrder' | 'BadDescriptionIndex' | 'SampleOutsideFile' | 'UnknownTrack'
    | 'Gap' | 'OffsetTooLarge' | 'ItemLocation' | 'TooManySamples' | 'TimeTooLarge'
    | 'MovieTooLarge' | 'FragmentBeforeMovie';

export type Code = 'refused' | 'memory' | 'device' | 'noTrack' | 'usage';

export const STATUS: Readonly<{
    done: 0, refused: 1, memory: 2, device: 3, noTrack: 4, differ: 5, usage: 64,
}>;
/** The kinds of fault, from number 1 on. */
export const KINDS: readonly Kind[];
/** The flag of each word. */
export const WORDS: Readonly<Record<Word, number>>;

/** A call had another answer than what it was asked for: no memory, no track with the ID. */
export class Mp4Error extends Error {
    constructor(code: Code, message: string);
    readonly code: Code;
}

/** The file has a fault, at a box. */
export class Mp4Fault extends Mp4Error {
    constructor(fault: { kind: Kind, type: string, offset: Whole, file: 0 | 1 });
    readonly kind: Kind;
    /** Four letters, or eight hexadecimal digits; `file` is the file itself. */
    readonly type: string;
    /** The place in the file of the first byte of the box. */
    readonly offset: Whole;
    /** Which of two files that were compared has the fault. */
    readonly file: 0 | 1;
}

export interface Checked {
    /** 0, or 1 where the file has a fault, which the next three name. */
    status: 0 | 1;
    kind: Kind | '';
    type: string;
    offset: Whole;
    len: Whole;
}

export interface Track {
    id: number;
    handler: string;
    /** Types of the sample descriptions. */
    descriptions: string[];
    timescale: number;
    /** The next two are in units of the track's timescale. */
    start: Whole;
    duration: Whole;
    samples: number;
    bytes: Whole;
    /** segment_duration, media_time, rate_integer, rate_fraction. */
    edits: [Whole, Whole, number, number][];
}

export interface Movie {
    timescale: number;
    /** The length of the longest track in units of the movie's timescale. */
    mehd: Whole;
    tracks: Track[];
}

/** Times are in units of the track's timescale; `number` and `description` count from 1. `at` is the
    place of its first byte in the file, and `fragment` the number of its `moof`, 0 for the tables. */
export interface Sample {
    number: number;
    decode_time: Whole;
    composition_time: Whole;
    duration: number;
    flags: number;
    description: number;
    size: number;
    at: Whole;
    fragment: Whole;
}

export interface Box {
    /** How many containers it lies in. */
    depth: number;
    type: string;
    offset: Whole;
    /** In bytes, with its header. */
    size: Whole;
    uuid?: string;
    /** Whether the profile refuses a box of this type there. */
    foreign?: true;
}

/** A box with its fields, by their names in the standard. */
export interface BoxWithFields extends Box {
    /** Where the profile reads a box of this type; docs/OUTPUT.md has their names and values. */
    fields?: Record<string, unknown>;
}

export interface Difference {
    /** The path to the value. */
    at: (string | number)[];
    a: Whole | string;
    b: Whole | string;
    kind: string;
    /** The difference as a line of text. */
    line: string;
    /** Of a byte: of how many. */
    of?: Whole;
    /** Of a sample: when it is decoded in the first file, as a fraction: "39936/12800". */
    seconds?: string;
}

/** What stands in one file between samples that are the same. */
export interface Between {
    samples: number;
    /** When the sample behind those in front is decoded, in parts of a second; 0 where there is none. */
    decode_time: Whole;
    /** How many parts a second has. */
    timescale: number;
}

/** How two tracks lie beside each other whose samples are not the same. */
export interface Alignment {
    kind: 'aligned';
    /** From 1. */
    track: Whole;
    /** How many samples in front are the same, and of the rest how many at the end. */
    front: number;
    end: number;
    a: Between;
    b: Between;
    /** The line of `compare --align`. */
    line: string;
}

export interface Comparison {
    same: boolean;
    /** How many differences there are; at least so many where `atLeast`. */
    total: Whole;
    atLeast: boolean;
    /** How many of each kind. */
    kinds: Record<string, Whole>;
    /** What has to be left out so that the two are the same; null if no words do that. */
    words: Word[] | null;
    differences: Difference[];
    /** How tracks lie beside each other whose samples are not the same, where that was asked for. */
    aligned: Alignment[];
}

/** The calls on a file that is open. Each throws Mp4Fault where the file has a fault. */
export interface Mp4File {
    /** In bytes. */
    readonly length: number;
    /** Whether the file has a normal form; a fault is an answer, and not thrown. */
    check(): Checked;
    /** The SHA-256 of the normal form, in hexadecimal digits. */
    sum(words?: Words): string;
    /** How many bytes the normal form has. */
    normalLength(words?: Words): Whole;
    /** The normal form: a fragmented MP4 file. */
    normalise(words?: Words): Uint8Array;
    show(): Movie;
    samples(track: number): Sample[];
    samplesText(track: number, form?: 'plain' | 'named' | 'json'): string;
    /** Throws Mp4Fault only for a header that is broken. */
    boxes(): Box[];
    boxesText(syntax?: 'lines' | 'json'): string;
    /** The boxes with their fields, and at most so many of each one's rows: up to 2^32 - 1. */
    fields(rows?: number): BoxWithFields[];
    fieldsText(rows?: number, syntax?: 'lines' | 'json'): string;
    /** What the file says as text, a line for each value and sample. */
    print(words?: Words): string;
    /** The same in UTF-8. */
    printBytes(words?: Words): Uint8Array;
    /** The bytes of a track's samples, one after the other. */
    extract(track: number): Uint8Array;
    /**
     * Compares two files, and lists at most `limit` differences, 100 where it isn't given. With `align`
     * samples are listed and counted only of tracks that have the same number of them in both.
     */
    compare(other: Mp4File, words?: Words, limit?: number, align?: boolean): Comparison;
    /** Gives back the file's room in the module's memory. Every later call throws. */
    close(): void;
}

/** The calls, each on bytes or on a file that is open. */
export interface Mp4Norm {
    /** As `0.3.0`. */
    readonly version: string | undefined;
    /** Takes over the bytes of a file for more than one call: they are copied once. */
    open(bytes: Bytes): Mp4File;
    check(file: Bytes | Mp4File): Checked;
    sum(file: Bytes | Mp4File, words?: Words): string;
    normalLength(file: Bytes | Mp4File, words?: Words): Whole;
    normalise(file: Bytes | Mp4File, words?: Words): Uint8Array;
    show(file: Bytes | Mp4File): Movie;
    samples(file: Bytes | Mp4File, track: number): Sample[];
    samplesText(file: Bytes | Mp4File, track: number, form?: 'plain' | 'named' | 'json'): string;
    boxes(file: Bytes | Mp4File): Box[];
    boxesText(file: Bytes | Mp4File, syntax?: 'lines' | 'json'): string;
    fields(file: Bytes | Mp4File, rows?: number): BoxWithFields[];
    fieldsText(file: Bytes | Mp4File, rows?: number, syntax?: 'lines' | 'json'): string;
    print(file: Bytes | Mp4File, words?: Words): string;
    printBytes(file: Bytes | Mp4File, words?: Words): Uint8Array;
    extract(file: Bytes | Mp4File, track: number): Uint8Array;
    compare(a: Bytes | Mp4File, b: Bytes | Mp4File, words?: Words, limit?: number,
            align?: boolean): Comparison;
}

/** Whether this engine knows memories with addresses of 64 bits. */
export function hasMemory64(): boolean;

/**
 * Loads the module: its bytes, a URL of them, a Response of them, or the module. Without a source
 * it is the one beside mp4norm.mjs that this engine can run.
 */
export function load(
    source?: BufferSource | URL | string | Response | WebAssembly.Module,
): Promise<Mp4Norm>;
