// The picture of a file's boxes: a strip of them by place, to scale, a row deeper for each
// container; and their names.
import {
    attributes,
    fitted,
    grouped,
    legend,
    path,
    picture,
    px,
    sized,
    ticks,
    words
} from './pen.js';

const EDGE = 12, AXIS = 26, DEEP = 24, LINE = 18;
// So many names at most stand in a picture, and so many of boxes of one type in a row.
const NAMES = 120, ALIKE = 6;

// What boxes are called (ISO/IEC 14496-12).
const MEANT = {
    ftyp: 'file type',
    styp: 'segment type',
    moov: 'movie',
    mvhd: 'movie header',
    trak: 'track',
    tkhd: 'track header',
    tref: 'track reference',
    edts: 'edits',
    elst: 'edit list',
    mdia: 'media',
    mdhd: 'media header',
    hdlr: 'handler',
    elng: 'extended language',
    minf: 'media information',
    vmhd: 'video media header',
    smhd: 'sound media header',
    hmhd: 'hint media header',
    nmhd: 'null media header',
    sthd: 'subtitle media header',
    gmhd: 'base media header',
    dinf: 'data information',
    dref: 'data references',
    stbl: 'sample table',
    stsd: 'sample entries',
    stts: 'decoding times',
    ctts: 'composition offsets',
    cslg: 'composition to decode',
    stss: 'sync samples',
    stsh: 'shadow sync samples',
    sdtp: 'sample dependencies',
    stsc: 'sample to chunk',
    stsz: 'sample sizes',
    stz2: 'compact sample sizes',
    stco: 'chunk offsets',
    co64: 'chunk offsets of 64 bits',
    sbgp: 'sample to group',
    sgpd: 'sample group descriptions',
    subs: 'sub-samples',
    saiz: 'auxiliary data sizes',
    saio: 'auxiliary data offsets',
    mvex: 'movie extends',
    mehd: 'movie extends header',
    trex: 'track extends',
    moof: 'movie fragment',
    mfhd: 'movie fragment header',
    traf: 'track fragment',
    tfhd: 'track fragment header',
    tfdt: 'decode time of a track fragment',
    trun: 'track run',
    mdat: 'media data',
    mfra: 'random access to movie fragments',
    sidx: 'segment index',
    free: 'free space',
    skip: 'free space',
    wide: 'free space',
    udta: 'user data',
    meta: 'metadata',
    iods: 'object descriptor',
    uuid: 'user extension',
    emsg: 'event message',
    prft: 'producer reference time',
    pssh: 'protection system',
    senc: 'sample encryption',
    pdin: 'progressive download',
};

/** What a box of this type is; nothing where that isn't known. */
export function meant(type) {
    return Object.hasOwn(MEANT, type) ? MEANT[type] : '';
}

// What kind of bytes a box holds, by its type: samples, what describes them, fragments, free space,
// or others.
const SORTS = {
    mdat: 'bar',
    moov: 'good',
    moof: 'cut',
    free: 'shade',
    skip: 'shade',
    wide: 'shade'
};

/** The colour of each box's sort: that of the outermost box in which it lies. */
export function sorts(boxes) {
    let top = 'piece';
    return boxes.map(box => {
        if (box.depth === 0) top = SORTS[box.type] ?? 'piece';
        return top;
    });
}

/** The number of the deepest box at a place; -1 where there is none. */
export function boxAt(boxes, place) {
    return boxes.findLastIndex(
        box => Number(box.offset) <= place && place < Number(box.offset) + Number(box.size));
}

/** A box in a line. */
export function boxed(box) {
    const more = [
        box.isBroken && 'its header is broken', box.foreign && 'not in the profile here',
        box.uuid && `UUID ${box.uuid}`
    ].filter(Boolean);
    return [`${box.type} at ${grouped(box.offset)}`, `${grouped(box.size)} bytes`, ...more].join(
        ', ');
}

// The boxes of the strip; boxes narrower than a pixel are drawn as one.
function strip(boxes, scene, top) {
    const { colours, width, x } = scene;
    const colour = sorts(boxes);
    const ends = [];
    let body = '';
    boxes.forEach((box, k) => {
        const left = Math.max(EDGE, x(Number(box.offset)));
        const right = Math.min(width - EDGE, x(Number(box.offset) + Number(box.size)));
        if (right < EDGE || left > width - EDGE || right < left) return;
        const isChosen = scene.chosen === k, isFault = scene.fault === k;
        if (!isChosen && !isFault && left - (ends[box.depth] ?? -9) < 1 && right - left < 1) return;
        ends[box.depth] = right;
        const y = top + DEEP * box.depth;
        const wide = Math.max(isFault ? 3 : 1, right - left - (right - left > 3 ? 1 : 0));
        body += `<rect${attributes({
            x: px(left),
            y,
            width: px(wide),
            height: DEEP - 3,
            rx: wide > 6 ? 2 : 0,
            fill: isFault || box.foreign ? colours.differs : colours[colour[k]],
            class: isFault ? 'box fault' : 'box',
            ...(isChosen && { stroke: colours.ink, 'stroke-width': 2 })
        })}/>`;
        const label = fitted(box.type, wide - 6, 11);
        if (label.length === box.type.length) {
            body += words(
                label, left + 4, y + 14.5,
                { fill: colours.ground, 'font-size': 11, 'font-weight': 600 });
        }
    });
    return body;
}

// The axis of bytes.
function axis(scene, floor) {
    const { colours, view, width, x } = scene;
    const { places } = ticks(view.from, view.to, (width - 2 * EDGE) / 110);
    let labels = '';
    const grid = places.filter(place => Number.isInteger(place)).map(place => {
        const label = view.to - view.from > 20000 ? sized(place) : grouped(place);
        const half = label.length * 3.1;
        labels += words(label, Math.max(EDGE + half, Math.min(width - EDGE - half, x(place))), 15,
            { fill: colours.soft, 'font-size': 11, 'text-anchor': 'middle' });
        return `M${px(x(place))},${AXIS - 4}V${px(floor)}`;
    });
    return path(grid, { stroke: colours.grid, fill: 'none' }) + labels;
}

/**
 * The boxes whose names are listed: of a long row of boxes of one or two types in a container the
 * first few, and of all of them `most`. Each has its number among `boxes`; one that stands for
 * boxes that are left out has `more`, how many.
 */
export function listed(boxes, most = NAMES, always = -1) {
    const found = [], seen = [];
    let hidden = 0, under = Infinity;
    const close = () => {
        if (hidden) found.push({ more: hidden, depth: under === Infinity ? 0 : under });
        hidden = 0;
    };
    boxes.forEach((box, k) => {
        if (box.depth <= under) under = Infinity;
        seen.length = box.depth + 1;
        seen[box.depth] ??= new Map();
        const times = (seen[box.depth].get(box.type) ?? 0) + 1;
        if (under === Infinity) {
            seen[box.depth].set(box.type, times);
            if (times > ALIKE || found.length >= most) under = box.depth;
        }
        if (under !== Infinity && k !== always) {
            hidden += 1;
            return;
        }
        close();
        found.push({ ...box, k });
    });
    close();
    return found;
}

// The names of boxes, a row each.
function names(boxes, scene, top) {
    const { colours, width } = scene;
    const colour = sorts(boxes);
    let body = '', y = top;
    for (const box of listed(boxes, NAMES, scene.fault)) {
        const left = EDGE + 14 * box.depth;
        if (box.more) {
            body += words(
                `\u2026 ${grouped(box.more)} more`, left + 14, y + 12, { fill: colours.soft });
        } else {
            const isFault = box.k === scene.fault;
            const ink = isFault || box.foreign ? colours.differs : colours.ink;
            body += `<rect${attributes({
                        x: left,
                        y: y + 3,
                        width: 9,
                        height: 9,
                        rx: 2,
                        fill: isFault || box.foreign ? colours.differs : colours[colour[box.k]]
                    })}/>`
                + words(box.type, left + 14, y + 12, { fill: ink, 'font-weight': 600 })
                + (width > 480 ? words(meant(box.type), left + 60, y + 12, { fill: colours.soft })
                               : '')
                + words(`${grouped(box.offset)}  \u00b7  ${grouped(box.size)}`, width - EDGE,
                        y + 12, { fill: colours.soft, 'text-anchor': 'end' });
        }
        y += LINE;
    }
    return { body, floor: y };
}

// What the colours mean, as far as these boxes have them.
function entries(boxes, scene) {
    const { colours } = scene;
    const has = new Set(sorts(boxes));
    const square = fill => (x, y) =>
        `<rect${attributes({ x: x + 4, y, width: 12, height: 12, rx: 2, fill })}/>`;
    return [
        ['good', 'moov: the movie and its tables'], ['cut', 'moof: fragments'],
        ['bar', 'mdat: samples'], ['shade', 'free space'], ['piece', 'others']
    ].filter(([name]) => has.has(name))
        .map(([name, text]) => [square(colours[name]), text])
        .concat(scene.fault >= 0 ? [[square(colours.differs), 'the fault']] : []);
}

/**
 * The picture of boxes. `view` has `width` in pixels, `from` and `to` in bytes (the whole file
 * without them), `colours`, a `title`, the numbers of the box `chosen` and of that with the
 * `fault`, and whether `names` are listed below. Gives the SVG, its height, and how high a row is,
 * from `top` on.
 */
export function drawBoxes(boxes, size, view) {
    const seen = { from: view.from ?? 0, to: view.to ?? Math.max(1, size) };
    const by = (view.width - 2 * EDGE) / (seen.to - seen.from);
    const scene = { ...view, view: seen, x: place => EDGE + (place - seen.from) * by };
    const depth = boxes.reduce((most, box) => Math.max(most, box.depth), 0);
    const top = AXIS + 4, floor = top + DEEP * (depth + 1);
    const signs =
        legend(entries(boxes, scene), EDGE, floor + 10, view.width - 2 * EDGE, view.colours);
    let body = axis(scene, floor) + strip(boxes, scene, top) + signs.body,
        height = floor + 10 + signs.height;
    if (view.names) {
        const rows = names(boxes, scene, height + 10);
        body += rows.body;
        height = rows.floor + 10;
    }
    return {
        svg: picture(view.title, view.width, height, view.colours, body),
        height,
        edge: EDGE,
        top,
        row: DEEP
    };
}
