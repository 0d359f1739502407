// The picture of a file in time: a lane for each track, samples as bars of their size.
import { before, extent, tallied, titled } from './film.js';
import {
    attributes,
    block,
    fitted,
    legend,
    path,
    picture,
    px,
    sized,
    ticks,
    timed,
    widthOf,
    words
} from './pen.js';
import { isSync } from './reading.js';

const EDGE = 12, AXIS = 26, LABEL = 20, BARS = 56, MARKS = 8, ROW = 14, GAP = 16;
// Pixels a bar is at least wide before samples are binned, and a bin is wide.
const BAR = 2, BIN = 2;

// Where a second of the view lies, in pixels.
function scaleOf(view, width) {
    const by = (width - 2 * EDGE) / (view.to - view.from);
    return seconds => EDGE + (seconds - view.from) * by;
}

// A place within the view.
function within(x, width) {
    return Math.max(EDGE, Math.min(width - EDGE, x));
}

// A sample's place, from its left side to its right, in the view.
function sides(lane, k, scene) {
    const left = scene.x(lane.shown[k]);
    const right = scene.x(lane.shown[k] + lane.samples.duration[k] / lane.timescale);
    return [within(left, scene.width), within(right, scene.width)];
}

// Each sample as a bar of its own.
function singleBars(lane, from, to, scene) {
    const found = { bar: [], sync: [], differs: [], marks: [], strips: [] };
    for (let at = from; at < to; at += 1) {
        const k = lane.order[at];
        const [left, right] = sides(lane, k, scene);
        const wide = Math.max(0.6, right - left - (right - left > 4 ? 1 : 0.3));
        if (right <= EDGE || left >= scene.width - EDGE) continue;
        const high = Math.max(1, BARS * lane.samples.size[k] / lane.largest);
        const isOther = lane.differs?.has(k);
        const sync = isSync(lane.samples.flags[k]) && lane.syncs < lane.samples.count;
        (isOther    ? found.differs
             : sync ? found.sync
                    : found.bar)
            .push(block(left, scene.floor - high, wide, high));
        if (sync) found.marks.push(mark(left + Math.min(4, wide / 2), scene.floor + 2));
        if (isOther) found.strips.push(block(left, scene.top - 3, Math.max(2, wide), 3));
    }
    return found;
}

// The sign of a sync sample: a triangle that points at it.
function mark(x, y) {
    return `M${px(x)},${px(y)}l3,5h-6z`;
}

// What falls in each bin of so many pixels: the largest size, the sum and the number of sizes, and
// whether one is a sync sample, or differs.
function binned(lane, from, to, scene) {
    const count = Math.ceil((scene.width - 2 * EDGE) / BIN);
    const bins = {
        count,
        peak: new Float64Array(count),
        sum: new Float64Array(count),
        n: new Uint32Array(count),
        sync: new Uint8Array(count),
        differs: new Uint8Array(count)
    };
    // Bins a second; and how many bins more than one a sample may fill, in all.
    const by = (scene.width - 2 * EDGE) / BIN / (scene.view.to - scene.view.from);
    let spare = 200000;
    for (let at = from; at < to; at += 1) {
        const k = lane.order[at], size = lane.samples.size[k];
        const left = (lane.shown[k] - scene.view.from) * by;
        const first = Math.max(0, Math.min(count - 1, Math.floor(left)));
        const right = Math.ceil(left + lane.samples.duration[k] / lane.timescale * by) - 1;
        const last = Math.max(first, Math.min(count - 1, right, first + spare));
        spare -= last - first;
        for (let bin = first; bin <= last; bin += 1) {
            bins.peak[bin] = Math.max(bins.peak[bin], size);
            bins.sum[bin] += size;
            bins.n[bin] += 1;
        }
        if (isSync(lane.samples.flags[k])) bins.sync[first] = 1;
        if (lane.differs?.has(k)) bins.differs[first] = 1;
    }
    return bins;
}

// Samples that are narrower than a bar together: the largest of a bin pale, their mean full. Bins
// with a sync sample stand out as long as they are few.
function binnedBars(lane, from, to, scene) {
    const bins = binned(lane, from, to, scene);
    const found = { peak: [], bar: [], sync: [], differs: [], marks: [], strips: [] };
    const count = of => of.reduce((sum, n) => sum + (n ? 1 : 0), 0);
    const areSome = lane.syncs < lane.samples.count, areFew = count(bins.sync) * 4 < count(bins.n);
    const high = size => Math.max(1, BARS * size / lane.largest);
    for (let bin = 0; bin < bins.count; bin += 1) {
        const x = EDGE + bin * BIN;
        if (!bins.n[bin]) continue;
        const peak = high(bins.peak[bin]), mean = high(bins.sum[bin] / bins.n[bin]);
        const isPlain = !bins.differs[bin] && !(bins.sync[bin] && areSome && areFew);
        const kind = isPlain ? found.peak : bins.differs[bin] ? found.differs : found.sync;
        kind.push(block(x, scene.floor - peak, BIN, peak));
        if (isPlain) found.bar.push(block(x, scene.floor - mean, BIN, mean));
        if (bins.sync[bin] && areSome) found.marks.push(block(x, scene.floor + 2, BIN, 5));
        if (bins.differs[bin]) found.strips.push(block(x, scene.top - 3, BIN, 3));
    }
    return found;
}

// The samples in the view.
function bars(lane, scene) {
    const from = before(lane, scene.view.from - lane.longest);
    const to = before(lane, scene.view.to);
    const isBinned = (to - from) * BAR > scene.width - 2 * EDGE;
    const found = (isBinned ? binnedBars : singleBars)(lane, from, to, scene);
    const { colours } = scene;
    return path(found.peak ?? [], { fill: colours.peak, class: 'peak' })
        + path(found.bar, { fill: colours.bar, class: 'bar' })
        + path(found.sync, { fill: colours.sync, class: 'sync' })
        + path(found.differs, { fill: colours.differs, class: 'differs' })
        + path(found.strips, { fill: colours.differs, class: 'strip' })
        + path(found.marks, { fill: colours.sync, class: 'mark' });
}

// Lines through a lane at the samples with these numbers, at most one in three pixels; where they
// stand close, only their feet.
function cutLines(lane, numbers, scene, foot, look) {
    const places = [];
    for (const k of numbers) {
        if (k >= lane.samples.count) break;
        const x = scene.x(lane.shown[k]);
        if (x < EDGE - 0.5 || x > scene.width - EDGE + 0.5 || Math.abs(x - places.at(-1)) < 3)
            continue;
        places.push(x);
    }
    const isClose = places.length * 14 > scene.width;
    const parts = places.map(
        x => `M${px(x)},${px(isClose ? scene.floor + 1 : scene.top)}V${px(scene.floor + foot)}`);
    return path(parts, { fill: 'none', ...look });
}

// What no edit shows of a lane's time, and what passes before its first sample: from second to
// second.
function unshown(lane) {
    const found = [];
    if (lane.from > 0 && lane.samples.count) found.push([0, lane.from, 'empty']);
    const moved = lane.moved ?? 0;
    const shown = lane.edits.filter(edit => edit.media !== null)
                      .map(edit => [edit.media, edit.media + edit.seconds * Math.max(0, edit.rate)])
                      .map(([from, to]) => [from + moved, to + moved])
                      .sort((a, b) => a[0] - b[0]);
    if (!lane.edits.length) return found;
    let at = lane.from;
    for (const [from, to] of [...shown, [lane.ends, lane.ends]]) {
        if (from > at + 1e-9) found.push([at, Math.min(from, lane.ends), 'left out']);
        at = Math.max(at, to);
    }
    return found;
}

// Shaded parts of a lane.
function shades(lane, scene) {
    return unshown(lane).map(([from, to, what]) => {
        const left = within(scene.x(from), scene.width), right = within(scene.x(to), scene.width);
        if (right - left < 0.5) return '';
        const shape = {
            x: px(left),
            y: px(scene.top),
            width: px(right - left),
            height: BARS,
            fill: `url(#hatch${scene.suffix})`
        };
        return `<rect${attributes({ ...shape, class: what === 'empty' ? 'empty' : 'unshown' })}/>`;
    }).join('');
}

// The row of a lane's edits: what is shown when, on the movie's time line.
function editRow(lane, scene, top) {
    return lane.edits
        .map(edit => {
            const left = within(scene.x(edit.at), scene.width),
                  right = within(scene.x(edit.at + edit.seconds), scene.width);
            if (right - left < 0.5) return '';
            const isEmpty = edit.media === null;
            const text = isEmpty
                ? 'empty'
                : `from ${timed(edit.media)}${edit.rate === 1 ? '' : `, rate ${edit.rate}`}`;
            const label = right - left < 40 ? '' : fitted(text, right - left - 8, 10);
            const look = isEmpty ? { fill: `url(#hatch${scene.suffix})`, class: 'edit empty' }
                                 : { fill: scene.colours.tint, class: 'edit' };
            return `<rect${attributes({
                       x: px(left + 0.5),
                       y: px(top + 0.5),
                       width: px(Math.max(0.5, right - left - 1)),
                       height: ROW - 3,
                       ...look,
                       stroke: scene.colours.line
                   })}/>`
                + words(label, left + 5, top + 9.5, { fill: scene.colours.soft, 'font-size': 10 });
        })
        .join('');
}

// The sample that is looked at: a frame around it.
function frame(lane, k, scene) {
    const [left, right] = sides(lane, k, scene);
    if (right <= EDGE || left >= scene.width - EDGE) return '';
    return `<rect${attributes({
        x: px(left - 1),
        y: px(scene.top - 1),
        width: px(Math.max(2, right - left + 1)),
        height: BARS + 2,
        fill: 'none',
        stroke: scene.colours.ink,
        'stroke-width': 1.5,
        class: 'chosen'
    })}/>`;
}

// Which of two files a lane is of.
function badge(letter, x, y, colours) {
    return `<rect${attributes({ x, y, width: 17, height: 16, rx: 4, fill: colours.ink })}/>`
        + words(letter, x + 8.5, y + 12, {
               fill: colours.ground,
               'font-size': 11,
               'font-weight': 700,
               'text-anchor': 'middle'
           });
}

// The fault behind the samples that were read: a gap from the time that is due to the one that was
// found, or else a line.
function faultMark(lane, scene) {
    const { colours, width } = scene, { from, to, said } = lane.fault;
    if (scene.x(to) < EDGE || scene.x(from) > width - EDGE) return '';
    const left = within(scene.x(from), width);
    const right = Math.max(left + 3, within(scene.x(to), width));
    const middle = (left + right) / 2, half = widthOf(said, 11) / 2;
    const look = { fill: colours.differs, class: lane.fault.to > from ? 'gap' : 'fault' };
    const bold = { 'font-size': 11, 'font-weight': 600, 'text-anchor': 'middle' };
    const at = Math.max(EDGE + half, Math.min(width - EDGE - half, middle));
    return path([block(left, scene.top, right - left, BARS)], look)
        + path([`M${px(middle)},${px(scene.floor + 2)}l4,6h-8z`], { fill: colours.differs })
        + words(said, at, scene.floor + 20, { fill: colours.differs, ...bold });
}

// A lane at its place, and where the next one begins.
function drawLane(lane, scene, y) {
    const { colours, width } = scene;
    const left = titled(lane), right = tallied(lane), indent = lane.letter ? 24 : 0;
    const room = width - 2 * EDGE - indent;
    const roomy = room - widthOf(right) > widthOf(left) + 12;
    const head = (lane.letter ? badge(lane.letter, EDGE, y + 1, colours) : '')
        + words(fitted(left, room - (roomy ? widthOf(right) + 12 : 0)), EDGE + indent, y + 13,
                { fill: colours.ink, 'font-weight': 600 })
        + (roomy ? words(right, width - EDGE, y + 13, { fill: colours.soft, 'text-anchor': 'end' })
                 : '');
    const here = { ...scene, top: y + LABEL, floor: y + LABEL + BARS };
    const line = `M${EDGE},${px(here.floor + 0.5)}H${px(width - EDGE)}`;
    const body =
        bars(lane, here) + shades(lane, here) + path([line], { stroke: colours.line, fill: 'none' })
        + cutLines(
            lane, lane.pieces.map(piece => piece.first), here, 4,
            { stroke: colours.piece, 'stroke-width': 1.2, class: 'piece' })
        + cutLines(
            lane, lane.cuts ?? [], here, MARKS,
            { stroke: colours.cut, 'stroke-width': 1.5, 'stroke-dasharray': '3 3', class: 'cut' })
        + (lane.fault ? faultMark(lane, here) : '')
        + (lane.edits.length ? editRow(lane, here, here.floor + MARKS + 2) : '')
        + (scene.chosen ?? [])
              .filter(it => it.lane === lane)
              .map(it => frame(lane, it.k, here))
              .join('');
    const next = here.floor + MARKS + (lane.edits.length || lane.fault ? ROW + 2 : 0)
        + (lane.letter === 'A' ? GAP / 4 : GAP);
    return { svg: `<g class="lane">${head}${body}</g>`, next, top: here.top, floor: here.floor };
}

// The axis of seconds, and lines down from it.
function axis(scene, floor) {
    const { colours, view, width } = scene;
    const room = Math.max(90, widthOf(`${view.to.toFixed(3)} s`, 11) + 24);
    const { places, step } = ticks(view.from, view.to, (width - 2 * EDGE) / room);
    const fixed = Math.max(0, Math.min(9, -Math.floor(Math.log10(step) + 1e-9)));
    let grid = [], labels = '';
    for (const seconds of places) {
        const x = scene.x(seconds);
        const text = `${seconds.toFixed(fixed).replace('-', '\u2212')} s`;
        grid.push(`M${px(x)},${AXIS - 4}V${px(floor)}`);
        const half = widthOf(text, 11) / 2;
        labels += words(text, Math.max(EDGE + half, Math.min(width - EDGE - half, x)), 15,
            { fill: colours.soft, 'font-size': 11, 'text-anchor': 'middle' });
    }
    return path(grid, { stroke: colours.grid, fill: 'none' }) + labels;
}

// What colours and marks mean, as far as these lanes have them.
function entries(lanes, scene) {
    const { colours, view } = scene;
    const square = fill => (x, y) =>
        `<rect${attributes({ x: x + 4, y, width: 12, height: 12, fill })}/>`;
    const stroke = look => (x, y) => path([`M${x + 10},${y - 1}v14`], { fill: 'none', ...look });
    const has = test => lanes.some(test);
    return [
        [square(colours.bar), 'sample, as high as its size'],
        has(lane => lane.syncs && lane.syncs < lane.samples.count) &&
            [
                (x, y) => square(colours.sync)(x, y - 4)
                    + path([mark(x + 10, y + 9)], { fill: colours.sync }),
                'sync sample'
            ],
        has(lane => lane.differs?.size) &&
            [
                (x, y) => square(colours.differs)(x, y)
                    + path([block(x + 4, y - 4, 12, 2.5)], { fill: colours.differs }),
                'differs'
            ],
        has(lane => lane.pieces.length) &&
            [stroke({ stroke: colours.piece, 'stroke-width': 1.2 }), 'movie fragment of the file'],
        has(lane => lane.cuts?.length) &&
            [
                stroke({ stroke: colours.cut, 'stroke-width': 1.5, 'stroke-dasharray': '3 3' }),
                'movie fragment of the normal form'
            ],
        has(lane => lane.fault) && [square(colours.differs), 'fault'],
        has(lane => unshown(lane).some(([from, to]) => from < view.to && to > view.from)
            || lane.edits.some(edit => edit.media === null)) &&
            [square(`url(#hatch${scene.suffix})`), 'empty, or not shown by edits'],
    ].filter(Boolean);
}

// Slanted lines that shade.
function hatch(scene) {
    const { colours, suffix } = scene;
    const tile = 'width="6" height="6"';
    return `<defs><pattern id="hatch${suffix}" ${tile} patternUnits="userSpaceOnUse"`
        + ` patternTransform="rotate(45)"><rect ${tile} fill="${colours.grid}" fill-opacity="0.6"/>`
        + `<rect width="1.5" height="6" fill="${colours.shade}"/></pattern></defs>`;
}

/**
 * The picture of lanes. `view` has `width` in pixels, `from` and `to` in seconds (all of the lanes
 * without them), `colours` as of `PALETTE`, a `title`, samples that are `chosen` (`lane`, `k`), and
 * `suffix`, a letter of which each picture on a page has another. Gives the SVG, its height, and
 * where each lane lies, in pixels.
 */
export function drawLanes(lanes, view) {
    const all = extent(lanes);
    const seen = { from: view.from ?? all.from, to: view.to ?? all.to };
    const scene = { ...view, view: seen, x: scaleOf(seen, view.width), suffix: view.suffix ?? '' };
    let y = AXIS + 8, body = '';
    const places = [];
    for (const lane of lanes) {
        const drawn = drawLane(lane, scene, y);
        places.push({ lane, top: drawn.top, floor: drawn.floor });
        body += drawn.svg;
        y = drawn.next;
    }
    const signs = legend(entries(lanes, scene), EDGE, y + 4, view.width - 2 * EDGE, view.colours);
    const height = y + signs.height + 10;
    const svg = picture(
        view.title, view.width, height, view.colours,
        hatch(scene) + axis(scene, y - GAP) + body + signs.body);
    return { svg, height, places, edge: EDGE };
}

/** What there is to say of a sample, for people. */
export function described(lane, k) {
    const { samples } = lane;
    const decode = (Number(lane.start) + samples.decode[k]) / lane.timescale;
    return [
        `Track ${lane.id}, sample ${k + 1}`,
        `shown at ${timed(lane.shown[k])}`,
        `decoded at ${timed(decode)}`,
        `lasts ${timed(samples.duration[k] / lane.timescale)}`,
        sized(samples.size[k]),
        isSync(samples.flags[k]) ? 'sync sample' : 'not a sync sample',
        `flags ${samples.flags[k].toString(16).padStart(8, '0')}`,
        `sample entry ${samples.description[k]}`,
    ];
}
