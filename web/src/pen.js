// Words and marks of pictures: numbers as people read them, shapes as text of SVG.

/** A text as it may stand in SVG or HTML, in an attribute too. */
export function escaped(text) {
    return String(text).replace(
        /[&<>"'\u0000-\u001f\u007f-\u009f]/g,
        sign => '&<>"\''.includes(sign) ? `&#${sign.charCodeAt(0)};` : '\ufffd');
}

/** A whole number (a BigInt too) with commas. */
export function grouped(number) {
    return String(number).replace(/\B(?=(\d{3})+(?!\d))/g, ',');
}

/** How many of a thing: `1 sample`, `2 samples`. */
export function counted(number, one, many = `${one}s`) {
    return `${grouped(number)} ${Number(number) === 1 ? one : many}`;
}

// A number with three digits that count, without zeros at its end.
function short(number) {
    return String(Number(number.toPrecision(3)));
}

/** A number of bytes as people read it: `1.5 MB`. Units are powers of 1,000. */
export function sized(bytes) {
    let value = Number(bytes), at = 0;
    while (value >= 999.5 && at < 6) {
        value /= 1000;
        at += 1;
    }
    return `${at ? short(value) : value} ${['bytes', 'KB', 'MB', 'GB', 'TB', 'PB', 'EB'][at]}`
        .replace(/^1 bytes/, '1 byte');
}

/** A bit rate as people read it, of bits a second: `96 kbit/s`. */
export function rated(bits) {
    let value = bits, at = 0;
    while (value >= 999.5 && at < 3) {
        value /= 1000;
        at += 1;
    }
    return Number.isFinite(value) ? `${short(value)} ${['bit/s', 'kbit/s', 'Mbit/s', 'Gbit/s'][at]}`
                                  : '';
}

/** Seconds with no more than six digits behind the point: `1.024 s`. */
export function timed(seconds) {
    return `${String(Number(seconds.toFixed(6))).replace('-', '\u2212')} s`;
}

/** A number of pixels with at most two digits behind the point. */
export function px(number) {
    return String(Math.round(number * 100) / 100);
}

/** Attributes of a shape: `{x: 1}` is ` x="1"`. */
export function attributes(of) {
    return Object.entries(of).map(([name, value]) => ` ${name}="${escaped(value)}"`).join('');
}

/** A line of text at a place; its anchor is `start`, `middle` or `end`. */
export function words(text, x, y, more = {}) {
    return `<text x="${px(x)}" y="${px(y)}"${attributes(more)}>${escaped(text)}</text>`;
}

/** A path in one colour; nothing where it has no parts. */
export function path(parts, more) {
    return parts.length ? `<path d="${parts.join('')}"${attributes(more)}/>` : '';
}

/** A part of a path: a rectangle. */
export function block(x, y, width, height) {
    return `M${px(x)},${px(y)}h${px(width)}v${px(height)}h${px(-width)}z`;
}

/** About how wide a text is, in pixels, in letters of this size. */
export function widthOf(text, size = 12) {
    return text.length * size * 0.56;
}

/** A text cut so that it is about that wide at most, with a sign where something is cut. */
export function fitted(text, width, size = 12) {
    const most = Math.floor(width / (size * 0.56));
    return text.length <= most ? text : most < 2 ? '' : `${text.slice(0, most - 1)}\u2026`;
}

/** Places on an axis between two values: a round step apart, and about so many of them at most. */
export function ticks(from, to, most) {
    const raw = (to - from) / Math.max(1, most);
    const power = 10 ** Math.floor(Math.log10(raw));
    const step = [1, 2, 5, 10].map(by => by * power).find(it => it >= raw * 0.999) ?? raw;
    const places = [];
    for (let k = Math.ceil(from / step - 1e-9); places.length < 64 && k * step <= to + step * 1e-9;
         k += 1) {
        places.push(k * step);
    }
    return { places, step };
}

/** A picture whole: its title, where it has one, and what is drawn, on a ground of this colour. */
export function picture(title, width, height, colours, body) {
    const size = `width="${px(width)}" height="${px(height)}"`;
    const font = "system-ui, 'Segoe UI', 'DejaVu Sans', sans-serif";
    return `<svg xmlns="http://www.w3.org/2000/svg" ${size}`
        + ` viewBox="0 0 ${px(width)} ${px(height)}" role="img"`
        + ` font-family="${font}" font-size="12">`
        + (title ? `<title>${escaped(title)}</title>` : '')
        + `<rect ${size} fill="${colours.ground}"/>${body}</svg>`;
}

/**
 * What the colours and marks of a picture mean, as rows that are no wider than this; its height
 * too.
 */
export function legend(entries, left, top, width, colours) {
    let x = left, y = top, body = '';
    for (const [draw, text] of entries) {
        const wide = 24 + widthOf(text) + 18;
        if (x > left && x + wide > left + width) {
            x = left;
            y += 20;
        }
        body += draw(x, y) + words(text, x + 24, y + 10, { fill: colours.soft });
        x += wide;
    }
    return { body, height: entries.length ? y - top + 20 : 0 };
}
