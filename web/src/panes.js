// A picture that is looked at: zoomed and moved by wheel, keys and touch.
import { element } from './dom.js';

const KEYS = {
    '+': 'closer',
    '=': 'closer',
    '-': 'farther',
    '0': 'all',
    Home: 'all',
    ArrowLeft: 'left',
    ArrowRight: 'right'
};

/**
 * A pane over `from` to `to` of some axis. `draw` is called with a view and gives `{svg, edge}`;
 * `point` with a place on the axis, one in pixels from the top, and whether it was chosen; `key`
 * with keys that the pane has no use for.
 */
export class Pane {
    constructor({ label, least, draw, point, key = () => false }) {
        Object.assign(
            this,
            { least, draw, point, key, from: 0, to: 1, all: [0, 1], edge: 0, touches: new Map() });
        this.host = element(
            'div',
            { className: 'picture', tabIndex: 0, aria: { label, roledescription: 'drawing' } });
        this.host.setAttribute('role', 'application');
        this.listen();
        new ResizeObserver(() => this.refresh()).observe(this.host);
    }

    listen() {
        const on = (name, act, how) => this.host.addEventListener(name, act, how);
        on('wheel', event => this.wheel(event), { passive: false });
        on('keydown', event => this.press(event));
        on('pointerdown', event => this.down(event));
        on('pointermove', event => this.move(event));
        on('pointerup', event => this.up(event));
        on('pointercancel', event => this.touches.delete(event.pointerId));
    }

    /** Sets the whole of the axis, and shows all of it. */
    reach(from, to) {
        this.all = [from, to];
        this.show(from, to);
    }

    /** Shows a part of the axis. */
    show(from, to) {
        const [begin, end] = this.all;
        const least = Math.max(this.least, (end - begin) * 1e-9, Math.abs(end) * 1e-12);
        const span = Math.min(end - begin, Math.max(least, to - from));
        this.from = Math.max(begin, Math.min(end - span, from + (to - from - span) / 2));
        this.to = this.from + span;
        this.refresh();
    }

    get isWhole() {
        return this.to - this.from >= (this.all[1] - this.all[0]) * 0.9999;
    }

    zoom(by, at = (this.from + this.to) / 2) {
        this.show(at - (at - this.from) * by, at + (this.to - at) * by);
    }

    shift(by) {
        const span = this.to - this.from;
        const from = Math.max(this.all[0], Math.min(this.all[1] - span, this.from + by * span));
        this.show(from, from + span);
    }

    /** What a key or a button asks for. */
    act(name) {
        ({
            closer: () => this.zoom(0.6),
            farther: () => this.zoom(1 / 0.6),
            all: () => this.show(...this.all),
            left: () => this.shift(-0.15),
            right: () => this.shift(0.15)
        })[name]();
    }

    /** Draws again, soon. */
    refresh() {
        if (this.due) return;
        this.due = requestAnimationFrame(() => {
            this.due = 0;
            const width = Math.floor(this.host.clientWidth);
            if (!width) return;
            const drawn = this.draw({ width, from: this.from, to: this.to });
            this.edge = drawn.edge;
            this.host.innerHTML = drawn.svg;
        });
    }

    // The place on the axis under a pointer.
    placeOf(event) {
        const { left, width } = this.host.getBoundingClientRect();
        return this.from
            + (event.clientX - left - this.edge) / (width - 2 * this.edge) * (this.to - this.from);
    }

    wheel(event) {
        const isAcross = Math.abs(event.deltaX) > Math.abs(event.deltaY) || event.shiftKey;
        const isMeant =
            event.ctrlKey || event.metaKey || event.altKey || document.activeElement === this.host;
        if (isAcross && !this.isWhole) this.shift((event.deltaX || event.deltaY) / 600);
        else if (!isAcross && isMeant && !(this.isWhole && event.deltaY > 0)) {
            this.zoom(
                Math.exp(Math.max(-60, Math.min(60, event.deltaY)) / 200), this.placeOf(event));
        } else return;
        event.preventDefault();
    }

    press(event) {
        if (event.ctrlKey || event.metaKey || event.altKey) return;
        if (KEYS[event.key]) this.act(KEYS[event.key]);
        else if (!this.key(event.key)) return;
        event.preventDefault();
    }

    tell(event, isChosen) {
        this.point(
            this.placeOf(event), event.clientY - this.host.getBoundingClientRect().top, isChosen);
    }

    down(event) {
        this.touches.set(event.pointerId, { x: event.clientX, begun: event.clientX });
        this.host.setPointerCapture?.(event.pointerId);
    }

    up(event) {
        const touch = this.touches.get(event.pointerId);
        this.touches.delete(event.pointerId);
        if (touch && !touch.isPinch && Math.abs(event.clientX - touch.begun) < 5)
            this.tell(event, true);
    }

    move(event) {
        const touch = this.touches.get(event.pointerId);
        if (!touch) {
            this.tell(event, false);
            return;
        }
        const others = [...this.touches].filter(([id]) => id !== event.pointerId);
        if (others.length) this.pinch(event, touch, others[0][1]);
        else {
            const width = this.host.clientWidth - 2 * this.edge;
            if (!this.isWhole) this.shift((touch.x - event.clientX) / width);
            touch.x = event.clientX;
        }
    }

    pinch(event, touch, other) {
        touch.isPinch = other.isPinch = true;
        const before = Math.abs(touch.x - other.x), after = Math.abs(event.clientX - other.x);
        const middle = this.placeOf({ clientX: (event.clientX + other.x) / 2 });
        if (before > 4 && after > 4) this.zoom(before / after, middle);
        touch.x = event.clientX;
    }
}

/** Buttons for those who have no wheel. */
export function tools(pane, save) {
    const made = (text, title, act, aria = {}) =>
        element('button', { type: 'button', title, aria, on: { click: act } }, text);
    return element(
        'div', { className: 'tools' },
        made('\u2212', 'Zoom out', () => pane.act('farther'), { label: 'Zoom out' }),
        made('+', 'Zoom in', () => pane.act('closer'), { label: 'Zoom in' }),
        made('All', 'Show all', () => pane.act('all')),
        made('Save SVG', 'Save the drawing as SVG', save));
}
