// The two pictures on the page: files in time, and their boxes by place.
import { boxAt, boxed, drawBoxes, listed, meant, sorts } from './boxes.js';
import { button, element, keep, one } from './dom.js';
import { mayHaveFields, shownFields } from './fields.js';
import { extent, presented, sampleAt, shiftOf } from './film.js';
import { described, drawLanes } from './lanes.js';
import { ON_PAGE, PALETTE } from './palette.js';
import { Pane, tools } from './panes.js';
import { grouped } from './pen.js';
import { lanesOfSlot, state, taken } from './state.js';

// The colours of what is saved: those that are on the screen.
function saved() {
    return matchMedia('(prefers-color-scheme: dark)').matches ? PALETTE.dark : PALETTE.light;
}

// Why the fields of a box aren't shown.
function untold(trouble) {
    if (trouble.kind === 'changed') return 'The file has changed: its fields can\'t be read.';
    return trouble.kind === 'memory' ? 'There is no memory for its fields.' : '';
}

// Parts of a line, the first one strong.
function readout(host, parts) {
    host.replaceChildren(...parts.map((part, k) => element(k ? 'span' : 'b', {}, part)));
}

/** The picture in time of one file, or of two, a lane above the other. */
export class TimePicture {
    constructor() {
        this.lanes = [];
        this.pane = new Pane({
            label:
                'Tracks in time. Arrow keys move, plus and minus zoom, 0 shows all,'
                + ' comma and point go from sample to sample, up and down from track to track.',
            least: 1e-7,
            draw: view => this.draw(view),
            point: (seconds, y, isChosen) => this.point(seconds, y, isChosen),
            key: key => this.key(key),
        });
        this.told = element('div', { className: 'readout', role: 'status' });
        this.note = element('p', { className: 'quiet' });
        this.hint =
            'Point at a sample. Wheel or fingers zoom once the drawing is chosen; drag to move.';
        this.edits = button('Apply edits', () => this.turn(), {
            title: 'Draw samples when edits show them, or by their own times'
        });
    }

    // Whether samples are drawn when their edits show them.
    get isPresented() {
        return state.isPresented ?? taken().length > 1;
    }

    // Applies edits, or doesn't any more.
    turn() {
        Object.assign(state, { isPresented: !this.isPresented, chosen: [] });
        this.refresh();
    }

    /** Draws the card anew, for the files that are there. */
    refresh() {
        const card = one('#time'),
              shown = taken().map(([, slot]) => slot).filter(slot => lanesOfSlot(slot).length);
        card.hidden = !shown.length;
        this.lanes = this.arranged(shown);
        if (!card.firstChild) {
            card.append(
                element(
                    'div', { className: 'head' }, element('h2', {}, 'In time'), this.edits,
                    tools(this.pane, () => this.save())),
                this.note, this.pane.host, this.told);
            readout(this.told, ['', this.hint]);
        }
        const few =
            shown.filter(slot => slot.show && slot.show.tracks.length > lanesOfSlot(slot).length);
        this.note.textContent =
            shown.filter(slot => slot.before)
                .map(slot => `${slot.name}: by decode times, up to the fault.`)
                .concat(few.map(
                    slot =>
                        `Of ${slot.name} the first ${lanesOfSlot(slot).length} tracks are drawn.`))
                .concat(this.ownTimes(shown))
                .join(' ');
        this.edits.hidden = !shown.some(
            slot => !slot.before && lanesOfSlot(slot).some(lane => lane.edits.length));
        this.edits.setAttribute('aria-pressed', String(this.isPresented));
        const all = extent(this.lanes);
        const key = `${shown.map(slot => slot.key)} ${this.isPresented} ${all.to}`;
        if (this.shownKey !== key) this.pane.reach(all.from, all.to);
        this.shownKey = key;
        this.pane.refresh();
    }

    // What there is to say of tracks whose edits aren't applied, though others' are.
    ownTimes(shown) {
        const lanes = this.isPresented ? shown.filter(slot => !slot.before).flatMap(lanesOfSlot) : [];
        const others = lanes.filter(lane => shiftOf(lane) === null);
        return others.map(
            lane => `Track ${lane.id} is drawn by its own times: its edits do more than delay it.`);
    }

    // Lanes in the order in which they are drawn: those of two files by turns.
    arranged(slots) {
        const most = Math.max(0, ...slots.map(slot => lanesOfSlot(slot).length));
        const found = [];
        for (let k = 0; k < most; k += 1) {
            slots.forEach((slot, at) => {
                const own = lanesOfSlot(slot)[k];
                if (!own) return;
                const lane = this.isPresented && !slot.before ? presented(own) : own;
                lane.letter = slots.length > 1 ? 'AB'[at] : '';
                lane.differs = slots.length > 1 ? state.comparison?.bySample?.get(k) : null;
                lane.file = slot.name;
                found.push(lane);
            });
        }
        return found;
    }

    get title() {
        return [...new Set(this.lanes.map(lane => lane.file))].join(' and ');
    }

    draw(view) {
        const drawn =
            drawLanes(this.lanes, { ...view, colours: ON_PAGE, chosen: state.chosen, suffix: 't' });
        this.places = drawn.places;
        return drawn;
    }

    save() {
        const { from, to } = this.pane;
        keep(
            `${this.title}.svg`, drawLanes(this.lanes, {
                                     width: 1120,
                                     from,
                                     to,
                                     colours: saved(),
                                     title: this.title,
                                     chosen: state.chosen
                                 }).svg,
            'image/svg+xml');
    }

    // Lanes that show the same track of two files.
    partners(lane) {
        return this.lanes.filter(it => it.place === lane.place);
    }

    /** Chooses a sample of a track, in each file that has it, and tells of it. */
    choose(lane, k) {
        state.chosen =
            this.partners(lane).filter(it => k < it.samples.count).map(it => ({ lane: it, k }));
        const letter = lane.letter ? `${lane.letter}: ` : '';
        readout(this.told, described(lane, k).map((part, at) => at ? part : letter + part));
        this.pane.refresh();
    }

    point(seconds, y, isChosen) {
        const place = this.places?.find(it => y >= it.top - 22 && y <= it.floor + 24);
        const within =
            6 * (this.pane.to - this.pane.from) / Math.max(1, this.pane.host.clientWidth);
        const k = place ? sampleAt(place.lane, seconds, within) : -1;
        if (k >= 0 && isChosen) this.choose(place.lane, k);
        else if (k >= 0)
            readout(
                this.told,
                described(place.lane, k)
                    .map(
                        (part, at) =>
                            at || !place.lane.letter ? part : `${place.lane.letter}: ${part}`));
    }

    /** Shows a sample of a track, near enough to be seen, and chooses it. */
    visit(place, k) {
        const lane = this.lanes.find(it => it.place === place && k < it.samples.count);
        if (!lane) return;
        const lasts = Math.max(lane.samples.duration[k] / lane.timescale, 1e-6);
        this.pane.show(lane.shown[k] - 20 * lasts, lane.shown[k] + 21 * lasts);
        this.choose(lane, k);
    }

    key(key) {
        const step = { ',': -1, '.': 1 }[key], turn = { ArrowUp: -1, ArrowDown: 1 }[key];
        if (!step && !turn) return false;
        const now = state.chosen[0] ?? { lane: this.lanes[0], k: -1 };
        if (turn) {
            const lane = this.lanes[Math.max(
                0, Math.min(this.lanes.length - 1, this.lanes.indexOf(now.lane) + turn))];
            const k = sampleAt(lane, now.k < 0 ? this.pane.from : now.lane.shown[now.k], Infinity);
            if (k >= 0) this.choose(lane, k);
            return true;
        }
        const k = Math.max(0, Math.min(now.lane.samples.count - 1, now.k + step));
        if (k < 0) return true;
        this.choose(now.lane, k);
        const seconds = now.lane.shown[k], span = this.pane.to - this.pane.from;
        if (seconds < this.pane.from || seconds > this.pane.to)
            this.pane.show(seconds - span / 2, seconds + span / 2);
        return true;
    }
}

/** The picture of the boxes of a file, their names, and the fields of one; `ask` answers these. */
export class BoxPicture {
    constructor(name, slot, ask) {
        Object.assign(this, { name, slot, ask, chosen: -1 });
        const { verdict } = slot;
        this.fault = verdict.status === 1 ? slot.boxes.findIndex(
                         box => Number(box.offset) === Number(verdict.offset)
                             && (box.type === verdict.type || box.isBroken))
                                          : -1;
        this.pane = new Pane({
            label: `Boxes of ${slot.name} by offset. Arrow keys move, plus and minus zoom, 0 shows`
                + ' all, comma and point go from box to box.',
            least: 16,
            draw: view => this.draw(view),
            point: (place, y, isChosen) => this.point(place, y, isChosen),
            key: key => this.key(key),
        });
        this.told = element('div', { className: 'readout', role: 'status' });
        readout(this.told, ['', 'Point at a box, or choose one by its name below.']);
        this.pane.reach(0, Math.max(1, slot.size));
    }

    /** The card of this file's boxes. */
    card() {
        const most = this.slot.boxes.length;
        const head = element(
            'div', { className: 'head' }, element('h2', {}, `Boxes of ${this.slot.name}`),
            element('span', { className: 'quiet' }, grouped(most)),
            tools(this.pane, () => this.save()));
        this.list =
            element('ol', { className: 'names', aria: { label: 'Boxes by name' } }, this.rows());
        this.fields =
            element('div', { className: 'fields', role: 'group', aria: { label: 'Fields' } });
        return element(
            'section', { className: 'card map-card', data: { slot: this.name } }, head,
            this.pane.host, this.told, this.fields, this.list);
    }

    rows() {
        const sort = sorts(this.slot.boxes);
        return listed(this.slot.boxes, 400, this.fault).map(box => {
            const left = 18 * box.depth;
            if (box.more)
                return this.indented(
                    element('li', { className: 'more' }, `${grouped(box.more)} more`), left + 24);
            const isBad = box.k === this.fault || box.foreign;
            const made = button(
                '', () => this.choose(box.k, true),
                { className: isBad ? 'fault' : '', data: { box: box.k } });
            made.append(
                this.indented(
                    element(
                        'b', {},
                        element('i', { className: `sort-${isBad ? 'differs' : sort[box.k]}` }),
                        box.type),
                    left),
                element('span', {}, meant(box.type)),
                element('span', { className: 'number place' }, `at ${grouped(box.offset)}`),
                element('span', { className: 'number' }, grouped(box.size)));
            return element('li', {}, made);
        });
    }

    indented(made, left) {
        made.style.paddingLeft = `${left}px`;
        return made;
    }

    draw(view) {
        const drawn = drawBoxes(
            this.slot.boxes, this.slot.size,
            { ...view, colours: ON_PAGE, chosen: this.chosen, fault: this.fault });
        this.rowsAt = drawn;
        return drawn;
    }

    save() {
        const { from, to } = this.pane;
        keep(
            `${this.slot.name}.boxes.svg`, drawBoxes(this.slot.boxes, this.slot.size, {
                                               width: 1120,
                                               from,
                                               to,
                                               colours: saved(),
                                               title: this.slot.name,
                                               fault: this.fault,
                                               chosen: this.chosen,
                                               names: true
                                           }).svg,
            'image/svg+xml');
    }

    tell(k) {
        const box = this.slot.boxes[k];
        readout(this.told, [
            box.type, meant(box.type),
            ...boxed(box).split(', ').map((part, at) => at ? part : part.replace(/^.* at/, 'at')),
            k === this.fault ? 'the fault' : ''
        ].filter(Boolean));
    }

    // Shows the fields of a box, once they are there, unless another one was chosen meanwhile.
    async show(k) {
        const box = this.slot.boxes[k];
        this.fields.replaceChildren();
        if (!mayHaveFields(box)) return;
        const shown = await this.ask(box).then(
            shownFields, trouble => [element('p', { className: 'more' }, untold(trouble))]);
        if (this.chosen === k) this.fields.replaceChildren(...shown.filter(Boolean));
    }

    /** Chooses a box; near enough to be seen, where that is asked for. */
    choose(k, isNear) {
        if (k < 0) return;
        const box = this.slot.boxes[k], at = Number(box.offset),
              size = Math.max(16, Number(box.size));
        this.chosen = k;
        if (isNear) this.pane.show(at - size * 0.15, at + size * 1.15);
        this.list.querySelectorAll('[aria-current]')
            .forEach(it => it.removeAttribute('aria-current'));
        const row = this.list.querySelector(`[data-box="${k}"]`);
        row?.setAttribute('aria-current', 'true');
        if (row && !row.matches(':hover'))
            this.list.scrollTop +=
                row.getBoundingClientRect().top - this.list.getBoundingClientRect().top - 100;
        this.tell(k);
        this.show(k);
        this.pane.refresh();
    }

    /** Shows the box with the fault. */
    visitFault() {
        this.choose(
            this.fault >= 0 ? this.fault : boxAt(this.slot.boxes, Number(this.slot.verdict.offset)),
            true);
    }

    point(place, y, isChosen) {
        const depth = Math.floor((y - this.rowsAt.top) / this.rowsAt.row);
        let k = boxAt(this.slot.boxes, place);
        while (k >= 0 && this.slot.boxes[k].depth > Math.max(0, depth)) k -= 1;
        if (k < 0) return;
        if (isChosen) this.choose(k, false);
        else this.tell(k);
    }

    key(key) {
        const step = { ',': -1, '.': 1 }[key];
        if (!step) return false;
        this.choose(Math.max(0, Math.min(this.slot.boxes.length - 1, this.chosen + step)), true);
        return true;
    }
}
