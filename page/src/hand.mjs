// Mouse and keyboard on the canvas: both make the same touches, which the tool in hand takes.

import { byId, h, s } from './dom.mjs';
import { t } from './texts.mjs';
import { bind } from './keys.mjs';
import { anchored, dragged } from './drag.mjs';
import { rename } from './naming.mjs';

/**
 * @typedef {import('./store.mjs').Store} Store
 * @typedef {import('./view.mjs').View} View
 * @typedef {import('./float.mjs').Float} Float
 * @typedef {import('./dimension.mjs').Dimension} Dimension
 * @typedef {import('./tools.mjs').Tool} Tool
 * @typedef {import('./tools.mjs').Touch} Touch
 * @typedef {[number, number]} Place
 */

/** How far an arrow key moves the cursor, in pixels; with Shift, and without. */
const STEPS = [2, 20];
/** How much a key zooms. */
const ZOOM = 1.25;

/** Mouse and keyboard on the canvas. */
export class Hand {
    /**
     * @param {Store} store
     * @param {View} view
     * @param {Float} float
     * @param {Dimension} dimension
     * @param {Tool[]} tools
     */
    constructor(store, view, float, dimension, tools) {
        this.store = store;
        this.view = view;
        this.float = float;
        this.dimension = dimension;
        this.tools = tools;
        /**
         * Where the keyboard is on the canvas; nowhere before its first arrow key.
         * @type {Place | null}
         */
        this.cursor = null;
        this.cross = s('path', { class: 'cursor', d: '' });
        view.svg.append(this.cross);
        /** @type {Place | null} */
        this.panning = null;
        this.inHand = store.tool;
        this.where = h('span', { id: 'where' });
        this.tip = h('span', { id: 'tip' });
        byId('foot').append(this.tip, h('span', { class: 'grow' }), this.where);
        this.listen();
        this.keys();
        store.subscribe((_, what) => {
            if (what.has('tool')) this.taken();
            const told = /** @type {import('./store.mjs').What[]} */ (['selection', 'message', 'text', 'tool', 'hover']);
            if (told.some(one => what.has(one))) this.tell();
        });
        this.taken();
        this.tell();
    }

    /** The tool in hand. */
    get tool() {
        return this.tools.find(tool => tool.id === this.store.tool) ?? this.tools[0];
    }

    /** After another tool was taken in hand: the last one lets go. */
    taken() {
        this.tools.filter(tool => tool.id === this.inHand).forEach(tool => tool.cancel());
        this.inHand = this.store.tool;
        this.view.canvas.dataset.tool = this.store.tool;
        if (this.store.tool === 'dimension' && this.store.selection.size === 2 && this.store.sound) {
            const [a, b] = this.store.selection;
            this.dimension.measure([[a, b]]);
        }
    }

    /** Says below the drawing what the tool does, or what there is to say. */
    tell() {
        const { store } = this;
        const chosen = [...store.selection].join(' ');
        const held = store.constraint === null ? '' : store.constraints[store.constraint]?.text ?? '';
        this.tip.textContent = store.message || t(`tip.${store.tool}`);
        this.tip.classList.toggle('loud', store.message !== '');
        const { hover } = store;
        const under = hover && 'element' in hover ? hover.element : hover ? store.constraints[hover.constraint]?.text : '';
        const words = chosen || held ? t('draw.chosen', { what: chosen || held }) : '';
        // what is under the cursor of the keyboard is told too
        byId('live').textContent = store.message || (this.cursor && under ? t('draw.under', { what: under }) : words);
    }

    /** Obeys the mouse. */
    listen() {
        const { canvas } = this.view;
        const touch = (/** @type {MouseEvent} */ event) => ({ pixel: this.view.pixel(event), shift: event.shiftKey, alt: event.altKey });
        canvas.setAttribute('role', 'application');
        canvas.setAttribute('aria-label', t('page.drawing'));
        canvas.setAttribute('aria-describedby', 'tip');
        canvas.addEventListener('pointerdown', event => {
            if (event.button === 1) {
                this.panning = this.view.pixel(event);
                event.preventDefault();
            }
            if (event.button === 0) {
                if (this.float.asking) this.float.close();
                this.tool.down(touch(event));
            }
            canvas.setPointerCapture(event.pointerId);
            canvas.focus({ preventScroll: true });
        });
        canvas.addEventListener('pointermove', event => {
            const now = touch(event);
            if (this.panning) {
                this.view.pan(now.pixel[0] - this.panning[0], now.pixel[1] - this.panning[1]);
                this.panning = now.pixel;
                return;
            }
            this.moved(now);
        });
        canvas.addEventListener('pointerup', event => {
            if (event.button === 1) this.panning = null;
            if (event.button === 0) this.tool.up(touch(event));
        });
        canvas.addEventListener('pointercancel', () => this.tool.cancel());
        canvas.addEventListener('pointerleave', () => this.store.over(null));
        canvas.addEventListener('auxclick', event => event.preventDefault());
        canvas.addEventListener('wheel', event => {
            event.preventDefault();
            const by = event.deltaMode === 1 ? event.deltaY * 30 : event.deltaY;
            this.view.zoom(1.0015 ** -by, this.view.pixel(event));
        }, { passive: false });
        canvas.addEventListener('dblclick', event => this.open(this.view.pixel(event)));
        canvas.addEventListener('focusout', () => this.point(null));
    }

    /**
     * The mouse, or the cursor of the keyboard, is somewhere.
     * @param {Touch} touch
     */
    moved(touch) {
        const dragging = this.view.canvas.classList.contains('dragging');
        if (!dragging) this.store.over(this.view.at(touch.pixel, this.store.tool === 'dimension'));
        this.tool.move(touch);
        const [x, y] = this.view.window.place(touch.pixel).map(part => part.toFixed(1));
        this.where.textContent = t('draw.where', { x, y });
    }

    /**
     * Opens what is at a pixel to be changed: a name, or a size.
     * @param {Place} pixel
     */
    open(pixel) {
        if (!this.store.sound) return;
        const hit = this.view.at(pixel);
        if (hit && 'constraint' in hit) this.dimension.resize(hit.constraint, pixel);
        else if (hit) rename(this.store, this.float, hit.element, pixel);
    }

    /** Takes away what is chosen. */
    remove() {
        const { store } = this;
        if (store.constraint !== null) {
            const { ends, text } = store.constraints[store.constraint];
            store.change([`remove ${ends.join(' ')}`], t('draw.removed', { what: text }));
        } else if (store.selection.size > 0) {
            const names = [...store.selection];
            store.change(names.map(name => `remove ${name}`), t('draw.removed', { what: names.join(' ') }));
        }
    }

    /**
     * Puts the cursor of the keyboard somewhere, or takes it away.
     * @param {Place | null} pixel
     */
    point(pixel) {
        this.cursor = pixel;
        const [x, y] = pixel ?? [0, 0];
        this.cross.setAttribute('d', pixel ? `M${x - 14} ${y}H${x - 4}M${x + 4} ${y}H${x + 14}M${x} ${y - 14}V${y - 4}M${x} ${y + 4}V${y + 14}` : '');
        if (pixel) this.moved({ pixel, shift: false, alt: false });
    }

    /**
     * Moves the cursor by an arrow key.
     * @param {number} dx
     * @param {number} dy
     * @param {boolean} fine
     */
    arrow(dx, dy, fine) {
        const { width, height } = this.view.window;
        const step = STEPS[fine ? 0 : 1];
        const [x, y] = this.cursor ?? [width / 2, height / 2];
        const inside = (/** @type {number} */ at, /** @type {number} */ size) => Math.max(0, Math.min(size, at));
        this.point([inside(x + dx * step, width), inside(y + dy * step, height)]);
    }

    /**
     * Moves what is chosen by an arrow key: dragged by the engine as by the mouse.
     * @param {number} dx
     * @param {number} dy
     */
    nudge(dx, dy) {
        const { store, view } = this;
        const names = [...store.selection];
        const from = names.length > 0 && store.sound ? view.middle(names[0]) : null;
        if (!from) return;
        const at = view.window.place(from);
        const step = view.window.grid / 2;
        const found = dragged(store, view, names, at, [at[0] + dx * step, at[1] - dy * step], anchored(store));
        if (found) store.edit(found.text, t('draw.dragged', { what: names.join(' ') }), true);
    }

    /**
     * Goes to the next element, or to the one before.
     * @param {number} step
     */
    next(step) {
        const names = this.view.scene.elements.map(element => element.name);
        if (names.length === 0) return;
        const at = names.indexOf([...this.store.selection][0]);
        const name = names[at < 0 ? (step > 0 ? 0 : names.length - 1) : (at + step + names.length) % names.length];
        this.store.select([name]);
        const middle = this.view.middle(name);
        if (middle) this.point(middle);
    }

    /** The keys of the drawing. */
    keys() {
        const { store, view } = this;
        const { canvas } = view;
        const on = () => document.activeElement === canvas || document.activeElement === document.body;
        const middle = () => /** @type {Place} */ (this.cursor ?? [view.window.width / 2, view.window.height / 2]);
        const tools = t('keys.tools');
        const drawing = t('keys.drawing');
        this.tools.forEach(tool => bind({
            key: tool.key, group: tools, says: t(`tool.${tool.id}`), run: () => { canvas.focus(); store.take(tool.id); },
        }));
        bind({
            key: 'Escape', group: tools, says: t('keys.leave'), anywhere: true, run: () => {
                if (this.float.open) return this.float.close();
                this.tool.cancel();
                if (store.tool !== 'select') store.take('select');
                else store.select([]);
                store.light([]);
                canvas.focus();
                return undefined;
            },
        });
        const arrows = /** @type {[string, number, number][]} */ ([
            ['ArrowLeft', -1, 0], ['ArrowRight', 1, 0], ['ArrowUp', 0, -1], ['ArrowDown', 0, 1],
        ]);
        arrows.forEach(([key, dx, dy], i) => {
            const bound = (/** @type {string} */ held, /** @type {string} */ words, /** @type {() => void} */ run) => bind({
                key: held + key, shown: `${held}← → ↑ ↓`, group: drawing, says: i === 0 ? words : '', run: () => (on() ? run() : false),
            });
            bound('', t('keys.cursor'), () => this.arrow(dx, dy, false));
            bound('Shift+', t('keys.fine'), () => this.arrow(dx, dy, true));
            bound('Ctrl+', t('keys.nudge'), () => this.nudge(dx, dy));
        });
        const press = (/** @type {boolean} */ shift) => {
            if (!on()) return false;
            if (!this.cursor) this.point(middle());
            const touch = { pixel: middle(), shift, alt: false };
            this.tool.down(touch);
            this.tool.up(touch);
            return true;
        };
        bind(
            { key: 'Enter', also: ['Space'], group: drawing, says: t('keys.click'), run: () => press(false) },
            { key: 'Shift+Enter', group: drawing, says: t('keys.add'), run: () => press(true) },
            { key: '.', group: drawing, says: t('keys.next'), run: () => this.next(1) },
            { key: ',', group: drawing, says: t('keys.previous'), run: () => this.next(-1) },
            {
                key: 'Ctrl+A', group: drawing, says: t('keys.all'),
                run: () => (on() ? store.select(store.elements.map(element => element.name)) : false),
            },
            { key: 'N', also: ['F2'], group: drawing, says: t('keys.name'), run: () => this.change() },
            { key: 'Delete', also: ['Backspace'], group: drawing, says: t('keys.remove'), run: () => (on() ? this.remove() : false) },
            { key: 'F', group: drawing, says: t('keys.fit'), run: () => view.fit() },
            { key: '+', also: ['='], group: drawing, says: t('keys.in'), run: () => view.zoom(ZOOM, middle()) },
            { key: '-', group: drawing, says: t('keys.out'), run: () => view.zoom(1 / ZOOM, middle()) },
        );
    }

    /** Opens the field for the name of what is chosen, or for its size. */
    change() {
        const { store, view } = this;
        if (!store.sound) return;
        const [name] = store.selection;
        const held = store.constraint === null ? undefined : view.scene.constraints[store.constraint];
        if (held) this.dimension.resize(/** @type {number} */ (store.constraint), view.window.pixel(held.places[0]));
        else if (name) rename(store, this.float, name, view.middle(name) ?? [80, 80]);
    }
}
