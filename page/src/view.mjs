// The drawing: what the command's scene says, on the screen. Elements and constraints are groups that tell their names;
// what is chosen, lit or under the mouse is so by its class.

import { afterPaint, byId, h, patch, s } from './dom.mjs';
import { MOST_AT_ONCE } from './answers.mjs';
import { t } from './texts.mjs';
import { Window } from './window.mjs';
import { constraint, element, nameLabel, sizeLabel } from './shapes.mjs';
import { constraintDistance, distance } from './hits.mjs';

/**
 * @typedef {import('./store.mjs').Store} Store
 * @typedef {import('./store.mjs').Hover} Hover
 * @typedef {import('./shapes.mjs').Scene} Scene
 * @typedef {import('./shapes.mjs').Marks} Marks
 * @typedef {[number, number]} Place
 */

/** So near to a stroke or a point, in pixels, the mouse is on it. */
const REACH = 9;
/** A drawing that takes more milliseconds than this is long. */
const LONG = 100;

/** The view of a store's sheet. */
export class View {
    /** @param {Store} store */
    constructor(store) {
        this.store = store;
        this.window = new Window();
        this.canvas = byId('canvas');
        this.grid = s('g', { class: 'grid' });
        this.lines = s('g', { class: 'lines' });
        this.constraints = s('g', { class: 'constraints' });
        this.points = s('g', { class: 'points' });
        this.labels = s('g', { class: 'labels' });
        this.tool = s('g', { class: 'tool' });
        this.svg = s('svg', { role: 'group', 'aria-label': t('page.drawing') },
            this.grid, this.lines, this.constraints, this.points, this.labels, this.tool);
        this.bar = h('div', { class: 'scalebar', 'aria-hidden': 'true' }, h('i', {}), h('span', {}));
        this.behind = h('p', { class: 'behind', hidden: true }, t('page.behind'));
        this.canvas.append(this.svg, this.bar, this.behind);
        /**
         * What is drawn.
         * @type {Scene}
         */
        this.scene = { how: 'near', frame: null, dense: false, left_out: 0, elements: [], constraints: [] };
        /**
         * Places that stand while something is dragged.
         * @type {Scene | null}
         */
        this.held = null;
        /** Whether all is to be seen, until the view is moved by hand. */
        this.whole = true;
        /**
         * Whether the last drawing of a large sheet took long, as where its sizes contradict each other: the next waits for
         * the verdict to be seen.
         */
        this.slow = false;
        this.measure();
        new ResizeObserver(() => {
            this.measure();
            if (this.whole) this.fit();
            else this.redraw();
        }).observe(this.canvas);
        this.fit();
    }

    /** Draws what changes, from now on. */
    follow() {
        this.store.subscribe((_, what) => {
            if (what.has('view')) this.fit();
            else if (what.has('text')) {
                this.whole = false;
                if (this.slow) afterPaint(() => this.redraw());
                else this.redraw();
            } else if (what.has('selection') || what.has('lit') || what.has('hover')) this.draw(this.scene);
        });
    }

    /** Takes the size of the canvas. */
    measure() {
        const { width, height } = this.canvas.getBoundingClientRect();
        this.window.width = Math.max(width, 60);
        this.window.height = Math.max(height, 60);
        this.svg.setAttribute('viewBox', `0 0 ${this.window.width} ${this.window.height}`);
    }

    /** Sees the whole drawing. */
    fit() {
        const { answer } = this.store.good.json(['scene', '@', '--size', this.window.size]);
        this.window.fit(answer?.frame ?? null);
        this.whole = true;
        this.redraw();
    }

    /**
     * Moves the view by pixels.
     * @param {number} dx
     * @param {number} dy
     */
    pan(dx, dy) {
        this.window.pan(dx, dy);
        this.whole = false;
        this.redraw();
    }

    /**
     * Zooms so many times about a pixel.
     * @param {number} times
     * @param {Place} pixel
     */
    zoom(times, pixel) {
        this.window.zoom(times, pixel);
        this.whole = false;
        this.redraw();
    }

    /** Draws the sheet as it is, or as it is dragged. */
    redraw() {
        const began = performance.now();
        const { answer } = this.store.good.json(['scene', '@', '--size', this.window.size, '--window', this.window.words]);
        if (answer) this.draw(answer);
        this.slow = performance.now() - began > LONG && this.store.elements.length > MOST_AT_ONCE;
        Object.assign(this.canvas.dataset, { window: this.window.words, size: this.window.size });
        this.behind.hidden = this.store.good === this.store.answers;
        this.canvas.classList.toggle('stale', !this.behind.hidden);
    }

    /**
     * Draws a scene.
     * @param {Scene} scene
     */
    draw(scene) {
        this.scene = scene;
        this.drawGrid();
        this.svg.classList.toggle('dense', scene.dense);
        const indices = scene.elements.map((_, i) => i);
        const marks = this.marks();
        patch(this.lines, indices.filter(i => scene.elements[i].kind === 'line').map(i => element(scene, this.window, i, marks)));
        patch(this.points, indices.filter(i => scene.elements[i].kind !== 'line').map(i => element(scene, this.window, i, marks)));
        patch(this.constraints, scene.constraints.map((_, k) => constraint(scene, this.window, k, marks)));
        patch(this.labels, [
            ...scene.constraints.flatMap((_, k) => sizeLabel(scene, this.window, k, marks)),
            ...indices.flatMap(i => nameLabel(scene, this.window, i, marks)),
        ]);
    }

    /** The ground: a grid of millimetres, and a bar that says how long one is. */
    drawGrid() {
        const { window: view } = this;
        const step = view.grid;
        const rows = [];
        const [right, low] = view.place([view.width, view.height]);
        const stroke = (/** @type {number} */ at, /** @type {boolean} */ upright) => {
            const strong = Math.abs(Math.round(at / step) % 5) === 0;
            const [x, y] = view.pixel([at, at]).map(pixel => Math.round(pixel) + 0.5);
            const d = upright ? `M${x} 0V${view.height}` : `M0 ${y}H${view.width}`;
            return { tag: /** @type {'path'} */ ('path'), given: { d, class: strong ? 'strong' : 'weak' } };
        };
        for (let x = Math.ceil(view.x / step) * step; x < right; x += step) rows.push(stroke(x, true));
        for (let y = Math.ceil(low / step) * step; y < view.y; y += step) rows.push(stroke(y, false));
        patch(this.grid, rows);
        const [rule, words] = /** @type {HTMLElement[]} */ ([...this.bar.children]);
        const long = 5 * step;
        rule.style.width = `${long * view.scale}px`;
        words.textContent = long >= 1000 ? `${long / 1000} m` : `${round6(long)} mm`;
    }

    /**
     * The classes of what is chosen, lit and under the mouse.
     * @returns {Marks}
     */
    marks() {
        const { selection, constraint, lit, hover } = this.store;
        this.svg.classList.toggle('lighting', lit.some(({ elements, constraints }) => elements?.length || constraints?.length));
        const marked = (/** @type {string[]} */ roles, /** @type {boolean} */ chosen, /** @type {boolean} */ over) => (
            (roles.length > 0 ? ` lit ${roles.join(' ')}` : '') + (chosen ? ' chosen' : '') + (over ? ' hover' : ''));
        return {
            element: name => marked(lit.filter(({ elements }) => elements?.includes(name)).map(({ role }) => `lit-${role}`),
                selection.has(name), hover !== null && 'element' in hover && hover.element === name),
            constraint: k => marked(lit.filter(({ constraints }) => constraints?.includes(k)).map(({ role }) => `lit-${role}`),
                constraint === k, hover !== null && 'constraint' in hover && hover.constraint === k),
        };
    }

    /**
     * What is at a pixel: a point before a line, a line before a constraint.
     * @param {Place} pixel
     * @param {boolean} [elementsOnly]
     * @returns {Hover}
     */
    at(pixel, elementsOnly = false) {
        /** @type {{found: Hover, far: number}[]} */
        const near = [];
        for (const shown of this.scene.elements) {
            const far = distance(this.window, shown, pixel);
            if (far < REACH) near.push({ found: { element: shown.name }, far: shown.kind === 'point' ? far - 6 : far });
        }
        if (near.length === 0 && !elementsOnly) {
            this.scene.constraints.forEach((held, k) => {
                const far = constraintDistance(this.window, held, pixel);
                if (far < REACH) near.push({ found: { constraint: k }, far });
            });
        }
        near.sort((a, b) => a.far - b.far);
        return near.length > 0 ? near[0].found : null;
    }

    /**
     * The place of an element on the screen, for what stands beside it: of a line its middle.
     * @param {string} name
     * @returns {Place | null}
     */
    middle(name) {
        const element = this.scene.elements.find(shown => shown.name === name);
        if (!element) return null;
        if (element.at) return this.window.pixel(element.at);
        const [[x, y], [z, w]] = [element.from, element.to].map(place => this.window.pixel(/** @type {Place} */ (place)));
        return [(x + z) / 2, (y + w) / 2];
    }

    /**
     * The pixels of what had better not be hidden: points, middles of lines, labels.
     * @returns {Place[]}
     */
    spots() {
        const labels = [...this.scene.elements, ...this.scene.constraints].flatMap(({ label }) => (label ? [this.window.pixel(label)] : []));
        const middles = this.scene.elements.map(({ name }) => this.middle(name) ?? /** @type {Place} */ ([0, 0]));
        return [...labels, ...middles];
    }

    /**
     * The pixel of the canvas under an event.
     * @param {MouseEvent} event
     * @returns {Place}
     */
    pixel(event) {
        const { left, top } = this.canvas.getBoundingClientRect();
        return [event.clientX - left, event.clientY - top];
    }
}

/**
 * A length without the dust of binary fractions.
 * @param {number} x
 */
function round6(x) {
    return Math.round(x * 1e6) / 1e6;
}

