// The tools: select, point, line, circle, dimension. Each takes what mouse or keyboard does on the canvas, and every
// one changes the text alone, by changes that the command knows.

import { byId, h, s } from './dom.mjs';
import { t } from './texts.mjs';
import { Dragging } from './drag.mjs';
import { STILL, drawable, pointing, twoPlaces } from './draw.mjs';

/**
 * @typedef {import('./store.mjs').Store} Store
 * @typedef {import('./view.mjs').View} View
 * @typedef {import('./float.mjs').Float} Float
 * @typedef {import('./dimension.mjs').Dimension} Dimension
 * @typedef {[number, number]} Place
 * What is pressed or moved: where on the canvas, and with which keys.
 * @typedef {{pixel: Place, shift: boolean, alt: boolean}} Touch
 * A tool: what it does where the button goes down, where the mouse moves, and where the button goes up.
 * @typedef {{id: string, key: string, sign: string, down: (touch: Touch) => void, move: (touch: Touch) => void,
 *   up: (touch: Touch) => void, cancel: () => void}} Tool
 */

/**
 * The tools of a view.
 * @param {Store} store
 * @param {View} view
 * @param {Float} float
 * @param {Dimension} dimension
 * @returns {Tool[]}
 */
export function tools(store, view, float, dimension) {
    return [selecting(store, view), pointing(store, view), twoPlaces(store, view, 'line'), twoPlaces(store, view, 'circle'),
        dimensioning(store, view, float, dimension)];
}

/**
 * Selects, drags, and moves the view.
 * @param {Store} store
 * @param {View} view
 * @returns {Tool}
 */
function selecting(store, view) {
    const dragging = new Dragging(store, view);
    /** @type {{from: Place, names: string[], ground: boolean, within: boolean, moved: boolean, last: Place,
     *   hit: string | null} | null} */
    let held = null;
    /** The elements between two corners. */
    const within = (/** @type {Place} */ a, /** @type {Place} */ b) => view.scene.elements.map(({ name }) => name).filter(name => {
        const middle = view.middle(name) ?? [-1, -1];
        return [0, 1].every(axis => (middle[axis] - a[axis]) * (middle[axis] - b[axis]) < 0);
    });
    return {
        id: 'select', key: 'V', sign: 'M5 2.5l10.5 9.3-4.7.5 2.9 5.6-2.3 1.1-2.8-5.6-3.6 3.1z',
        down({ pixel, shift }) {
            const hit = view.at(pixel);
            held = { from: pixel, names: [], ground: hit === null, within: hit === null && shift, moved: false, last: pixel, hit: null };
            if (hit && 'constraint' in hit) store.selectConstraint(hit.constraint);
            if (!hit || !('element' in hit)) return;
            const chosen = new Set(store.selection);
            if (shift && chosen.has(hit.element)) chosen.delete(hit.element);
            else if (shift) chosen.add(hit.element);
            else if (!chosen.has(hit.element)) {
                chosen.clear();
                chosen.add(hit.element);
            }
            store.select(chosen);
            held.names = shift ? [] : [...chosen];
            held.hit = shift ? null : hit.element;
        },
        move({ pixel }) {
            if (!held) return;
            const far = Math.hypot(pixel[0] - held.from[0], pixel[1] - held.from[1]);
            if (!held.moved && far < STILL) return;
            if (held.within) {
                const [x, y] = [0, 1].map(axis => Math.min(pixel[axis], /** @type {any} */ (held).from[axis]));
                const [width, height] = [0, 1].map(axis => Math.abs(pixel[axis] - /** @type {any} */ (held).from[axis]));
                view.tool.replaceChildren(s('rect', { class: 'ghost', x, y, width, height }));
                store.select(within(held.from, pixel));
            } else if (held.ground) {
                view.pan(pixel[0] - held.last[0], pixel[1] - held.last[1]);
            } else if (held.names.length > 0 && (held.moved || drawable(store))) {
                if (!held.moved) dragging.begin(held.names, view.window.place(held.from));
                dragging.to(view.window.place(pixel));
            }
            held.moved = true;
            held.last = pixel;
        },
        up({ shift }) {
            if (held && held.moved && !held.ground) dragging.end();
            if (held && held.ground && !held.moved && !shift) store.select([]);
            // a click on one of several chooses it alone
            if (held && held.hit && !held.moved && store.selection.size > 1) store.select([held.hit]);
            view.tool.replaceChildren();
            held = null;
        },
        cancel() {
            dragging.cancel();
            view.tool.replaceChildren();
            held = null;
        },
    };
}

/**
 * Picks two elements, asks about the dimension between them, and places it.
 * @param {Store} store
 * @param {View} view
 * @param {Float} float
 * @param {Dimension} dimension
 * @returns {Tool}
 */
function dimensioning(store, view, float, dimension) {
    /** @type {string | null} */
    let first = null;
    const element = (/** @type {Touch} */ { pixel }) => {
        const hit = view.at(pixel, true);
        return hit && 'element' in hit ? hit.element : null;
    };
    return {
        id: 'dimension', key: 'D', sign: 'M3 6v8M17 6v8M3.6 10h12.8M3.6 10l3-2M3.6 10l3 2M16.4 10l-3-2M16.4 10l-3 2',
        down() {},
        move(touch) {
            if (float.asking) return;
            const over = element(touch);
            if (first && over && over !== first) {
                dimension.peek(first, over, touch.pixel);
            } else {
                float.close();
                store.light([]);
            }
            const from = first ? view.middle(first) : null;
            const [x, y] = touch.pixel;
            view.tool.replaceChildren(...(from ? [s('path', { class: 'ghost', d: `M${from[0]} ${from[1]}L${x} ${y}` })] : []));
        },
        up(touch) {
            if (float.asking) return;
            if (!drawable(store)) return;
            const picked = element(touch);
            const hit = view.at(touch.pixel);
            if (!picked && !first && hit && 'constraint' in hit) {
                dimension.resize(hit.constraint, touch.pixel);
            } else if (picked && first && picked !== first) {
                const a = first;
                first = null;
                view.tool.replaceChildren();
                dimension.open(a, picked, touch.pixel);
            } else {
                first = picked === first ? null : picked;
                store.select(first ? [first] : []);
            }
        },
        cancel() {
            first = null;
            float.close();
            store.light([]);
            view.tool.replaceChildren();
        },
    };
}

/**
 * The rail of tools.
 * @param {Store} store
 * @param {Tool[]} all
 */
export function rail(store, all) {
    const root = byId('rail');
    root.setAttribute('aria-label', t('page.tools'));
    const buttons = all.map(tool => h('button', {
        type: 'button', class: 'tool', 'data-tool': tool.id, title: `${t(`tool.${tool.id}`)} (${tool.key})`,
        'aria-keyshortcuts': tool.key, onclick: () => { byId('canvas').focus(); store.take(tool.id); },
    },
    s('svg', { viewBox: '0 0 20 20', 'aria-hidden': 'true' }, s('path', { d: tool.sign })),
    h('span', {}, t(`tool.${tool.id}`)),
    h('kbd', {}, tool.key)));
    root.append(...buttons);
    const refresh = () => buttons.forEach(button => button.setAttribute('aria-pressed', String(button.dataset.tool === store.tool)));
    store.subscribe((_, what) => what.has('tool') && refresh());
    refresh();
}
