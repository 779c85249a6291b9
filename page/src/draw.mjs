// The tools that draw: points, lines and circles, each a change of the text.

import { s } from './dom.mjs';
import { t } from './texts.mjs';
import { anchors } from './dimension.mjs';

/**
 * @typedef {import('./store.mjs').Store} Store
 * @typedef {import('./view.mjs').View} View
 * @typedef {import('./tools.mjs').Tool} Tool
 * @typedef {import('./tools.mjs').Touch} Touch
 * @typedef {[number, number]} Place
 */

/** So far, in pixels, the mouse must move before it drags. */
export const STILL = 4;

/**
 * Whether the sheet may be drawn on; says why not.
 * @param {Store} store
 */
export function drawable(store) {
    if (store.sound) return true;
    store.say(t('draw.mend'));
    return false;
}

/**
 * A name that no element has.
 * @param {Store} store
 * @param {string} kind
 */
function freeName(store, kind) {
    const taken = new Set(store.elements.map(element => element.name));
    const letters = kind === 'point' ? 'ABCDEFGHIJKLMNOPQRSTUVWXYZ' : kind === 'line' ? 'abcdefghijklmnopqrstuvwxyz' : '';
    const free = [...letters].find(letter => !taken.has(letter));
    if (free) return free;
    const stem = { point: 'P', line: 'l', circle: 'c' }[kind] ?? 'e';
    let number = 1;
    while (taken.has(`${stem}${number}`)) number += 1;
    return `${stem}${number}`;
}

/**
 * A place as the text has it, as fine as the screen shows.
 * @param {View} view
 * @param {Place} place
 */
function words(view, place) {
    const fine = 10 ** Math.max(0, Math.min(3, Math.ceil(Math.log10(view.window.scale))));
    return place.map(x => String(Math.round(x * fine) / fine + 0)).join(' ');
}

/**
 * What is at a pixel and takes part in a drawing: a point, or a line on which a point may lie.
 * @param {View} view
 * @param {Touch} touch
 * @returns {{kind: string, name: string, place: Place} | null}
 */
function snapped(view, { pixel, alt }) {
    if (alt) return null;
    const hit = view.at(pixel, true);
    if (!hit || !('element' in hit)) return null;
    const found = view.scene.elements.find(element => element.name === hit.element);
    if (!found) return null;
    return { kind: found.kind, name: found.name, place: found.at ?? view.window.place(pixel) };
}

/**
 * Puts points: on a line where it is clicked, which holds them there.
 * @param {Store} store
 * @param {View} view
 * @returns {Tool}
 */
export function pointing(store, view) {
    return {
        id: 'point', key: 'P', sign: 'M10 6.4a3.6 3.6 0 1 0 0 7.2a3.6 3.6 0 1 0 0-7.2z',
        down() {},
        move(touch) {
            const snap = snapped(view, touch);
            const [x, y] = touch.pixel;
            view.tool.replaceChildren(s('circle', { class: 'ghost', cx: x, cy: y, r: 4.5 }),
                ...(snap?.kind === 'line' ? [hint([x, y], t('draw.on', { a: freeName(store, 'point'), b: snap.name }))] : []));
        },
        up(touch) {
            const snap = snapped(view, touch);
            if (snap?.kind === 'point') return store.select([snap.name]);
            if (!drawable(store)) return undefined;
            const name = freeName(store, 'point');
            const on = snap?.kind === 'line' ? [`on ${name} ${snap.name}`] : [];
            const changes = [...anchors(store), `point ${name} at ${words(view, view.window.place(touch.pixel))}`, ...on];
            if (store.change(changes, t('draw.drawn', { what: `point ${name}` }))) store.select([name]);
            return undefined;
        },
        cancel() {
            view.tool.replaceChildren();
        },
    };
}

/**
 * Draws what two places give, clicked or dragged: a line, held by the points that it is drawn through, or a circle.
 * @param {Store} store
 * @param {View} view
 * @param {'line' | 'circle'} kind
 * @returns {Tool}
 */
export function twoPlaces(store, view, kind) {
    /** @type {{place: Place, snap: ReturnType<typeof snapped>, pixel: Place} | null} */
    let first = null;
    let fresh = false;
    const end = (/** @type {Touch} */ touch) => {
        const snap = snapped(view, touch);
        return { snap, place: snap && snap.kind !== 'line' ? snap.place : view.window.place(touch.pixel), pixel: touch.pixel };
    };
    const radius = (/** @type {Place} */ a, /** @type {Place} */ b) => {
        const fine = Math.min(10, 10 ** Math.max(0, Math.ceil(Math.log10(view.window.scale))));
        return Math.round(Math.hypot(b[0] - a[0], b[1] - a[1]) * fine) / fine;
    };
    const finish = (/** @type {Touch} */ touch) => {
        if (!first) return;
        const a = first;
        const b = end(touch);
        first = null;
        view.tool.replaceChildren();
        if (!drawable(store)) return;
        const name = freeName(store, kind);
        const ends = [a, b].map(({ snap }) => (snap && snap.kind !== 'line' ? snap.name : null));
        const changes = anchors(store);
        if (kind === 'line') {
            if (words(view, a.place) === words(view, b.place)) return;
            changes.push(`line ${name} from ${words(view, a.place)} to ${words(view, b.place)}`);
            changes.push(...new Set(ends.filter(found => found).map(found => `on ${found} ${name}`)));
        } else {
            const size = radius(a.place, b.place);
            if (size < 0.1) return;
            changes.push(`circle ${name} ${size.toFixed(1)} mm at ${words(view, a.place)}`);
            if (a.snap?.kind === 'line') changes.push(`on ${name} ${a.snap.name}`);
        }
        if (store.change(changes, t('draw.drawn', { what: `${kind} ${name}` }))) store.select([name]);
    };
    return {
        id: kind, key: kind === 'line' ? 'L' : 'C',
        sign: kind === 'line' ? 'M3.2 15.8L16 4' : 'M10 3.5a6.5 6.5 0 1 0 0 13a6.5 6.5 0 1 0 0-13z',
        down(touch) {
            fresh = first === null;
            if (fresh) first = end(touch);
        },
        move(touch) {
            const now = end(touch);
            const from = first ?? now;
            const [[x, y], [z, w]] = [view.window.pixel(from.place), view.window.pixel(now.place)];
            const size = radius(from.place, now.place);
            const shape = kind === 'line' ? s('path', { class: 'ghost', d: `M${x} ${y}L${z} ${w}` })
                : s('circle', { class: 'ghost', cx: x, cy: y, r: Math.hypot(z - x, w - y) });
            const dots = [[x, y], [z, w]].map(([cx, cy]) => s('circle', { class: 'ghost dot', cx, cy, r: 3 }));
            const name = freeName(store, kind);
            const ons = kind === 'line'
                ? [first, now].flatMap(place => (place?.snap && place.snap.kind !== 'line'
                    ? [t('draw.on', { a: place.snap.name, b: name })] : []))
                : [from].flatMap(place => (place.snap?.kind === 'line' ? [t('draw.on', { a: name, b: place.snap.name })] : []));
            const told = kind === 'circle' && first ? [t('draw.radius', { size: size.toFixed(1) }), ...ons] : [...new Set(ons)];
            view.tool.replaceChildren(shape, ...dots, ...(told.length > 0 ? [hint(touch.pixel, told.join(', '))] : []));
        },
        up(touch) {
            if (!first) return;
            const far = Math.hypot(touch.pixel[0] - first.pixel[0], touch.pixel[1] - first.pixel[1]);
            if (!fresh || far > 2 * STILL) finish(touch);
        },
        cancel() {
            first = null;
            view.tool.replaceChildren();
        },
    };
}

/**
 * Words beside the mouse.
 * @param {Place} pixel
 * @param {string} text
 */
function hint([x, y], text) {
    return s('text', { class: 'hint', x: x + 14, y: y - 12 }, text);
}
