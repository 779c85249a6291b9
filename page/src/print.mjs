// The sheet on one page of paper: its picture, what is said of it, its dimensions and the steps of its plan.

import { byId, h } from './dom.mjs';
import { t } from './texts.mjs';

/** @typedef {import('./store.mjs').Store} Store */

/** The smallest letters on paper, beside those of the page. */
const SMALLEST = 0.35;

/**
 * A list under a heading, or nothing.
 * @param {string} title
 * @param {string[]} lines
 */
function list(title, lines) {
    return lines.length > 0 && h('section', {}, h('h2', {}, title), h('ol', { start: 0 }, ...lines.map(line => h('li', {}, line))));
}

/**
 * Puts the sheet on the paper.
 * @param {Store} store
 */
export function layOut(store) {
    const paper = byId('paper');
    const { good } = store;
    const constraints = good.show?.constraints ?? [];
    const verdict = good.ask(['check', '@']).out.trimEnd();
    const picture = good.ask(['draw', '@', '--size', '900x640']).out;
    const plan = good.ask(['plan', '--words', '@']).out.split('\n').filter(Boolean);
    const image = h('img', { alt: '', src: `data:image/svg+xml;base64,${btoa(String.fromCharCode(...new TextEncoder().encode(picture)))}` });
    const words = h('div', { class: 'columns' }, list(t('print.dimensions'), constraints.map((/** @type {any} */ one) => one.text)),
        plan.length > 0 && h('section', {}, h('h2', {}, t('print.plan')), h('ul', {}, ...plan.map(line => h('li', {}, line)))));
    const sheet = h('div', { class: 'sheet' }, h('h1', {}, store.name), h('pre', {}, verdict), image, words);
    paper.replaceChildren(sheet);
    // smaller letters until all of it is on the page
    for (let size = 1; size >= SMALLEST && sheet.scrollHeight > sheet.clientHeight + 1; size *= 0.93) {
        words.style.fontSize = `${size}em`;
        image.style.maxHeight = `${Math.max(35, 55 * size)}%`;
    }
    return image.decode().catch(() => undefined);
}

/**
 * Prints the sheet.
 * @param {Store} store
 */
export async function printSheet(store) {
    await layOut(store);
    print();
}

/**
 * Whoever prints by the browser's own menu gets the same.
 * @param {Store} store
 */
export function printAlways(store) {
    addEventListener('beforeprint', () => void layOut(store));
}
