// The guide in the page: its words on the verdicts and its examples, which the build puts in (page/guide.py).

import { byId, h } from './dom.mjs';

/**
 * @typedef {['text' | 'code' | 'bold', string][]} Spans
 * @typedef {{kind: 'words', spans: Spans} | {kind: 'list', items: Spans[]} | {kind: 'code', text: string}
 *   | {kind: 'table', rows: Spans[][]} | {kind: 'example', name: string, title: string}} Block
 * @typedef {{title: string, blocks: Block[]}} Section
 * @typedef {{name: string, title: string, heading: string, text: string}} Example
 * @typedef {{verdicts: Record<string, Section>, chapters: Record<string, Section>, examples: Example[]}} Guide
 */

/** @type {Guide | null} */
let known = null;

/**
 * What the guide says.
 * @returns {Guide}
 */
export function guide() {
    known ??= /** @type {Guide} */ (JSON.parse(byId('guide').textContent ?? ''));
    return known;
}

/**
 * Words of the guide as nodes.
 * @param {Spans} spans
 */
function words(spans) {
    return spans.map(([kind, text]) => (kind === 'text' ? text : h(kind === 'code' ? 'code' : 'b', {}, text)));
}

/**
 * A section of the guide as nodes; its examples are buttons.
 * @param {Section} section
 * @param {(name: string) => void} open
 * @returns {HTMLElement[]}
 */
export function told(section, open) {
    const known = new Set(guide().examples.map(example => example.name));
    return section.blocks.flatMap(block => node(block, known, open));
}

/**
 * A block of the guide as nodes.
 * @param {Block} block
 * @param {Set<string>} known the examples
 * @param {(name: string) => void} open
 * @returns {HTMLElement[]}
 */
function node(block, known, open) {
    switch (block.kind) {
        case 'words':
            return [h('p', {}, ...words(block.spans))];
        case 'list':
            return [h('ul', {}, ...block.items.map(item => h('li', {}, ...words(item))))];
        case 'code':
            return [h('pre', {}, block.text)];
        case 'table':
            return [h('table', {}, ...block.rows.map((row, i) => h('tr', {},
                ...row.map(cell => h(i === 0 ? 'th' : 'td', {}, ...words(cell))))))];
        case 'example':
            return known.has(block.name) ? [h('p', {}, h('button', {
                type: 'button', class: 'example', 'data-example': block.name, onclick: () => open(block.name),
            }, block.title))] : [];
    }
}
