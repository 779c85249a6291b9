// The card of five points as a board: 1,024 sets of distances, each with its verdict and a picture, which are drawn as
// they come into sight. A set that is chosen is opened as a sheet.

import { h, s } from './dom.mjs';
import { t } from './texts.mjs';

/**
 * @typedef {import('./store.mjs').Store} Store
 * @typedef {{counts: Record<string, number>[], points: [number, number][], pairs: [number, number][], verdicts: string[]}} Card
 */

/** The verdicts in the order of the filter. */
const VERDICTS = ['well', 'under', 'over', 'stuck', 'angle'];
/** The side of a picture, in its own measure. */
const SIDE = 100;

/**
 * How many distances a set has.
 * @param {number} set
 */
function size(set) {
    let count = 0;
    for (let rest = set; rest > 0; rest &= rest - 1) count++;
    return count;
}

/** The board of a store's page. */
class Board {
    /**
     * @param {Store} store
     * @param {Card} card
     */
    constructor(store, card) {
        this.store = store;
        this.card = card;
        this.verdict = 'all';
        const xs = card.points.map(point => point[0]);
        const ys = card.points.map(point => point[1]);
        const [left, top] = [Math.min(...xs), Math.max(...ys)];
        const scale = (SIDE - 24) / Math.max(Math.max(...xs) - left, top - Math.min(...ys));
        /** Where the points are in a picture. */
        this.places = card.points.map(([x, y]) => [12 + (x - left) * scale, 12 + (top - y) * scale].map(Math.round));
        this.cells = card.verdicts.map((_, set) => this.cell(set));
        this.says = h('output', { class: 'says', 'aria-live': 'polite' }, t('card.hint'));
        this.filters = ['all', ...VERDICTS].map(name => this.filter(name));
        this.groups = [...Array(card.pairs.length + 1).keys()].map(count => this.group(count));
        const close = h('button', { type: 'button', class: 'plain', onclick: () => this.dialog.close() }, t('keys.close'));
        const grid = h('div', { class: 'board', role: 'group', 'aria-label': t('card.title') }, ...this.groups);
        grid.addEventListener('keydown', event => this.walk(event));
        this.dialog = h('dialog', { class: 'card', 'aria-labelledby': 'card-title', onclose: () => this.dialog.remove() },
            h('header', {}, h('h2', { id: 'card-title' }, t('card.title')), close),
            h('div', { class: 'filters', role: 'group', 'aria-label': t('card.filter') }, ...this.filters, this.says), grid);
        // the keys of the page are not those of the card
        this.dialog.addEventListener('keydown', event => event.stopPropagation());
        this.seen = new IntersectionObserver(entries => entries.forEach(entry => {
            if (entry.isIntersecting) this.draw(/** @type {HTMLElement} */ (entry.target));
        }), { root: grid, rootMargin: '200px' });
    }

    /** Shows the board. */
    show() {
        document.body.append(this.dialog);
        this.dialog.showModal();
        this.cells.forEach(cell => this.seen.observe(cell));
        this.cells[0].focus();
    }

    /**
     * A button that shows the sets of one verdict, or all.
     * @param {string} name
     */
    filter(name) {
        const count = this.card.verdicts.filter(verdict => name === 'all' || verdict === name).length;
        return h('button', {
            type: 'button', class: `filter ${name}`, 'data-filter': name, 'aria-pressed': String(name === 'all'), disabled: count === 0,
            onclick: () => this.choose(name),
        }, `${name === 'all' ? t('card.all') : name} ${count}`);
    }

    /**
     * Shows the sets of one verdict, or all.
     * @param {string} name
     */
    choose(name) {
        this.verdict = name;
        this.filters.forEach(button => button.setAttribute('aria-pressed', String(button.dataset.filter === name)));
        this.cells.forEach((cell, set) => { cell.hidden = name !== 'all' && this.card.verdicts[set] !== name; });
        this.groups.forEach(group => { group.hidden = !group.querySelector('button:not([hidden])'); });
        this.says.textContent = t('card.hint');
    }

    /**
     * The sets of so many distances.
     * @param {number} count
     */
    group(count) {
        const cells = this.cells.filter((_, set) => size(set) === count);
        return h('section', {}, h('h3', {}, t(count === 1 ? 'card.one' : 'card.count', { count })), h('div', { class: 'cells' }, ...cells));
    }

    /**
     * The words for a set.
     * @param {number} set
     */
    words(set) {
        const pairs = this.card.pairs.filter((_, i) => (set >> i) & 1).map(pair => pair.join('-'));
        return t('card.set', { set, verdict: this.card.verdicts[set], pairs: pairs.join(' ') || t('card.empty') });
    }

    /**
     * A set: a button without its picture yet.
     * @param {number} set
     */
    cell(set) {
        const near = () => { this.says.textContent = this.words(set); };
        return h('button', {
            type: 'button', class: `cell ${this.card.verdicts[set]}`, 'data-set': set, tabindex: set === 0 ? 0 : -1, 'aria-label': this.words(set),
            onclick: () => this.open(set), onmouseenter: near, onfocus: near,
        });
    }

    /**
     * Draws the picture of a set that came into sight.
     * @param {HTMLElement} cell
     */
    draw(cell) {
        if (cell.firstChild) return;
        const set = Number(cell.dataset.set);
        const strokes = this.card.pairs.filter((_, i) => (set >> i) & 1).map(([a, b]) => `M${this.places[a].join(' ')}L${this.places[b].join(' ')}`);
        cell.append(s('svg', { viewBox: `0 0 ${SIDE} ${SIDE}`, 'aria-hidden': 'true' }, s('path', { d: strokes.join('') || 'M0 0' }),
            ...this.places.map(([cx, cy]) => s('circle', { cx, cy, r: 6 }))), h('span', {}, this.card.verdicts[set]));
    }

    /**
     * Opens a set as a sheet.
     * @param {number} set
     */
    open(set) {
        const { answer } = this.store.engine.answer(['card', String(set), '--sheet', '--json'], {}).json;
        this.dialog.close();
        this.store.open(answer.text, t('card.name', { set }), t('card.opening', { set }));
    }

    /**
     * The arrow keys go from set to set.
     * @param {KeyboardEvent} event
     */
    walk(event) {
        const shown = this.groups.flatMap(group => [...group.querySelectorAll('button')]).filter(cell => !cell.hidden);
        const at = shown.indexOf(/** @type {HTMLButtonElement} */ (document.activeElement));
        if (at < 0) return;
        const below = (/** @type {number} */ step) => {
            const here = shown[at].getBoundingClientRect();
            const rows = step > 0 ? shown.slice(at + 1) : shown.slice(0, at).reverse();
            const next = rows.filter(cell => step * (cell.getBoundingClientRect().top - here.top) > 4);
            const line = next.filter(cell => Math.abs(cell.getBoundingClientRect().top - next[0].getBoundingClientRect().top) < 4);
            const far = (/** @type {HTMLElement} */ cell) => Math.abs(cell.getBoundingClientRect().left - here.left);
            return line.sort((a, b) => far(a) - far(b))[0];
        };
        /** @type {Record<string, () => HTMLButtonElement | undefined>} */
        const ways = {
            ArrowRight: () => shown[at + 1], ArrowLeft: () => shown[at - 1], ArrowDown: () => below(1), ArrowUp: () => below(-1),
            Home: () => shown[0], End: () => shown[shown.length - 1],
        };
        const to = ways[event.key]?.();
        if (!to) return;
        event.preventDefault();
        shown[at].tabIndex = -1;
        to.tabIndex = 0;
        to.focus();
        to.scrollIntoView({ block: 'nearest' });
    }
}

/**
 * Opens the card over the page.
 * @param {Store} store
 */
export function openCard(store) {
    const { answer } = store.engine.answer(['card', '--json'], {}).json;
    if (answer) new Board(store, answer).show();
}
