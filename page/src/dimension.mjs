// A dimension: two elements, a size typed or taken from the drawing. It is asked about before it is placed.

import { h } from './dom.mjs';
import { t } from './texts.mjs';
import { told } from './answers.mjs';

/**
 * @typedef {import('./store.mjs').Store} Store
 * @typedef {import('./view.mjs').View} View
 * @typedef {import('./float.mjs').Float} Float
 * @typedef {[number, number]} Place
 * @typedef {{text: string, demand: string, size: number | null}} Choice
 * What is answered to a dimension before it is placed: the verdict, the words, and whether it may be placed.
 * @typedef {{verdict: string, lines: string[], placed: boolean}} Asked
 */

/** Asks about dimensions, and places them. */
export class Dimension {
    /**
     * @param {Store} store
     * @param {View} view
     * @param {Float} float
     */
    constructor(store, view, float) {
        this.store = store;
        this.view = view;
        this.float = float;
        /**
         * Pairs that are to be asked for one after another.
         * @type {[string, string][]}
         */
        this.waiting = [];
    }

    /**
     * What may hold two elements, what is drawn first, and the constraint that holds them already.
     * @param {string} a
     * @param {string} b
     * @returns {{held: number | null, statements: Choice[]}}
     */
    choices(a, b) {
        const { answer } = this.store.answers.json(['measure', '@', a, b]);
        return answer ?? { held: null, statements: [] };
    }

    /**
     * What the sheet would be with a statement more: asked, not placed. What is fixed already is lit.
     * @param {string} statement
     * @returns {Asked}
     */
    ask(statement) {
        const { answer, errors } = this.store.answers.json(['add', '@', statement]);
        if (answer) {
            const ends = statement.split(/\s+/).slice(1, 3);
            // what it joins, with the dimensions that it rests on; the one that is asked for is none of them yet
            const joined = answer.joined.map((/** @type {any} */ { part }) => answer.clusters.find(
                (/** @type {any} */ { holds }) => holds.join(' ') === part.join(' '))).filter((/** @type {any} */ found) => found);
            const rests = joined.flatMap((/** @type {any} */ { rests_on: on }) => on).filter((/** @type {number} */ k) => k < answer.constraints - 1);
            const elements = joined.flatMap((/** @type {any} */ { holds }) => holds);
            this.store.light([{ role: 'joined', elements, constraints: rests }, { role: 'asked', elements: ends }]);
            const words = answer.joined.map((/** @type {any} */ { part }) => t('dimension.joins', { part: part.join(' ') }));
            return { verdict: answer.status, lines: [answer.words[0], ...words, ...answer.warnings], placed: true };
        }
        const over = errors[0].over;
        this.store.light(over ? [{ role: 'fixed', elements: over.part, constraints: over.fixed_by }] : []);
        return { verdict: errors[0].rule === 11 ? 'over' : 'refused', lines: told(errors).split(/; |\n/), placed: false };
    }

    /**
     * The verdict in words, as it stands beside the mouse.
     * @param {{verdict: string, lines: string[]}} asked
     */
    words({ verdict, lines }) {
        const name = verdict === 'refused' ? t('dimension.refused') : verdict;
        return h('div', { class: 'asked', 'data-verdict': verdict, role: 'status' },
            h('b', { class: 'badge', 'data-verdict': verdict }, name),
            ...lines.map(line => h('p', {}, line)));
    }

    /**
     * Shows beside the mouse what a dimension between two elements would do, before the second is clicked.
     * @param {string} a
     * @param {string} b
     * @param {Place} pixel
     */
    peek(a, b, pixel) {
        const { held, statements } = this.choices(a, b);
        if (statements.length === 0) return this.float.close();
        const text = held === null ? statements[0].text : this.store.constraints[held].text;
        const below = held === null ? this.words(this.ask(statements[0].text)) : h('p', { class: 'quiet' }, t('dimension.held'));
        this.float.show(pixel, [h('p', { class: 'statement' }, text), below]);
    }

    /**
     * Opens the field for a dimension between two elements.
     * @param {string} a
     * @param {string} b
     * @param {Place} pixel
     */
    open(a, b, pixel) {
        const { held, statements } = this.choices(a, b);
        if (held !== null) return this.resize(held, pixel);
        if (statements.length === 0) return undefined;
        this.store.select([a, b]);
        const place = (/** @type {string} */ statement) => {
            const asked = this.ask(statement);
            if (!asked.placed) return;
            const rest = this.waiting;
            this.float.close();
            if (!this.store.change([...anchors(this.store), statement], t('dimension.label', { what: statement }))) return;
            this.store.select([]);
            this.measure(rest);
        };
        return this.field(pixel, statements, place, statement => this.ask(statement));
    }

    /**
     * Opens the field for the size of a dimension that is there.
     * @param {number} number
     * @param {Place} pixel
     */
    resize(number, pixel) {
        const held = this.store.constraints[number];
        const [a, b] = held.ends;
        const fact = this.store.answers.show?.constraints[number];
        if (!fact) return;
        this.store.selectConstraint(number);
        const others = this.choices(a, b).statements.filter(({ demand }) => demand !== fact.demand);
        const choices = [{ text: fact.text, demand: fact.demand, size: fact.size }, ...others];
        const changes = (/** @type {string} */ statement) => [`remove ${a} ${b}`, statement];
        const place = (/** @type {string} */ statement) => {
            const sized = fact.demand === 'size' && /^(distance|angle)\s/.test(statement);
            const change = sized ? [`resize ${statement.split(/\s+/).slice(1).join(' ')}`] : changes(statement);
            if (!this.store.change([...anchors(this.store), ...change], t('dimension.label', { what: statement }))) return;
            this.float.close();
        };
        const ask = (/** @type {string} */ statement) => {
            const { answer, errors } = this.store.answers.json(['edit', '@', ...changes(statement)]);
            if (!answer) return { verdict: 'refused', lines: told(errors).split(/; |\n/), placed: false };
            const found = this.store.engine.answer(['check', '--json', this.store.file], { [this.store.file]: answer.text });
            const file = found.json.answer.files[0];
            const lines = file.errors ? told(file.errors).split('\n') : [file.words[0], ...file.warnings];
            return { verdict: file.status, lines, placed: true };
        };
        this.field(pixel, choices, place, ask);
    }

    /**
     * The field: what holds the two, the size, and the verdict, which follows what is written.
     * @param {Place} pixel
     * @param {Choice[]} choices
     * @param {(statement: string) => void} place
     * @param {(statement: string) => Asked} ask
     */
    field(pixel, choices, place, ask) {
        let chosen = choices[0];
        const size = h('input', { type: 'text', id: 'size', autocomplete: 'off', 'aria-label': t('dimension.size') });
        const unit = h('span', { class: 'unit' });
        const verdict = h('div', {});
        const statement = () => {
            if (chosen.demand !== 'size') return chosen.text;
            const [word, a, b, , ...rest] = chosen.text.split(/\s+/);
            const plain = /^[-+]?[0-9]+(\.[0-9]*)?$/.test(size.value.trim());
            return [word, a, b, size.value.trim(), ...(plain ? rest : [])].join(' ');
        };
        const refresh = () => {
            const asked = ask(statement());
            verdict.replaceChildren(this.words(asked));
            go.disabled = !asked.placed;
            this.float.place();
        };
        const choose = (/** @type {Choice} */ choice) => {
            chosen = choice;
            const sized = choice.demand === 'size';
            const [, , , number, ...rest] = choice.text.split(/\s+/);
            size.value = sized ? number : '';
            size.placeholder = sized ? '' : t('dimension.none');
            size.readOnly = !sized;
            unit.textContent = sized ? rest.join(' ').replace('deg', '°') : '';
            for (const button of kinds.querySelectorAll('button')) {
                button.setAttribute('aria-checked', String(button.dataset.demand === choice.demand));
                button.tabIndex = button.dataset.demand === choice.demand ? 0 : -1;
            }
            refresh();
            size.select();
        };
        const kinds = h('div', { class: 'kinds', role: 'radiogroup', 'aria-label': t('dimension.kinds') },
            ...choices.map(choice => h('button', {
                type: 'button', role: 'radio', 'data-demand': choice.demand, onclick: () => { choose(choice); size.focus(); },
            }, choice.text.split(/\s+/)[0] + (choice.demand === 'tangent other' ? ` ${t('dimension.other')}` : ''))));
        const [, a, b] = chosen.text.split(/\s+/);
        const go = h('button', { type: 'submit', class: 'go' }, t('dimension.place'), ' ', h('kbd', {}, '↵'));
        const form = h('form', { class: 'dimension', 'aria-label': t('dimension.title', { a, b }) },
            h('p', { class: 'statement' }, t('dimension.title', { a, b })),
            choices.length > 1 && kinds, h('div', { class: 'row' }, size, unit, go), verdict);
        form.addEventListener('submit', event => {
            event.preventDefault();
            place(statement());
        });
        form.addEventListener('keydown', event => {
            const step = { ArrowDown: 1, ArrowUp: -1 }[event.key];
            if (event.key === 'Escape') this.float.close();
            else if (step && choices.length > 1) choose(choices[(choices.indexOf(chosen) + step + choices.length) % choices.length]);
            else return;
            event.preventDefault();
            event.stopPropagation();
        });
        size.addEventListener('input', refresh);
        this.float.show(pixel, [form], () => {
            this.store.light([]);
            this.waiting = [];
        });
        choose(chosen);
        size.focus();
        size.select();
    }

    /**
     * Asks for some pairs, one after another: the field opens between the two.
     * @param {[string, string][]} pairs
     */
    measure(pairs) {
        const [pair, ...rest] = pairs;
        if (!pair) return;
        const [a, b] = pair.map(name => this.view.middle(name) ?? /** @type {Place} */ ([80, 80]));
        this.open(pair[0], pair[1], [(a[0] + b[0]) / 2, (a[1] + b[1]) / 2]);
        this.waiting = rest;
    }
}

/**
 * Changes that write down where everything is drawn that the text does not place yet, so that it stays there.
 * @param {Store} store
 * @returns {string[]}
 */
export function anchors(store) {
    const number = (/** @type {number} */ x) => String(Math.round(x * 1000) / 1000 + 0);
    const words = (/** @type {Place} */ place) => place.map(number).join(' ');
    const placed = new Set(store.elements.filter(element => element.at || element.from).map(element => element.name));
    const found = placed.size < store.elements.length ? store.answers.places?.elements ?? [] : [];
    return found.filter((/** @type {any} */ element) => !placed.has(element.name)).map((/** @type {any} */ element) => (element.at
        ? `move ${element.name} at ${words(element.at)}`
        : `move ${element.name} from ${words(element.from)} to ${words(element.to)}`));
}
