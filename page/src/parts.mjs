// The parts: each rigid part with its colour, its elements and what it rests on; what two of them share, and the chain
// from one element to another. All of it is the command's: check, shared and chain.

import { h } from './dom.mjs';
import { t } from './texts.mjs';
import { told } from './answers.mjs';
import { Lamp } from './lamp.mjs';

/**
 * @typedef {import('./store.mjs').Store} Store
 * @typedef {import('./store.mjs').Lit} Lit
 * @typedef {{number: number, holds: string[], rests_on: number[]}} Part
 */

/**
 * A part as it is lit.
 * @param {Part} part
 * @param {string} role
 * @returns {Lit}
 */
export function litPart(part, role) {
    return { role, elements: part.holds, constraints: part.rests_on };
}

/** The panel of the parts. */
class Parts {
    /**
     * @param {HTMLElement} root
     * @param {Store} store
     */
    constructor(root, store) {
        this.store = store;
        /**
         * The parts that are picked, by number.
         * @type {number[]}
         */
        this.picked = [];
        /**
         * The part whose row the mouse or the focus is on.
         * @type {number | null}
         */
        this.near = null;
        this.lamp = new Lamp(store, 'parts');
        this.list = h('table', { class: 'rows', 'aria-label': t('parts.title') });
        this.detail = h('section', { class: 'detail', id: 'part-detail', 'aria-live': 'polite' });
        root.append(h('p', { class: 'hint' }, t('parts.hint')), this.list, this.detail);
        store.subscribe((_, what) => {
            if (what.has('text')) this.picked = [];
            if (what.has('text') || what.has('panel')) this.refresh();
            else if (what.has('hover') || what.has('selection')) this.tell();
        });
        this.refresh();
    }

    get open() {
        return this.store.panel === 'parts';
    }

    /**
     * The parts that are left.
     * @returns {Part[]}
     */
    get parts() {
        return this.store.good.quick.clusters ?? [];
    }

    /** Lists the parts. */
    refresh() {
        if (!this.open) {
            this.light([]);
            return;
        }
        this.near = null;
        this.list.replaceChildren(h('tbody', {}, ...this.parts.map(part => this.row(part))));
        this.tell();
    }

    /**
     * The colour that the drawing gives a part.
     * @param {Part} part
     * @returns {string}
     */
    colour(part) {
        const scene = this.store.good.json(['scene', '@', '--labels', 'none']).answer;
        return scene?.constraints[part.rests_on[0]]?.colour ?? '';
    }

    /**
     * The row of a part.
     * @param {Part} part
     */
    row(part) {
        const near = () => this.approach(part.number);
        const pick = h('button', {
            type: 'button', class: 'pick', 'aria-pressed': String(this.picked.includes(part.number)), 'data-part': part.number,
            onclick: () => this.pick(part.number), onfocus: near,
        }, t('parts.part', { number: part.number }));
        return h('tr', { onmouseenter: near, onmouseleave: () => this.approach(null) },
            h('td', {}, h('span', { class: 'swatch', style: `background:${this.colour(part)}` })),
            h('th', { scope: 'row' }, pick),
            h('td', {}, part.holds.join(' ')),
            h('td', { class: 'soft' }, t('parts.rests', { count: part.rests_on.length })));
    }

    /**
     * The mouse or the focus is on a part, or on none.
     * @param {number | null} number
     */
    approach(number) {
        if (this.near === number) return;
        this.near = number;
        this.tell();
    }

    /**
     * Picks a part, or lets it go; of three the first is let go.
     * @param {number} number
     */
    pick(number) {
        this.picked = this.picked.includes(number) ? this.picked.filter(other => other !== number) : [...this.picked, number].slice(-2);
        for (const button of this.list.querySelectorAll('button')) {
            button.setAttribute('aria-pressed', String(this.picked.includes(Number(button.dataset.part))));
        }
        this.near = null;
        this.tell();
    }

    /** @param {Lit[]} lit */
    light(lit) {
        this.lamp.light(lit);
    }

    /** Tells of what the mouse is on, of two elements or of what is picked, and lights it. */
    tell() {
        if (!this.open) return;
        const { selection, hover } = this.store;
        const near = this.parts.filter(part => part.number === this.near);
        const over = near.length > 0 ? near : this.under(hover);
        if (over.length > 0) this.tellParts(over);
        else if (selection.size === 2) this.tellChain([...selection]);
        else if (this.picked.length === 2) this.tellShared();
        else if (this.picked.length === 1) this.tellParts(this.parts.filter(part => part.number === this.picked[0]));
        else this.say([], this.parts.length === 0 ? [h('p', {}, this.none())] : []);
    }

    /** Why there are no parts, in the command's words. */
    none() {
        const { errors } = this.store.good.json(['plan', '@']);
        return errors.length > 0 ? told(errors) : t('parts.none');
    }

    /**
     * The parts of what the mouse is on in the drawing.
     * @param {import('./store.mjs').Hover} hover
     */
    under(hover) {
        if (!hover) return [];
        return this.parts.filter(part => ('element' in hover ? part.holds.includes(hover.element) : part.rests_on.includes(hover.constraint)));
    }

    /**
     * Shows something, and lights it.
     * @param {Lit[]} lit
     * @param {Node[]} nodes
     */
    say(lit, nodes) {
        this.detail.replaceChildren(...nodes);
        this.light(lit);
    }

    /**
     * Tells of parts: their elements, and what they rest on.
     * @param {Part[]} parts
     */
    tellParts(parts) {
        this.say(parts.map(part => litPart(part, 'hover')), parts.flatMap(part => this.told(part)));
    }

    /**
     * A part in words.
     * @param {Part} part
     */
    told(part) {
        const { constraints } = this.store.good.show;
        return [
            h('h3', {}, t('parts.part', { number: part.number })),
            h('p', {}, part.holds.join(' ')),
            h('h4', {}, t('parts.on')),
            h('ul', { class: 'statements' }, ...part.rests_on.map(k => h('li', { value: k }, constraints[k].text))),
        ];
    }

    /** Tells what two parts share. */
    tellShared() {
        const [one, two] = this.picked;
        const { answer, errors } = this.store.good.json(['shared', '@', String(one), String(two)]);
        if (!answer) return this.say([], [h('p', {}, told(errors))]);
        const lit = answer.clusters.map((/** @type {Part} */ part) => litPart(part, 'hover'));
        const { out } = this.store.good.ask(['shared', '@', String(one), String(two)]);
        return this.say([...lit, { role: 'shared', elements: answer.shared }], [
            h('h3', {}, t('parts.share', { one, two })), h('p', { class: 'shared' }, out.trim()),
        ]);
    }

    /**
     * Tells the chain from one element to another.
     * @param {string[]} ends
     */
    tellChain([from, to]) {
        const { answer, errors } = this.store.good.json(['chain', '@', from, to]);
        if (!answer) return this.say([], [h('p', {}, told(errors))]);
        const { out } = this.store.good.ask(['chain', '@', from, to]);
        const run = (answer.clusters ?? []).map((/** @type {Part} */ part) => litPart(part, 'hover'));
        const lit = [...run, { role: 'shared', elements: [from, to] }];
        return this.say(lit, [h('h3', {}, t('parts.chain', { from, to })), h('pre', { class: 'chain' }, out.trimEnd())]);
    }
}

export const partsPanel = {
    id: 'parts',
    title: t('parts.title'),
    /** @type {(root: HTMLElement, store: Store) => void} */
    mount: (root, store) => void new Parts(root, store),
};
