// The verdict, always in sight: its name, the command's words, and the advice that was tried, each piece a button.

import { afterPaint, byId, h } from './dom.mjs';
import { t } from './texts.mjs';
import { MOST_AT_ONCE, told } from './answers.mjs';

/**
 * @typedef {import('./store.mjs').Store} Store
 * @typedef {import('./store.mjs').Lit} Lit
 * @typedef {import('./dimension.mjs').Dimension} Dimension
 * @typedef {{leave_out: number[], new_point: {name: string, on: [string, string]} | null, measure: [string, string][],
 *   price: number, verdict: string}} Change
 * A piece of advice: its words, the verdict that it gives, what it lights, and what it does. Of several measurements,
 * which give the verdict together, each is a piece of its own.
 * @typedef {{says: string, then: string, lit: Lit[], run: () => void, each?: Piece[]}} Piece
 */

/** A sign for each verdict, so that no one needs its colour. */
const SIGNS = /** @type {Record<string, string>} */ ({ well: '✓', under: '↔', over: '!', stuck: '×', angle: '∠', refused: '?' });

/** The strip with the verdict. */
export class Verdict {
    /**
     * @param {Store} store
     * @param {Dimension} dimension
     */
    constructor(store, dimension) {
        this.store = store;
        this.dimension = dimension;
        this.root = byId('verdict');
        this.all = false;
        /** @type {HTMLElement[]} */
        this.buttons = [];
        this.badge = h('strong', { class: 'badge big' });
        this.lead = h('p', { class: 'lead' });
        this.more = h('button', { type: 'button', class: 'plain more', 'aria-controls': 'words', onclick: () => this.unfold(!this.all) });
        this.words = h('pre', { id: 'words', hidden: true });
        this.pieces = h('div', { class: 'pieces', role: 'group', 'aria-label': t('verdict.advice') });
        this.root.append(h('div', { class: 'line' }, this.badge, this.lead, this.more), this.pieces, this.words);
        store.subscribe((_, what) => what.has('text') && this.refresh());
        this.refresh();
        new ResizeObserver(() => this.fit()).observe(this.root);
        // the pieces behind one more are put away by a click elsewhere, or by Escape
        const shut = (/** @type {Event} */ event) => {
            const open = this.pieces.querySelector('details[open]');
            if (!open || (event.type === 'pointerdown' && open.contains(/** @type {Node} */ (event.target)))) return;
            open.removeAttribute('open');
            if (event.type === 'keydown') event.preventDefault();
        };
        document.addEventListener('pointerdown', shut, true);
        this.pieces.addEventListener('keydown', event => event.key === 'Escape' && shut(event));
    }

    /**
     * Shows all words, or the first line alone.
     * @param {boolean} all
     */
    unfold(all) {
        this.all = all;
        this.words.hidden = !all;
        this.more.setAttribute('aria-expanded', String(all));
        this.more.textContent = all ? t('verdict.less') : t('verdict.more');
    }

    /** Says the verdict, and then, at once or where the sheet is large once that is on the screen, what to change. */
    refresh() {
        const { answers } = this.store;
        const wait = this.store.elements.length > MOST_AT_ONCE;
        this.root.setAttribute('aria-busy', String(wait));
        this.say(wait ? answers.quick : answers.check);
        if (!wait) return;
        afterPaint(() => {
            if (this.store.answers !== answers) return;
            this.say(answers.check);
            this.root.setAttribute('aria-busy', 'false');
        });
    }

    /**
     * Says what is found of the text.
     * @param {any} found
     */
    say(found) {
        const lines = found.errors ? told(found.errors).split('\n') : found.words;
        const { few } = this.store;
        const name = found.status === 'refused' ? t(few ? 'verdict.few' : 'verdict.refused') : found.status;
        this.root.dataset.verdict = found.status;
        this.badge.dataset.verdict = found.status;
        this.badge.replaceChildren(h('span', { 'aria-hidden': 'true' }, `${SIGNS[found.status] ?? '?'} `), name);
        const line = found.errors?.[0]?.line;
        this.lead.replaceChildren(line ? `${t('text.line', { line })}: ` : '', lines[0] ?? '');
        this.words.textContent = lines.join('\n');
        this.more.hidden = lines.length < 2;
        this.unfold(this.all && lines.length > 1);
        const pieces = found.advice ? this.advice(found.advice) : [];
        this.buttons = this.shown(pieces);
        const [warned] = found.warnings ?? [];
        const none = few ? 'verdict.none_few' : found.status === 'well' ? 'verdict.none_well' : 'verdict.none_other';
        if (warned) this.buttons.unshift(h('span', { class: 'warning' }, warned));
        else if (pieces.length === 0) this.buttons = [h('span', { class: 'quiet' }, t(none))];
        this.fit();
    }

    /** Puts as many pieces in the line as have room; the others stand behind one more. */
    fit() {
        const rest = h('div', { class: 'menu' });
        const others = h('details', { class: 'others' }, h('summary', {}), rest);
        this.pieces.replaceChildren(...this.buttons, others);
        const behind = () => {
            others.hidden = rest.childElementCount === 0;
            others.children[0].textContent = t('verdict.others', { count: rest.childElementCount });
        };
        behind();
        for (let k = this.buttons.length - 1; k > 0 && this.pieces.scrollWidth > this.pieces.clientWidth; k -= 1) {
            rest.prepend(this.buttons[k]);
            behind();
        }
    }

    /**
     * The pieces as buttons.
     * @param {Piece[]} pieces
     * @returns {HTMLElement[]}
     */
    shown(pieces) {
        const verdict = (/** @type {string} */ then) => h('small', { 'data-verdict': then }, t('verdict.then', { verdict: then }));
        const plain = (/** @type {Piece} */ { says, lit, run }, /** @type {HTMLElement | false} */ more) => {
            const light = () => this.store.light(lit);
            const dark = () => this.store.light([]);
            return h('button', {
                type: 'button', class: 'piece', onclick: () => { dark(); run(); },
                onpointerenter: light, onpointerleave: dark, onfocus: light, onblur: dark,
            }, says, more && ' ', more);
        };
        const button = (/** @type {Piece} */ piece) => (piece.each
            ? h('span', { class: 'several', role: 'group', 'aria-label': piece.says },
                h('span', {}, t('verdict.several')), ...piece.each.map(one => plain(one, false)), verdict(piece.then))
            : plain(piece, verdict(piece.then)));
        return pieces.map(button);
    }

    /**
     * The advice as pieces: what was tried and gives the best verdict first.
     * @param {any} advice
     * @returns {Piece[]}
     */
    advice({ too_many: tooMany, cheapest, change }) {
        /** @type {Piece[]} */
        const pieces = [];
        const seen = new Set();
        const add = (/** @type {Piece} */ piece) => {
            if (!seen.has(piece.says)) pieces.push(piece);
            seen.add(piece.says);
        };
        if (change && this.swaps(change)) add(this.piece(change));
        for (const extra of tooMany) {
            for (const { constraint, statement, verdict } of extra.choices) add(this.leaveOut(constraint, statement, verdict));
        }
        for (const found of [change, cheapest]) {
            if (found && found.leave_out.length === 0 && !found.new_point) add(this.piece(found));
        }
        return pieces;
    }

    /**
     * Whether a change takes something out, or puts a point in, and measures for it.
     * @param {Change} change
     */
    swaps(change) {
        return change.new_point !== null || change.leave_out.length > 1
            || (change.leave_out.length > 0 && change.measure.length > 0);
    }

    /**
     * Leaving one dimension out.
     * @param {number} number
     * @param {string} statement
     * @param {string} verdict
     * @returns {Piece}
     */
    leaveOut(number, statement, verdict) {
        const [a, b] = this.store.constraints[number].ends;
        const label = t('verdict.leave', { what: statement });
        return {
            says: label, then: verdict, lit: [{ role: 'out', constraints: [number], elements: [a, b] }],
            run: () => void this.store.change([`remove ${a} ${b}`], label),
        };
    }

    /**
     * A change as a whole: what goes, the point that is put in, and what is measured, which opens its field.
     * @param {Change} change
     * @returns {Piece}
     */
    piece(change) {
        const { leave_out: out, new_point: point, measure, verdict } = change;
        const { constraints } = this.store;
        const pairs = measure.map(pair => pair.join(' ')).join(', ');
        const words = [
            out.length > 0 && t('verdict.leave', { what: out.map(k => constraints[k].text).join(', ') }),
            point && t('verdict.put', { name: point.name, a: point.on[0], b: point.on[1] }),
            measure.length > 0 && t('verdict.measure', { pairs }),
        ].filter(word => word).join(t('verdict.and'));
        const says = words.charAt(0).toUpperCase() + words.slice(1);
        const single = (/** @type {[string, string]} */ pair) => ({
            says: pair.join(' '), then: verdict, lit: [{ role: 'asked', elements: pair }], run: () => this.dimension.measure([pair]),
        });
        return {
            says, then: verdict, each: out.length === 0 && !point && measure.length > 1 ? measure.map(single) : undefined,
            lit: [{ role: 'out', constraints: out }, { role: 'asked', elements: [...measure.flat(), ...(point?.on ?? [])] }],
            run: () => {
                const gone = out.map(k => `remove ${constraints[k].ends.join(' ')}`);
                const put = point ? [`point ${point.name}`, `on ${point.name} ${point.on[0]}`, `on ${point.name} ${point.on[1]}`] : [];
                const done = gone.length + put.length === 0 || this.store.change([...gone, ...put], says);
                if (done) this.dimension.measure(measure);
            },
        };
    }
}
