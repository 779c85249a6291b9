// The plan: its steps one by one, as the bench lights them; one part's steps for the saw; the report; and a saved plan
// that is checked step by step beside the sheet. All of it is the command's: plan, verify, part and report.

import { h } from './dom.mjs';
import { t } from './texts.mjs';
import { told } from './answers.mjs';
import { Lamp } from './lamp.mjs';
import { litPart } from './parts.mjs';
import { save } from './save.mjs';

/**
 * @typedef {import('./store.mjs').Store} Store
 * @typedef {import('./store.mjs').Lit} Lit
 * @typedef {import('./parts.mjs').Part} Part
 * @typedef {{from: number[], joint: string[]}} Merge
 * @typedef {{made: number, from: number[], joint: string[], kind: string, ways: number | null, place: number,
 *   words: string, next_words: string, parts: Part[], built: {holds: string[], rests_on: number[]}, next: Merge[]}} Step
 * @typedef {{step: number | null, from: number[] | null, parts: Part[], errors: any[]}} Refused
 */

/** Between two steps that are played, in milliseconds. */
const PACE = 1400;

/**
 * The plan that was saved and is looked at beside the sheet.
 * @type {{name: string, bytes: Uint8Array} | null}
 */
let saved = null;

/**
 * Takes a saved plan beside the sheet, or puts it away.
 * @param {Store} store
 * @param {{name: string, bytes: Uint8Array} | null} plan
 */
export function takePlan(store, plan) {
    // no plan has the name of the sheet
    saved = plan && { ...plan, name: plan.name === store.file ? `${plan.name}.plan` : plan.name };
    store.show('plan');
}

/** The panel of the plan. */
class Plan {
    /**
     * @param {HTMLElement} root
     * @param {Store} store
     */
    constructor(root, store) {
        this.store = store;
        this.at = 0;
        this.lamp = new Lamp(store, 'plan');
        /** @type {ReturnType<typeof setInterval> | undefined} */
        this.playing = undefined;
        /** @type {Step[]} */
        this.steps = [];
        /** @type {Merge[]} */
        this.first = [];
        /** @type {Refused | null} */
        this.refused = null;
        /** @type {string | null} */
        this.error = null;
        const button = (/** @type {string} */ id, /** @type {string} */ sign, /** @type {() => void} */ run) =>
            h('button', { type: 'button', id: `step-${id}`, 'aria-label': t(`plan.${id}`), title: t(`plan.${id}`), onclick: run }, sign);
        this.slider = h('input', {
            type: 'range', id: 'step', min: 0, max: 0, value: 0, 'aria-label': t('plan.slider'), oninput: () => this.go(Number(this.slider.value)),
        });
        this.play = h('button', { type: 'button', id: 'step-play', onclick: () => this.toggle() }, t('plan.play'));
        this.which = h('p', { class: 'which' });
        this.bar = h('div', { class: 'stepper' }, button('back', '◀', () => this.go(this.at - 1)), this.slider,
            button('on', '▶', () => this.go(this.at + 1)), this.play);
        this.words = h('output', { id: 'step-words', for: 'step', 'aria-live': 'polite' });
        this.shown = h('div', { class: 'step' });
        this.all = h('ol', { class: 'all', 'aria-label': t('plan.all') });
        this.part = h('select', { id: 'saw', 'aria-label': t('plan.choose'), onchange: () => this.saw() });
        this.sawn = h('pre', { id: 'sawn' });
        this.report = h('pre', { id: 'report' });
        const keep = (/** @type {string} */ label, /** @type {() => void} */ run) => h('button', { type: 'button', onclick: run }, label);
        root.append(this.which, this.bar, this.words, this.shown,
            h('details', { open: true }, h('summary', {}, t('plan.all')), this.all),
            h('details', { id: 'for-saw' }, h('summary', {}, t('plan.saw')), h('p', {}, this.part, ' ',
                keep(t('plan.save'), () => save(`${store.name}-part-${this.part.value}.txt`, this.sawn.textContent ?? ''))), this.sawn),
            h('details', { id: 'for-report' }, h('summary', {}, t('plan.report')),
                h('p', {}, keep(t('plan.save'), () => save(`${store.name}.report.txt`, this.report.textContent ?? ''))), this.report));
        store.subscribe((_, what) => {
            // with another sheet the saved plan goes
            if (what.has('view')) saved = null;
            if (what.has('text') || what.has('panel') || what.has('view')) this.refresh();
            if (what.has('panel') && this.open) this.takeKeys();
        });
        this.refresh();
    }

    get open() {
        return this.store.panel === 'plan';
    }

    /** The arrow keys are the slider's, unless the keyboard is at the tabs. */
    takeKeys() {
        queueMicrotask(() => {
            const now = document.activeElement;
            if (!now || now === document.body || !now.matches(':focus-visible')) this.slider.focus({ preventScroll: true });
        });
    }

    /** Takes the plan of the text as it stands. */
    refresh() {
        if (!this.open) {
            this.stop();
            this.light([]);
            return;
        }
        const answers = this.store.good;
        const { answer, errors } = saved
            ? answers.json(['verify', '--words', '@', saved.name], { [saved.name]: saved.bytes }) : answers.json(['plan', '--words', '@']);
        this.steps = answer?.steps ?? [];
        this.first = answer?.open ?? [];
        this.refused = answer?.refused ?? null;
        this.error = errors.length > 0 ? told(errors) : null;
        this.which.replaceChildren(...this.source());
        this.slider.max = String(this.last);
        this.bar.hidden = this.last === 0;
        this.list();
        this.listParts();
        const report = saved ? answers.ask(['verify', '@', saved.name], { [saved.name]: saved.bytes }) : answers.ask(['report', '@']);
        this.report.textContent = report.out;
        const fault = saved && this.refused && this.refused.step;
        this.go(fault || Math.min(this.at, this.last));
    }

    /** The last place of the slider: the last step, or the one that is refused. */
    get last() {
        return this.steps.length + (this.refused?.step ? 1 : 0);
    }

    /** Whose plan it is. */
    source() {
        if (!saved) return [h('span', {}, t('plan.own'))];
        const away = h('button', { type: 'button', id: 'plan-away', onclick: () => takePlan(this.store, null) }, t('plan.away'));
        return [h('span', {}, t('plan.saved', { name: saved.name })), ' ', away];
    }

    /** Lists all steps. */
    list() {
        const row = (/** @type {Step} */ step, /** @type {number} */ i) => h('li', {},
            h('button', { type: 'button', 'data-step': i + 1, onclick: () => this.go(i + 1) }, step.words.replace(/^step \d+ of \d+: /, '')));
        const rows = this.steps.map(row);
        if (this.refused) {
            const words = told(this.refused.errors);
            const step = this.refused.step;
            rows.push(h('li', { class: 'refused' },
                step ? h('button', { type: 'button', 'data-step': step, onclick: () => this.go(step) }, words) : h('span', {}, words)));
        }
        this.all.replaceChildren(...rows);
    }

    /** The parts that may be chosen for the saw: what is left, then what the steps made. */
    listParts() {
        const left = (/** @type {Part[]} */ (this.store.good.quick.clusters ?? [])).map(part => [part.number, part.holds]);
        const made = this.steps.map(step => [step.made, [...new Set(step.parts.flatMap(part => part.holds))]]);
        const all = [...left, ...(saved ? [] : made)].filter(([number], i, list) => list.findIndex(([other]) => other === number) === i);
        const before = this.part.value;
        this.part.replaceChildren(...all.map(([number, holds]) =>
            h('option', { value: String(number) }, t('plan.part', { number: String(number), names: /** @type {string[]} */ (holds).join(' ') }))));
        if (all.some(([number]) => String(number) === before)) this.part.value = before;
        this.saw();
    }

    /** The steps of one part. */
    saw() {
        const number = this.part.value;
        this.sawn.textContent = number === '' ? '' : this.store.good.ask(['part', '@', number, '--words']).out || t('plan.none');
    }

    /** @param {Lit[]} lit */
    light(lit) {
        this.lamp.light(lit);
    }

    /**
     * Goes to a step; at 0 stands the whole.
     * @param {number} place
     */
    go(place) {
        this.at = Math.max(0, Math.min(this.last, place));
        if (this.at !== place) this.stop();
        this.slider.value = String(this.at);
        const step = this.steps[this.at - 1];
        const wrong = this.refused && this.at === this.steps.length + 1 ? this.refused : null;
        this.slider.setAttribute('aria-valuetext', step ? step.words : t('plan.whole'));
        for (const node of this.all.querySelectorAll('button')) {
            if (Number(node.dataset.step) === this.at) node.setAttribute('aria-current', 'step');
            else node.removeAttribute('aria-current');
        }
        if (wrong) this.showRefused(wrong);
        else if (step) this.showStep(step);
        else this.showWhole();
    }

    /** Before any step: what is open. */
    showWhole() {
        this.words.textContent = this.error ?? (this.refused && !this.refused.step ? told(this.refused.errors) : t('plan.whole'));
        this.words.classList.toggle('wrong', this.error !== null || this.refused !== null);
        this.shown.replaceChildren(...this.merges(this.first, []));
        this.light([]);
    }

    /**
     * A step: its three parts, the joint, and what is open after it.
     * @param {Step} step
     */
    showStep(step) {
        this.words.textContent = step.words;
        this.words.classList.remove('wrong');
        const lit = [{ role: 'built', elements: step.built.holds, constraints: step.built.rests_on },
            ...step.parts.map((part, i) => litPart(part, `part${i}`)), { role: 'joint', elements: step.joint }];
        const ways = step.ways === null ? t('plan.uncounted') : String(step.ways);
        this.shown.replaceChildren(this.table(step.parts),
            h('dl', {}, h('dt', {}, t('plan.joint')), h('dd', { class: 'joint' }, step.joint.join(' ')),
                h('dt', {}, t('plan.ways')), h('dd', { class: 'ways' }, ways),
                h('dt', {}, t('plan.makes')), h('dd', { class: 'makes' }, t('parts.part', { number: step.made }))),
            ...(step.next.length > 0 ? this.merges(step.next, lit) : [h('p', { class: 'next' }, step.next_words)]));
        this.light(lit);
    }

    /**
     * The step that a rule refuses.
     * @param {Refused} refused
     */
    showRefused(refused) {
        this.words.textContent = told(refused.errors);
        this.words.classList.add('wrong');
        const missing = (refused.from ?? []).filter(number => refused.parts.every(part => part.number !== number));
        const unknown = missing.length > 0 ? [h('p', {}, t('plan.unknown', { numbers: missing.join(' ') }))] : [];
        this.shown.replaceChildren(this.table(refused.parts, 'refused'), ...unknown);
        this.light(refused.parts.map(part => litPart(part, 'refused')));
    }

    /**
     * Three parts, each behind its colour, or behind one for all.
     * @param {Part[]} parts
     * @param {string} [role]
     */
    table(parts, role) {
        const constraints = this.store.good.show?.constraints ?? [];
        const said = (/** @type {Part} */ part) => (part.number < constraints.length
            ? constraints[part.number].text : t('plan.part', { number: part.number, names: part.holds.join(' ') }));
        const row = (/** @type {Part} */ part, /** @type {number} */ i) => h('tr', { 'data-part': part.number },
            h('td', {}, h('span', { class: `swatch ${role ?? `part${i}`}` })), h('td', { class: 'soft' }, part.number), h('td', {}, said(part)));
        return h('table', { class: 'rows three' }, h('tbody', {}, ...parts.map(row)));
    }

    /**
     * Merges that are open, which the mouse lights.
     * @param {Merge[]} merges
     * @param {Lit[]} lit what is lit else
     */
    merges(merges, lit) {
        if (merges.length === 0) return [];
        const item = (/** @type {Merge} */ merge) => {
            const show = () => this.light([...lit, { role: 'hover', elements: merge.joint }]);
            const hide = () => this.light(lit);
            return h('li', {}, h('button', {
                type: 'button', class: 'merge', onmouseenter: show, onmouseleave: hide, onfocus: show, onblur: hide,
            }, t('plan.merge', { joint: merge.joint.join(' '), from: merge.from.join(' ') })));
        };
        return [h('h3', {}, t('plan.open')), h('ul', { class: 'open' }, ...merges.map(item))];
    }

    /** Plays the steps, or stops. */
    toggle() {
        if (this.playing) return this.stop();
        if (this.at === this.last) this.go(0);
        this.playing = setInterval(() => (this.at < this.last ? this.go(this.at + 1) : this.stop()), PACE);
        this.play.textContent = t('plan.pause');
        this.go(this.at + 1);
    }

    stop() {
        clearInterval(this.playing);
        this.playing = undefined;
        this.play.textContent = t('plan.play');
    }
}

export const planPanel = {
    id: 'plan',
    title: t('plan.title'),
    /** @type {(root: HTMLElement, store: Store) => void} */
    mount: (root, store) => void new Plan(root, store),
};
