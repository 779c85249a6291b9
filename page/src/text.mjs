// The text of the sheet, to be written in; complaints stand below it and beside their lines.

import { h } from './dom.mjs';
import { t } from './texts.mjs';
import { told } from './answers.mjs';

/** @typedef {import('./store.mjs').Store} Store */

/**
 * Fills the panel.
 * @param {HTMLElement} root
 * @param {Store} store
 */
function mount(root, store) {
    const numbers = h('pre', { class: 'numbers', 'aria-hidden': 'true' });
    const area = h('textarea', {
        id: 'text', spellcheck: 'false', autocapitalize: 'off', autocomplete: 'off', wrap: 'off',
        'aria-label': t('text.label'), 'aria-describedby': 'complaints',
    });
    const complaints = h('ol', { id: 'complaints', 'aria-label': t('text.complaints') });
    root.append(h('div', { class: 'writing' }, numbers, area), complaints);

    let counted = '';
    /** Numbers of the lines, those with a complaint marked. */
    const count = () => {
        const wrong = new Set(store.answers.errors.map((/** @type {any} */ error) => error.line));
        const all = area.value.split('\n').length;
        const now = `${all} ${[...wrong].join(' ')}`;
        if (now === counted) return;
        counted = now;
        const marked = (/** @type {number} */ line) => (wrong.has(line) ? h('span', { class: 'wrong' }, String(line)) : String(line));
        numbers.replaceChildren(...Array.from({ length: all }, (_, i) => [marked(i + 1), '\n']).flat());
        requestAnimationFrame(() => { numbers.scrollTop = area.scrollTop; });
    };

    /**
     * Goes to a line of the text.
     * @param {number} line
     * @param {number} column
     */
    const go = (line, column) => {
        const before = area.value.split('\n').slice(0, line - 1).join('\n').length + (line > 1 ? 1 : 0);
        area.focus();
        area.setSelectionRange(before + column - 1, before + column - 1);
    };

    const complain = () => {
        const errors = store.answers.errors;
        complaints.replaceChildren(...errors.map((/** @type {any} */ error) => {
            const place = error.line ? t('text.line', { line: error.line }) : t('text.sheet');
            const words = [h('b', {}, place), ' ', told([error])];
            return h('li', {}, error.line
                ? h('button', { type: 'button', onclick: () => go(error.line, error.column ?? 1) }, ...words)
                : h('span', {}, ...words));
        }));
        complaints.hidden = errors.length === 0;
        area.setAttribute('aria-invalid', String(errors.length > 0));
    };

    area.value = store.text;
    area.addEventListener('input', () => store.edit(area.value, t('page.typing'), true));
    area.addEventListener('scroll', () => { numbers.scrollTop = area.scrollTop; });
    store.subscribe((_, what) => {
        if (!what.has('text')) return;
        if (area.value !== store.text) area.value = store.text;
        count();
        complain();
    });
    count();
    complain();
}

export const textPanel = { id: 'text', title: t('text.title'), mount };
