// The keys: every one is in a table, which the help shows and the page obeys.

import { h } from './dom.mjs';
import { t } from './texts.mjs';

/**
 * A key: how it is written ("Ctrl+Z", "?", "Delete"), its group and words in the help, and what it does. It is let
 * pass where a field is written in, unless `anywhere`. Where `run` gives false, the browser does what it would. Keys
 * that say nothing are told with another one, which is `shown` for all.
 * @typedef {{key: string, also?: string[], group: string, says: string, shown?: string, anywhere?: boolean,
 *   run: (event: KeyboardEvent) => boolean | void}} Key
 */

/** @type {Key[]} */
const KEYS = [];

/**
 * Adds keys to the table.
 * @param {...Key} keys
 */
export function bind(...keys) {
    KEYS.push(...keys);
}

/**
 * How the key of an event is written.
 * @param {KeyboardEvent} event
 */
function written(event) {
    const named = event.key === ' ' ? 'Space' : event.key;
    const key = named.length === 1 ? named.toUpperCase() : named;
    const shift = event.shiftKey && (named.length > 1 || /[A-Z]/.test(key));
    const control = event.ctrlKey || event.metaKey;
    return `${control ? 'Ctrl+' : ''}${event.altKey ? 'Alt+' : ''}${shift ? 'Shift+' : ''}${key}`;
}

/**
 * Whether a field is written in.
 * @param {EventTarget | null} target
 */
function writing(target) {
    return target instanceof HTMLElement
        && (target.matches('textarea, select, [contenteditable]') || target.matches('input:not([type=range]):not([type=checkbox])'));
}

/** Obeys the keys of the table. */
export function obey() {
    document.addEventListener('keydown', event => {
        if (event.defaultPrevented || event.isComposing || document.querySelector('dialog[open]')) return;
        const key = written(event);
        const found = KEYS.find(known => (known.key === key || known.also?.includes(key))
            && (known.anywhere || !writing(event.target)));
        if (found && found.run(event) !== false) event.preventDefault();
    });
}

/** The help: all keys by their groups. */
function help() {
    const groups = [...new Set(KEYS.map(key => key.group))];
    const row = (/** @type {Key} */ key) => h('tr', {},
        h('th', { scope: 'row' }, ...keyed(key.shown ?? key.key), ...(key.also ?? []).flatMap(other => [' ', ...keyed(other)])),
        h('td', {}, key.says));
    const table = (/** @type {string} */ group) => h('section', {},
        h('h3', {}, group), h('table', {}, h('tbody', {}, ...KEYS.filter(key => key.group === group && key.says).map(row))));
    return groups.map(table);
}

/**
 * A key as it stands in the help.
 * @param {string} key
 */
function keyed(key) {
    return key.split(/(?<=.)\+/).map(part => h('kbd', {}, part));
}

/** Shows the help over the page, or takes it away. */
export function toggleHelp() {
    const shown = /** @type {HTMLDialogElement | null} */ (document.querySelector('dialog.help'));
    if (shown) {
        shown.close();
        return;
    }
    const close = h('button', { type: 'button', class: 'plain', onclick: () => dialog.close() }, t('keys.close'));
    const dialog = h('dialog', { class: 'help', 'aria-labelledby': 'help-title', onclose: () => dialog.remove() },
        h('header', {}, h('h2', { id: 'help-title' }, t('keys.title')), close),
        h('p', {}, t('keys.mouse')),
        h('div', { class: 'columns' }, ...help()));
    document.body.append(dialog);
    dialog.showModal();
}
