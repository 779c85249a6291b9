// The field for the name of an element, and for the radius of a circle.

import { h } from './dom.mjs';
import { t } from './texts.mjs';

/**
 * @typedef {import('./store.mjs').Store} Store
 * @typedef {import('./float.mjs').Float} Float
 * @typedef {[number, number]} Place
 */

/**
 * Opens the field for the name of an element.
 * @param {Store} store
 * @param {Float} float
 * @param {string} name
 * @param {Place} pixel
 */
export function rename(store, float, name, pixel) {
    const field = h('input', { type: 'text', value: name, 'aria-label': t('draw.name'), autocomplete: 'off' });
    const radius = store.elements.find(element => element.name === name)?.radius;
    const before = radius === undefined ? '' : (radius / 10).toFixed(1);
    const size = radius === undefined ? null
        : h('input', { type: 'text', id: 'radius', value: before, 'aria-label': t('draw.size'), autocomplete: 'off' });
    const wrong = h('p', { class: 'wrong', role: 'alert' });
    const form = h('form', { class: 'naming', 'aria-label': t('draw.rename', { name }) },
        h('p', { class: 'statement' }, t('draw.rename', { name })), h('div', { class: 'row' }, field),
        size && h('label', { class: 'row' }, t('draw.size'), size, h('span', { class: 'unit' }, 'mm')), wrong,
        h('button', { type: 'submit', class: 'unseen' }, t('draw.name')));
    form.addEventListener('submit', event => {
        event.preventDefault();
        const to = field.value.trim();
        const wanted = size?.value.trim() ?? '';
        const plain = /^[0-9]+(\.[0-9]*)?$/.test(wanted) ? `${wanted} mm` : wanted;
        const changes = [...(wanted !== before ? [`radius ${name} ${plain}`] : []), ...(to !== name ? [`rename ${name} ${to}`] : [])];
        if (changes.length > 0 && !store.change(changes, t('draw.renamed', { name, to }))) {
            wrong.textContent = store.message;
            return;
        }
        store.select([to]);
        float.close();
    });
    form.addEventListener('keydown', event => {
        if (event.key !== 'Escape') return;
        event.preventDefault();
        event.stopPropagation();
        float.close();
    });
    store.select([name]);
    float.show(pixel, [form]);
    field.focus();
    field.select();
}
