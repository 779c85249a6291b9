// For the training room: why a verdict is what it is, in the guide's words; the guide's examples; the card of five points.

import { h } from './dom.mjs';
import { t } from './texts.mjs';
import { guide, told } from './guide.mjs';
import { openCard } from './card.mjs';

/** @typedef {import('./store.mjs').Store} Store */

/**
 * Opens an example.
 * @param {Store} store
 * @param {string} name
 */
function openExample(store, name) {
    const example = guide().examples.find(known => known.name === name);
    if (example) store.open(example.text, example.name, t('training.opening', { title: example.title }));
}

/**
 * The examples by the headings of the guide.
 * @param {(name: string) => void} open
 */
function examples(open) {
    const headings = [...new Set(guide().examples.map(example => example.heading))];
    return headings.map(heading => h('section', {}, h('h4', {}, heading), h('ul', { class: 'examples' },
        ...guide().examples.filter(example => example.heading === heading).map(example => h('li', {},
            h('button', { type: 'button', 'data-example': example.name, onclick: () => open(example.name) }, example.title))))));
}

/**
 * Fills the panel.
 * @param {HTMLElement} root
 * @param {Store} store
 */
function mount(root, store) {
    const open = (/** @type {string} */ name) => openExample(store, name);
    const why = h('section', { id: 'why', 'aria-live': 'polite' });
    root.append(
        h('p', {}, h('button', { type: 'button', id: 'open-card', onclick: () => openCard(store) }, t('training.card')), ' ', t('training.cardSays')),
        h('details', { open: true }, h('summary', {}, t('training.why')), why),
        h('details', { open: true, id: 'examples' }, h('summary', {}, t('training.examples')), ...examples(open)));
    const refresh = () => {
        if (store.panel !== 'training') return;
        const { verdicts, chapters } = guide();
        const { verdict, check } = store.answers;
        const section = verdicts[verdict] ?? chapters.refused;
        const more = verdicts[verdict] ? [...(check.warnings?.length > 0 ? [chapters.warnings] : []), chapters.count] : [];
        why.replaceChildren(...[section, ...more].flatMap(part =>
            [h('h3', { 'data-verdict': verdict }, part.title), ...told(part, open)]));
    };
    store.subscribe((_, what) => (what.has('text') || what.has('panel')) && refresh());
    refresh();
}

export const trainingPanel = { id: 'training', title: t('training.title'), mount };
