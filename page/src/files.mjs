// Files: a sheet in text or in bytes and a saved plan are opened, and everything is saved as the command writes it. What
// is refused is told in the command's words, and what was drawn stays.

import { h } from './dom.mjs';
import { t } from './texts.mjs';
import { told } from './answers.mjs';
import { save } from './save.mjs';
import { takePlan } from './plan.mjs';
import { printAlways, printSheet } from './print.mjs';

/**
 * @typedef {import('./store.mjs').Store} Store
 * @typedef {{name: string, bytes: Uint8Array}} Content
 */

/** The most that is read of a file, in bytes: twice what the command reads. */
const MOST = 2 << 20;

/** The highest exit status with which the command has done what was asked. */
const DONE = 1;

/** What can be saved: the ending of the file, and the command's words for it; of the text there are none. */
const FORMS = [
    { id: 'text', ending: 'txt', words: null },
    { id: 'sheet', ending: 'sheet', words: ['make', '@'] },
    { id: 'plan', ending: 'plan', words: ['plan', '@'] },
    { id: 'svg', ending: 'svg', words: ['draw', '@'] },
    { id: 'dxf', ending: 'dxf', words: ['place', '--dxf', '@'] },
    { id: 'report', ending: 'report.txt', words: ['report', '@'] },
];

/**
 * The contents of files that were chosen or dropped, as much of each as counts; what cannot be read is told.
 * @param {Store} store
 * @param {Iterable<File>} files
 * @returns {Promise<Content[]>}
 */
async function read(store, files) {
    const contents = [];
    for (const file of files) {
        try {
            // no command takes it for an option
            contents.push({ name: file.name.replace(/^-+/, ''), bytes: new Uint8Array(await file.slice(0, MOST).arrayBuffer()) });
        } catch (error) {
            store.notify({ title: t('files.refused', { name: file.name }), lines: [error instanceof Error ? error.message : String(error)] });
        }
    }
    return contents;
}

/**
 * Opens a file: a saved plan by the ending of its name, else a sheet.
 * @param {Store} store
 * @param {Content} content
 */
export function open(store, content) {
    if (content.name.endsWith('.plan')) openPlan(store, content);
    else openSheet(store, content);
}

/**
 * Opens a sheet, or tells why not.
 * @param {Store} store
 * @param {Content} content
 */
function openSheet(store, { name, bytes }) {
    const title = name.replace(/\.[^.]*$/, '');
    const { answer, errors } = store.engine.answer(['show', '--json', name], { [name]: bytes }).json;
    const text = textOf(bytes);
    if (answer) {
        const form = text ?? store.engine.answer(['show', name], { [name]: bytes }).out;
        store.open(form, title, t('files.opening', { name }));
        store.say(t('files.opened', { name }));
        return;
    }
    const mend = { label: t('files.mend'), run: () => store.open(text ?? '', title, t('files.opening', { name })) };
    const plan = { label: t('files.asPlan'), run: () => openPlan(store, { name, bytes }) };
    store.notify({
        title: t('files.refused', { name }),
        lines: errors.map((/** @type {any} */ error) => placed(error)),
        actions: [...(text !== null && bytes.length < MOST / 2 ? [mend] : []), plan],
    });
}

/**
 * A complaint as the command prints it: behind the file, the line and the column.
 * @param {any} error
 */
function placed(error) {
    const place = [error.file, error.line, error.column].filter(part => part !== null).join(':');
    return place ? `${place}: ${told([error])}` : told([error]);
}

/**
 * The text that some bytes are, or null where they are a sheet in bytes or no text.
 * @param {Uint8Array} bytes
 */
function textOf(bytes) {
    try {
        const text = new TextDecoder('utf-8', { fatal: true }).decode(bytes);
        return text.startsWith('PF0') || text === '' ? null : text;
    } catch {
        return null;
    }
}

/**
 * Takes a saved plan beside the sheet, where it is checked step by step, or tells why it is none.
 * @param {Store} store
 * @param {Content} plan
 */
function openPlan(store, plan) {
    const name = plan.name === store.file ? `${plan.name}.plan` : plan.name;
    const { answer, errors } = store.good.json(['verify', '--words', '@', name], { [name]: plan.bytes });
    if (answer) takePlan(store, plan);
    else store.notify({ title: t('files.refused', { name: plan.name }), lines: errors.map(placed) });
}

/**
 * Saves the sheet in one of the forms, or tells why not.
 * @param {Store} store
 * @param {string} id
 */
export function saveAs(store, id) {
    const form = FORMS.find(known => known.id === id) ?? FORMS[0];
    const name = `${store.name}.${form.ending}`;
    if (!form.words) {
        save(name, store.text);
        store.say(t('files.savedAs', { name }));
        return;
    }
    const to = id === 'report' ? [] : ['-o', name];
    const { exit, out, files, notes } = store.answers.ask([...form.words, ...to]);
    const lines = notes.map(line => line.replace(/^pattern: /, ''));
    if (exit > DONE) {
        store.notify({ title: t('files.unsaved', { name }), lines });
        return;
    }
    save(name, files?.[name] ?? out);
    store.say([t('files.savedAs', { name }), ...lines].join(' '));
}

/**
 * Asks for a file, and opens it.
 * @param {Store} store
 * @param {(store: Store, content: Content) => void} take
 */
function choose(store, take) {
    const input = h('input', { type: 'file', class: 'unseen', tabindex: -1, 'aria-label': t('files.open'), oncancel: () => input.remove() });
    input.addEventListener('change', async () => {
        (await read(store, input.files ?? [])).forEach(content => take(store, content));
        input.remove();
    });
    document.body.append(input);
    input.click();
}

/**
 * Files that are dropped on the page are opened.
 * @param {Store} store
 */
function takeDrops(store) {
    const over = (/** @type {boolean} */ on) => document.body.classList.toggle('dropping', on);
    document.addEventListener('dragover', event => {
        if (!event.dataTransfer?.types.includes('Files')) return;
        event.preventDefault();
        over(true);
    });
    document.addEventListener('dragleave', event => { if (!event.relatedTarget) over(false); });
    document.addEventListener('drop', async event => {
        over(false);
        const files = [...event.dataTransfer?.files ?? []];
        if (files.length === 0) return;
        event.preventDefault();
        // sheets before plans: a plan is checked beside the sheet that came with it
        const contents = await read(store, files);
        contents.sort((a, b) => Number(a.name.endsWith('.plan')) - Number(b.name.endsWith('.plan')));
        contents.forEach(content => open(store, content));
    });
}

/**
 * Fills the panel.
 * @param {HTMLElement} root
 * @param {Store} store
 */
function mount(root, store) {
    takeDrops(store);
    printAlways(store);
    const name = h('input', { id: 'sheet-name', type: 'text', 'aria-label': t('files.name'), spellcheck: 'false', autocomplete: 'off' });
    name.addEventListener('change', () => {
        store.rename(name.value);
    });
    const form = (/** @type {{id: string, ending: string}} */ { id, ending }) => h('tr', {},
        h('th', { scope: 'row' }, h('button', { type: 'button', id: `save-${id}`, onclick: () => saveAs(store, id) }, t(`files.${id}`))),
        h('td', { class: 'soft' }, `.${ending}`), h('td', {}, t(`files.${id}Says`)));
    root.append(
        h('h3', {}, t('files.openTitle')),
        h('p', {}, h('button', { type: 'button', id: 'open-sheet', onclick: () => choose(store, open) }, t('files.openSheet')), ' ',
            h('button', { type: 'button', id: 'open-plan', onclick: () => choose(store, openPlan) }, t('files.openPlan'))),
        h('p', { class: 'drop' }, t('files.drop')),
        h('h3', {}, t('files.saveTitle')),
        h('p', {}, h('label', { for: 'sheet-name' }, t('files.name')), ' ', name),
        h('table', { class: 'rows forms' }, h('tbody', {}, ...FORMS.map(form))),
        h('h3', {}, t('files.printTitle')),
        h('p', {}, h('button', { type: 'button', id: 'print', onclick: () => printSheet(store) }, t('files.print')), ' ', t('files.printSays')));
    const refresh = () => { name.value = store.name; };
    store.subscribe((_, what) => what.has('text') && refresh());
    refresh();
}

export const filesPanel = {
    id: 'files',
    title: t('files.title'),
    mount,
    actions: [
        { id: 'open', label: t('files.open'), key: 'Ctrl+O', run: (/** @type {Store} */ store) => choose(store, open) },
        { id: 'save', label: t('files.save'), key: 'Ctrl+S', run: (/** @type {Store} */ store) => saveAs(store, 'text') },
        { id: 'print', label: t('files.print'), key: 'Ctrl+P', run: (/** @type {Store} */ store) => printSheet(store) },
    ],
};
