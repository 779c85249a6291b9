// The page: starts the engine, opens the sheet that was kept, and puts drawing, verdict and panels around the store.

import { open } from './engine.mjs';
import { Store, kept } from './store.mjs';
import { PANELS } from './panels.mjs';
import { bind, obey, toggleHelp } from './keys.mjs';
import { byId, h } from './dom.mjs';
import { t } from './texts.mjs';
import { FIRST } from './first.mjs';
import { View } from './view.mjs';
import { Float } from './float.mjs';
import { Dimension } from './dimension.mjs';
import { Verdict } from './verdict.mjs';
import { Hand } from './hand.mjs';
import { rail, tools } from './tools.mjs';

/**
 * The top: the name of the sheet, undo and redo; `#files` is for what opens and saves.
 * @param {Store} store
 */
function top(store) {
    const undo = h('button', { type: 'button', id: 'undo', onclick: () => store.undo() }, '↶');
    const redo = h('button', { type: 'button', id: 'redo', onclick: () => store.redo() }, '↷');
    const name = h('span', { id: 'name' });
    const help = h('button', { type: 'button', id: 'help', class: 'plain', onclick: toggleHelp }, t('page.help'), ' ', h('kbd', {}, '?'));
    byId('top').append(h('h1', {}, t('page.title')), name, undo, redo,
        h('div', { id: 'files', role: 'group' }), help);
    const refresh = () => {
        const { undoes, redoes } = store;
        undo.disabled = undoes === null;
        redo.disabled = redoes === null;
        const words = [undoes ? t('page.undoes', { what: undoes }) : t('page.undo'),
            redoes ? t('page.redoes', { what: redoes }) : t('page.redo')];
        [undo, redo].forEach((button, i) => {
            button.title = words[i];
            button.setAttribute('aria-label', words[i]);
        });
        name.textContent = store.name;
        document.title = `${store.name} · ${t('page.title')}`;
    };
    store.subscribe((_, what) => what.has('text') && refresh());
    refresh();
    for (const { id, label, key, run } of PANELS.flatMap(panel => panel.actions ?? [])) {
        const act = () => run(store, store.engine);
        byId('files').append(h('button', { type: 'button', id: `act-${id}`, title: key, onclick: act }, label));
        if (key) bind({ key, group: t('keys.files'), says: label, anywhere: key.includes('+'), run: act });
    }
}

/**
 * What the user must see, over the page until it is closed.
 * @param {Store} store
 */
function notices(store) {
    const box = h('section', { id: 'notice', role: 'alert', hidden: true });
    document.body.append(box);
    const close = () => {
        store.notify(null);
        byId('canvas').focus();
    };
    const refresh = () => {
        const notice = store.notice;
        box.hidden = !notice;
        if (!notice) return;
        const actions = (notice.actions ?? []).map(({ label, run }) => h('button', { type: 'button', onclick: () => { close(); run(); } }, label));
        const shut = h('button', { type: 'button', class: 'shut', onclick: close }, t('keys.close'));
        box.replaceChildren(h('h2', {}, notice.title), h('pre', {}, notice.lines.join('\n')), h('p', {}, ...actions, shut));
        shut.focus();
    };
    box.addEventListener('keydown', event => {
        if (event.key !== 'Escape') return;
        event.preventDefault();
        close();
    });
    store.subscribe((_, what) => what.has('notice') && refresh());
}

/**
 * The panels with their tabs: one is open at a time.
 * @param {Store} store
 */
function side(store) {
    const tabs = h('div', { role: 'tablist', class: 'tabs', 'aria-label': t('page.panels') });
    const bodies = h('div', { class: 'bodies' });
    byId('side').append(tabs, bodies);
    PANELS.forEach((panel, i) => {
        tabs.append(h('button', {
            type: 'button', role: 'tab', id: `tab-${panel.id}`, 'aria-controls': `panel-${panel.id}`, onclick: () => store.show(panel.id),
        }, panel.title));
        const body = h('section', { role: 'tabpanel', id: `panel-${panel.id}`, class: 'panel', 'aria-labelledby': `tab-${panel.id}` });
        bodies.append(body);
        panel.mount(body, store, store.engine);
        const run = () => {
            store.show(panel.id);
            byId(`tab-${panel.id}`).focus();
        };
        bind({ key: String(i + 1), also: [`Alt+${i + 1}`], group: t('keys.page'), says: panel.title, run },
            { key: `Alt+${i + 1}`, group: t('keys.page'), says: '', anywhere: true, run });
    });
    tabs.addEventListener('keydown', event => {
        const step = { ArrowRight: 1, ArrowLeft: -1 }[event.key];
        if (!step) return;
        event.preventDefault();
        const at = PANELS.findIndex(panel => panel.id === store.panel);
        const next = PANELS[(at + step + PANELS.length) % PANELS.length];
        store.show(next.id);
        byId(`tab-${next.id}`).focus();
    });
    const refresh = () => PANELS.forEach(panel => {
        const open = panel.id === store.panel;
        const tab = byId(`tab-${panel.id}`);
        tab.setAttribute('aria-selected', String(open));
        tab.tabIndex = open ? 0 : -1;
        byId(`panel-${panel.id}`).hidden = !open;
    });
    store.subscribe((_, what) => what.has('panel') && refresh());
    refresh();
}

/**
 * The drawing with its tools, and the verdict above it.
 * @param {Store} store
 */
function drawing(store) {
    const view = new View(store);
    const float = new Float(view);
    const dimension = new Dimension(store, view, float);
    const all = tools(store, view, float, dimension);
    rail(store, all);
    new Hand(store, view, float, dimension, all);
    new Verdict(store, dimension);
    // the verdict comes first, and the drawing after it
    view.follow();
    const buttons = /** @type {[string, string, () => void][]} */ ([
        ['page.nearer', '+', () => view.zoom(1.25, [view.window.width / 2, view.window.height / 2])],
        ['page.farther', '−', () => view.zoom(0.8, [view.window.width / 2, view.window.height / 2])],
        ['page.whole', '⤢', () => view.fit()]]);
    view.canvas.append(h('div', { class: 'zoom', role: 'group', 'aria-label': t('page.zoom') }, ...buttons.map(([key, sign, run]) => h('button', {
        type: 'button', title: t(key), 'aria-label': t(key), onclick: run, onpointerdown: stop, onpointerup: stop, ondblclick: stop,
    }, sign))));
}

/**
 * Keeps an event from the drawing below.
 * @param {Event} event
 */
function stop(event) {
    event.stopPropagation();
}

/** The divider between drawing and panels, moved by mouse and arrow keys. */
function divider() {
    const bar = byId('divider');
    const side = byId('side');
    bar.setAttribute('aria-label', t('page.divider'));
    const width = (/** @type {number} */ wide) => {
        const most = document.body.clientWidth - 320;
        side.style.width = `${Math.max(220, Math.min(most, wide))}px`;
    };
    bar.addEventListener('pointerdown', event => {
        bar.setPointerCapture(event.pointerId);
        event.preventDefault();
    });
    bar.addEventListener('pointermove', event => {
        if (bar.hasPointerCapture(event.pointerId)) width(document.body.clientWidth - event.clientX);
    });
    bar.addEventListener('keydown', event => {
        const step = { ArrowLeft: 24, ArrowRight: -24 }[event.key];
        if (!step) return;
        event.preventDefault();
        width(side.getBoundingClientRect().width + step);
    });
}

/**
 * The keys of the page as a whole.
 * @param {Store} store
 */
function keys(store) {
    const group = t('keys.page');
    // a small field takes its own writing back
    const field = (/** @type {Event} */ event) => event.target instanceof HTMLInputElement && event.target.type === 'text';
    bind(
        { key: 'Ctrl+Z', group, says: t('keys.undo'), anywhere: true, run: event => !field(event) && (store.undo(), true) },
        { key: 'Ctrl+Shift+Z', also: ['Ctrl+Y'], group, says: t('keys.redo'), anywhere: true, run: event => !field(event) && (store.redo(), true) },
        { key: '?', also: ['F1'], group, says: t('keys.help'), run: toggleHelp },
    );
    obey();
}

async function start() {
    const engine = await open();
    const found = kept();
    const { text, name } = found ?? FIRST;
    const store = new Store(engine, text, name);
    top(store);
    drawing(store);
    side(store);
    notices(store);
    divider();
    keys(store);
    Object.assign(window, { store });
    document.body.dataset.ready = 'yes';
}

start().catch(error => {
    byId('verdict').textContent = t('page.failed', { why: error.message });
    throw error;
});
