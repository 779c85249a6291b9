// Dragging: the engine moves what is pulled, with every dimension held; what is under racks, what is well moves as one.
// The text stays as it was until the button goes up, and gets the places where everything is then.

import { t } from './texts.mjs';
import { anchors } from './dimension.mjs';

/**
 * @typedef {import('./store.mjs').Store} Store
 * @typedef {import('./view.mjs').View} View
 * @typedef {[number, number]} Place
 */

/** What is being dragged. */
export class Dragging {
    /**
     * @param {Store} store
     * @param {View} view
     */
    constructor(store, view) {
        this.store = store;
        this.view = view;
        /** @type {{names: string[], from: Place, to: Place, text: string, base: string} | null} */
        this.now = null;
        this.frame = 0;
    }

    /**
     * Begins to drag some elements by a place of theirs.
     * @param {string[]} names
     * @param {Place} from
     */
    begin(names, from) {
        this.now = { names, from, to: from, text: this.store.text, base: anchored(this.store) };
        this.view.canvas.classList.add('dragging');
    }

    /**
     * Drags to a place: drawn with the next frame of the screen.
     * @param {Place} to
     */
    to(to) {
        if (!this.now) return;
        this.now.to = to;
        if (this.frame === 0) this.frame = requestAnimationFrame(() => this.step());
    }

    /** Asks the engine where everything is, and draws it. */
    step() {
        this.frame = 0;
        if (!this.now) return;
        const { names, from, to, base } = this.now;
        const found = dragged(this.store, this.view, names, from, to, base);
        if (!found) return;
        this.now.text = found.text;
        this.view.draw(found);
    }

    /** Leaves things where they are: the text gets their places. */
    end() {
        if (!this.now) return;
        if (this.frame !== 0) {
            cancelAnimationFrame(this.frame);
            this.step();
        }
        const { text, names } = this.now;
        this.now = null;
        this.view.canvas.classList.remove('dragging');
        this.store.edit(text, t('draw.dragged', { what: names.join(' ') }));
    }

    /** Puts everything back. */
    cancel() {
        if (!this.now) return;
        if (this.frame !== 0) cancelAnimationFrame(this.frame);
        this.frame = 0;
        this.now = null;
        this.view.canvas.classList.remove('dragging');
        this.view.redraw();
    }
}

/**
 * The text with the places of all that is drawn: what is dragged begins there, and is not laid out anew each time.
 * @param {Store} store
 * @returns {string}
 */
export function anchored(store) {
    const changes = anchors(store);
    return changes.length > 0 ? store.answers.json(['edit', '@', ...changes]).answer?.text ?? store.text : store.text;
}

/**
 * Where everything is when some elements are pulled from a place to another: a scene, and the text with its places.
 * @param {Store} store
 * @param {View} view
 * @param {string[]} names
 * @param {Place} from
 * @param {Place} to
 * @param {string} base the text with all its places
 * @returns {any}
 */
export function dragged(store, view, names, from, to, base) {
    const pair = (/** @type {Place} */ place) => place.map(x => (Math.round(x * 1000) / 1000 + 0).toFixed(3)).join(' ');
    const options = ['--size', view.window.size, '--window', view.window.words, '--json'];
    const words = ['drag', ...options, store.file, `${names.join(' ')} from ${pair(from)} to ${pair(to)}`];
    const found = store.engine.answer(words, { [store.file]: base }).json.answer;
    return found ?? moved(store, view, names, [to[0] - from[0], to[1] - from[1]]);
}

/**
 * Elements of a text that is no sheet yet, moved by so much: nothing holds them.
 * @param {Store} store
 * @param {View} view
 * @param {string[]} names
 * @param {Place} by
 * @returns {any}
 */
function moved(store, view, names, by) {
    const words = (/** @type {Place} */ place) => place.map((x, axis) => Math.round((x + by[axis]) * 1000) / 1000 + 0).join(' ');
    const changes = store.elements.filter(element => names.includes(element.name)).map(element => (element.at
        ? `move ${element.name} at ${words(element.at)}` : `move ${element.name} from ${words(element.from)} to ${words(element.to)}`));
    const { answer } = store.answers.json(['edit', '@', ...changes]);
    if (!answer) return null;
    const options = ['--size', view.window.size, '--window', view.window.words, '--json'];
    const scene = store.engine.answer(['scene', ...options, store.file], { [store.file]: answer.text }).json.answer;
    return scene && { ...scene, text: answer.text };
}
