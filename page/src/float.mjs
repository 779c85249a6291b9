// What stands beside the mouse: a verdict that was asked for, a field to write in.

import { byId } from './dom.mjs';

/** @typedef {import('./view.mjs').View} View */
/** @typedef {[number, number]} Place */

/** The box beside the mouse. */
export class Float {
    /** @param {View} view */
    constructor(view) {
        this.view = view;
        this.box = byId('float');
        view.canvas.append(this.box);
        /** @type {Place} */
        this.at = [0, 0];
        /**
         * What is called when it is closed.
         * @type {(() => void) | null}
         */
        this.closing = null;
        for (const type of ['pointerdown', 'pointermove', 'wheel', 'dblclick']) {
            this.box.addEventListener(type, event => event.stopPropagation());
        }
    }

    get open() {
        return !this.box.hidden;
    }

    /** Whether there is a field in it. */
    get asking() {
        return this.open && this.box.querySelector('input') !== null;
    }

    /**
     * Shows something at a pixel of the canvas.
     * @param {Place} pixel
     * @param {Node[]} content
     * @param {(() => void) | null} [closing]
     */
    show(pixel, content, closing = null) {
        this.at = pixel;
        this.closing = closing;
        this.box.replaceChildren(...content);
        this.box.hidden = false;
        this.box.classList.toggle('asking', this.asking);
        this.place();
        this.box.querySelector('input')?.select();
    }

    /** Puts the box where it is seen whole, beside its pixel. */
    place() {
        const { width, height } = this.view.canvas.getBoundingClientRect();
        const { offsetWidth: wide, offsetHeight: tall } = this.box;
        const [x, y] = this.at;
        const inside = (/** @type {number} */ at, /** @type {number} */ most) => Math.max(4, Math.min(most - 4, at));
        const sides = [[1, 1], [-1, 1], [1, -1], [-1, -1], [1, 0], [-1, 0], [0, 1], [0, -1]];
        const places = sides.map(([across, down]) => [
            inside(across === 0 ? x - wide / 2 : across > 0 ? x + 18 : x - 18 - wide, width - wide),
            inside(down === 0 ? y - tall / 2 : down > 0 ? y + 18 : y - 18 - tall, height - tall)]);
        // the place that hides the least of the drawing, and never what it stands beside
        const seen = [...this.view.spots(), ...Array(8).fill(this.at)];
        const hidden = places.map(([left, top]) => seen.filter(([px, py]) => px > left && px < left + wide && py > top && py < top + tall).length);
        const [left, top] = places[hidden.indexOf(Math.min(...hidden))];
        this.box.style.left = `${left}px`;
        this.box.style.top = `${top}px`;
    }

    /** Takes it away. */
    close() {
        if (!this.open) return;
        const within = this.box.contains(document.activeElement);
        this.box.hidden = true;
        this.box.replaceChildren();
        const { closing } = this;
        this.closing = null;
        closing?.();
        if (within) this.view.canvas.focus();
    }
}
