// The window on the plane: which millimetres are at which pixels of the canvas. Geometry of the screen, and no other.

/** @typedef {[number, number]} Place */

/** The least and the most pixels of a millimetre. */
const LEAST = 0.005;
const MOST = 4000;
/** The room around a drawing that is seen whole, in pixels. */
const ROOM = 72;
/** The width of what is seen where all is at one place, in millimetres. */
const ALONE = 400;

/** The window: x and y of the upper left corner in millimetres, y up, and pixels a millimetre. */
export class Window {
    constructor() {
        this.x = -100;
        this.y = 600;
        this.scale = 1;
        this.width = 800;
        this.height = 600;
    }

    /**
     * The pixel of a place.
     * @param {Place} place
     * @returns {Place}
     */
    pixel([x, y]) {
        return [(x - this.x) * this.scale, (this.y - y) * this.scale];
    }

    /**
     * The place of a pixel.
     * @param {Place} pixel
     * @returns {Place}
     */
    place([x, y]) {
        return [this.x + x / this.scale, this.y - y / this.scale];
    }

    /**
     * Moves by pixels.
     * @param {number} dx
     * @param {number} dy
     */
    pan(dx, dy) {
        this.x -= dx / this.scale;
        this.y += dy / this.scale;
    }

    /**
     * Zooms so many times about a pixel.
     * @param {number} times
     * @param {Place} pixel
     */
    zoom(times, pixel) {
        const [x, y] = this.place(pixel);
        this.scale = Math.min(MOST, Math.max(LEAST, this.scale * times));
        this.x = x - pixel[0] / this.scale;
        this.y = y + pixel[1] / this.scale;
    }

    /**
     * Sees a frame whole, with room around it.
     * @param {[Place, Place] | null} frame
     */
    fit(frame) {
        const [[left, low], [right, high]] = frame ?? [[0, 0], [600, 400]];
        const least = Math.max(right - left, high - low) < 0.1 ? ALONE : 1e-3;
        const [wide, tall] = [Math.max(right - left, least), Math.max(high - low, least)];
        const room = (/** @type {number} */ size) => Math.max(size - 2 * ROOM, size / 3);
        this.scale = Math.min(room(this.width) / wide, room(this.height) / tall, MOST);
        this.x = (left + right) / 2 - this.width / 2 / this.scale;
        this.y = (low + high) / 2 + this.height / 2 / this.scale;
    }

    /** The window as the command has it. */
    get words() {
        return `${round(this.x)},${round(this.y)},${this.scale.toPrecision(8)}`;
    }

    /** The canvas as the command has it. */
    get size() {
        const side = (/** @type {number} */ size) => Math.min(20000, Math.max(300, Math.round(size)));
        return `${side(this.width)}x${side(this.height)}`;
    }

    /** The step of the grid in millimetres: some 1, 2 or 5 of a power of ten that is wide enough to be seen. */
    get grid() {
        const least = 26 / this.scale;
        const power = 10 ** Math.floor(Math.log10(least));
        return power * ([1, 2, 5, 10].find(times => times * power >= least) ?? 10);
    }
}

/**
 * A coordinate that is finer than a pixel at any scale.
 * @param {number} x
 */
function round(x) {
    return Math.round(x * 1e6) / 1e6 + 0;
}
