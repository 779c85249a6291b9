// What the mouse is on: how far a pixel is from what is drawn.

/**
 * @typedef {import('./window.mjs').Window} Window
 * @typedef {import('./shapes.mjs').Shown} Shown
 * @typedef {import('./shapes.mjs').Held} Held
 * @typedef {[number, number]} Place
 */

/**
 * How far a pixel is from an element.
 * @param {Window} view
 * @param {Shown} element
 * @param {Place} pixel
 */
export function distance(view, element, pixel) {
    if (element.kind === 'line') {
        return toStroke(pixel, view.pixel(/** @type {Place} */ (element.from)), view.pixel(/** @type {Place} */ (element.to)));
    }
    const [x, y] = view.pixel(/** @type {Place} */ (element.at));
    const middle = Math.hypot(pixel[0] - x, pixel[1] - y);
    const edge = element.radius === undefined ? Infinity : Math.abs(middle - element.radius * view.scale);
    return Math.min(middle - 2, edge);
}

/**
 * How far a pixel is from a constraint, its size included.
 * @param {Window} view
 * @param {Held} held
 * @param {Place} pixel
 */
export function constraintDistance(view, held, pixel) {
    const at = held.places.map(place => view.pixel(place));
    const ends = held.shape === 'marks' ? [[at[0], at[1]], [at[2], at[3]]] : at.slice(1).map((to, i) => [at[i], to]);
    const strokes = ends.map(([a, b]) => toStroke(pixel, a, b));
    if (held.label) {
        const [x, y] = view.pixel(held.label);
        const [across, down] = [Math.abs(pixel[0] - x) - 4 * held.words.length, Math.abs(pixel[1] - y) - 8];
        strokes.push(Math.max(across, down, 0));
    }
    if (held.shape === 'ring' || held.shape === 'contact') {
        strokes.push(Math.abs(Math.hypot(pixel[0] - at[0][0], pixel[1] - at[0][1]) - 8));
    }
    return Math.min(...strokes);
}

/**
 * How far a pixel is from a stroke.
 * @param {Place} pixel
 * @param {Place} a
 * @param {Place} b
 */
function toStroke(pixel, a, b) {
    const [dx, dy] = [b[0] - a[0], b[1] - a[1]];
    const long = dx * dx + dy * dy;
    const part = long === 0 ? 0 : Math.min(1, Math.max(0, ((pixel[0] - a[0]) * dx + (pixel[1] - a[1]) * dy) / long));
    return Math.hypot(pixel[0] - a[0] - part * dx, pixel[1] - a[1] - part * dy);
}
