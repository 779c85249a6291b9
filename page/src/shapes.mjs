// The shapes of elements, constraints and labels on the screen, as the command's scene has them.

/**
 * @typedef {import('./window.mjs').Window} Window
 * @typedef {import('./dom.mjs').Wanted} Wanted
 * @typedef {[number, number]} Place
 * The classes that elements and constraints have beside their own.
 * @typedef {{element: (name: string) => string, constraint: (k: number) => string}} Marks
 * @typedef {{name: string, kind: string, at?: Place, from?: Place, to?: Place, radius?: number, colour: string,
 *   dashed: boolean, heavy: boolean, parts: number[], placed: boolean, label: Place | null}} Shown
 * @typedef {{ends: [string, string], text: string, words: string, shape: string, places: Place[], unmet: boolean,
 *   colour: string, dashed: boolean, heavy: boolean, label: Place | null}} Held
 * @typedef {{how: string, frame: [Place, Place] | null, dense: boolean, left_out: number, elements: Shown[],
 *   constraints: Held[]}} Scene
 */

/**
 * The group of an element.
 * @param {Scene} scene
 * @param {Window} view
 * @param {number} i
 * @param {Marks} marks
 * @returns {Wanted}
 */
export function element(scene, view, i, marks) {
    const element = scene.elements[i];
    const given = {
        class: `element ${element.kind}${element.dashed ? ' dashed' : ''}${marks.element(element.name)}`, 'data-element': element.name,
        role: 'img', 'aria-label': `${element.kind} ${element.name}`, style: `--colour:${element.colour}`,
    };
    if (element.kind === 'line') {
        const [[x, y], [z, w]] = [element.from, element.to].map(place => view.pixel(/** @type {Place} */ (place)));
        const d = `M${f(x)} ${f(y)}L${f(z)} ${f(w)}`;
        return group(given, path('catch', d), path('shape', d), path('head', head([x, y], [z, w], 11, 4)));
    }
    const [cx, cy] = view.pixel(/** @type {Place} */ (element.at)).map(f);
    const round = (/** @type {string} */ name, /** @type {number} */ r) => circle(name, cx, cy, r);
    const { radius } = element;
    const edge = radius === undefined ? [] : ['catch', 'shape'].map(name => round(name, f(radius * view.scale)));
    return group(given, ...edge, round('halo', 11), round('dot', scene.dense ? 3 : 4.5));
}

/**
 * The group of a constraint.
 * @param {Scene} scene
 * @param {Window} view
 * @param {number} k
 * @param {Marks} marks
 * @returns {Wanted}
 */
export function constraint(scene, view, k, marks) {
    const held = scene.constraints[k];
    const at = held.places.map(place => view.pixel(place));
    const [[x, y]] = at;
    const run = (/** @type {Place[]} */ places) => places.map(([px, py], i) => `${i ? 'L' : 'M'}${f(px)} ${f(py)}`).join('');
    const looks = `${held.dashed ? ' dashed' : ''}${held.heavy ? ' heavy' : ''}${held.unmet ? ' unmet' : ''}`;
    const given = {
        class: `constraint ${held.shape}${looks}${marks.constraint(k)}`,
        'data-constraint': k, role: 'img', 'aria-label': held.text, style: `--colour:${held.colour}`,
    };
    if (held.shape === 'ring') return group(given, circle('shape', f(x), f(y), scene.dense ? 5.5 : 8.5));
    if (held.shape === 'contact') {
        return group(given, path('mark', `M${f(x - 6)} ${f(y)}L${f(x)} ${f(y - 6)}L${f(x + 6)} ${f(y)}L${f(x)} ${f(y + 6)}z`));
    }
    const d = held.shape === 'marks' ? run(at.slice(0, 2)) + run(at.slice(2)) : run(at);
    const heads = held.shape === 'stroke' ? [head(at[1], at[0], 7, 2.2), head(at[0], at[1], 7, 2.2)]
        : held.shape === 'arc' ? [head(at[at.length - 3], at[at.length - 1], 7, 2.2)] : [];
    return group(given, path('catch', d), path('shape', d), ...heads.map(tip => path('head', tip)));
}

/**
 * The name of an element.
 * @param {Scene} scene
 * @param {Window} view
 * @param {number} i
 * @param {Marks} marks
 * @returns {Wanted[]}
 */
export function nameLabel(scene, view, i, marks) {
    const { label, name, colour } = scene.elements[i];
    if (!label) return [];
    const [x, y] = view.pixel(label).map(f);
    const given = { class: `name${marks.element(name)}`, 'data-element': name, x, y, style: `--colour:${colour}` };
    return [{ tag: 'text', given, text: name }];
}

/**
 * The size of a constraint, on white ground.
 * @param {Scene} scene
 * @param {Window} view
 * @param {number} k
 * @param {Marks} marks
 * @returns {Wanted[]}
 */
export function sizeLabel(scene, view, k, marks) {
    const { label, words, colour, unmet } = scene.constraints[k];
    if (!label) return [];
    const [x, y] = view.pixel(label);
    const given = { class: `size${unmet ? ' unmet' : ''}${marks.constraint(k)}`, 'data-constraint': k, style: `--colour:${colour}` };
    const half = (scene.dense ? 2.8 : 3.6) * words.length + 2;
    const tall = scene.dense ? 6 : 7.5;
    return [group(given, { tag: 'rect', given: { x: f(x - half), y: f(y - tall), width: f(2 * half), height: f(2 * tall) } },
        { tag: 'text', given: { x: f(x), y: f(y) }, text: words })];
}

/**
 * A pixel in a path.
 * @param {number} x
 */
function f(x) {
    return Math.round(x * 10) / 10;
}

/**
 * The head of an arrow at the end of a stroke, so long and so wide to each side; none where it has no room.
 * @param {Place} from
 * @param {Place} to
 * @param {number} long
 * @param {number} wide
 */
function head(from, to, long, wide) {
    const [dx, dy] = [to[0] - from[0], to[1] - from[1]];
    const far = Math.hypot(dx, dy);
    if (far < 1) return '';
    const [x, y] = [dx / far, dy / far];
    const back = (/** @type {number} */ aside) => `${f(to[0] - long * x - aside * y)} ${f(to[1] - long * y + aside * x)}`;
    return `M${f(to[0])} ${f(to[1])}L${back(wide)}L${back(-wide)}z`;
}

/**
 * A group of shapes.
 * @param {Record<string, any>} given
 * @param {...Wanted} parts
 * @returns {Wanted}
 */
function group(given, ...parts) {
    return { tag: 'g', given, parts };
}

/**
 * A path of a class.
 * @param {string} name
 * @param {string} d
 * @returns {Wanted}
 */
function path(name, d) {
    return { tag: 'path', given: { class: name, d } };
}

/**
 * A circle of a class.
 * @param {string} name
 * @param {number} cx
 * @param {number} cy
 * @param {number} r
 * @returns {Wanted}
 */
function circle(name, cx, cy, r) {
    return { tag: 'circle', given: { class: name, cx, cy, r } };
}
