// Nodes of the page, made in one call.

const SVG = 'http://www.w3.org/2000/svg';

/**
 * @typedef {Record<string, any>} Given attributes; those that begin with "on" are listeners, null and false are left out
 * @typedef {Node | string | number | null | undefined | false} Child
 */

/**
 * Gives a node its attributes and children.
 * @template {Element} T
 * @param {T} node
 * @param {Given} given
 * @param {Child[]} children
 * @returns {T}
 */
function filled(node, given, children) {
    for (const [name, value] of Object.entries(given)) {
        if (value === null || value === undefined || value === false) continue;
        if (name.startsWith('on')) node.addEventListener(name.slice(2), value);
        else node.setAttribute(name, value === true ? '' : String(value));
    }
    node.append(...children.flatMap(child => (child === null || child === undefined || child === false ? [] : [
        typeof child === 'number' ? String(child) : child,
    ])));
    return node;
}

/**
 * An element of HTML.
 * @template {keyof HTMLElementTagNameMap} K
 * @param {K} tag
 * @param {Given} [given]
 * @param {...Child} children
 * @returns {HTMLElementTagNameMap[K]}
 */
export function h(tag, given = {}, ...children) {
    return filled(document.createElement(tag), given, children);
}

/**
 * An element of SVG.
 * @template {keyof SVGElementTagNameMap} K
 * @param {K} tag
 * @param {Given} [given]
 * @param {...Child} children
 * @returns {SVGElementTagNameMap[K]}
 */
export function s(tag, given = {}, ...children) {
    return filled(/** @type {SVGElementTagNameMap[K]} */ (document.createElementNS(SVG, tag)), given, children);
}

/**
 * A node that is wanted: its tag, its attributes, and its text or children.
 * @typedef {{tag: keyof SVGElementTagNameMap, given: Given, text?: string, parts?: Wanted[]}} Wanted
 */

/**
 * What nodes were made of.
 * @type {WeakMap<Element, Wanted>}
 */
const made = new WeakMap();

/**
 * Makes the children of a node what is wanted: those that are there are changed, and no more than needed.
 * @param {Element} parent
 * @param {Wanted[]} wanted
 */
export function patch(parent, wanted) {
    wanted.forEach((want, i) => {
        const node = parent.children[i];
        if (node && node.tagName === want.tag) {
            changed(node, want);
            return;
        }
        const fresh = s(want.tag);
        changed(fresh, want);
        if (node) node.replaceWith(fresh);
        else parent.append(fresh);
    });
    while (parent.children.length > wanted.length) parent.lastElementChild?.remove();
}

/**
 * Makes a node what is wanted.
 * @param {Element} node
 * @param {Wanted} want
 */
function changed(node, want) {
    const old = made.get(node);
    for (const [name, value] of Object.entries(want.given)) {
        if (old?.given[name] !== value) node.setAttribute(name, String(value));
    }
    for (const name of Object.keys(old?.given ?? {})) {
        if (!(name in want.given)) node.removeAttribute(name);
    }
    if (want.text !== undefined && old?.text !== want.text) node.textContent = want.text;
    if (want.parts) patch(node, want.parts);
    made.set(node, want);
}

/**
 * The one node of the page with an id.
 * @param {string} id
 * @returns {HTMLElement}
 */
export function byId(id) {
    const found = document.getElementById(id);
    if (!found) throw new Error(`no #${id}`);
    return found;
}

/**
 * Does something once what was changed is on the screen; where nothing is drawn, soon.
 * @param {() => void} run
 */
export function afterPaint(run) {
    const once = () => {
        clearTimeout(late);
        setTimeout(run);
    };
    const frame = requestAnimationFrame(once);
    const late = setTimeout(() => {
        cancelAnimationFrame(frame);
        run();
    }, 100);
}
