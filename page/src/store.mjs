// The document: its text, the texts before and after it, what the engine says of it, and what is chosen and lit.
// The text is all there is: everything that is drawn is read from it, and every change is a change of it.

import { Answers, told } from './answers.mjs';
import { t } from './texts.mjs';

/**
 * @typedef {import('./answers.mjs').Engine} Engine
 *
 * What is lit: elements by name, constraints by number, and the role in which they are, which is a class of the view.
 * @typedef {{role: string, elements?: string[], constraints?: number[]}} Lit
 *
 * What the mouse or the keyboard is on in the drawing.
 * @typedef {{element: string} | {constraint: number} | null} Hover
 *
 * Something that the user must see: a title, lines in the command's words, and what may be done.
 * @typedef {{title: string, lines: string[], actions?: {label: string, run: () => void}[]}} Notice
 *
 * A text with the name of its sheet and the words for what made it.
 * @typedef {{text: string, label: string, name: string}} Version
 *
 * What has changed: the text, the selection, what is lit, what the mouse is on, the panel, the tool, a sheet that was
 * opened and is to be seen whole, a message, a notice.
 * @typedef {'text' | 'selection' | 'lit' | 'hover' | 'panel' | 'tool' | 'view' | 'message' | 'notice'} What
 *
 * @typedef {(store: Store, what: Set<What>) => void} Listener
 */

/** Changes of one kind that follow each other within this many milliseconds are undone together. */
const TOGETHER = 1200;
/** The most texts that undo keeps. */
const MOST_VERSIONS = 500;
/** Where the browser keeps the sheet. */
const KEPT = 'pattern.sheet';

/** The document and what is chosen in it. */
export class Store {
    /**
     * @param {Engine} engine
     * @param {string} text
     * @param {string} name
     */
    constructor(engine, text, name) {
        this.engine = engine;
        /** @type {Version[]} */
        this.past = [];
        /** @type {Version[]} */
        this.future = [];
        /** @type {Version} */
        this.now = { text, label: '', name };
        this.when = 0;
        /**
         * The names of the elements that are chosen.
         * @type {Set<string>}
         */
        this.selection = new Set();
        /**
         * The number of the constraint that is chosen.
         * @type {number | null}
         */
        this.constraint = null;
        /**
         * What is lit.
         * @type {Lit[]}
         */
        this.lit = [];
        /**
         * What the mouse is on.
         * @type {Hover}
         */
        this.hover = null;
        /** @type {Notice | null} */
        this.notice = null;
        /** The panel that is open. */
        this.panel = 'text';
        /** The tool in hand. */
        this.tool = 'select';
        /** What the page has to say, in words. */
        this.message = '';
        /** @type {Set<Listener>} */
        this.listeners = new Set();
        /** @type {Set<What>} */
        this.pending = new Set();
        this.telling = false;
        this.answers = new Answers(engine, this.file, text);
        /** The last text that was understood, with its answers: what is drawn while the text has errors. */
        this.good = this.answers;
        this.settle();
    }

    get text() {
        return this.now.text;
    }

    /** The name of the sheet, without its ending. */
    get name() {
        return this.now.name;
    }

    /** The name of the file that the engine is given. */
    get file() {
        return `${this.name}.txt`;
    }

    /** Takes the answers on the text that stands now. */
    settle() {
        this.answers = new Answers(this.engine, this.file, this.now.text);
        if (this.answers.errors.length === 0 || this.few) this.good = this.answers;
        const names = new Set(this.elements.map((/** @type {any} */ element) => element.name));
        this.selection = new Set([...this.selection].filter(name => names.has(name)));
        this.constraint = null;
        this.lit = [];
        this.hover = null;
    }

    /**
     * The facts of what is drawn; of a text with too few elements for a sheet, what the scene has.
     * @returns {{elements: any[], constraints: any[]}}
     */
    get facts() {
        return this.good.show ?? this.good.json(['scene', '@']).answer ?? { elements: [], constraints: [] };
    }

    /**
     * The elements that are drawn: name, kind, and the rough place that the text gives.
     * @returns {any[]}
     */
    get elements() {
        return this.facts.elements;
    }

    /**
     * The constraints that are drawn: ends, demand, size and text.
     * @returns {any[]}
     */
    get constraints() {
        return this.facts.constraints;
    }

    /** Whether the drawing may be changed by hand: the text has no errors. */
    get sound() {
        return this.good === this.answers;
    }

    /** Whether the text is refused for its few elements alone: what there is can be drawn. */
    get few() {
        return this.answers.errors.length > 0 && this.answers.json(['scene', '@']).answer !== null;
    }

    /**
     * Calls a function whenever something changes; gives the way to stop it.
     * @param {Listener} listener
     */
    subscribe(listener) {
        this.listeners.add(listener);
        return () => this.listeners.delete(listener);
    }

    /**
     * Tells all who listen what has changed; changes that listeners make are told after.
     * @param {...What} whats
     */
    tell(...whats) {
        whats.forEach(what => this.pending.add(what));
        if (this.telling) return;
        this.telling = true;
        try {
            while (this.pending.size > 0) {
                const told = this.pending;
                this.pending = new Set();
                this.listeners.forEach(listener => listener(this, told));
            }
        } finally {
            this.telling = false;
        }
    }

    /**
     * Puts another text in the place of this one. Changes with the same label that follow at once are one.
     * @param {string} text
     * @param {string} label
     * @param {boolean} [joined] whether it may be undone together with the one before
     * @param {string} [name] the name of the sheet, where it is another
     */
    edit(text, label, joined = false, name = this.name) {
        if (text === this.now.text) return;
        const time = Date.now();
        const together = joined && this.now.label === label && time - this.when < TOGETHER && this.past.length > 0;
        if (!together) {
            this.past.push(this.now);
            if (this.past.length > MOST_VERSIONS) this.past.shift();
        }
        this.future = [];
        this.now = { text, label, name };
        this.when = time;
        this.changed();
    }

    /**
     * Edits the text by changes that the command knows; answers whether it did. A refusal is told.
     * @param {string[]} changes
     * @param {string} label
     */
    change(changes, label) {
        const { answer, errors } = this.answers.json(['edit', '@', ...changes]);
        if (!answer) {
            this.say(told(errors));
            return false;
        }
        this.edit(answer.text, label);
        return true;
    }

    undo() {
        const before = this.past.pop();
        if (!before) return false;
        this.future.push(this.now);
        this.now = before;
        this.when = 0;
        this.changed();
        return true;
    }

    redo() {
        const after = this.future.pop();
        if (!after) return false;
        this.past.push(this.now);
        this.now = after;
        this.when = 0;
        this.changed();
        return true;
    }

    /** What undo would take back, in words; none where there is nothing. */
    get undoes() {
        return this.past.length > 0 ? this.now.label : null;
    }

    /** What redo would do again, in words. */
    get redoes() {
        return this.future.length > 0 ? this.future[this.future.length - 1].label : null;
    }

    /**
     * Opens another sheet: its text and its name. What was there can be had again by undo.
     * @param {string} text
     * @param {string} name
     * @param {string} label
     */
    open(text, name, label) {
        this.selection = new Set();
        if (text === this.now.text) this.rename(name);
        else this.edit(text, label, false, named(name));
        this.tell('view');
    }

    /**
     * Gives the sheet another name.
     * @param {string} name
     */
    rename(name) {
        this.now = { ...this.now, name: named(name) };
        this.changed();
    }

    /** After a change of the text. */
    changed() {
        this.message = '';
        this.settle();
        keep(this);
        this.tell('text', 'selection', 'lit', 'hover', 'message');
    }

    /**
     * Chooses elements.
     * @param {Iterable<string>} names
     */
    select(names) {
        this.selection = new Set(names);
        this.constraint = null;
        this.message = '';
        this.tell('selection', 'message');
    }

    /**
     * Chooses a constraint.
     * @param {number | null} constraint
     */
    selectConstraint(constraint) {
        this.selection = new Set();
        this.constraint = constraint;
        this.tell('selection');
    }

    /**
     * Lights some things, or nothing.
     * @param {Lit[]} lit
     */
    light(lit) {
        if (lit.length === 0 && this.lit.length === 0) return;
        this.lit = lit;
        this.tell('lit');
    }

    /**
     * Notes what the mouse is on.
     * @param {Hover} hover
     */
    over(hover) {
        if (JSON.stringify(hover) === JSON.stringify(this.hover)) return;
        this.hover = hover;
        this.tell('hover');
    }

    /**
     * Shows a notice, or takes it away.
     * @param {Notice | null} notice
     */
    notify(notice) {
        this.notice = notice;
        this.tell('notice');
    }

    /**
     * Opens a panel.
     * @param {string} panel
     */
    show(panel) {
        this.panel = panel;
        this.tell('panel');
    }

    /**
     * Takes a tool in hand.
     * @param {string} tool
     */
    take(tool) {
        this.tool = tool;
        this.message = '';
        this.tell('tool', 'message');
    }

    /**
     * Says something to the user.
     * @param {string} message
     */
    say(message) {
        this.message = message;
        this.tell('message');
    }
}

/**
 * A name that can be a sheet's: no command takes it for an option.
 * @param {string} name
 */
function named(name) {
    return name.trim().replace(/^-+/, '') || t('page.untitled');
}

/**
 * Keeps the sheet in the browser, where it lets us.
 * @param {Store} store
 */
function keep(store) {
    try {
        localStorage.setItem(KEPT, JSON.stringify({ name: store.name, text: store.text }));
    } catch {
        // some browsers keep nothing for a page from a file: the sheet can be saved as a file
    }
}

/**
 * The sheet that the browser kept.
 * @returns {{name: string, text: string} | null}
 */
export function kept() {
    try {
        const found = JSON.parse(localStorage.getItem(KEPT) ?? 'null');
        return found && typeof found.text === 'string' && typeof found.name === 'string' ? found : null;
    } catch {
        return null;
    }
}
