// What the engine says of one text: each answer is asked for once.

/**
 * What the engine answers to the command's words.
 * @typedef {{exit: number, out: string, notes: string[], json: any, files?: Record<string, Uint8Array>}} Answer
 *
 * The engine: the command in this page.
 * @typedef {{answer: (words: string[], files: Record<string, string | Uint8Array>) => Answer}} Engine
 */

/** The most elements of a sheet whose advice and drawing are waited for: a search takes long where many sizes contradict each other. */
export const MOST_AT_ONCE = 24;

/** The answers of the engine on one text, each computed once. */
export class Answers {
    /**
     * @param {Engine} engine
     * @param {string} file
     * @param {string} text
     */
    constructor(engine, file, text) {
        this.engine = engine;
        this.file = file;
        this.text = text;
        /** @type {Map<string, Answer>} */
        this.known = new Map();
    }

    /**
     * What the command answers to some words, in which `@` stands for the sheet; further files by name.
     * @param {string[]} words
     * @param {Record<string, string | Uint8Array>} [files]
     * @returns {Answer}
     */
    ask(words, files = {}) {
        const key = JSON.stringify(words);
        const other = Object.keys(files).length > 0;
        const known = other ? undefined : this.known.get(key);
        if (known) return known;
        const named = words.map(word => (word === '@' ? this.file : word));
        const answer = this.engine.answer(named, { ...files, [this.file]: this.text });
        if (!other) this.known.set(key, answer);
        return answer;
    }

    /**
     * The same as data: the object of --json.
     * @param {string[]} words
     * @param {Record<string, string | Uint8Array>} [files]
     */
    json(words, files) {
        return this.ask([...words, '--json'], files).json;
    }

    /** What `check` finds: an object with status, words, advice .. or, of a text that is refused, status and errors. */
    get check() {
        const { answer, errors } = this.json(['check', '@']);
        return answer ? answer.files[0] : { status: 'refused', errors };
    }

    /** The same without advice and warnings of sizes: it takes no search, however large the sheet is. */
    get quick() {
        const { answer, errors } = this.json(['check', '--verdict', '@']);
        return answer ? answer.files[0] : { status: 'refused', errors };
    }

    /** The complaints about the text; none where it is understood. */
    get errors() {
        return this.quick.errors ?? [];
    }

    /** The facts of the sheet: elements and constraints; null where the text is refused. */
    get show() {
        return this.json(['show', '@']).answer;
    }

    /** Where the layout has everything; null where the text is refused. */
    get places() {
        return this.json(['place', '@']).answer;
    }

    /** The verdict's name, or "refused". */
    get verdict() {
        return this.quick.status;
    }
}

/**
 * Complaints in the command's words, a line each.
 * @param {any[]} errors
 */
export function told(errors) {
    return errors.map(({ message, hint }) => (hint ? `${message}; ${hint}` : message)).join('\n');
}
