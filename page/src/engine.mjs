// The command in this page: the proved library and the command's own Rust, as one WebAssembly module.
// Nothing is judged or worded here: words and files go in, and what the command says comes out.

/**
 * What the command answers: its exit status, standard output as text and as bytes, the lines of standard error, the
 * object of --json where that was asked, and the files that it wrote.
 * @typedef {{exit: number, out: string, bytes: Uint8Array, notes: string[], json: any,
 *   files: Record<string, Uint8Array>}} Answer
 *
 * A place in millimetres.
 * @typedef {[number, number]} Spot
 *
 * What the module exports.
 * @typedef {{memory: WebAssembly.Memory, space: (length: number) => number,
 *   answer: (question: number, length: number) => number, panicked: () => number}} Core
 */

/** The exit status of a command that did not come to its end, as sysexits has it. */
const FAILED = 70;

const encoder = new TextEncoder();
const decoder = new TextDecoder();

/** A block of bytes: numbers of 32 bits, lowest byte first, and contents behind their lengths. */
class Writer {
    constructor() {
        /** @type {Uint8Array[]} */
        this.parts = [];
        this.length = 0;
    }

    /** @param {number} number */
    number(number) {
        const part = new Uint8Array(4);
        new DataView(part.buffer).setUint32(0, number, true);
        this.parts.push(part);
        this.length += 4;
    }

    /** @param {string | Uint8Array} content */
    content(content) {
        const part = typeof content === 'string' ? encoder.encode(content) : content;
        this.number(part.length);
        this.parts.push(part);
        this.length += part.length;
    }

    /** @param {Uint8Array} to */
    lay(to) {
        let at = 0;
        for (const part of this.parts) {
            to.set(part, at);
            at += part.length;
        }
    }
}

/** A block that is read from its front. */
class Reader {
    /** @param {Uint8Array} block */
    constructor(block) {
        this.block = block;
        this.view = new DataView(block.buffer, block.byteOffset, block.byteLength);
        this.at = 0;
    }

    number() {
        this.at += 4;
        return this.view.getUint32(this.at - 4, true);
    }

    content() {
        const length = this.number();
        this.at += length;
        return this.block.slice(this.at - length, this.at);
    }

    text() {
        return decoder.decode(this.content());
    }

    /**
     * @template T
     * @param {() => T} item
     * @returns {T[]}
     */
    list(item) {
        return Array.from({ length: this.number() }, item);
    }
}

/** The command. A second instance of the module stands by: where a call traps, the next one is answered by it. */
export class Engine {
    /**
     * @param {WebAssembly.Module} module
     * @param {Core} core
     * @param {Core | null} spare
     */
    constructor(module, core, spare) {
        this.module = module;
        this.core = core;
        this.spare = spare;
    }

    /**
     * What the command answers to some words, as they are typed behind `pattern`; files by name stand for the disk.
     * @param {string[]} words
     * @param {Record<string, string | Uint8Array>} files
     * @returns {Answer}
     */
    answer(words, files) {
        try {
            return read(words, ask(this.core, words, files));
        } catch (error) {
            return this.failed(words, error);
        }
    }

    /**
     * A call that did not come to its end: told as an error, and the module is begun anew.
     * @param {string[]} words
     * @param {unknown} error
     * @returns {Answer}
     */
    failed(words, error) {
        let why = error instanceof Error ? error.message : String(error);
        try {
            const block = framed(this.core, this.core.panicked());
            why = new Reader(block.subarray(4)).text() || why;
        } catch {
            // the error's own words will do
        }
        this.core = this.spare ?? made(new WebAssembly.Instance(this.module));
        this.spare = null;
        WebAssembly.instantiate(this.module).then(instance => (this.spare = made(instance)));
        const message = `the command failed: ${why}`;
        const complaint = {
            file: null, status: 'failed', rule: null, line: null, column: null, byte: null, constraint: null, message,
            hint: null,
        };
        const json = { command: words[0] ?? null, version: '', exit: FAILED, errors: [complaint], answer: null };
        const asked = words.includes('--json');
        const notes = asked ? [] : [`pattern: ${message}`];
        const out = asked ? JSON.stringify(json) : '';
        return { exit: FAILED, out, bytes: encoder.encode(out), notes, json: asked ? json : null, files: {} };
    }
}

/**
 * The exports of an instance.
 * @param {WebAssembly.Instance} instance
 * @returns {Core}
 */
function made(instance) {
    return /** @type {Core} */ (/** @type {unknown} */ (instance.exports));
}

/**
 * A block of the module that begins with its length.
 * @param {Core} core
 * @param {number} at
 */
function framed(core, at) {
    const length = new DataView(core.memory.buffer).getUint32(at, true);
    return new Uint8Array(core.memory.buffer, at, length);
}

/**
 * Asks the module.
 * @param {Core} core
 * @param {string[]} words
 * @param {Record<string, string | Uint8Array>} files
 */
function ask(core, words, files) {
    const question = new Writer();
    question.number(words.length);
    words.forEach(word => question.content(word));
    const entries = Object.entries(files);
    question.number(entries.length);
    for (const [name, content] of entries) {
        question.content(name);
        question.content(content);
    }
    const at = core.space(question.length);
    if (at === 0) throw new Error('no memory is left');
    question.lay(new Uint8Array(core.memory.buffer, at, question.length));
    return framed(core, core.answer(at, question.length));
}

/**
 * Reads an answer.
 * @param {string[]} words
 * @param {Uint8Array} block
 * @returns {Answer}
 */
function read(words, block) {
    const reader = new Reader(block.subarray(4));
    const exit = reader.number();
    const bytes = reader.content();
    const notes = reader.list(() => reader.text());
    const files = Object.fromEntries(reader.list(() => /** @type {[string, Uint8Array]} */ ([reader.text(), reader.content()])));
    const out = decoder.decode(bytes);
    const json = words.includes('--json') && out.startsWith('{') ? JSON.parse(out) : null;
    return { exit, out, bytes, notes, json, files };
}

/**
 * The module that stands in this page: packed, and in letters.
 * @returns {Promise<ArrayBuffer>}
 */
async function own() {
    const letters = document.getElementById('core')?.textContent ?? '';
    const packed = Uint8Array.from(atob(letters.trim()), letter => letter.charCodeAt(0));
    const stream = new Blob([packed]).stream().pipeThrough(new DecompressionStream('gzip'));
    return new Response(stream).arrayBuffer();
}

/**
 * Opens the command: the module of this page, or another.
 * @param {BufferSource} [bytes]
 * @returns {Promise<Engine>}
 */
export async function open(bytes) {
    const { module, instance } = await WebAssembly.instantiate(bytes ?? (await own()));
    const engine = new Engine(module, made(instance), null);
    WebAssembly.instantiate(module).then(spare => (engine.spare = made(spare)));
    return engine;
}
