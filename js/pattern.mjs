// The geometric constraint engine for flat patterns, over its WebAssembly: pattern.wasm stands beside this file, and is loaded with it, in node
// and in the browser. A sheet is a Uint8Array, as it stands in a file. Where the engine refuses a call, `Refused` is thrown, with the number of the
// rule and its text. pattern.d.ts has the types and says what each function does.
//
// `version`, `ruleText`, `read` and `ordered` are plain C, tested and not proved; the other answers are those of the proved library.

const MAX_ELEMENTS = 64;
const MAX_CONSTRAINTS = 200;
const MAX_WRITTEN = 1678;
const MAX_REPORT = 4667;
const MAX_PLAN = 186;
const MAX_STEPS = 62;
const MAX_CLUSTERS = 125;
const MAX_RESTS = 250;
const MAX_CHAIN = 63;
const MAX_RECORD = 1155;
const MAX_PART = 3534;
const MAX_MISSING = 125;
const MAX_OPEN = 186;
const STEP = 7;
const NO_RUN = -100;
const WAYS_UNKNOWN = 256;
const SIZED = 1;
const TANGENT = 4;
const OTHER = 8;

export const UNMEASURED = 65535;

const VERDICTS = ['over', 'angle', 'well', 'stuck', 'under'];
const KINDS = ['point', 'line', 'circle'];
const JOINTS = ['ppp', 'ppl', 'pll', 'lll'];

const wasm = await load(new URL('pattern.wasm', import.meta.url));
const memory = wasm.memory;
const ascii = new TextDecoder();

/** A rule refuses a call. */
export class Refused extends Error {
    constructor(rule) {
        super(`refused by rule ${rule}: ${ruleText(rule)}`);
        this.name = 'Refused';
        this.rule = rule;
    }
}

export function version() {
    return text(wasm.pattern_version());
}

export function ruleText(rule) {
    return text(wasm.pattern_rule_text(rule));
}

export function verdict(sheet) {
    return VERDICTS[call('pattern_verdict', bytes(sheet))];
}

export function over(sheet) {
    const answer = list('pattern_over', BigUint64Array, 2, bytes(sheet));
    return answer.length ? { first: Number(answer[0]), part: members(answer[1]) } : null;
}

export function report(sheet) {
    return lines('pattern_report', MAX_REPORT, bytes(sheet));
}

export function plan(sheet) {
    return threes(list('pattern_plan', Uint16Array, MAX_PLAN, bytes(sheet)));
}

export function openMerges(sheet, steps) {
    return threes(list('pattern_open', Uint16Array, MAX_OPEN, bytes(sheet), count(steps)));
}

export function checkPlan(sheet, plan) {
    return lines('pattern_check_plan', MAX_REPORT, bytes(sheet), column(Uint16Array, plan.flat()));
}

export function steps(sheet) {
    return stepsIn(list('pattern_steps', BigUint64Array, MAX_STEPS * STEP, bytes(sheet)));
}

export function savedSteps(sheet, plan) {
    return stepsIn(list('pattern_saved_steps', BigUint64Array, MAX_STEPS * STEP, bytes(sheet), column(Uint16Array, plan.flat())));
}

export function initial(sheet) {
    return Array.from(list('pattern_initial', BigUint64Array, MAX_CONSTRAINTS, bytes(sheet)), members);
}

export function clusters(sheet) {
    return clustersBy('pattern_clusters', 'pattern_rests', bytes(sheet));
}

function clustersBy(sets, rests, given) {
    const elements = list(sets, BigUint64Array, MAX_CLUSTERS, given);
    const words = list(rests, BigUint64Array, MAX_RESTS, given);
    return Array.from(elements, (set, i) => ({ elements: members(set), restsOn: members(words[2 * i] | words[2 * i + 1] << 64n) }));
}

export function shared(a, b) {
    return members(BigInt.asUintN(64, wasm.pattern_shared(set(a), set(b))));
}

export function chain(sheet, from, to) {
    const { answer, at } = lent('pattern_chain', Uint16Array, MAX_CHAIN, bytes(sheet), count(from), count(to));
    return answer === NO_RUN ? null : Array.from(new Uint16Array(memory.buffer, at, accepted(answer)));
}

export function missing(sheet, prices) {
    const n = prices ? 0 : read(sheet).elements.length;
    const table = column(Uint16Array, prices ?? new Array(n * (n - 1) / 2).fill(0));
    return Array.from(list('pattern_missing', Uint16Array, MAX_MISSING, bytes(sheet), table), pair => [pair >> 8, pair & 255]);
}

export function part(sheet, number) {
    return lines('pattern_part', MAX_PART, bytes(sheet), count(number));
}

export function partSteps(sheet, number) {
    return call('pattern_part_steps', bytes(sheet), count(number));
}

export function partBytes(sheet, number) {
    return call('pattern_part_bytes', bytes(sheet), count(number));
}

export function card(number) {
    return VERDICTS[call('pattern_card', count(number))];
}

export function longest(n) {
    return list('pattern_longest', Uint8Array, MAX_WRITTEN, count(n));
}

export function rewrite(sheet) {
    return list('pattern_rewrite', Uint8Array, MAX_WRITTEN, bytes(sheet));
}

export function write({ elements, constraints = [], opening = elements.some(element => element.kind === 'circle') ? 2 : 1 }) {
    const some = elements.slice(0, MAX_ELEMENTS + 1);
    const rows = constraints.slice(0, MAX_CONSTRAINTS + 1);
    return list(
        'pattern_write', Uint8Array, MAX_WRITTEN, count(opening), count(some.length), count(rows.length),
        column(Uint8Array, some.map(kindNumber)), column(Uint32Array, some.map(element => element.radius ?? 0)),
        column(Uint8Array, rows.map(row => row.first)), column(Uint8Array, rows.map(row => row.second)),
        column(Uint8Array, rows.map(mapOf)), column(Int32Array, rows.map(row => row.size ?? 0)));
}

export function ordered(constraint, elements) {
    const { first, second, size } = constraint;
    const given = [elements.map(kindNumber), [first, second]].map(numbers => column(Uint8Array, numbers));
    const [kinds, count, ends, , sizes] = lay([...given, column(Int32Array, [size ?? 0])]);
    if (!wasm.pattern_order_ends(kinds, count, ends, ends + 1, sizes)) return constraint;
    return { ...constraint, first: second, second: first, ...(size !== undefined && { size: new Int32Array(memory.buffer, sizes, 1)[0] }) };
}

export function read(sheet) {
    const given = lay([bytes(sheet)]);
    const at = take(COLUMNS.bytes);
    accepted(wasm.pattern_read(...given, at));
    const [opening, n, e] = Array.from(new BigUint64Array(memory.buffer, at, 3), Number);
    const { kinds, radii, firsts, seconds, maps, sizes } = COLUMNS.at(at);
    const elements = Array.from({ length: n }, (_, i) => ({ kind: KINDS[kinds[i]], ...(kinds[i] === 2 && { radius: radii[i] }) }));
    const constraints = Array.from({ length: e }, (_, k) => ({
        first: firsts[k],
        second: seconds[k],
        ...(maps[k] & SIZED && { size: sizes[k] }),
        ...(maps[k] & TANGENT && { tangent: true }),
        ...(maps[k] & OTHER && { other: true }),
    }));
    return { opening, elements, constraints };
}

/** A held sketch: its record is bytes of its own, which are lent to each call. */
export class Sketch {
    #record = new Uint8Array(MAX_RECORD);

    constructor(sheet) {
        this.#record.set(list('pattern_hold', Uint8Array, MAX_RECORD, bytes(sheet)));
    }

    ask(constraint) {
        return VERDICTS[call('pattern_ask', this.#record, ...numbersOf(constraint))];
    }

    place(constraint, held) {
        const given = lay([this.#record, ...numbersOf(constraint), count(held)]);
        const answer = accepted(wasm.pattern_place(...given));
        this.#record.set(new Uint8Array(memory.buffer, given[0], MAX_RECORD));
        return VERDICTS[answer];
    }

    sheet() {
        return list('pattern_held', Uint8Array, MAX_WRITTEN, this.#record);
    }

    count() {
        return call('pattern_held_count', this.#record);
    }

    clusters() {
        return clustersBy('pattern_held_clusters', 'pattern_held_rests', this.#record);
    }
}

// ---- facts and numbers

/** struct pattern_columns of pattern_text.h: where its columns begin, behind three counts of 8 bytes. */
const COLUMNS = {
    bytes: 1744,
    at: from => ({
        kinds: new Uint8Array(memory.buffer, from + 24, MAX_ELEMENTS),
        radii: new Uint32Array(memory.buffer, from + 88, MAX_ELEMENTS),
        firsts: new Uint8Array(memory.buffer, from + 344, MAX_CONSTRAINTS),
        seconds: new Uint8Array(memory.buffer, from + 544, MAX_CONSTRAINTS),
        maps: new Uint8Array(memory.buffer, from + 744, MAX_CONSTRAINTS),
        sizes: new Int32Array(memory.buffer, from + 944, MAX_CONSTRAINTS),
    }),
};

function kindNumber({ kind }) {
    const number = KINDS.indexOf(kind);
    if (number < 0) throw new TypeError(`${kind} is no kind of element: point, line or circle`);
    return number;
}

function mapOf({ size, tangent, other }) {
    return (size === undefined ? 0 : SIZED) | (tangent ? TANGENT : 0) | (other ? OTHER : 0);
}

/** A constraint as pattern_ask and pattern_place take it. */
function numbersOf(constraint) {
    const ends = column(Uint8Array, [constraint.first, constraint.second]);
    return [...ends, mapOf(constraint), column(Int32Array, [constraint.size ?? 0])[0]];
}

function stepsIn(numbers) {
    return Array.from({ length: numbers.length / STEP }, (_, k) => {
        const [made, a, b, c, , lines, ways] = Array.from(numbers.subarray(k * STEP, (k + 1) * STEP), Number);
        const joint = members(numbers[k * STEP + 4]);
        return { made, parts: [a, b, c], joint, kind: JOINTS[lines], ways: ways === WAYS_UNKNOWN ? null : ways };
    });
}

function threes(numbers) {
    return Array.from({ length: numbers.length / 3 }, (_, k) => [...numbers.subarray(3 * k, 3 * k + 3)]);
}

/** The numbers of the bits that stand in a word, ascending. */
function members(word) {
    const found = [];
    for (let i = 0; word > 0n; i++, word >>= 1n) if (word & 1n) found.push(i);
    return found;
}

/** The word of a set of elements. */
function set(elements) {
    let word = 0n;
    for (const element of elements) {
        if (!(element >= 0 && element < MAX_ELEMENTS)) throw new RangeError(`${element} is no element: 0 to ${MAX_ELEMENTS - 1}`);
        word |= 1n << BigInt(element);
    }
    return word;
}

/** A list of numbers, each of which its type can hold. */
function column(Type, numbers) {
    const items = Type.from(numbers);
    items.forEach((item, i) => {
        if (item !== numbers[i]) throw new RangeError(`${numbers[i]} is no number of a list ${Type.name}`);
    });
    return items;
}

/** A count or a number as the library takes it. */
function count(number) {
    if (!(Number.isSafeInteger(number) && number >= 0)) throw new RangeError(`${number} is no count: 0, 1, 2 ..`);
    return BigInt(number);
}

function bytes(sheet) {
    if (sheet?.[Symbol.toStringTag] !== 'Uint8Array') throw new TypeError('a sheet is a Uint8Array');
    return sheet;
}

// ---- calls

async function load(file) {
    const inNode = file.protocol === 'file:' && typeof process === 'object';
    const code = inNode ? await (await import('node:fs/promises')).readFile(file) : await fetched(file);
    return (await WebAssembly.instantiate(code)).instance.exports;
}

async function fetched(file) {
    const response = await fetch(file);
    if (!response.ok) throw new Error(`${file}: ${response.status} ${response.statusText}`);
    return response.arrayBuffer();
}

/** Where the next list is laid. What lies from __heap_base on is ours, and each call begins there. */
let top = 0;

/** Takes so many bytes of the memory, at a place that is aligned for every list. */
function take(size) {
    const at = top;
    top += Math.ceil(size / 8) * 8;
    const lacking = top - memory.buffer.byteLength;
    if (lacking > 0) memory.grow(Math.ceil(lacking / 65536));
    return at;
}

/** Arguments as the library takes them: a list is copied to the memory, and goes as its place and its length. */
function lay(given) {
    top = Math.ceil(wasm.__heap_base.value / 8) * 8;
    const words = [];
    for (const item of given) {
        if (!ArrayBuffer.isView(item)) {
            words.push(item);
            continue;
        }
        const at = take(item.byteLength);
        new Uint8Array(memory.buffer).set(new Uint8Array(item.buffer, item.byteOffset, item.byteLength), at);
        words.push(at, BigInt(item.length));
    }
    return words;
}

/** An answer that is no refusal. */
function accepted(answer) {
    if (answer < 0) throw new Refused(-answer);
    return answer;
}

/** Calls a function that writes to no list. */
function call(name, ...given) {
    return accepted(wasm[name](...lay(given)));
}

/** Calls a function with lent space behind its arguments: the answer, and where the space lies. */
function lent(name, Type, room, ...given) {
    const words = lay(given);
    const at = take(room * Type.BYTES_PER_ELEMENT);
    return { answer: wasm[name](...words, at, BigInt(room)), at };
}

/** What a function writes to a lent list. */
function list(name, Type, room, ...given) {
    const { answer, at } = lent(name, Type, room, ...given);
    return new Type(memory.buffer, at, accepted(answer)).slice();
}

/** The lines that a function writes to lent bytes. */
function lines(name, room, ...given) {
    const { answer, at } = lent(name, Uint8Array, room, ...given);
    return ascii.decode(new Uint8Array(memory.buffer, at, accepted(answer)));
}

/** A text of the library, which ends with a zero byte. */
function text(at) {
    const found = new Uint8Array(memory.buffer, at);
    return ascii.decode(found.subarray(0, found.indexOf(0)));
}
