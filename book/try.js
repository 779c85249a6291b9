// A call to try: the proved library, in WebAssembly, called as its prototype says. Its module stands in data/wasm.js.
'use strict';
const LISTS = {
    uint8_t: Uint8Array, uint16_t: Uint16Array, uint32_t: Uint32Array, uint64_t: BigUint64Array, int32_t: Int32Array,
};

// The bytes of a sheet in short form: its kinds (p, l, c300), then its constraints (0-1, 0-1:250, :none, :t, :o); or in
// hexadecimal.
function sheetBytes(text) {
    const [kinds, ...rows] = text.trim().split(/\s+/);
    if (!/^=?([plk]|c\d+)+$/.test(kinds)) {
        return Uint8Array.from(text.replace(/\s/g, '').match(/../g) || [], hex => parseInt(hex, 16));
    }
    const round = /[=ck]/.test(kinds), each = round ? 4 : 8;
    const long = z => [z, z >> 8, z >> 16, z >> 24].map(b => b & 255);
    const all = [...kinds.matchAll(/([plck])(\d*)/g)].map(m => ({kind: 'plck'.indexOf(m[1]), radius: +m[2]}));
    const out = [0x50, 0x46, 0x30, round ? 0x32 : 0x31, all.length];
    for (let i = 0; i < all.length; i += each) {
        out.push(all.slice(i, i + each).reduce((byte, e, k) => byte | e.kind << k * 8 / each, 0));
    }
    for (const e of all) if (e.kind === 2) out.push(...long(e.radius));
    out.push(rows.length);
    for (const row of rows) {
        const [ends, size] = row.split(':'), contact = {none: 0, t: 4, o: 12}[size];
        out.push(...ends.split('-').map(Number), ...contact === undefined ? [1, ...long(+(size || 300))] : [contact]);
    }
    return Uint8Array.from(out);
}

// ---- calls

// The module, made once.
let engine = null;
async function wake() {
    await load('wasm');
    const code = Uint8Array.from(atob(WASM), c => c.charCodeAt(0));
    return engine ||= (await WebAssembly.instantiate(code)).instance.exports;
}

// Calls a function: lists are laid behind each other from the module's heap on. The answer, and the lists that were
// lent.
function call(wasm, name, parameters, values) {
    let top = Math.ceil(wasm.__heap_base.value / 8) * 8;
    const words = [], lent = [];
    parameters.forEach((p, i) => {
        if (!p.list) {
            words.push(p.type === 'pattern_len' || p.type === 'uint64_t' ? BigInt(values[i]) : Number(values[i]));
            return;
        }
        const Type = LISTS[p.type], items = p.room ? new Type(p.room) : values[i], at = top;
        if (p.room && values[i]) items.set(values[i].subarray(0, p.room));
        top += Math.ceil(items.byteLength / 8) * 8;
        const lacking = top - wasm.memory.buffer.byteLength;
        if (lacking > 0) wasm.memory.grow(Math.ceil(lacking / 65536));
        new Uint8Array(wasm.memory.buffer).set(new Uint8Array(items.buffer), at);
        if (p.out && !p.record) lent.push({Type, at, room: items.length});
        words.push(at, BigInt(items.length));
    });
    const answer = wasm[name](...words);
    return {answer, lists: lent.map(({Type, at, room}) => new Type(wasm.memory.buffer, at, room).slice())};
}

// The value of a parameter, from the text in its field; a record is that of the sheet there, held.
function value(wasm, p, text) {
    if (p.sheet) return sheetBytes(text);
    if (p.record) {
        const bytes = {list: true, type: 'uint8_t'}, lent = {...bytes, out: true, room: 8192};
        return call(wasm, 'pattern_hold', [bytes, lent], [sheetBytes(text), null]).lists[0];
    }
    if (p.out) return null;
    if (!p.list) return text || 0;
    const numbers = text.trim().split(/[\s,]+/).filter(Boolean);
    return LISTS[p.type].from(numbers, x => p.type === 'uint64_t' ? BigInt(x) : +x);
}

// ---- answers

function elements(set) {
    const found = [];
    for (let i = 0; set > 0n; i++, set >>= 1n) if (set & 1n) found.push(i);
    return `{${found.join(' ')}}`;
}

// What is said of an answer: the rule that refuses, or the count and the items, bytes as text where they are text.
function told(answer, lists, tried) {
    if (typeof answer === 'bigint') answer = BigInt.asUintN(64, answer);
    if (typeof answer === 'bigint') return `${answer} ${elements(answer)}`;
    if (answer < 0 && tried.rules[-answer]) return `refused by rule ${-answer}: ${tried.rules[-answer]}`;
    if (answer < 0 || !lists.length) return `${answer}`;
    const list = lists.pop().slice(0, answer);
    if (!(list instanceof Uint8Array)) {
        const items = Array.from(list, x => tried.sets ? `${x} ${elements(x)}` : `${x}`);
        return `${answer}\n${items.join(tried.sets ? '\n' : ' ')}`;
    }
    if (list.length && list.every(b => b === 10 || b >= 32 && b < 127)) {
        return `${answer} bytes\n${new TextDecoder().decode(list)}`;
    }
    return `${answer} bytes\n${Array.from(list, b => b.toString(16).padStart(2, '0')).join(' ')}`;
}

for (const form of document.querySelectorAll('form.try')) {
    const tried = JSON.parse(form.dataset.call), output = form.querySelector('output');
    form.addEventListener('submit', async e => {
        e.preventDefault();
        try {
            const wasm = await wake(), given = new FormData(form);
            const values = tried.parameters.map(p => value(wasm, p, given.get(p.name) || ''));
            const {answer, lists} = call(wasm, tried.name, tried.parameters, values);
            output.textContent = told(answer, lists, tried);
        } catch (error) {
            output.textContent = `${error}`;
        }
    });
    form.requestSubmit();
}
