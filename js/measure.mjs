// Measures a report of 64 points in C, in WebAssembly alone and through the JavaScript module: node js/measure.mjs, after make and make targets.
import { execFileSync } from 'node:child_process';
import { readFileSync } from 'node:fs';

import * as pattern from '../target/targets/js/pattern.mjs';

const root = new URL('..', import.meta.url).pathname;
const program = `${root}target/targets/measure`;
execFileSync('cc', ['-O2', `-I${root}include`, `${root}js/measure.c`, `${root}target/install/libpattern.a`, '-o', program]);
const native = Number(execFileSync(program));

const wasm = (await WebAssembly.instantiate(readFileSync(`${root}target/targets/js/pattern.wasm`))).instance.exports;
const sheet = pattern.longest(64);
const at = wasm.__heap_base.value;
new Uint8Array(wasm.memory.buffer).set(sheet, at);

/** Nanoseconds of processor time that a call takes: the least of ten runs. */
function measured(call) {
    const calls = 20000;
    const runs = Array.from({ length: 10 }, () => {
        const began = process.cpuUsage().user;
        for (let i = 0; i < calls; i++) call();
        return ((process.cpuUsage().user - began) * 1000) / calls;
    });
    return Math.min(...runs);
}

const row = (name, took) => console.log(`${name.padEnd(24)} ${(took / 1000).toFixed(1)} µs  ${(took / native).toFixed(1)} times native`);
row('C', native);
row('WebAssembly alone', measured(() => wasm.pattern_report(at, BigInt(sheet.length), at + 4096, 5000n)));
row('the JavaScript module', measured(() => pattern.report(sheet)));
