// Runs a test program in WebAssembly, which prints by host.put and answers its status: node host.mjs PROGRAM.wasm
import { readFileSync, writeSync } from 'node:fs';

const host = { put: (text, count) => writeSync(1, new Uint8Array(instance.exports.memory.buffer, text, count)) };
const { instance } = await WebAssembly.instantiate(readFileSync(process.argv[2]), { host });
process.exitCode = instance.exports.main();
