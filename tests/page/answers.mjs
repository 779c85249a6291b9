// What the page's module answers, outside of a browser: answers.mjs < CALLS > ANSWERS
// A call is a line: {"words": [..], "files": {name: content in base64}}; an answer is one too, with the processor's time.
import { readFileSync } from 'node:fs';
import { createInterface } from 'node:readline';
import { open } from '../../page/src/engine.mjs';

const engine = await open(readFileSync(new URL('../../target/page/core.wasm', import.meta.url)));
const base64 = bytes => Buffer.from(bytes).toString('base64');
for await (const line of createInterface({ input: process.stdin })) {
    const { words, files } = JSON.parse(line);
    const given = Object.fromEntries(Object.entries(files).map(([name, content]) => [name, new Uint8Array(Buffer.from(content, 'base64'))]));
    const before = process.cpuUsage();
    const answer = engine.answer(words, given);
    const { user, system } = process.cpuUsage(before);
    const written = Object.fromEntries(Object.entries(answer.files).map(([name, bytes]) => [name, base64(bytes)]));
    const told = { exit: answer.exit, out: base64(answer.bytes), notes: answer.notes, files: written, ms: (user + system) / 1000 };
    process.stdout.write(JSON.stringify(told) + '\n');
}
