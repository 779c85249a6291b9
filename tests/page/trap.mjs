// A call that traps is told as an error, and the next ones are answered as before: trap.mjs
import { strict as assert } from 'node:assert';
import { readFileSync } from 'node:fs';
import { open } from '../../page/src/engine.mjs';

const engine = await open(readFileSync(new URL('../../target/page/core.wasm', import.meta.url)));
const files = { 'a.txt': 'point A B\ndistance A B 5\n' };
const wanted = engine.answer(['check', 'a.txt'], files);
for (let turn = 0; turn < 3; turn += 1) {
    const core = engine.core;
    // a question outside of the module's memory
    engine.core = { ...core, memory: core.memory, answer: () => core.answer(0xffffff00, 0x80) };
    const answer = engine.answer(['check', 'a.txt', ...(turn === 1 ? ['--json'] : [])], files);
    assert.equal(answer.exit, 70);
    assert.match(turn === 1 ? answer.json.errors[0].message : answer.notes[0], /the command failed: /);
    assert.notEqual(engine.core.memory, core.memory);
    assert.deepEqual(engine.answer(['check', 'a.txt'], files), wanted);
    await new Promise(done => setTimeout(done, 50));
    assert.ok(engine.spare);
}
console.log('page: a call that traps is told, and the next is answered');
