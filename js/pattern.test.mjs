// Tests of the JavaScript module that targets/build puts beside the WebAssembly: node --test js/pattern.test.mjs
import assert from 'node:assert/strict';
import { readFileSync, readdirSync, statSync } from 'node:fs';
import { test } from 'node:test';

import * as pattern from '../target/targets/js/pattern.mjs';

const file = path => readFileSync(new URL(path, import.meta.url));
const source = file('pattern.mjs').toString();
const header = file('../include/pattern.h').toString() + file('../include/pattern_text.h');

const point = { kind: 'point' };
const line = { kind: 'line' };
const side = (first, second) => ({ first, second, size: 300 });

/** Four points, five distances of 30 mm. */
const FACTS = { opening: 1, elements: [point, point, point, point], constraints: [side(0, 1), side(0, 2), side(1, 2), side(1, 3), side(2, 3)] };
const SHEET = pattern.write(FACTS);

/** A call is refused by a rule, with its text. */
function refused(rule, call) {
    assert.throws(call, { name: 'Refused', rule, message: `refused by rule ${rule}: ${pattern.ruleText(rule)}` });
}

test('stored sheets are reported as by the program', () => {
    const folder = '../tests/programs/report/';
    const names = readdirSync(new URL(folder, import.meta.url)).filter(name => name.endsWith('.sheet'));
    assert.ok(names.length > 60);
    for (const name of names) {
        const sheet = file(folder + name);
        const wanted = file(folder + name.replace('.sheet', '.out')).toString();
        const [first, word] = wanted.split(/\s/);
        if (first === 'refused') {
            for (const call of [pattern.report, pattern.verdict, pattern.plan, pattern.read, pattern.over]) refused(Number(word), () => call(sheet));
            continue;
        }
        assert.equal(pattern.report(sheet), wanted);
        assert.equal(pattern.verdict(sheet), word);
        assert.deepEqual(pattern.write(pattern.read(sheet)), pattern.rewrite(sheet));
    }
});

test('facts are written and read', () => {
    assert.deepEqual(pattern.read(SHEET), FACTS);
    const onLine = { opening: 1, elements: [line, point], constraints: [{ first: 0, second: 1 }] };
    assert.deepEqual([...pattern.write(onLine)], [0x50, 0x46, 0x30, 0x31, 2, 1, 1, 0, 1, 0]);
    assert.deepEqual(pattern.read(pattern.write(onLine)), onLine);
    const circle = { kind: 'circle', radius: 3000 };
    const round = { opening: 2, elements: [circle, line], constraints: [{ first: 0, second: 1, tangent: true, other: true }] };
    assert.deepEqual(pattern.read(pattern.write({ elements: round.elements, constraints: round.constraints })), round);
    refused(18, () => pattern.write({ opening: 1, elements: [circle, line] }));
    refused(3, () => pattern.write({ elements: new Array(1000).fill(point) }));
    refused(9, () => pattern.write({ elements: [point, point], constraints: [{ first: 0, second: 1, size: 0 }] }));
});

test('ends are put in order', () => {
    assert.deepEqual(pattern.ordered({ first: 1, second: 0, size: 300 }, [point, point]), side(0, 1));
    assert.deepEqual(pattern.ordered({ first: 1, second: 0, size: 9000 }, [line, line]), { first: 0, second: 1, size: -9000 });
    assert.deepEqual(pattern.ordered({ first: 1, second: 0 }, [line, point]), { first: 0, second: 1 });
    assert.deepEqual(pattern.ordered(side(0, 1), [line, line]), side(0, 1));
});

test('a plan is made, saved and checked', () => {
    assert.deepEqual(pattern.plan(SHEET), [[0, 1, 2], [3, 4, 5]]);
    assert.deepEqual(pattern.steps(SHEET)[1], { made: 6, parts: [3, 4, 5], joint: [1, 2, 3], kind: 'ppp', ways: null });
    assert.deepEqual(pattern.openMerges(SHEET, 0), [[0, 1, 2], [2, 3, 4]]);
    assert.deepEqual(pattern.openMerges(SHEET, 2), []);
    const other = [[4, 3, 2], [5, 1, 0]];
    assert.match(pattern.checkPlan(SHEET, other), /^verdict well\nelements 4 constraints 5\nstep 5 from 2 3 4 /);
    assert.deepEqual(pattern.savedSteps(SHEET, other).map(step => step.parts), [[2, 3, 4], [0, 1, 5]]);
    refused(16, () => pattern.checkPlan(SHEET, [[0, 1, 2]]));
    refused(12, () => pattern.checkPlan(SHEET, [[0, 1]]));
    assert.equal(pattern.part(SHEET, 5), 'step 5 from 0 1 2 joint 0 1 2 kind ppp ways 2\n');
    assert.equal(pattern.partBytes(SHEET, 5), pattern.part(SHEET, 5).length);
    assert.equal(pattern.partSteps(SHEET, 6), 2);
    refused(26, () => pattern.part(SHEET, 7));
});

test('clusters, sets and chains', () => {
    assert.deepEqual(pattern.initial(SHEET), [[0, 1], [0, 2], [1, 2], [1, 3], [2, 3]]);
    assert.deepEqual(pattern.clusters(SHEET), [{ elements: [0, 1, 2, 3], restsOn: [0, 1, 2, 3, 4] }]);
    assert.deepEqual(pattern.shared([0, 1, 63], new Set([63, 1, 2])), [1, 63]);
    assert.throws(() => pattern.shared([64], []), RangeError);
    const apart = pattern.write({ elements: [point, point, point, point], constraints: [side(0, 1), side(1, 2)] });
    assert.deepEqual(pattern.chain(apart, 0, 2), [0, 1]);
    assert.deepEqual(pattern.chain(apart, 1, 1), []);
    assert.equal(pattern.chain(apart, 0, 3), null);
    refused(25, () => pattern.chain(apart, 0, 4));
    assert.deepEqual(pattern.clusters(pattern.longest(64))[0].restsOn.length, 125);
});

test('what is too many, and what is missing', () => {
    const all = pattern.write({ ...FACTS, constraints: [...FACTS.constraints, side(0, 3)] });
    assert.equal(pattern.verdict(all), 'over');
    assert.deepEqual(pattern.over(all), { first: 5, part: [0, 1, 2, 3] });
    assert.equal(pattern.over(SHEET), null);
    assert.deepEqual(pattern.plan(all), []);
    const some = pattern.write({ ...FACTS, constraints: FACTS.constraints.slice(0, 4) });
    assert.deepEqual(pattern.missing(some), [[0, 3]]);
    assert.deepEqual(pattern.missing(some, [9, 9, 9, 9, 9, 1]), [[2, 3]]);
    refused(23, () => pattern.missing(some, new Array(6).fill(pattern.UNMEASURED)));
    refused(21, () => pattern.missing(some, [1]));
    assert.throws(() => pattern.missing(some, [65536, 0, 0, 0, 0, 0]), RangeError);
});

test('a sketch is held', () => {
    const sketch = new pattern.Sketch(pattern.write({ elements: [point, point, point] }));
    assert.equal(sketch.ask(side(0, 1)), 'under');
    assert.equal(sketch.count(), 0);
    assert.equal(sketch.place(side(0, 1), 0), 'under');
    refused(24, () => sketch.place(side(0, 2), 0));
    refused(7, () => sketch.ask(side(0, 1)));
    assert.equal(sketch.place(side(0, 2), 1), 'under');
    assert.deepEqual(sketch.clusters(), [{ elements: [0, 1], restsOn: [0] }, { elements: [0, 2], restsOn: [1] }]);
    assert.equal(sketch.place(side(1, 2), 2), 'well');
    assert.equal(sketch.count(), 3);
    assert.deepEqual(sketch.clusters(), [{ elements: [0, 1, 2], restsOn: [0, 1, 2] }]);
    assert.deepEqual(pattern.read(sketch.sheet()).constraints, [side(0, 1), side(0, 2), side(1, 2)]);
    assert.throws(() => sketch.ask(side(0, 256)), RangeError);
    refused(11, () => new pattern.Sketch(pattern.write({ ...FACTS, constraints: [...FACTS.constraints, side(0, 3)] })));
});

test('the card, the longest plan, rules and the version', () => {
    assert.equal(pattern.card(0), 'under');
    assert.equal(pattern.card(1023), 'over');
    assert.equal(pattern.plan(pattern.longest(64)).length, 62);
    refused(3, () => pattern.longest(65));
    assert.equal(pattern.ruleText(9), 'the size is outside its range');
    assert.equal(pattern.version(), header.match(/PATTERN_VERSION +"(.*)"/)[1]);
});

test('what is no sheet, or no number, is an error', () => {
    for (const wrong of ['PF01', null, undefined, [80, 70], new Uint16Array(4), new ArrayBuffer(4)]) {
        assert.throws(() => pattern.verdict(wrong), TypeError);
    }
    refused(1, () => pattern.verdict(new Uint8Array()));
    refused(1, () => pattern.verdict(new Uint8Array(10_000_000)));
    assert.equal(pattern.verdict(Buffer.from(SHEET)), 'well');
    for (const wrong of [-1, 1.5, NaN, '4']) assert.throws(() => pattern.longest(wrong), RangeError);
    refused(3, () => pattern.longest(2 ** 32 + 4));
    assert.throws(() => pattern.write({ elements: [{ kind: 'square' }, point] }), TypeError);
    assert.throws(() => pattern.write({ elements: [point, point], constraints: [{ first: 0, second: 257, size: 1 }] }), RangeError);
    assert.throws(() => pattern.write({ elements: [point, point], constraints: [{ first: 0, second: 1, size: 0.5 }] }), RangeError);
});

test('every function of the headers is called', () => {
    const declared = [...header.matchAll(/^(?:int32_t|uint64_t|const char) \*?(pattern_\w+)\(/gm)].map(found => found[1]);
    assert.ok(declared.length >= 28);
    // VERDICTS has the names, and write takes the facts as read gives them
    const spared = ['pattern_verdict_text', 'pattern_write_columns'];
    for (const name of declared) assert.ok(spared.includes(name) || new RegExp(`\\b${name}\\b`).test(source), name);
});

test('constants are those of the header', () => {
    const constants = [...source.matchAll(/^const ([A-Z_]+) = (-?\d+);|^export const ([A-Z_]+) = (-?\d+);/gm)];
    assert.ok(constants.length > 18);
    for (const [, name, value, exported, number] of constants) {
        assert.equal(value ?? number, header.match(new RegExp(`#define PATTERN_${name ?? exported} +\\(?(-?\\d+)\\)?`))?.[1], name ?? exported);
    }
});

test('the example of the types runs', () => {
    const [, example] = file('pattern.d.ts').toString().match(/import \* as pattern.*?;\n([^]*?) \*\//);
    const code = example.replaceAll(/^ \* ?/gm, '').replaceAll(/^ *(pattern.*); \/\/ (.*)$/gm, 'assert.deepEqual($1, $2);');
    assert.equal(code.match(/assert/g).length, 2);
    new Function('pattern', 'assert', code)(pattern, assert);
});

test('the types declare what the module exports', () => {
    const types = file('pattern.d.ts').toString();
    const declared = [...types.matchAll(/^export (?:function|class|const) (\w+)/gm)].map(found => found[1]);
    assert.deepEqual(declared.sort(), Object.keys(pattern).sort());
});

test('the WebAssembly has at most 120 KB', () => {
    assert.ok(statSync(new URL('../target/targets/js/pattern.wasm', import.meta.url)).size <= 120 * 1024);
});
