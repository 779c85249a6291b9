// Every function of the JavaScript module on the stored sheets and on damaged copies of them, a line each: answers.mjs ROOT MODULE. answers.py
// prints the same.
import { readFileSync, readdirSync } from 'node:fs';
import { resolve } from 'node:path';

const root = process.argv[2];
const pattern = await import(resolve(process.argv[3]));

/** The shapes of answers that answers.py prints as lists. */
const shapes = {
    over: answer => answer && [answer.first, answer.part],
    steps: answer => answer.map(step => [step.made, step.parts, step.joint, step.kind, step.ways]),
    saved_steps: answer => shapes.steps(answer),
    clusters: answer => answer.map(cluster => [cluster.elements, cluster.restsOn]),
    read: answer => [
        answer.opening,
        answer.elements.map(element => [element.kind, element.radius ?? 0]),
        answer.constraints.map(c => [c.first, c.second, c.size ?? null, c.tangent ?? false, c.other ?? false]),
    ],
};

/** Prints what a call answers, or the rule that refuses it. */
function tell(name, call) {
    let answer;
    try {
        answer = (shapes[name] ?? (given => (given instanceof Uint8Array ? [...given] : given)))(call());
    } catch (refused) {
        if (!(refused instanceof pattern.Refused)) throw refused;
        answer = refused.message;
    }
    console.log(name, JSON.stringify(answer));
}

/** All that can be asked of a sheet. */
function tellAll(sheet) {
    for (const name of ['verdict', 'over', 'report', 'plan', 'steps', 'initial', 'clusters', 'rewrite', 'read', 'missing']) {
        tell(name, () => pattern[name](sheet));
    }
    for (let number = 0; number < 12; number += 3) {
        tell('part', () => pattern.part(sheet, number));
        tell('part_steps', () => pattern.partSteps(sheet, number));
        tell('part_bytes', () => pattern.partBytes(sheet, number));
        tell('chain', () => pattern.chain(sheet, 0, number));
        tell('open_merges', () => pattern.openMerges(sheet, number));
    }
    tell('check_plan', () => pattern.checkPlan(sheet, pattern.plan(sheet).reverse()));
    tell('saved_steps', () => pattern.savedSteps(sheet, pattern.plan(sheet)));
    tell('write', () => pattern.write(pattern.read(sheet)));
    tell('shared', () => (pattern.initial(sheet).length > 1 ? pattern.shared(...pattern.initial(sheet).slice(0, 2)) : []));
    tell('missing', () => {
        const n = pattern.read(sheet).elements.length;
        return pattern.missing(sheet, Array.from({ length: n * (n - 1) / 2 }, (_, k) => k % 7));
    });
    tell('sketch', () => placed(new pattern.Sketch(sheet)));
}

/** A sketch with two more constraints, where they may stand: what asking and placing said, and the sheet. */
function placed(sketch) {
    const said = [];
    for (const second of [2, 3]) {
        const more = { first: 0, second, size: 300 };
        for (const call of [() => sketch.ask(more), () => sketch.place(more, sketch.count()), () => sketch.place(more, 199)]) {
            try {
                said.push(call());
            } catch (refused) {
                said.push(refused.rule);
            }
        }
    }
    return [said, sketch.count(), [...sketch.sheet()]];
}

const folder = `${root}/tests/programs/report`;
for (const name of readdirSync(folder).filter(file => file.endsWith('.sheet')).sort()) {
    const whole = readFileSync(`${folder}/${name}`);
    tellAll(whole);
    tellAll(whole.subarray(0, Math.floor(whole.length / 2)));
    tellAll(Uint8Array.of(...whole, 0));
    for (let place = 4; place < whole.length; place += 41) {
        const damaged = Uint8Array.from(whole);
        damaged[place] ^= place;
        tellAll(damaged);
    }
}
for (let n = 0; n < 67; n++) tell('longest', () => pattern.longest(n));
for (let number = 0; number < 1100; number += 7) tell('card', () => pattern.card(number));
for (let rule = -30; rule < 30; rule++) tell('rule_text', () => pattern.ruleText(rule));
tell('version', pattern.version);
