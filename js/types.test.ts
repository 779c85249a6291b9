// What the types allow and what they refuse; tsc alone looks at this file.
import * as pattern from 'pattern';

const elements: pattern.Element[] = [{ kind: 'point' }, { kind: 'line' }, { kind: 'circle', radius: 300 }];
const constraints: pattern.Constraint[] = [{ first: 0, second: 1 }, { first: 1, second: 2, tangent: true, other: false }];
const sheet: Uint8Array = pattern.write({ elements, constraints });
const verdict: 'over' | 'angle' | 'well' | 'stuck' | 'under' = pattern.verdict(sheet);
const facts: pattern.Facts = pattern.read(pattern.rewrite(sheet));
const again: Uint8Array = pattern.write(facts);
const first: number | undefined = pattern.over(sheet)?.first;
const report: string = pattern.checkPlan(sheet, pattern.plan(sheet)) + pattern.part(sheet, 3) + pattern.report(again);
const ways: (number | null)[] = pattern.steps(sheet).map(step => step.ways);
const rests: number[] = pattern.clusters(sheet).flatMap(cluster => cluster.restsOn);
const common: number[] = pattern.shared(new Set([1, 2]), [2]);
const pairs: [number, number][] = pattern.missing(sheet, new Uint16Array(3));
const run: number[] | null = pattern.chain(sheet, 0, 2);
const turned: pattern.Constraint = pattern.ordered({ first: 1, second: 0, size: 9000 }, elements);
const sketch = new pattern.Sketch(sheet);
const asked: pattern.Verdict = sketch.ask({ first: 0, second: 2, size: 300 });
const placed: pattern.Verdict = sketch.place({ first: 0, second: 2, size: 300 }, sketch.count());
try {
    pattern.longest(65);
} catch (error) {
    if (error instanceof pattern.Refused) console.log(error.rule + 1, error.message, pattern.ruleText(error.rule));
}

// @ts-expect-error a sheet is no text
pattern.verdict('PF01');
// @ts-expect-error a circle has a radius
pattern.write({ elements: [{ kind: 'circle' }] });
// @ts-expect-error there is no such kind
pattern.write({ elements: [{ kind: 'square' }] });
// @ts-expect-error a sheet that is not over has no first constraint too many
pattern.over(sheet).first;
// @ts-expect-error a chain may be missing
pattern.chain(sheet, 0, 1).length;
// @ts-expect-error placing takes how many were held
sketch.place({ first: 0, second: 1 });
// @ts-expect-error a rule is a number
new pattern.Refused('9');
// @ts-expect-error a verdict is one of five names
const none: typeof verdict = 'fine';

export { asked, common, first, none, pairs, placed, report, rests, run, turned, ways };
