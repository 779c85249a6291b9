/**
 * The geometric constraint engine for flat patterns, over its WebAssembly.
 *
 * A sheet is a Uint8Array, as it stands in a file. Every function that takes one throws `Refused` where the engine refuses it, a RangeError for a
 * number that no list of the library can hold, and a TypeError for what is no sheet.
 *
 *     import * as pattern from './pattern.mjs';
 *
 *     const point = { kind: 'point' };
 *     const side = (first, second) => ({ first, second, size: 300 });
 *     const sheet = pattern.write({ elements: [point, point, point], constraints: [side(0, 1), side(0, 2), side(1, 2)] });
 *     pattern.verdict(sheet); // 'well'
 *     pattern.plan(sheet); // [[0, 1, 2]]
 */

/** What is said of a sheet, in the order it is tried. */
export type Verdict = 'over' | 'angle' | 'well' | 'stuck' | 'under';

/** A point, a line, or a circle with its radius in tenths of a millimetre. */
export type Element = { kind: 'point' } | { kind: 'line' } | { kind: 'circle'; radius: number };

/**
 * A constraint between two elements, the first below the second. The size is a distance in tenths of a millimetre or an angle in hundredths of a
 * degree; without one a point lies on a line. A circle touches by `tangent`, and in the other contact by `other` beside it; such a constraint has
 * no size.
 */
export interface Constraint {
    readonly first: number;
    readonly second: number;
    readonly size?: number;
    readonly tangent?: boolean;
    readonly other?: boolean;
}

/** The facts of a sheet. The opening is 1 for PF01 and 2 for PF02, which alone has circles. */
export interface Facts {
    readonly opening: number;
    readonly elements: readonly Element[];
    readonly constraints: readonly Constraint[];
}

/** A cluster that is left when no merge is open: its elements, and the constraints that it rests on. */
export interface Cluster {
    readonly elements: number[];
    readonly restsOn: number[];
}

/** What makes a sheet over: the first constraint too many, and the smallest set of elements that cannot take it. */
export interface Over {
    readonly first: number;
    readonly part: number[];
}

/** Three cluster numbers: a step of a plan, or an open merge. */
export type Three = [number, number, number];

/** A step of a plan: what its line in the report gives. `ways` is null where the placements are not known. */
export interface Step {
    readonly made: number;
    readonly parts: Three;
    readonly joint: number[];
    readonly kind: 'ppp' | 'ppl' | 'pll' | 'lll';
    readonly ways: number | null;
}

/** A rule refuses a call. The message has its number and its text. */
export class Refused extends Error {
    constructor(rule: number);
    readonly rule: number;
}

/** The price of a pair that can't be measured. */
export const UNMEASURED: 65535;

/** The version of the library. */
export function version(): string;

/** A rule in words. */
export function ruleText(rule: number): string;

/** The verdict of a sheet. */
export function verdict(sheet: Uint8Array): Verdict;

/** What makes a sheet over, or null where it is not. */
export function over(sheet: Uint8Array): Over | null;

/** The report of a sheet: a line each for its verdict, its steps and its clusters. */
export function report(sheet: Uint8Array): string;

/** The plan: three cluster numbers a step. A sheet that is over has none. */
export function plan(sheet: Uint8Array): Three[];

/** The merges that are open after so many steps of the plan, or after all: by the lowest element of the joint, then by number. */
export function openMerges(sheet: Uint8Array, steps: number): Three[];

/** The report for a plan that was saved, its steps in the saved order. */
export function checkPlan(sheet: Uint8Array, plan: readonly (readonly number[])[]): string;

/** The steps of the plan, as the report gives them. */
export function steps(sheet: Uint8Array): Step[];

/** The steps of a plan that was saved. */
export function savedSteps(sheet: Uint8Array, plan: readonly (readonly number[])[]): Step[];

/** The clusters that a plan starts from: the two ends of each constraint. */
export function initial(sheet: Uint8Array): number[][];

/** The clusters that are left when no merge is open, by number. A sheet that is over has none. */
export function clusters(sheet: Uint8Array): Cluster[];

/** All that two sets of elements have in common. */
export function shared(a: Iterable<number>, b: Iterable<number>): number[];

/** The numbers of the fewest final clusters from one element to another, or null where the two are not connected. */
export function chain(sheet: Uint8Array, from: number, to: number): number[] | null;

/**
 * The cheapest pairs that bring a sheet to 2n-3 constraints. Prices are of pairs in dictionary order, 0 to 1,000 or UNMEASURED; without them each
 * is 0.
 */
export function missing(sheet: Uint8Array, prices?: ArrayLike<number>): [number, number][];

/** The step lines of one cluster of the plan, each part's before the step that uses it. */
export function part(sheet: Uint8Array, number: number): string;

/** How many steps one cluster of the plan has. */
export function partSteps(sheet: Uint8Array, number: number): number;

/** How many bytes `part` gives. */
export function partBytes(sheet: Uint8Array, number: number): number;

/** The verdict of five points with some of the ten distances between them: bit 0 is the pair (0,1), then in dictionary order. */
export function card(number: number): Verdict;

/** The sheet of n points with the longest plan. */
export function longest(n: number): Uint8Array;

/** The same sheet without its tags. */
export function rewrite(sheet: Uint8Array): Uint8Array;

/** The sheet of some facts. Without an opening it is PF02 where there is a circle, else PF01. */
export function write(facts: Pick<Facts, 'elements'> & Partial<Facts>): Uint8Array;

/**
 * The same constraint with its lower end first, as a sheet and a sketch take it: between two lines an angle then turns the other way, and changes
 * its sign.
 */
export function ordered(constraint: Constraint, elements: readonly Element[]): Constraint;

/** The facts of a sheet. */
export function read(sheet: Uint8Array): Facts;

/** A held sketch: asked what a constraint would do before it is placed. */
export class Sketch {
    /** Holds a sheet that is not over. */
    constructor(sheet: Uint8Array);

    /** The verdict of the sketch with one more constraint. Nothing changes. */
    ask(constraint: Constraint): Verdict;

    /** Places a constraint that was asked when so many were held. */
    place(constraint: Constraint, held: number): Verdict;

    /** The sheet that is held. */
    sheet(): Uint8Array;

    /** How many constraints are held. */
    count(): number;

    /** The clusters of the sketch, by number; constraint i is the one that was the i-th held. */
    clusters(): Cluster[];
}
