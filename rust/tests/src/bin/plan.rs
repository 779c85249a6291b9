//! The engine beside the reference: `pattern_verdict`, `pattern_plan`, `pattern_clusters` and `pattern_rests`; and demand 3 through
//! the library: maximal lists of merges in random orders.

use std::process::ExitCode;

use pattern_tests::facts::{Sheet, MOST_ELEMENTS};
use pattern_tests::interface::Found;
use pattern_tests::merging::Merges;
use pattern_tests::rings;
use pattern_tests::run::{rules, Hex, Run};
use pattern_tests::set::Set;
use pattern_tests::verdict::{angle_by_joint, angle_by_ring, final_sets, verdict, Judged};
use pattern_tests::{calls, damage, dress, orders, tags, writer};

const ROUNDS: usize = 20_000;

fn main() -> ExitCode {
    let mut run = Run::start("plan", 50_463_033);
    for round in 0..ROUNDS {
        let most = if round % 4 == 0 { MOST_ELEMENTS } else { 20 };
        let sheet = dress::any(most, &mut run.random);
        let bytes = tags::any(&sheet, &mut run.random);
        let found = Found::of(&bytes);
        calls::plan(&mut run, &bytes, &found);
        if let Ok((sheet, judged)) = found.accepted() {
            run.count("sheets", verdict(sheet, judged).name());
            in_the_reference(&mut run, sheet, judged);
            if let Judged::Merged(_) = judged {
                orders::compare(&mut run, sheet);
            }
            angles(&mut run, sheet, judged);
            rests(&mut run, sheet, judged);
        }
        let damaged = damage::aimed(&bytes, &mut run.random);
        calls::plan(&mut run, &damaged, &Found::of(&damaged));
    }
    for verdict in ["over", "angle", "well", "stuck", "under"] {
        run.must("sheets", verdict, 500);
    }
    for angle in ["by joint", "by ring", "by both", "by ring, no constraint missing"] {
        run.must("angle", angle, 50);
    }
    run.must("rings", "searched", 1000);
    for function in ["pattern_verdict", "pattern_plan", "pattern_clusters", "pattern_rests"] {
        rules((1..=10).chain(18..=20)).for_each(|rule| run.must(function, &rule, 50));
    }
    for function in ["pattern_plan", "pattern_rests"] {
        rules([17]).for_each(|rule| run.must(function, &rule, 100));
    }
    run.must("orders", "with merges", 1000);
    run.must("orders", "without a merge", 1000);
    run.must("rests", "exactly what lies in it", 1000);
    run.finish()
}

/// Compares, in the reference, the engine's plan with merging in a random order: every order of merging gives
/// the same final clusters, joints, steps and verdict.
fn in_the_reference(run: &mut Run, sheet: &Sheet, judged: &Judged) {
    if let Judged::Merged(engine) = judged {
        let other = Merges::random(sheet, &mut run.random);
        let input = Hex(&writer::bytes(sheet)).to_string();
        run.same("reference", &input, sorted(&other), sorted(engine));
        run.same("reference", &input, verdict(sheet, &Judged::Merged(other)), verdict(sheet, judged));
    }
}

/// Compares, in the reference, what the final clusters rest on with the constraints whose two ends lie in each: 2m-3 of
/// them, and every constraint in one cluster (request 2026-04).
fn rests(run: &mut Run, sheet: &Sheet, judged: &Judged) {
    if let Judged::Merged(merges) = judged {
        let input = Hex(&writer::bytes(sheet)).to_string();
        for (&(_, set), rests) in merges.finals.iter().zip(&merges.rests) {
            let inside: Vec<usize> = (0..sheet.e()).filter(|&i| sheet.constraints[i].ends() & !set == 0).collect();
            run.same("reference", &input, rests.len() + 3, 2 * set.count_ones() as usize);
            run.same("reference", &input, rests.clone(), inside);
        }
        run.same("reference", &input, merges.rests.iter().map(Vec::len).sum::<usize>(), sheet.e());
        run.count("rests", "exactly what lies in it");
    }
}

/// Counts what an angle comes from; on sheets of few final clusters a ring is searched for by its definition too.
fn angles(run: &mut Run, sheet: &Sheet, judged: &Judged) {
    let merges = match judged {
        Judged::Merged(merges) => merges,
        _ => return,
    };
    let ring = angle_by_ring(sheet, merges);
    match (angle_by_joint(sheet, merges), ring) {
        (true, true) => run.count("angle", "by both"),
        (true, false) => run.count("angle", "by joint"),
        (false, true) => run.count("angle", "by ring"),
        (false, false) => {}
    }
    if ring && sheet.e() == 2 * sheet.n() - 3 {
        run.count("angle", "by ring, no constraint missing");
    }
    let finals = final_sets(merges);
    if finals.len() <= 9 {
        run.count("rings", "searched");
        let input = Hex(&writer::bytes(sheet)).to_string();
        run.same("reference", &input, ring, rings::search(&finals, sheet.lines()));
    }
}

/// The final clusters and the joints of a list of merges, each as a sorted list of sets.
fn sorted(merges: &Merges) -> (Vec<Set>, Vec<Set>) {
    let mut finals: Vec<Set> = merges.finals.iter().map(|&(_, set)| set).collect();
    let mut joints: Vec<Set> = merges.steps.iter().map(|step| step.joint).collect();
    finals.sort_unstable();
    joints.sort_unstable();
    (finals, joints)
}
