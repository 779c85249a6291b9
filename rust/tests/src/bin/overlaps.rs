//! What two sets share beside the reference, on random sets and on clusters, and the initial clusters: `pattern_shared` and
//! `pattern_initial`.

use std::process::ExitCode;

use pattern_tests::facts::MOST_ELEMENTS;
use pattern_tests::interface::{self, Found};
use pattern_tests::run::{rules, Run};
use pattern_tests::{calls, damage, dress, tags};

const ROUNDS: usize = 20_000;

fn main() -> ExitCode {
    let mut run = Run::start("overlaps", 50_463_041);
    for round in 0..ROUNDS {
        let (a, b) = (run.random.bits(), run.random.bits());
        for (a, b) in [(a, b), (a & b, b), (a & !b, b), (a, !a), (0, b), (!0, b)] {
            calls::shared(&mut run, a, b);
        }
        let most = if round % 4 == 0 { MOST_ELEMENTS } else { 20 };
        let sheet = dress::any(most, &mut run.random);
        let bytes = tags::any(&sheet, &mut run.random);
        calls::initial(&mut run, &bytes);
        let found = Found::of(&bytes);
        run.count(
            "sheets",
            found.verdict().map_or("refused", |verdict| if verdict == 0 { "over" } else { "not over" }),
        );
        let mut clusters = interface::initial(&bytes).unwrap_or_default();
        clusters.extend(found.clusters().unwrap_or_default());
        for _ in 0..clusters.len().min(8) {
            let (i, j) = (run.random.below(clusters.len()), run.random.below(clusters.len()));
            calls::shared(&mut run, clusters[i], clusters[j]);
        }
        let damaged = damage::aimed(&bytes, &mut run.random);
        calls::initial(&mut run, &damaged);
    }
    rules((1..=10).chain(18..=20)).for_each(|rule| run.must("pattern_initial", &rule, 50));
    rules([17]).for_each(|rule| run.must("pattern_initial", &rule, 100));
    for sheets in ["over", "not over"] {
        run.must("sheets", sheets, 500);
    }
    for elements in ["0", "1", "2", "3"] {
        run.must("shared elements", elements, 500);
    }
    run.finish()
}
