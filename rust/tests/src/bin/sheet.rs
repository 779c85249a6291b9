//! Reader and writer beside the reference: `pattern_rewrite` and `pattern_write`.

use std::process::ExitCode;

use pattern_tests::calls::{self, write};
use pattern_tests::facts::{Columns, MOST_ELEMENTS};
use pattern_tests::run::{outcome, rules, Hex, Run, INPUTS};
use pattern_tests::{damage, dress, first, reader, tags};

const ROUNDS: usize = 30_000;
/// Every so many rounds a sheet is cut at every byte.
const CUT: usize = 200;

fn main() -> ExitCode {
    let mut run = Run::start("sheet", 50_463_031);
    for round in 0..ROUNDS {
        let sheet = dress::any(MOST_ELEMENTS, &mut run.random);
        let bytes = tags::any(&sheet, &mut run.random);
        rewrite(&mut run, &bytes);
        for _ in 0..2 {
            let aimed = damage::aimed(&bytes, &mut run.random);
            rewrite(&mut run, &aimed);
            let changed = damage::changed(&bytes, &mut run.random);
            rewrite(&mut run, &changed);
        }
        let appended = damage::appended(&bytes, &mut run.random);
        rewrite(&mut run, &appended);
        let noise = damage::noise(&mut run.random);
        rewrite(&mut run, &noise);
        if round % CUT == 0 {
            (0..bytes.len()).for_each(|length| rewrite(&mut run, &bytes[..length]));
        }
        write(&mut run, &Columns::of(&sheet));
        let facts = damage::facts(&sheet, &mut run.random);
        write(&mut run, &facts);
    }
    run.must("pattern_rewrite", INPUTS, 200_000);
    run.must("pattern_write", INPUTS, 50_000);
    rules((1..=10).chain([18, 19])).for_each(|rule| run.must("pattern_rewrite", &rule, 1_000));
    rules([20]).for_each(|rule| run.must("pattern_rewrite", &rule, 300));
    rules([1, 3, 5, 6, 7, 8, 9, 17, 18]).for_each(|rule| run.must("pattern_write", &rule, 500));
    rules([19, 20]).for_each(|rule| run.must("pattern_write", &rule, 100));
    rules(2..=10).for_each(|rule| run.must("PF01 read as document 01 has it", &rule, 1_000));
    run.finish()
}

/// Compares `pattern_rewrite`, and, of bytes that open with PF01, the reader of both openings with the one of document 01 alone.
fn rewrite(run: &mut Run, bytes: &[u8]) {
    calls::rewrite(run, bytes);
    if bytes.starts_with(b"PF01") {
        let alone = first::read(bytes);
        run.count("PF01 read as document 01 has it", outcome(&alone));
        run.same("reference", &Hex(bytes), reader::read(bytes), alone);
    }
}
