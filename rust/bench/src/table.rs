//! The table that is printed.

use crate::cases::Case;
use crate::timing::{lower, lowest_medians, Contender, SAMPLES, TURNS};
use pattern_tests::tags;

/// Times the contenders on each case and prints the table; a ratio is the first one's time to that one's.
pub fn print(title: &str, cases: &[Case], contenders: &mut [Contender]) {
    println!("{title}: ns a call, the lowest of {TURNS} medians of {SAMPLES} samples; lent buffers are not cleared");
    heading(contenders);
    let mut rows: Vec<(&Case, f64)> = Vec::new();
    for case in cases {
        agree(case, contenders);
        let times = lowest_medians(contenders, &case.pool);
        row(case, &times);
        rows.push((case, times[0]));
    }
    growth(&rows);
    println!();
}

/// The same, less the time of reading: that of the sheet with a byte too many, which rule 10 refuses once all else is read.
pub fn print_less_reading(title: &str, cases: &[Case], contenders: &mut [Contender]) {
    println!("{title}, less reading: ns");
    heading(contenders);
    for case in cases {
        let longer: Vec<Vec<u8>> = case.pool.iter().map(|bytes| [bytes.as_slice(), &[0]].concat()).collect();
        let mut whole = lowest_medians(contenders, &case.pool);
        let mut reading = lowest_medians(contenders, &longer);
        for _ in 0..2 {
            lower(&mut whole, lowest_medians(contenders, &case.pool));
            lower(&mut reading, lowest_medians(contenders, &longer));
        }
        let times: Vec<f64> = whole.iter().zip(&reading).map(|(whole, reading)| whole - reading).collect();
        row(case, &times);
    }
    println!();
}

/// The column heads.
fn heading(contenders: &[Contender]) {
    print!("{:<34}{:>4}{:>5}", "sheets", "n", "e");
    print!("{:>11}", contenders[0].name);
    for contender in &contenders[1..] {
        print!("{:>11}{:>8}", contender.name, "ratio");
    }
    println!();
}

/// One case's times and ratios.
fn row(case: &Case, times: &[f64]) {
    print!("{:<34}{:>4}{:>5}{:>11.0}", case.name, case.n, case.e, times[0]);
    for time in &times[1..] {
        print!("{time:>11.0}{:>8.2}", times[0] / time);
    }
    println!();
}

/// How the first contender's time grows with n, for each shape that comes up more than once.
fn growth(rows: &[(&Case, f64)]) {
    for (i, (least, time)) in rows.iter().enumerate() {
        let first = rows[..i].iter().all(|(case, _)| case.name != least.name);
        let most = rows[i + 1..].iter().rev().find(|(case, _)| case.name == least.name);
        if let (true, Some((most, longest))) = (first, most) {
            println!("{}: {:.1} times from n {} to n {}", least.name, longest / time, least.n, most.n);
        }
    }
}

/// Ends the run where two contenders answer differently.
pub fn agree(case: &Case, contenders: &mut [Contender]) {
    for bytes in &case.pool {
        let kept = |contender: &Contender| if contender.keeps_tags { tags::length(bytes) as i32 } else { 0 };
        let answer = |contender: &mut Contender| (contender.call)(bytes) - kept(contender);
        let answers: Vec<i32> = contenders.iter_mut().map(answer).collect();
        assert!(answers.iter().all(|&answer| answer == answers[0]), "{}: {answers:?} on {bytes:02x?}", case.name);
    }
}
