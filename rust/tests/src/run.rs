//! A run of the library beside the reference: it counts, and ends at the first difference.

use std::collections::BTreeMap;
use std::fmt::{self, Debug, Display};
use std::process::{exit, ExitCode};
use std::time::Instant;

use crate::facts::Rule;
use crate::random::Random;
use crate::space::{rooms, Item, Space};

/// What the inputs of a function are counted as.
pub const INPUTS: &str = "inputs";

/// A run from its seed on.
pub struct Run {
    pub random: Random,
    name: &'static str,
    started: Instant,
    calls: u64,
    counts: BTreeMap<&'static str, BTreeMap<String, u64>>,
    lacks: Vec<String>,
}

impl Run {
    /// Starts a run with the seed given as the program's argument, or else with `seed`, and prints it.
    pub fn start(name: &'static str, seed: u64) -> Run {
        let given = std::env::args().nth(1).and_then(|word| word.parse().ok());
        let seed = given.unwrap_or(seed);
        println!("{name}: seed {seed}");
        Run {
            random: Random::new(seed),
            name,
            started: Instant::now(),
            calls: 0,
            counts: BTreeMap::new(),
            lacks: Vec::new(),
        }
    }

    /// Counts one more of something.
    pub fn count(&mut self, what: &'static str, which: impl Display) {
        *self.counts.entry(what).or_default().entry(which.to_string()).or_default() += 1;
    }

    /// Calls a function with lent space of every room around the answer's length, and compares number and space.
    pub fn lent<T: Item>(
        &mut self,
        function: &'static str,
        input: &dyn Display,
        answer: &Result<Vec<T>, Rule>,
        mut call: impl FnMut(&mut [T]) -> i32,
    ) {
        self.count(function, INPUTS);
        self.count(function, outcome(answer));
        for room in rooms(answer, &mut self.random) {
            let mut space = Space::new(room, &mut self.random);
            let (number, cells) = space.expected(answer);
            if number == -17 {
                self.count(function, rule(17));
            }
            let got = call(space.lent());
            self.same(function, &format_args!("{input}, room {room}"), (got, space.cells()), (number, &cells));
        }
    }

    /// Compares what a call gave with what it must give.
    pub fn same<T: PartialEq + Debug>(&mut self, function: &str, input: &dyn Display, got: T, wanted: T) {
        self.calls += 1;
        if got != wanted {
            println!("{}: {function} differs", self.name);
            println!("input {input}");
            println!("got {got:?}");
            println!("wanted {wanted:?}");
            exit(1);
        }
    }

    /// How many calls were compared.
    pub fn calls(&self) -> u64 {
        self.calls
    }

    /// Requires that something came up at least so often.
    pub fn must(&mut self, what: &'static str, which: &str, least: u64) {
        let count = self.counts.get(what).and_then(|counts| counts.get(which)).copied().unwrap_or(0);
        if count < least {
            self.lacks.push(format!("{what} {which} came up {count} times, less than {least}"));
        }
    }

    /// Prints the counts; fails where something did not come up as it must.
    pub fn finish(&self) -> ExitCode {
        for (what, counts) in &self.counts {
            println!("{}", listed(what, counts));
        }
        for lack in &self.lacks {
            println!("{}: {lack}", self.name);
        }
        if !self.lacks.is_empty() {
            return ExitCode::FAILURE;
        }
        let seconds = self.started.elapsed().as_secs_f64();
        println!("{}: {} calls, no difference, {seconds:.1} s", self.name, self.calls);
        ExitCode::SUCCESS
    }
}

/// The most columns of a line of counts.
const COLUMNS: usize = 100;

/// Counts behind what they count, over as many lines as they need.
fn listed(what: &str, counts: &BTreeMap<String, u64>) -> String {
    let mut lines = vec![format!("{what}:")];
    for (place, (which, count)) in counts.iter().enumerate() {
        let comma = if place + 1 < counts.len() { "," } else { "" };
        let item = format!(" {which} {count}{comma}");
        match lines.last_mut() {
            Some(line) if line.len() + item.len() <= COLUMNS => line.push_str(&item),
            _ => lines.push(format!("   {item}")),
        }
    }
    lines.join("\n")
}

/// A rule as it is counted.
fn rule(number: Rule) -> String {
    format!("rule {number:02}")
}

/// Rules as they are counted.
pub fn rules(numbers: impl IntoIterator<Item = Rule>) -> impl Iterator<Item = String> {
    numbers.into_iter().map(rule)
}

/// An answer as it is counted: accepted, or the rule.
pub fn outcome<T>(answer: &Result<T, Rule>) -> String {
    match answer {
        Ok(_) => "accepted".to_string(),
        Err(number) => rule(*number),
    }
}

/// Bytes in hexadecimal.
pub struct Hex<'a>(pub &'a [u8]);

impl Display for Hex<'_> {
    fn fmt(&self, f: &mut fmt::Formatter) -> fmt::Result {
        self.0.iter().try_for_each(|byte| write!(f, "{byte:02x}"))
    }
}
