//! Mutated inputs: text forms with and without rough places, sheets in bytes, plans and price lists. None makes the
//! command panic or hang; each is accepted or gets a clear complaint.
//!
//! As many as the environment variable PATTERN_FUZZ says, else 200,000.

use std::path::Path;
use std::time::{Duration, Instant};

use pattern_command::document::Document;
use pattern_command::fault::{Fault, Refusal, Spot};
use pattern_command::finding::Finding;
use pattern_command::prices::Prices;
use pattern_command::{describe, draw, engine, plans, steps, text};

/// The longest that one input may take; none takes a hundredth of it on a machine of its own.
const PATIENCE: Duration = Duration::from_secs(5);

/// Words of the text form, of price lists and of plans, and what is near to them, a space between two.
const TOKENS: &str = "point line circle distance angle on tangent opening other at from to default never PF01 PF02 \
    A B C a sill P0 mm cm m deg \u{b0} 0 1 -1 5 90 180 270 -0.0 600.05 100,5 4000 4000.1 1e9 99999999999999999999 \
    65535 65536 # \n \r\n \u{feff} \u{2212}5";

/// Numbers at random, the same in every run.
struct Random(u64);

impl Random {
    fn next(&mut self) -> u64 {
        self.0 ^= self.0 << 13;
        self.0 ^= self.0 >> 7;
        self.0 ^= self.0 << 17;
        self.0
    }

    fn below(&mut self, bound: usize) -> usize {
        (self.next() >> 11) as usize % bound.max(1)
    }

    fn of<'a, T>(&mut self, items: &'a [T]) -> &'a T {
        &items[self.below(items.len())]
    }

    fn token(&mut self) -> &'static str {
        let place = self.below(TOKENS.split(' ').count());
        TOKENS.split(' ').nth(place).unwrap_or_default()
    }
}

/// The files of a folder and below whose names end so.
fn files(folder: &Path, ending: &str) -> Vec<Vec<u8>> {
    let mut entries: Vec<_> =
        std::fs::read_dir(folder).expect("a folder").map(|entry| entry.expect("an entry").path()).collect();
    entries.sort();
    let content = |path: &std::path::PathBuf| match path.is_dir() {
        true => files(path, ending),
        false if path.extension().map_or(false, |found| found == ending) => vec![std::fs::read(path).expect("a file")],
        false => Vec::new(),
    };
    entries.iter().flat_map(content).collect()
}

/// The start and the end of some line of a content.
fn some_line(random: &mut Random, content: &[u8]) -> (usize, usize) {
    let place = random.below(content.len());
    let start = content[..place].iter().rposition(|byte| *byte == b'\n').map_or(0, |at| at + 1);
    let end = content[place..].iter().position(|byte| *byte == b'\n').map_or(content.len(), |at| place + at + 1);
    (start, end)
}

/// A content with one to six changes.
fn mutated(random: &mut Random, seeds: &[Vec<u8>]) -> Vec<u8> {
    let mut content = random.of(seeds).clone();
    for _ in 0..1 + random.below(6) * random.below(2) {
        let (place, last) = (random.below(content.len() + 1), content.len().saturating_sub(1));
        match random.below(10) {
            0 if !content.is_empty() => content[place.min(last)] = random.next() as u8,
            1 if !content.is_empty() => {
                content.remove(place.min(last));
            }
            2 | 3 => {
                let token = [" ", random.token(), " "].concat();
                content.splice(place..place, token.bytes());
            }
            4 if !content.is_empty() => {
                let (start, end) = some_line(random, &content);
                content.drain(start..end);
            }
            5 if !content.is_empty() => {
                let (start, end) = some_line(random, &content);
                let line = content[start..end].to_vec();
                let times = if random.below(100) == 0 { 500 } else { 1 };
                (0..times).for_each(|_| drop(content.splice(start..start, line.iter().copied())));
            }
            6 => {
                let other = random.of(seeds);
                let from = random.below(other.len() + 1);
                content.splice(place.., other[from..].iter().copied());
            }
            7 => content.truncate(place),
            8 => {
                let byte = random.next() as u8;
                content.insert(place, byte);
            }
            _ => {
                // a word of the content in the place of another
                let word = random.token().bytes();
                let end =
                    content[place..].iter().position(u8::is_ascii_whitespace).map_or(content.len(), |at| place + at);
                content.splice(place..end, word);
            }
        }
        content.truncate(1 << 16);
    }
    content
}

/// Looks at a complaint: it has words, stands within the content, and obeys no terminal.
fn is_clear(fault: &Fault, content: &[u8]) {
    let refusals: &[Refusal] = match fault {
        Fault::Refused { refusals, .. } => refusals,
        other => panic!("{other}"),
    };
    assert!(!refusals.is_empty());
    let lines = content.iter().filter(|byte| **byte == b'\n').count() + 1;
    for refusal in refusals {
        assert!(refusal.rule.is_some() || refusal.words.len() > 10, "{refusal:?}");
        match refusal.spot {
            Spot::Text { line, column } => assert!((1..=lines).contains(&line) && column > 0, "{refusal:?}"),
            Spot::Byte(byte) => assert!(byte <= content.len(), "{refusal:?}"),
            Spot::Whole => {}
        }
    }
    for line in fault.lines() {
        assert!(!line.chars().any(char::is_control), "{line:?}");
        assert!(line.len() < 1000, "{line:?}");
    }
    assert!(fault.json().to_string().starts_with("[{\"file\": "));
}

/// What an accepted sheet says: all that the command would print of it; a picture of some.
fn is_told(document: &Document, finding: &Finding, picture: bool) {
    assert!(!describe::lines(document, finding, None).is_empty());
    assert!(steps::words(document, &finding.steps).len() >= finding.steps.len());
    if document.source.is_some() {
        let printed = text::print_placed(&document.sheet, &document.names, &document.places);
        let again = Document::of("it", printed.as_bytes()).expect("what is printed is understood");
        assert_eq!((&again.bytes, &again.names), (&document.bytes, &document.names));
        let placed = |document: &Document| document.places.iter().map(Option::is_some).collect::<Vec<_>>();
        assert_eq!(placed(&again), placed(document));
    }
    if picture {
        let layout = draw::layout(document);
        let position = draw::examine_layout(document, finding, &layout);
        let picture = draw::picture(document, finding, &layout, position.as_ref(), draw::Options::default());
        assert!(picture.starts_with("<svg ") && !picture.contains("NaN") && !picture.contains("inf"), "{picture}");
        assert_eq!(draw::rough(document, &layout).len(), document.names.len());
    }
}

/// A sheet in text or bytes.
fn sheet(content: &[u8], picture: bool) -> bool {
    match Document::of("it", content) {
        Ok(document) => {
            let prices = Prices::default().of(&document).expect("no pair is named");
            let finding = Finding::of(&document, &prices).expect("it is a sheet");
            is_told(&document, &finding, picture);
            true
        }
        Err(fault) => {
            is_clear(&fault, content);
            false
        }
    }
}

/// A plan for a sheet.
fn plan(document: &Document, content: &[u8]) -> bool {
    let numbers = match plans::numbers("it", content) {
        Ok(numbers) => numbers,
        Err(fault) => {
            is_clear(&fault, content);
            return false;
        }
    };
    match engine::check_plan(&document.bytes, &numbers) {
        Ok(report) => report.starts_with("verdict "),
        Err(rule) => {
            is_clear(&Fault::refused("it", plans::refusal(document, &numbers, rule)), content);
            false
        }
    }
}

/// A price list for a sheet.
fn prices(document: &Document, content: &[u8]) -> bool {
    match Prices::parse("it", content).and_then(|prices| prices.of(document)) {
        Ok(prices) => {
            let finding = Finding::of(document, &prices).expect("prices make no sheet refused");
            is_told(document, &finding, false);
            true
        }
        Err(fault) => {
            is_clear(&fault, content);
            false
        }
    }
}

#[test]
fn mutated_inputs_are_accepted_or_refused_in_clear_words() {
    let count = std::env::var("PATTERN_FUZZ").map_or(200_000, |count| count.parse().expect("a number"));
    let root = Path::new(env!("CARGO_MANIFEST_DIR")).join("../..");
    let mut texts = files(&root.join("examples/text"), "txt");
    texts.extend(files(&root.join("tests/tools/texts"), "txt"));
    let bytes = files(&root.join("tests/programs"), "sheet");
    let mut saved = files(&root.join("tests/programs"), "plan");
    let lists = [&b"default 10\nA B 3\nA C never\n"[..], b"# prices\nA D 1000\nB D 0\n"].map(<[u8]>::to_vec);
    let gable =
        Document::of("gable", &std::fs::read(root.join("examples/text/gable.txt")).expect("it")).expect("a sheet");
    let frame =
        Document::of("frame", &std::fs::read(root.join("examples/text/frame.txt")).expect("it")).expect("a sheet");
    saved.extend([b"0 2 3\n1 4 5\n6 7 8\n9 10 11\n".to_vec(), b"".to_vec()]);
    assert!(texts.len() > 20 && bytes.len() > 50 && saved.len() > 9);

    let mut random = Random(20_261_117);
    let (mut accepted, mut refused, mut slowest) = ([0; 4], [0; 4], Duration::ZERO);
    for round in 0..count {
        let start = Instant::now();
        let (kind, content) = match round % 8 {
            0..=3 => (0, mutated(&mut random, &texts)),
            4 | 5 => (1, mutated(&mut random, &bytes)),
            6 => (2, mutated(&mut random, &saved)),
            _ => (3, mutated(&mut random, &lists)),
        };
        let taken = match kind {
            0 | 1 => sheet(&content, round % 8 == 0),
            2 => plan(&gable, &content),
            _ => prices(&frame, &content),
        };
        if taken {
            accepted[kind] += 1
        } else {
            refused[kind] += 1
        };
        slowest = slowest.max(start.elapsed());
        assert!(start.elapsed() < PATIENCE, "{:?} for {:?}", start.elapsed(), String::from_utf8_lossy(&content));
    }
    println!("{count} inputs: accepted {accepted:?}, refused {refused:?}; the slowest took {slowest:?}");
    assert!(accepted.iter().chain(&refused).all(|count| *count > 0), "{accepted:?} accepted, {refused:?} refused");
}
