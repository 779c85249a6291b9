//! The text form and the bytes of random sheets, both ways; and the places of refusals.

use pattern_command::document::Document;
use pattern_command::fault::{Fault, Refusal, Spot};
use pattern_command::sheet::{Constraint, Dimension, Kind, Opening, Sheet};
use pattern_command::{engine, fields, text};

/// Numbers at random, the same in every run.
struct Random(u64);

impl Random {
    fn next(&mut self) -> u64 {
        self.0 ^= self.0 << 13;
        self.0 ^= self.0 >> 7;
        self.0 ^= self.0 << 17;
        self.0
    }

    fn below(&mut self, bound: usize) -> usize {
        (self.next() >> 11) as usize % bound
    }

    fn between(&mut self, low: i32, high: i32) -> i32 {
        low + self.below((high - low + 1) as usize) as i32
    }
}

/// A size that is not 0.
fn signed(random: &mut Random, most: i32) -> i32 {
    let size = random.between(1, most);
    if random.below(2) == 0 {
        size
    } else {
        -size
    }
}

/// What a constraint between two kinds may ask.
fn dimension(random: &mut Random, a: Kind, b: Kind) -> Dimension {
    let lines = usize::from(a.is_line()) + usize::from(b.is_line());
    let (circle, contact) = (a.radius() + b.radius() > 0, random.below(4));
    match (lines, circle, contact) {
        (_, true, 0) => Dimension::Tangent,
        (1, true, 1) => Dimension::OtherTangent,
        (0, true, 1) if a.radius() > 0 && b.radius() > 0 && a != b => Dimension::OtherTangent,
        (1, _, 2) => Dimension::On,
        (0, ..) => Dimension::Size(random.between(1, 40_000)),
        (1, ..) => Dimension::Size(signed(random, 40_000)),
        _ => Dimension::Size(signed(random, 17_999)),
    }
}

/// A sheet that no rule refuses; circles where its opening has them.
fn sheet(random: &mut Random, opening: Opening) -> Sheet {
    let most = if random.below(4) == 0 { 64 } else { 10 };
    let n = 2 + random.below(most - 1);
    let elements: Vec<_> = (0..n)
        .map(|_| match random.below(if opening == Opening::Pf02 { 3 } else { 2 }) {
            0 => Kind::Point,
            1 => Kind::Line,
            _ => Kind::Circle(random.between(1, 40_000) as u32),
        })
        .collect();
    let mut constraints: Vec<Constraint> = Vec::new();
    for _ in 0..random.below(3 * n).min(200) {
        let second = 1 + random.below(n - 1);
        let first = random.below(second);
        if constraints.iter().all(|c| (c.first, c.second) != (first, second)) {
            constraints.push(Constraint {
                first,
                second,
                dimension: dimension(random, elements[first], elements[second]),
            });
        }
    }
    Sheet { opening, elements, constraints }
}

/// The openings that the library writes.
fn openings() -> Vec<Opening> {
    let written = |opening: &Opening| {
        let sheet = Sheet { opening: *opening, elements: vec![Kind::Point; 2], constraints: Vec::new() };
        engine::write(&sheet).is_ok()
    };
    [Opening::Pf01, Opening::Pf02].into_iter().filter(written).collect()
}

/// Every complaint about some content.
fn complaints(content: &[u8]) -> Vec<Refusal> {
    match Document::of("it", content) {
        Err(Fault::Refused { refusals, .. }) => refusals,
        other => panic!("{other:?} of {content:02x?}"),
    }
}

/// The one complaint about some content.
fn refusal(content: &[u8]) -> Refusal {
    let found = complaints(content);
    assert_eq!(found.len(), 1, "{found:?}");
    found[0].clone()
}

/// What a text says that nothing is wrong with.
fn understood(text: &str) -> text::Text {
    let (parsed, complaints) = text::parse(text);
    assert!(complaints.is_empty(), "{complaints:?}");
    parsed
}

#[test]
fn facts_bytes_and_text_say_the_same() {
    let mut random = Random(20_261_116);
    for opening in openings() {
        for _ in 0..3000 {
            let sheet = sheet(&mut random, opening);
            let bytes = engine::write(&sheet).expect("no rule refuses it");
            let (read, plain) = fields::read(&bytes).expect("what was written is read");
            assert_eq!((&read, &plain), (&sheet, &bytes));
            let names = text::default_names(&sheet.elements);
            let printed = text::print(&sheet, &names);
            let parsed = understood(&printed);
            assert_eq!((&parsed.sheet, &parsed.names), (&sheet, &names));
            assert_eq!(text::print(&parsed.sheet, &parsed.names), printed);
        }
    }
}

#[test]
fn names_units_and_comments_do_not_matter() {
    let mut random = Random(7);
    for _ in 0..1000 {
        let sheet = sheet(&mut random, Opening::Pf01);
        let names: Vec<_> = (0..sheet.elements.len()).map(|i| format!("n{}-{}'", random.below(90), i)).collect();
        let spaced = text::print(&sheet, &names).replace(' ', " \t ").replace(" \t mm", "mm").replace(" \t deg", "°");
        let text = format!("# a sheet\n\n{}", spaced.replace('\n', " # a comment\r\n"));
        assert_eq!(understood(&text).sheet, sheet);
    }
}

#[test]
fn a_refused_byte_is_where_the_reader_begins_to_refuse() {
    let mut random = Random(99);
    let mut rules = [0; 32];
    for opening in openings() {
        for _ in 0..4000 {
            let mut bytes = engine::write(&sheet(&mut random, opening)).expect("no rule refuses it");
            match random.below(3) {
                0 => bytes.truncate(random.below(bytes.len())),
                1 => bytes.extend(vec![7; 1 + random.below(3)]),
                _ => {
                    let place = random.below(bytes.len());
                    bytes[place] = random.next() as u8;
                }
            }
            let rule = match engine::refusal(&bytes) {
                Some(rule) => rule,
                None => continue,
            };
            if !bytes.starts_with(b"PF0") {
                continue;
            }
            let found = refusal(&bytes);
            let byte = match found.spot {
                Spot::Byte(byte) => byte,
                _ => panic!("{found:?}"),
            };
            assert_eq!(found.rule, Some(rule));
            rules[usize::from(rule.0)] += 1;
            // up to the byte the sheet is only cut off, and no field is longer than 16 bytes
            assert!(
                matches!(engine::refusal(&bytes[..byte]).map(|rule| rule.0), Some(1 | 2) | None),
                "{found:?} of {bytes:02x?}"
            );
            let end = (byte + 16).min(bytes.len());
            assert!((byte..=end).any(|end| engine::refusal(&bytes[..end]) == Some(rule)), "{found:?} of {bytes:02x?}");
        }
    }
    for rule in [1, 2, 3, 4, 5, 6, 7, 8, 9, 10, 18, 19] {
        assert!(rules[rule] > 0, "no sheet was refused by {rule}");
    }
}

#[test]
fn a_refused_statement_is_found() {
    let at = |text: &str| {
        let found = refusal(text.as_bytes());
        match found.spot {
            Spot::Text { line, column } => (found.rule.map_or(0, |rule| rule.0), line, column),
            _ => panic!("{found:?}"),
        }
    };
    assert_eq!(at("point A B C\ndistance A B 5\n  distance C B 4000.1\n"), (9, 3, 3));
    assert_eq!(at("point A B C\ndistance A B 5\ndistance A C 5\ndistance B A 5\n"), (7, 4, 1));
    assert_eq!(at("point A B\ndistance A A 5\n"), (6, 2, 1));
    assert_eq!(at("line a b\nangle a b 180\n"), (9, 2, 1));
    assert_eq!(at("point A B\ndistance A B five\n"), (0, 2, 14));
    assert_eq!(at("point A B\n\tdistance  A C 5\n"), (0, 2, 14));
}

#[test]
fn every_complaint_about_a_text_is_told_once() {
    let told = |text: &str| {
        let lines = |refusal: &Refusal| refusal.spot.order().0;
        complaints(text.as_bytes()).iter().map(lines).collect::<Vec<_>>()
    };
    let text = "pont A B\npoint C\ndistance A B 5\ndistance C D 5\ncircle e five\ntangent e C\non C C\nangle C C 4 5\n";
    // A, B and e stand in refused lines, so that what holds them is not complained about again
    assert_eq!(told(text), [1, 4, 5, 7, 8]);
    // rules beside words, by line; and none that too few elements are named where a line was not understood
    assert_eq!(told("point A B\ndistance A B 0\ndistance A A 5\ndistance A B 5 5\ndistance B A 9999\n"), [2, 3, 4, 5]);
    assert_eq!(told("point A\npoint 5\n"), [2]);
    let many: String = (0..1000).map(|i| format!("nonsense {i}\n")).collect();
    assert_eq!(told(&many).len(), 101);
}

#[test]
fn a_complaint_says_what_would_do() {
    let says = |text: &str, words: &str| {
        let found = refusal(text.as_bytes());
        assert!(found.hint.contains(words), "{found}");
    };
    says(
        "line a b\nangle a b 0\n",
        "an angle is -179.99 deg to 179.99 deg, and not 0; parallel lines: hold both by an angle",
    );
    says("line a b\nangle a b 180\n", "parallel lines");
    says("line a b\nangle a b 270\n", "-90.00 deg is the same");
    says("line a b\nangle a b -190\n", "170.00 deg is the same");
    says("point A\nline l\ndistance A l 0\n", "write: on A l");
    says("line l\npoint A\ndistance A l 4000.1\n", "a distance from a line is -4000.0 mm to 4000.0 mm");
    says("point A B\ndistance A B 4000.1\n", "a distance between points is 0.1 mm to 4000.0 mm");
    says("point A B\ndistance A B -5\n", "without a sign");
    says("point A B\ndistance A B 0\n", "two points in one place are one");
    says("point A B\ndistance A A 5\n", "both ends are A");
    says("point A B\ndistance A B 5\ndistance B A 6\n", "line 2 has it: distance A B 5.0 mm");
    says("point A B\ndistnce A B 5\n", "did you mean distance?");
    says("point A B\nparallel A B\n", "a third line");
    says("point Alpha B\ndistance alpha B 5\n", "did you mean Alpha?");
    says("point A\ndistance A B 5\npoint B\n", "line 3 names it");
    says("point A B\ndistance A B 100,5\n", "write 100.5");
    says("point A B\ndistance A B 100,5mm\n", "write 100.5mm");
    says("point A\nline l\ndistance A l \u{2212}5\n", "write -5");
    says("point A B\ndistance A B 5in\n", "an inch is 25.4 mm");
    says("point A\ncircle c 4000.1\n", "a radius is 0.1 mm to 4000.0 mm");
    says("opening PF01\npoint A\ncircle c 5\n", "leave the line \"opening PF01\" out");
    says("point A\n", "name two elements or more");
    says("", "the file is empty");
}

#[test]
fn an_angle_turns_the_other_way_from_the_other_line() {
    let one = understood("line a b\nangle a b 30\n");
    let other = understood("line a b\nangle b a -30\n");
    assert_eq!(one.sheet, other.sheet);
}

#[test]
fn any_content_is_a_sheet_or_refused() {
    let mut random = Random(5);
    let texts = [
        include_str!("../../../examples/text/gable.txt"),
        include_str!("../../../examples/text/hipped.txt"),
        "point ä ß\ndistance ä ß 5°\n",
    ];
    let (mut accepted, mut refused) = (0, 0);
    for round in 0..6000 {
        let mut content = texts[round % texts.len()].as_bytes().to_vec();
        for _ in 0..random.below(4) {
            let place = random.below(content.len());
            match random.below(3) {
                0 => content[place] = random.next() as u8,
                1 => {
                    content.remove(place);
                }
                _ => content.insert(place, b" 0123456789.-#\nabPF"[random.below(19)]),
            }
        }
        match Document::of("it", &content) {
            Ok(document) => {
                accepted += 1;
                let again = Document::of("it", text::print(&document.sheet, &document.names).as_bytes())
                    .expect("it is printed");
                assert_eq!(again.bytes, document.bytes);
            }
            Err(fault) => {
                refused += 1;
                assert_eq!(fault.status() as u8, 2, "{fault}");
                assert!(!fault.to_string().is_empty());
            }
        }
    }
    assert!(accepted > 1000 && refused > 1000, "{accepted} accepted, {refused} refused");
}
