//! Advice is followed on sheets at random, through their text, and none ends other than told.

use pattern::{Verdict, UNMEASURED};
use pattern_command::advice::{Advice, Change, Pair, MOST_TRIES};
use pattern_command::document::Document;
use pattern_command::finding::Finding;
use pattern_command::sheet::{Constraint, Dimension, Kind, Opening, Sheet};
use pattern_command::{describe, engine, text};

/// Numbers at random, the same in every run.
struct Random(u64);

impl Random {
    fn below(&mut self, bound: usize) -> usize {
        self.0 ^= self.0 << 13;
        self.0 ^= self.0 >> 7;
        self.0 ^= self.0 << 17;
        (self.0 >> 11) as usize % bound
    }
}

/// A dimension that two kinds may have.
fn dimension(random: &mut Random, a: Kind, b: Kind) -> Dimension {
    match (a.is_line(), b.is_line()) {
        (true, true) => Dimension::Size(1 + random.below(17_999) as i32),
        (false, false) => Dimension::Size(1 + random.below(40_000) as i32),
        _ if random.below(2) == 0 => Dimension::On,
        _ => Dimension::Size(-1 - random.below(40_000) as i32),
    }
}

/// Whether a sheet is over.
fn is_over(sheet: &Sheet) -> bool {
    verdict(sheet) == Verdict::Over
}

/// The verdict of a sheet.
fn verdict(sheet: &Sheet) -> Verdict {
    pattern::verdict(&engine::write(sheet).expect("no rule refuses it")).expect("a verdict")
}

/// Holds a pair that is not held yet; not where that makes the sheet over, unless it may.
fn hold(random: &mut Random, sheet: &mut Sheet, a: usize, b: usize, may_be_over: bool) {
    let (first, second) = (a.min(b), a.max(b));
    if a == b
        || sheet.constraints.len() == 200
        || sheet.constraints.iter().any(|c| (c.first, c.second) == (first, second))
    {
        return;
    }
    let dimension = dimension(random, sheet.elements[first], sheet.elements[second]);
    sheet.constraints.push(Constraint { first, second, dimension });
    if !may_be_over && is_over(sheet) {
        sheet.constraints.pop();
    }
}

/// Points and lines, with so many lines of a hundred.
fn elements(random: &mut Random, n: usize, lines: usize) -> Sheet {
    let kind =
        |i: usize, random: &mut Random| if i > 0 && random.below(100) < lines { Kind::Line } else { Kind::Point };
    let elements = (0..n).map(|i| kind(i, random)).collect();
    Sheet { opening: Opening::Pf01, elements, constraints: Vec::new() }
}

/// Pairs at random: sparse, or with so many that some parts are over.
fn sparse(random: &mut Random, n: usize, lines: usize, wanted: usize, may_be_over: bool) -> Sheet {
    let mut sheet = elements(random, n, lines);
    for _ in 0..40 * n {
        if sheet.constraints.len() < wanted {
            let (a, b) = (random.below(n), random.below(n));
            hold(random, &mut sheet, a, b, may_be_over);
        }
    }
    sheet
}

/// A sheet that is built, each element held from two earlier ones, a line by a point at least.
fn built(random: &mut Random, n: usize, lines: usize) -> Sheet {
    let mut sheet = elements(random, n, lines);
    hold(random, &mut sheet, 0, 1, false);
    for i in 2..n {
        let points: Vec<usize> = (0..i).filter(|&j| !sheet.elements[j].is_line()).collect();
        let first = points[random.below(points.len())];
        hold(random, &mut sheet, first, i, false);
        let second = (0..i).cycle().skip(random.below(i)).find(|&j| j != first).expect("there are two");
        hold(random, &mut sheet, second, i, false);
    }
    sheet
}

/// A sheet of one of the kinds that people bring.
fn sheet(random: &mut Random, round: usize) -> Sheet {
    let n = if round % 40 == 0 { 18 + random.below(12) } else { 4 + random.below(9) };
    let lines = [0, 25, 50][random.below(3)];
    let full = 2 * n - 3;
    match round % 5 {
        0 => {
            let wanted = random.below(full + 1);
            sparse(random, n, lines, wanted, false)
        }
        1 => sparse(random, n, lines, full, false),
        2 => {
            let wanted = full + random.below(4);
            sparse(random, n, lines, wanted, true)
        }
        3 => {
            let mut sheet = built(random, n, lines);
            for _ in 0..1 + random.below(5) {
                let gone = random.below(sheet.constraints.len());
                sheet.constraints.remove(gone);
            }
            sheet
        }
        _ => {
            let mut sheet = built(random, n, lines);
            for _ in 0..random.below(3) {
                let gone = random.below(sheet.constraints.len());
                sheet.constraints.remove(gone);
            }
            for _ in 0..1 + random.below(4) {
                let (a, b) = (random.below(n), random.below(n));
                hold(random, &mut sheet, a, b, true);
            }
            sheet
        }
    }
}

/// Prices: all alike, or at random with pairs that can't be measured.
fn prices(random: &mut Random, n: usize, round: usize) -> Vec<u16> {
    let price = |random: &mut Random| match random.below(12) {
        0 => UNMEASURED,
        _ => random.below(1001) as u16,
    };
    (0..n * (n - 1) / 2).map(|_| if round % 3 == 0 { price(random) } else { 0 }).collect()
}

/// The verdict of a text without some of its statements of constraints and with others.
fn followed(sheet: &Sheet, out: &[usize], more: &[String]) -> Verdict {
    let names = text::default_names(&sheet.elements);
    let printed = text::print(sheet, &names);
    let n = sheet.elements.len();
    let kept = printed.lines().enumerate().filter(|(i, _)| *i < n || !out.contains(&(i - n))).map(|(_, line)| line);
    let lines: Vec<&str> = kept.chain(more.iter().map(String::as_str)).collect();
    let document = Document::of("followed", lines.join("\n").as_bytes()).unwrap_or_else(|fault| panic!("{fault}"));
    pattern::verdict(&document.bytes).expect("a verdict")
}

/// The statements of what a change puts in.
fn statements(sheet: &Sheet, change: &Change) -> Vec<String> {
    let mut names = text::default_names(&sheet.elements);
    let mut lines = Vec::new();
    if let Some(two) = change.point {
        lines.push("point new".to_string());
        lines.extend(two.iter().map(|&line| format!("on new {}", names[line])));
        names.push("new".to_string());
    }
    lines.extend(change.measure.iter().map(|&(a, b)| format!("distance {} {} 12.3", names[a], names[b])));
    lines
}

/// The price of a pair in dictionary order.
fn price(prices: &[u16], n: usize, (a, b): Pair) -> u16 {
    prices[(0..a).map(|i| n - 1 - i).sum::<usize>() + b - a - 1]
}

/// Follows everything that is advised for a sheet.
fn follow(sheet: &Sheet, prices: &[u16], advice: &Advice) {
    let shown = || text::print(sheet, &text::default_names(&sheet.elements));
    let n = sheet.elements.len();
    if let Some(excess) = &advice.excess {
        let all = excess.out();
        assert_eq!(followed(sheet, &all, &[]), excess.verdict, "{all:?} out of\n{}", shown());
        for extra in &excess.extras {
            let others: Vec<usize> = all.iter().copied().filter(|&k| k != extra.constraint).collect();
            assert_eq!(followed(sheet, &others, &[]), Verdict::Over, "{others:?} out of\n{}", shown());
            assert_eq!(extra.choices.len(), 2 * extra.part.count_ones() as usize - 2, "of {extra:?}");
            for &(choice, told) in &extra.choices {
                let out = [&others[..], &[choice]].concat();
                assert_eq!(followed(sheet, &out, &[]), told, "{out:?} out of\n{}", shown());
            }
            let best = pattern_command::advice::rank;
            assert!(extra.choices.windows(2).all(|two| best(two[0].1) <= best(two[1].1)));
        }
    }
    for change in advice.cheapest.iter().chain(&advice.change) {
        let told = followed(sheet, &change.out, &statements(sheet, change));
        assert_eq!(told, change.verdict, "{change:?} of\n{}", shown());
        let own = change.measure.iter().filter(|(_, b)| *b < n).map(|&pair| price(prices, n, pair));
        assert!(own.clone().all(|price| price != UNMEASURED), "{change:?}");
        assert_eq!(own.map(usize::from).sum::<usize>(), change.price, "{change:?}");
    }
    if let Some(change) = &advice.change {
        assert_eq!(change.verdict, Verdict::Well);
    }
}

#[test]
fn advice_ends_as_told() {
    let mut random = Random(39);
    let (mut seen, mut mended, mut free) = ([0; 5], [0; 5], 0);
    for round in 0..2000 {
        let sheet = sheet(&mut random, round);
        let prices = prices(&mut random, sheet.elements.len(), round);
        let verdict = verdict(&sheet);
        seen[verdict as usize] += 1;
        let advice = Advice::of(&sheet, &prices).expect("no rule refuses it");
        assert_eq!(advice.is_none(), verdict == Verdict::Well);
        if let Some(advice) = advice {
            follow(&sheet, &prices, &advice);
            assert_eq!(advice.excess.is_some(), verdict == Verdict::Over);
            assert_eq!(advice.ring.is_some(), verdict == Verdict::Angle);
            mended[verdict as usize] += usize::from(advice.change.is_some());
            free += usize::from(advice.cheapest.map_or(false, |cheapest| cheapest.verdict != Verdict::Well));
        }
    }
    println!("over, angle, well, stuck, under: {seen:?}, mended {mended:?}; {free} cheapest sets are not well");
    assert!(seen.iter().all(|&count| count >= 40), "{seen:?}");
    // nearly all that are not well can be made so; the others have prices that forbid what they need
    for kind in [Verdict::Over, Verdict::Angle, Verdict::Stuck, Verdict::Under] {
        assert!(mended[kind as usize] * 50 >= seen[kind as usize] * 49, "{kind:?}: {mended:?} of {seen:?}");
    }
    assert!(free > 20, "{free}");
}

#[test]
fn the_words_say_what_the_advice_is() {
    let mut random = Random(5);
    let mut told = [0; 4];
    for round in 0..400 {
        let sheet = sheet(&mut random, round);
        let prices = prices(&mut random, sheet.elements.len(), round);
        let names = text::default_names(&sheet.elements);
        let document = Document::of("it", text::print(&sheet, &names).as_bytes()).expect("it is printed");
        let finding = Finding::advised(&document, &prices).expect("a finding");
        let words = describe::lines(&document, &finding, None).join("\n");
        let advice = match &finding.advice {
            Some(advice) => advice,
            None => continue,
        };
        assert_eq!(words.contains("no change was found"), advice.change.is_none(), "{words}");
        for change in advice.change.iter().filter(|change| !change.measure.is_empty()) {
            for pair in change.measure.iter().filter(|(_, b)| *b < names.len()) {
                assert!(words.contains(&format!("{} {}", names[pair.0], names[pair.1])), "{pair:?}: {words}");
            }
        }
        if let (Some(cheapest), Some(change)) = (&advice.cheapest, &advice.change) {
            let same = change.out.is_empty() && change.point.is_none() && change.price == cheapest.price;
            assert_eq!(words.contains("(cheapest, well)"), same, "{words}");
            assert_eq!(words.contains("(cheapest by count, but"), !same, "{words}");
            let dearer = change.out.is_empty() && change.point.is_none() && change.price > cheapest.price;
            assert_eq!(
                words.contains(&format!("for {} more:", change.price.saturating_sub(cheapest.price))),
                dearer,
                "{words}"
            );
            told[0] += usize::from(same);
            told[1] += usize::from(dearer);
        }
        for extra in advice.excess.iter().flat_map(|excess| &excess.extras) {
            for (k, _) in &extra.choices {
                assert!(words.replace("\n   ", "").contains(&format!("(constraint {k})")), "{k}: {words}");
            }
            told[2] += 1;
        }
        told[3] += usize::from(words.contains("to make it well, leave out:"));
    }
    assert!(told.iter().all(|&count| count > 0), "{told:?}");
}

#[test]
fn a_dimension_too_many_agrees_or_contradicts() {
    let said = |text: &str| {
        let document = Document::of("it", text.as_bytes()).unwrap_or_else(|fault| panic!("{fault}"));
        let finding = Finding::advised(&document, &[0; 6]).expect("a finding");
        let found = finding.agreements.first().and_then(Option::as_ref).map(|found| (found.agrees, found.others));
        (found, describe::lines(&document, &finding, None).join("\n"))
    };
    let frame = "distance A B 600\ndistance B C 400\ndistance C D 600\ndistance A D 400\ndistance A C 721.1\n";
    let free = |size: &str| said(&format!("point A B C D\n{frame}distance B D {size}\n"));
    assert_eq!(free("721.1").0, Some((true, 7211)));
    assert!(free("721.1").1.ends_with("distance B D 721.1 mm: it agrees with the others"));
    // a tenth more is what sizes rounded to a tenth may make
    assert_eq!(free("721.2").0, Some((true, 7211)));
    assert!(free("721.2").1.contains("it agrees with the others but for rounding: they make it 721.1 mm"));
    assert_eq!(free("722").0, Some((false, 7211)));
    assert!(free("722").1.contains("it contradicts the others: they make it 721.1 mm, not 722.0 mm"));
    // folded over its diagonal the frame gives another distance, unless rough places say that it is not folded
    let folded = free("280").0.expect("it is laid out");
    assert!(!folded.0 && (2700..2800).contains(&folded.1), "{folded:?}");
    let size = format!("{:.1}", folded.1 as f64 / 10.0);
    assert_eq!(free(&size).0, Some((true, folded.1)));
    let places = "point A at 0 0\npoint B at 600 0\npoint C at 600 400\npoint D at 0 400\n";
    assert_eq!(said(&format!("{places}{frame}distance B D {size}\n")).0, Some((false, 7211)));
    // an angle that follows from others
    let rectangle = said(include_str!("../../../tests/tools/advice/rectangle.txt"));
    assert_eq!(rectangle.0, Some((true, 9000)));
    assert!(rectangle.1.contains("angle a b 90.00 deg: it agrees with the others"));
    let slanted = include_str!("../../../tests/tools/advice/rectangle.txt").replace("angle a b 90", "angle a b 91");
    assert_eq!(said(&slanted).0, Some((false, 9000)));
}

/// Sheets of 64 elements for which there is much to try.
fn large(random: &mut Random) -> Vec<Sheet> {
    let mut sheets = Vec::new();
    for lines in [0, 40] {
        for wanted in [0, 90, 125, 200] {
            sheets.push(sparse(random, 64, lines, wanted, wanted > 125));
            sheets.push(sparse(random, 64, lines, wanted.min(125), false));
        }
    }
    // every point of one half held to every point of a few others, and lines each at an angle to the next
    for few in [3, 6] {
        let mut sheet = elements(random, 64, 0);
        for (a, b) in (0..few).flat_map(|a| (few..64).map(move |b| (a, b))) {
            hold(random, &mut sheet, a, b, true);
        }
        sheets.push(sheet);
    }
    let mut ring = elements(random, 64, 100);
    for i in 1..64 {
        hold(random, &mut ring, i, if i == 63 { 1 } else { i + 1 }, false);
    }
    sheets.push(ring);
    sheets
}

#[test]
fn tries_are_bounded_and_the_same_every_time() {
    let mut random = Random(64);
    let (mut most, mut stopped) = (0, 0);
    for (round, sheet) in large(&mut random).iter().enumerate() {
        let prices = prices(&mut random, 64, round);
        let advice = Advice::of(sheet, &prices).expect("no rule refuses it").expect("it is not well");
        assert!(advice.tries <= MOST_TRIES, "{}", advice.tries);
        assert!(advice.excess.is_some() || verdict(sheet) != Verdict::Over, "what is too many is always told");
        follow(sheet, &prices, &advice);
        most = most.max(advice.tries);
        stopped += usize::from(advice.stopped);
        // a search that may do less stops earlier, and what it says is true all the same
        for few in [0, 3, 300] {
            let less = Advice::within(sheet, &prices, few).expect("no rule refuses it").expect("it is not well");
            assert!(less.tries <= few, "{} of {few}", less.tries);
            assert!(less.stopped || less == advice);
            follow(sheet, &prices, &less);
        }
        if round % 6 == 0 {
            assert_eq!(Advice::of(sheet, &prices), Ok(Some(advice)));
        }
    }
    println!("at most {most} tries, {stopped} searches stopped");
}
