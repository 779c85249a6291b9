//! Pairs that bring a sheet to "well" without leaving anything out.

use pattern::Verdict;

use super::change::{measured, open_pairs, Costs};
use super::tries::Tries;
use super::Pair;
use crate::sheet::{members, Sheet};

/// The most calls for swaps in the cheapest set, and for cheaper pairs in a set that was found.
const MOST_SWAPS: usize = 4_000;

/// The pairs that are cheapest by the count, and the verdict that they give.
pub fn cheapest(sheet: &Sheet, costs: &Costs, tries: &mut Tries) -> Option<(Vec<Pair>, Verdict)> {
    let pairs = tries.missing(sheet, &costs.prices)?;
    let verdict = tries.verdict(&with(sheet, &pairs))?;
    Some((pairs, verdict))
}

/// Pairs that give "well": the cheapest by the count, if they do; else the cheapest set that differs from it in one
/// pair; else what the parts of the sheet grow by, made cheaper pair by pair. Nothing that costs as much as `below`.
pub fn complete(sheet: &Sheet, costs: &Costs, below: usize, tries: &mut Tries) -> Option<Vec<Pair>> {
    let (pairs, verdict) = cheapest(sheet, costs, tries)?;
    let least = costs.in_all(&pairs);
    if verdict == Verdict::Well || least >= below {
        return Some(pairs).filter(|_| least < below);
    }
    let swapped = tries.share(MOST_SWAPS, |tries| swap(sheet, &pairs, costs, below, tries));
    let below = swapped.as_ref().map_or(below, |pairs| costs.in_all(pairs));
    if below == least {
        return swapped;
    }
    let grown = grow(sheet, costs, below, tries);
    let cheaper = grown.map(|pairs| tries.share(MOST_SWAPS, |tries| cheapen(sheet, pairs, costs, tries)));
    cheaper.or(swapped)
}

/// A sheet with pairs measured.
fn with(sheet: &Sheet, pairs: &[Pair]) -> Sheet {
    let mut sheet = sheet.clone();
    sheet.constraints.extend(pairs.iter().copied().map(measured));
    sheet
}

/// Some pairs with another in one's place.
fn exchanged(pairs: &[Pair], place: usize, pair: Pair) -> Vec<Pair> {
    pairs.iter().enumerate().map(|(i, &old)| if i == place { pair } else { old }).collect()
}

/// The pairs with one exchanged, such that the sheet is "well": the least price first.
fn swap(sheet: &Sheet, pairs: &[Pair], costs: &Costs, below: usize, tries: &mut Tries) -> Option<Vec<Pair>> {
    let mut swaps = Vec::new();
    for place in 0..pairs.len() {
        let rest = with(sheet, &[&pairs[..place], &pairs[place + 1..]].concat());
        let parts = tries.parts(&rest)?;
        let without = costs.in_all(pairs) - costs.in_all(&pairs[place..=place]);
        for (price, pair) in joining(&rest, &parts, costs) {
            if pair != pairs[place] && without + price < below {
                swaps.push((without + price, place, pair));
            }
        }
    }
    swaps.sort();
    for (_, place, pair) in swaps {
        let swapped = exchanged(pairs, place, pair);
        if tries.verdict(&with(sheet, &swapped))? == Verdict::Well {
            return Some(swapped);
        }
    }
    None
}

/// Pairs that give "well", made cheaper: one after another is exchanged as long as the sheet stays "well".
fn cheapen(sheet: &Sheet, mut pairs: Vec<Pair>, costs: &Costs, tries: &mut Tries) -> Vec<Pair> {
    let dear = |pairs: &[Pair]| (0..pairs.len()).any(|i| costs.in_all(&pairs[i..=i]) > 0);
    while dear(&pairs) {
        match swap(sheet, &pairs, costs, costs.in_all(&pairs), tries) {
            Some(cheaper) => pairs = cheaper,
            None => break,
        }
    }
    pairs
}

/// Pairs that give "well", one after another: each joins two parts of the sheet that share an element, the cheapest
/// first and of these the one that makes the largest part. Nothing that costs as much as `below`.
pub fn grow(sheet: &Sheet, costs: &Costs, below: usize, tries: &mut Tries) -> Option<Vec<Pair>> {
    let wanted = (2 * sheet.elements.len()).checked_sub(3)?;
    let (mut grown, mut price) = (sheet.clone(), 0);
    while grown.constraints.len() < wanted {
        let parts = tries.parts(&grown)?;
        let mut candidates = joining(&grown, &parts, costs);
        if candidates.is_empty() {
            candidates = reaching(&grown, &parts, costs);
        }
        let last = grown.constraints.len() + 1 == wanted;
        let mut chosen = None;
        for (more, pair) in candidates {
            if price + more >= below {
                break;
            }
            grown.constraints.push(measured(pair));
            let verdict = tries.verdict(&grown)?;
            if verdict == Verdict::Well || !last && verdict == Verdict::Under {
                chosen = Some(more);
                break;
            }
            grown.constraints.pop();
        }
        price += chosen?;
    }
    let pairs = grown.constraints[sheet.constraints.len()..].iter().map(|c| (c.first, c.second)).collect();
    (tries.verdict(&grown)? == Verdict::Well).then_some(pairs)
}

/// The pairs that make a merge with two parts that share an element, by price, then the largest union, then pair. A
/// sheet whose parts do not merge becomes "well" by one more pair only if it is one of these.
pub fn joining(sheet: &Sheet, parts: &[u64], costs: &Costs) -> Vec<(usize, Pair)> {
    let n = sheet.elements.len();
    let with: Vec<Vec<u64>> =
        (0..n).map(|i| parts.iter().copied().filter(|part| part >> i & 1 == 1).collect()).collect();
    // the largest union of two parts, one with each end, that share an element
    let union = |(a, b): Pair| {
        if with[a].iter().any(|part| part >> b & 1 == 1) {
            return None;
        }
        let unions = with[a].iter().flat_map(|x| with[b].iter().filter(move |y| *y & x != 0).map(move |y| x | y));
        unions.map(u64::count_ones).max()
    };
    let found = open_pairs(sheet, costs).filter_map(|pair| Some((costs.of_pair(pair)?, 64 - union(pair)?, pair)));
    let mut found: Vec<_> = found.collect();
    found.sort();
    found.into_iter().map(|(price, _, pair)| (price, pair)).collect()
}

/// The pairs from the largest part to elements outside it, by price, then pair; all pairs where there is no part.
fn reaching(sheet: &Sheet, parts: &[u64], costs: &Costs) -> Vec<(usize, Pair)> {
    let largest = parts.iter().copied().max_by_key(|part| (part.count_ones(), u64::MAX - part)).unwrap_or(0);
    let leaves = |(a, b): Pair| members(1 << a | 1 << b).filter(|i| largest >> i & 1 == 1).count() == 1;
    let found = open_pairs(sheet, costs).filter(|&pair| largest == 0 || leaves(pair));
    let mut found: Vec<_> = found.filter_map(|pair| Some((costs.of_pair(pair)?, pair))).collect();
    found.sort();
    found
}
