//! The cheapest missing dimensions (document 02, 2026-02): by trying all sets of pairs, and greedily with the reference's own search.

use crate::facts::{Constraint, Rule, Sheet};
use crate::matching::by_matching;
use crate::over::by_subsets;
use crate::rules::refuse;

/// A pair that can't be measured.
pub const UNMEASURED: u16 = 65_535;

/// The highest price.
pub const DEAREST: u16 = 1_000;

/// A pair with its price.
#[derive(Clone, Copy, PartialEq, Eq, PartialOrd, Ord, Debug)]
pub struct Offer {
    pub price: u16,
    pub pair: (u8, u8),
}

/// The answer's number of a pair.
pub fn number(offer: &Offer) -> u16 {
    u16::from(offer.pair.0) * 256 + u16::from(offer.pair.1)
}

/// Rules 11, 21 and 22, then the offers that may be taken, in dictionary order.
fn permitted(sheet: &Sheet, prices: &[u16]) -> Result<Vec<Offer>, Rule> {
    refuse(by_matching(sheet).is_some(), 11)?;
    let n = sheet.n();
    refuse(prices.len() != n * (n - 1) / 2, 21)?;
    refuse(prices.iter().any(|&price| price > DEAREST && price != UNMEASURED), 22)?;
    let pairs = (0..n as u8).flat_map(|u| (u + 1..n as u8).map(move |v| (u, v)));
    let offers = pairs.zip(prices).map(|(pair, &price)| Offer { price, pair });
    let lines = sheet.lines();
    let line = |i: u8| lines >> i & 1 == 1;
    let stands = |pair| sheet.constraints.iter().any(|c| (c.first, c.second) == pair);
    Ok(offers.filter(|o| o.price != UNMEASURED && !(line(o.pair.0) && line(o.pair.1)) && !stands(o.pair)).collect())
}

/// The sheet with more pairs.
fn with(sheet: &Sheet, offers: &[Offer]) -> Sheet {
    let mut more = sheet.clone();
    more.constraints.extend(offers.iter().map(|o| Constraint::sized(o.pair.0, o.pair.1, 300)));
    more
}

/// A list with its total price and its pairs.
type Best = (u32, Vec<(u8, u8)>, Vec<Offer>);

/// By trying all sets: the least total price, then the list, sorted by price then pair, that comes first place by place.
pub fn by_all_sets(sheet: &Sheet, prices: &[u16]) -> Result<Vec<Offer>, Rule> {
    let mut offers = permitted(sheet, prices)?;
    offers.sort();
    let need = 2 * sheet.n() - 3 - sheet.e();
    let mut best: Option<Best> = None;
    for set in 0u64..1 << offers.len() {
        if set.count_ones() as usize != need {
            continue;
        }
        let list: Vec<Offer> = (0..offers.len()).filter(|i| set >> i & 1 == 1).map(|i| offers[i]).collect();
        let total = list.iter().map(|o| u32::from(o.price)).sum();
        let pairs: Vec<(u8, u8)> = list.iter().map(|o| o.pair).collect();
        let better = best.as_ref().map_or(true, |(least, first, _)| (total, &pairs) < (*least, first));
        if better && by_subsets(&with(sheet, &list)).is_none() {
            best = Some((total, pairs, list));
        }
    }
    best.map(|(_, _, list)| list).ok_or(23)
}

/// Greedily: by price then pair, each taken that leaves the sheet not over.
pub fn by_greed(sheet: &Sheet, prices: &[u16]) -> Result<Vec<Offer>, Rule> {
    let mut offers = permitted(sheet, prices)?;
    offers.sort();
    let need = 2 * sheet.n() - 3 - sheet.e();
    let (mut more, mut list) = (sheet.clone(), Vec::new());
    for offer in offers {
        if list.len() == need {
            break;
        }
        let tried = with(&more, &[offer]);
        if by_matching(&tried).is_none() {
            more = tried;
            list.push(offer);
        }
    }
    refuse(list.len() < need, 23)?;
    Ok(list)
}

/// The completed sheet.
pub fn completed(sheet: &Sheet, list: &[Offer]) -> Sheet {
    with(sheet, list)
}
