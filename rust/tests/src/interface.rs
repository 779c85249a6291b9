//! What each function of the C interface must answer: items for the lent space, or the rule that refuses.
//! Rule 17 is `space`'s.

use crate::facts::{Constraint, Kind, Rule, Sheet, FEWEST_ELEMENTS, MOST_ELEMENTS};
use crate::matching::by_matching;
use crate::missing::{by_greed, number};
use crate::reader::read;
use crate::rules::refuse;
use crate::set::{one, Set};
use crate::verdict::{judge, Judged};
use crate::{chain, opens, parts, plans, records, report, sketch, verdict, writer};

/// `pattern_rewrite`: the sheet read and written again.
pub fn rewrite(bytes: &[u8]) -> Result<Vec<u8>, Rule> {
    Ok(writer::bytes(&read(bytes)?))
}

/// `pattern_over`: first and set of an over sheet, nothing else.
pub fn over(bytes: &[u8]) -> Result<Vec<u64>, Rule> {
    let over = by_matching(&read(bytes)?);
    Ok(over.map_or(Vec::new(), |over| vec![over.first as u64, over.set]))
}

/// `pattern_initial`: the two ends of each constraint.
pub fn initial(bytes: &[u8]) -> Result<Vec<Set>, Rule> {
    Ok(read(bytes)?.constraints.iter().map(|c| one(c.first.into()) + one(c.second.into())).collect())
}

/// `pattern_hold`: the record of the sheet.
pub fn hold(bytes: &[u8]) -> Result<Vec<u8>, Rule> {
    let sheet = read(bytes)?;
    refuse(by_matching(&sheet).is_some(), 11)?;
    Ok(sketch::record(&sheet))
}

/// `pattern_check_plan`: the report for a saved plan.
pub fn check_plan(bytes: &[u8], plan: &[u16]) -> Result<Vec<u8>, Rule> {
    let sheet = read(bytes)?;
    let merges = plans::check(&sheet, plan)?;
    Ok(report::report(&sheet, &Judged::Merged(merges)).into_bytes())
}

/// `pattern_saved_steps`: the steps of a saved plan.
pub fn saved_steps(bytes: &[u8], plan: &[u16]) -> Result<Vec<u64>, Rule> {
    let sheet = read(bytes)?;
    let merges = plans::check(&sheet, plan)?;
    Ok(records::numbers(&sheet, &merges))
}

/// `pattern_longest`: pair (0,1), then for each k from 2 on the pairs (k-2,k) and (k-1,k), all of size 300.
pub fn longest(n: usize) -> Result<Vec<u8>, Rule> {
    refuse(!(FEWEST_ELEMENTS..=MOST_ELEMENTS).contains(&n), 3)?;
    let distance = |first: usize, second: usize| Constraint::sized(first as u8, second as u8, 300);
    let pairs = (1..n).flat_map(|k| [2, 1].into_iter().filter(move |&back| back <= k).map(move |back| (k - back, k)));
    let constraints = pairs.map(|(first, second)| distance(first, second)).collect();
    Ok(writer::bytes(&Sheet::first(vec![Kind::Point; n], constraints)))
}

/// `pattern_card`: the verdict of five points with those of the ten pairs, in dictionary order, whose bit stands.
pub fn card(number: usize) -> u8 {
    let pairs = (0..5).flat_map(|first| (first + 1..5).map(move |second| (first, second)));
    let standing = pairs.enumerate().filter(|(bit, _)| number >> bit & 1 == 1);
    let constraints = standing.map(|(_, (first, second))| Constraint::sized(first, second, 300)).collect();
    let sheet = Sheet::first(vec![Kind::Point; 5], constraints);
    verdict::verdict(&sheet, &judge(&sheet)) as u8
}

/// How "none" is told where a chain is asked for: as by a rule of this number, which there is not.
pub const NO_RUN: Rule = 100;

/// `pattern_missing`: the cheapest missing dimensions, one number a pair.
pub fn missing(bytes: &[u8], prices: &[u16]) -> Result<Vec<u16>, Rule> {
    Ok(by_greed(&read(bytes)?, prices)?.iter().map(number).collect())
}

/// What the engine finds of a sheet's bytes.
pub struct Found(Result<(Sheet, Judged), Rule>);

impl Found {
    /// Reads and judges a sheet.
    pub fn of(bytes: &[u8]) -> Found {
        Found(read(bytes).map(|sheet| {
            let judged = judge(&sheet);
            (sheet, judged)
        }))
    }

    /// Reads and judges the sketch in a record.
    pub fn held(record: &[u8]) -> Found {
        Found(sketch::in_record(record).map(|sheet| {
            let judged = judge(&sheet);
            (sheet, judged)
        }))
    }

    /// What is found of an accepted sheet.
    pub fn accepted(&self) -> Result<&(Sheet, Judged), Rule> {
        self.0.as_ref().map_err(|&rule| rule)
    }

    /// `pattern_verdict`: the verdict's number.
    pub fn verdict(&self) -> Result<u8, Rule> {
        let (sheet, judged) = self.accepted()?;
        Ok(verdict::verdict(sheet, judged) as u8)
    }

    /// `pattern_plan`: the engine's plan, three numbers a step.
    pub fn plan(&self) -> Result<Vec<u16>, Rule> {
        Ok(match &self.accepted()?.1 {
            Judged::Over(_) => Vec::new(),
            Judged::Merged(merges) => merges.numbers(),
        })
    }

    /// `pattern_steps`: the steps of the engine's plan, or rule 11.
    pub fn steps(&self) -> Result<Vec<u64>, Rule> {
        match self.accepted()? {
            (_, Judged::Over(_)) => Err(11),
            (sheet, Judged::Merged(merges)) => Ok(records::numbers(sheet, merges)),
        }
    }

    /// `pattern_clusters`: the final clusters by number.
    pub fn clusters(&self) -> Result<Vec<u64>, Rule> {
        Ok(match &self.accepted()?.1 {
            Judged::Over(_) => Vec::new(),
            Judged::Merged(merges) => merges.finals.iter().map(|&(_, set)| set).collect(),
        })
    }

    /// `pattern_part_steps` and `pattern_part`: how many steps one cluster has, and their lines.
    pub fn part(&self, number: usize) -> Result<(usize, Vec<u8>), Rule> {
        let (sheet, judged) = self.accepted()?;
        let merges = match judged {
            Judged::Merged(merges) => merges,
            _ => return Err(11),
        };
        let steps = parts::steps(sheet.e(), merges, number).ok_or(26)?;
        let lines: String = steps.iter().map(|step| format!("{}\n", report::step_line(sheet, step))).collect();
        Ok((steps.len(), lines.into_bytes()))
    }

    /// `pattern_chain`: the numbers of the chain's clusters.
    pub fn chain(&self, from: usize, to: usize) -> Result<Vec<u16>, Rule> {
        let (sheet, judged) = self.accepted()?;
        let merges = match judged {
            Judged::Merged(merges) => merges,
            _ => return Err(11),
        };
        if from.max(to) >= sheet.n() {
            return Err(25);
        }
        chain::chain(&merges.finals, from, to).ok_or(NO_RUN)
    }

    /// `pattern_rests`: what the final clusters rest on, two words each.
    pub fn rests(&self) -> Result<Vec<u64>, Rule> {
        Ok(match &self.accepted()?.1 {
            Judged::Over(_) => Vec::new(),
            Judged::Merged(merges) => merges.rests.iter().flat_map(|rests| words(rests)).collect(),
        })
    }

    /// `pattern_open`: the merges that are open after a number of the engine's steps, three numbers each.
    pub fn open(&self, count: usize) -> Result<Vec<u16>, Rule> {
        match self.accepted()? {
            (_, Judged::Over(_)) => Err(11),
            (sheet, Judged::Merged(merges)) => {
                Ok(opens::after(sheet, merges, count).concat().iter().map(|&number| number as u16).collect())
            }
        }
    }

    /// `pattern_report`.
    pub fn report(&self) -> Result<Vec<u8>, Rule> {
        let (sheet, judged) = self.accepted()?;
        Ok(report::report(sheet, judged).into_bytes())
    }
}

/// A set of constraint numbers below 128 in two words.
fn words(numbers: &[usize]) -> [u64; 2] {
    let mut words = [0; 2];
    for &number in numbers {
        words[number / 64] |= 1 << (number % 64);
    }
    words
}
