//! The ring of an "angle": lines each held to the next by an angle, the last to the first, so that one angle follows
//! from the others.

use std::collections::VecDeque;

use pattern::{JointKind, Step};

use crate::engine::Cluster;
use crate::sheet::{members, Sheet};

/// What holds one line of a ring to the next.
#[derive(Clone, Copy, PartialEq, Eq, Debug)]
pub enum Link {
    /// A constraint: an angle.
    Angle(usize),
    /// A part of several constraints, by its elements: element i as bit i.
    Part(u64),
}

/// Lines in order and what holds each to the next, the last to the first.
#[derive(Clone, PartialEq, Eq, Debug)]
pub struct Ring {
    pub lines: Vec<usize>,
    pub links: Vec<Link>,
}

impl Ring {
    /// The angles of the ring that are constraints themselves.
    pub fn angles(&self) -> Vec<usize> {
        let angle = |link: &Link| if let Link::Angle(k) = link { Some(*k) } else { None };
        self.links.iter().filter_map(angle).collect()
    }
}

/// The ring of a sheet that is not over: the first joint of three lines, or the shortest ring of final clusters.
pub fn ring(sheet: &Sheet, steps: &[Step], clusters: &[Cluster]) -> Option<Ring> {
    let sets = sets(sheet, steps);
    let link =
        |number: usize| if number < sheet.constraints.len() { Link::Angle(number) } else { Link::Part(sets[number]) };
    if let Some(step) = steps.iter().find(|step| step.kind == JointKind::Lll) {
        // each line is held to the next by the part that has both
        let lines: Vec<usize> = members(step.joint).collect();
        let between = |a: usize, b: usize| {
            let both = 1 << lines[a] | 1 << lines[b];
            step.parts.iter().find(|&&part| sets[part] & both == both).map(|&part| link(part))
        };
        let links = vec![between(0, 1)?, between(1, 2)?, between(2, 0)?];
        return Some(Ring { lines, links });
    }
    let all: u64 = (0..sheet.elements.len()).filter(|&i| sheet.elements[i].is_line()).fold(0, |set, i| set | 1 << i);
    let parts: Vec<(usize, u64)> = clusters.iter().map(|c| (c.number, c.elements & all)).collect();
    let mut shortest: Option<Ring> = None;
    for &(number, set) in parts.iter().filter(|(_, set)| set.count_ones() >= 2) {
        let others: Vec<(usize, u64)> = parts.iter().copied().filter(|(other, _)| *other != number).collect();
        for from in members(set) {
            for to in members(set).filter(|&to| to > from) {
                if let Some((lines, through)) = path(&others, from, to) {
                    if shortest.as_ref().map_or(true, |ring| lines.len() < ring.lines.len()) {
                        let links = through.into_iter().chain([number]).map(link).collect();
                        shortest = Some(Ring { lines, links });
                    }
                }
            }
        }
    }
    shortest
}

/// The elements of every cluster of a plan, by number.
fn sets(sheet: &Sheet, steps: &[Step]) -> Vec<u64> {
    let mut sets: Vec<u64> = sheet.constraints.iter().map(|c| 1 << c.first | 1 << c.second).collect();
    for step in steps {
        sets.push(step.parts.iter().fold(0, |set, &part| set | sets[part]));
    }
    sets
}

/// The shortest way from one line to another through parts that share lines: the lines, and the part between each and
/// the next.
fn path(parts: &[(usize, u64)], from: usize, to: usize) -> Option<(Vec<usize>, Vec<usize>)> {
    let mut reached: Vec<Option<(usize, usize)>> = vec![None; 64];
    let mut seen = 1u64 << from;
    let mut queue = VecDeque::from([from]);
    while let Some(line) = queue.pop_front() {
        if line == to {
            let (mut lines, mut through) = (vec![to], Vec::new());
            while let Some((before, part)) = reached[lines[lines.len() - 1]] {
                lines.push(before);
                through.push(part);
            }
            lines.reverse();
            through.reverse();
            return Some((lines, through));
        }
        for &(number, set) in parts.iter().filter(|(_, set)| set >> line & 1 == 1) {
            for next in members(set & !seen) {
                seen |= 1 << next;
                reached[next] = Some((line, number));
                queue.push_back(next);
            }
        }
    }
    None
}
