//! The steps of a plan in words, by the names of the elements.

use pattern::{JointKind, Step};

use crate::describe::counted;
use crate::document::Document;
use crate::engine;
use crate::sheet::{members, Constraint, Dimension};
use crate::text::{degrees, millimetres};

/// The words of each step.
pub fn each(document: &Document, steps: &[Step]) -> Vec<String> {
    let mut built = 0;
    let mut lines = Vec::new();
    for step in steps {
        lines.push(format!("{}; {}", construction(document, step, built), placements(step)));
        built |= elements(document, steps, step.made);
    }
    lines
}

/// A line for each step, and one for what is left where that is not one part.
pub fn words(document: &Document, steps: &[Step]) -> Vec<String> {
    let mut lines = numbered(&each(document, steps));
    let left = engine::clusters(&document.bytes, document.sheet.constraints.len(), steps).unwrap_or_default();
    if left.len() > 1 {
        let parts: Vec<_> = left.iter().map(|cluster| document.named(cluster.elements).join(" ")).collect();
        lines.push(format!("left: {}: {}", counted(parts.len(), "part"), parts.join("; ")));
    }
    lines
}

/// Lines behind their numbers, from 1.
pub fn numbered(lines: &[String]) -> Vec<String> {
    lines.iter().enumerate().map(|(k, line)| format!("{}. {line}", k + 1)).collect()
}

/// The elements of a cluster by its number: element i as bit i.
fn elements(document: &Document, steps: &[Step], number: usize) -> u64 {
    let constraints = &document.sheet.constraints;
    match number.checked_sub(constraints.len()) {
        None => 1 << constraints[number].first | 1 << constraints[number].second,
        Some(k) => steps[k].parts.iter().fold(0, |set, &part| set | elements(document, steps, part)),
    }
}

/// What a step does, where some elements have been built before it.
fn construction(document: &Document, step: &Step, built: u64) -> String {
    let e = document.sheet.constraints.len();
    let name = |element: usize| document.names[element].as_str();
    let (singles, parts): (Vec<usize>, Vec<usize>) = step.parts.iter().partition(|&&part| part < e);
    let earlier: Vec<_> = parts.iter().map(|part| (part - e + 1).to_string()).collect();
    let constraints: Vec<_> = singles.iter().map(|&k| &document.sheet.constraints[k]).collect();
    let joint: Vec<usize> = members(step.joint).collect();
    match (constraints.as_slice(), earlier.as_slice()) {
        ([a, b], [part]) => {
            let x = if [b.first, b.second].contains(&a.first) { a.first } else { a.second };
            let (y, z) = (other(a, x), other(b, x));
            format!("{} from {} and {} of step {part}: {}", name(x), name(y), name(z), sizes(document, x, a, b))
        }
        ([_], [p, q]) => {
            let c = singles[0];
            let ends = [constraints[0].first, constraints[0].second];
            let x = joint.iter().find(|element| !ends.contains(element)).map_or("", |&element| name(element));
            format!("steps {p} and {q} joined at {x} and by {}", document.statement(c))
        }
        ([], [_, _, _]) => {
            let names: Vec<_> = joint.iter().map(|&element| name(element)).collect();
            format!("steps {} joined at {}", all(&earlier), all(&names))
        }
        _ => triangle(document, &singles, &joint, built),
    }
}

/// A step of three single constraints: one new element from two, or else what is new and the three statements.
fn triangle(document: &Document, singles: &[usize], joint: &[usize], built: u64) -> String {
    let name = |element: &&usize| document.names[**element].as_str();
    let (old, new): (Vec<&usize>, Vec<&usize>) = joint.iter().partition(|&&element| built >> element & 1 == 1);
    let (olds, news): (Vec<_>, Vec<_>) = (old.iter().map(name).collect(), new.iter().map(name).collect());
    let constraints: Vec<_> = singles.iter().map(|&k| &document.sheet.constraints[k]).collect();
    if let (&[&x], &[y, z]) = (new.as_slice(), olds.as_slice()) {
        let held = |c: &&&Constraint| c.first == x || c.second == x;
        let at: Vec<_> = constraints.iter().filter(held).collect();
        let base: Vec<_> = constraints.iter().filter(|c| !held(c)).map(|c| apart(document, c)).collect();
        if let [a, b] = at.as_slice() {
            // the two constraints stand by number, the two old elements too: each size goes with its own element
            let (a, b) = if other(a, x) == *old[0] { (a, b) } else { (b, a) };
            let sizes = sizes(document, x, a, b);
            return format!("{} from {y} and {z}, {}: {sizes}", document.names[x], base.join(", "));
        }
    }
    let statements: Vec<_> = singles.iter().map(|&k| document.statement(k)).collect();
    match (news.is_empty(), olds.is_empty()) {
        (_, true) => format!("{}: {}", all(&news), statements.join(", ")),
        (true, _) => format!("{}, built before: {}", all(&olds), statements.join(", ")),
        _ => format!("{} from {}: {}", all(&news), all(&olds), statements.join(", ")),
    }
}

/// The end of a constraint that a given one is not.
fn other(constraint: &Constraint, end: usize) -> usize {
    if constraint.first == end {
        constraint.second
    } else {
        constraint.first
    }
}

/// A size with its unit, if the constraint has one.
fn size(document: &Document, c: &Constraint) -> Option<String> {
    let lines = [c.first, c.second].iter().all(|&end| document.sheet.elements[end].is_line());
    match c.dimension {
        Dimension::Size(size) if lines => Some(degrees(size.into())),
        Dimension::Size(size) => Some(millimetres(size.into())),
        _ => None,
    }
}

/// Two sizes of one element: "700.0 and 650.0 mm", or each with what it is measured from.
fn sizes(document: &Document, x: usize, a: &Constraint, b: &Constraint) -> String {
    if let (Some(first), Some(second)) = (size(document, a), size(document, b)) {
        let unit = |size: &str| size.rsplit(' ').next().unwrap_or_default().to_string();
        let alike = unit(&first) == unit(&second);
        let first = if alike { first.split(' ').next().unwrap_or_default() } else { &first };
        return format!("{first} and {second}");
    }
    [a, b].map(|c| held(document, x, c)).join(" and ")
}

/// How one element is held by another.
fn held(document: &Document, x: usize, c: &Constraint) -> String {
    let to = &document.names[other(c, x)];
    match (size(document, c), c.dimension) {
        (Some(size), _) => format!("{size} from {to}"),
        (None, Dimension::Tangent) => format!("touching {to}"),
        (None, Dimension::OtherTangent) => format!("touching {to} by the other contact"),
        (None, _) if document.sheet.elements[x].is_line() => format!("through {to}"),
        (None, _) => format!("on {to}"),
    }
}

/// How two elements stand to each other.
fn apart(document: &Document, c: &Constraint) -> String {
    let lines = [c.first, c.second].map(|end| document.sheet.elements[end].is_line());
    match (size(document, c), c.dimension) {
        (Some(size), _) if lines == [true, true] => format!("at {size}"),
        (Some(size), _) => format!("{size} apart"),
        (None, Dimension::Tangent) => "touching".to_string(),
        (None, Dimension::OtherTangent) => "touching by the other contact".to_string(),
        (None, _) => "one on the other".to_string(),
    }
}

/// How many placements a step has.
fn placements(step: &Step) -> String {
    match (step.kind, step.ways) {
        (JointKind::Lll, _) => "angles alone, which fix no size".to_string(),
        (_, Some(0)) => "0 placements: these sizes do not close".to_string(),
        (_, Some(ways)) => counted(ways.into(), "placement"),
        (_, None) => "placements not counted".to_string(),
    }
}

/// Names in a row: "A, B and C".
fn all<T: AsRef<str>>(names: &[T]) -> String {
    let names: Vec<&str> = names.iter().map(AsRef::as_ref).collect();
    match names.as_slice() {
        [] => String::new(),
        [one] => one.to_string(),
        [rest @ .., last] => format!("{} and {last}", rest.join(", ")),
    }
}
