//! A finding in words and as JSON.

mod advice;
pub mod views;

use pattern::Verdict;

use crate::document::Document;
use crate::draw::Position;
use crate::finding::Finding;
use crate::json::Json;
use crate::sheet::members;

/// A count with its noun.
pub fn counted(count: usize, noun: &str) -> String {
    format!("{count} {noun}{}", if count == 1 { "" } else { "s" })
}

/// What there is to say of a sheet beside its verdict, a line each.
pub fn lines(document: &Document, finding: &Finding, position: Option<&Position>) -> Vec<String> {
    let (n, e) = (document.sheet.elements.len(), document.sheet.constraints.len());
    let mut lines = vec![format!("{}, {}", counted(n, "element"), counted(e, "constraint"))];
    let missing = format!(": {} missing", counted(finding.freedoms, "dimension"));
    match finding.verdict {
        Verdict::Well => lines[0].extend([": fully dimensioned, built in ", &counted(finding.steps.len(), "step")]),
        Verdict::Under => lines[0] += &missing,
        Verdict::Stuck => {
            let parts = counted(finding.clusters.len(), "part");
            lines[0] += ": the count of dimensions is right, but no construction by threes";
            lines.push(format!("{parts} left, and no three of them close"));
        }
        Verdict::Angle => {
            if finding.freedoms > 0 {
                lines[0] += &missing;
            }
            let names = document.named(finding.angle).join(" ");
            lines.push(format!("held by angles alone, which fix no distance: {names}"));
        }
        Verdict::Over => {
            let count = finding.advice.as_ref().and_then(advice::count);
            lines[0] += &count.map_or(String::new(), |count| format!(": {count}"));
        }
    }
    let told = finding.advice.as_ref().map_or(false, |advice| advice.excess.is_some());
    if let Some(over) = finding.over.as_ref().filter(|_| !told) {
        lines.push(format!("one too many: {} (constraint {})", document.statement(over.constraint), over.constraint));
        lines.push(format!("the part {} is fixed without it", document.named(over.part).join(" ")));
    }
    lines.extend(finding.advice.iter().flat_map(|advice| advice::lines(document, finding, advice)));
    lines.extend(warnings(document, finding, position));
    lines
}

/// The warnings: steps without a placement, and a special position.
pub fn warnings(document: &Document, finding: &Finding, position: Option<&Position>) -> Vec<String> {
    let open = finding.open_steps().map(|step| {
        let statements = finding.step_statements(document, step).join(", ");
        format!("WARNING: NO PLACEMENT: these sizes do not close (step {}): {statements}", step.made)
    });
    open.chain(position.map(|position| position.warning(document, finding))).collect()
}

/// The fields of a finding for a program.
pub fn json(document: &Document, finding: &Finding, position: Option<&Position>) -> Vec<(&'static str, Json)> {
    let (n, e) = (document.sheet.elements.len(), document.sheet.constraints.len());
    let pair = |&(a, b): &(usize, usize)| Json::list([&document.names[a], &document.names[b]]);
    let missing = match (finding.verdict, &finding.missing) {
        (Verdict::Under, Ok(pairs)) => Json::List(pairs.iter().map(pair).collect()),
        _ => Json::Null,
    };
    let over = finding.over.as_ref().map_or(Json::Null, |over| {
        Json::Object(vec![
            ("constraint", over.constraint.into()),
            ("statement", document.statement(over.constraint).into()),
            ("part", Json::list(document.named(over.part))),
            ("fixed_by", Json::list(over.earlier.iter().copied())),
        ])
    });
    vec![
        ("status", finding.verdict.name().into()),
        ("elements", n.into()),
        ("constraints", e.into()),
        ("freedoms", finding.freedoms.into()),
        ("missing", missing),
        ("over", over),
        ("angle", Json::list(document.named(finding.angle))),
        ("steps", Json::List(finding.steps.iter().map(|step| step_json(document, step)).collect())),
        ("clusters", Json::List(finding.clusters.iter().map(|cluster| cluster_json(document, cluster)).collect())),
        ("warnings", Json::list(warnings(document, finding, position))),
        ("words", Json::list(lines(document, finding, position))),
        ("advice", finding.advice.as_ref().map_or(Json::Null, |advice| advice::json(document, finding, advice))),
    ]
}

/// The steps of a plan for a program.
pub fn steps_json<'a>(document: &Document, steps: impl IntoIterator<Item = &'a pattern::Step>) -> Json {
    let steps = steps.into_iter().map(|step| step_json(document, step)).collect();
    Json::Object(vec![("steps", Json::List(steps))])
}

/// A step for a program.
pub fn step_json(document: &Document, step: &pattern::Step) -> Json {
    Json::Object(vec![
        ("made", step.made.into()),
        ("from", Json::list(step.parts)),
        ("joint", Json::list(document.named(step.joint))),
        ("kind", format!("{:?}", step.kind).to_lowercase().into()),
        ("ways", step.ways.map_or(Json::Null, Json::from)),
    ])
}

/// A cluster for a program.
pub fn cluster_json(document: &Document, cluster: &crate::engine::Cluster) -> Json {
    let rests = (0..128usize).filter(|k| cluster.rests >> k & 1 == 1);
    Json::Object(vec![
        ("number", cluster.number.into()),
        ("holds", Json::list(members(cluster.elements).map(|i| document.names[i].as_str()))),
        ("rests_on", Json::list(rests)),
    ])
}
