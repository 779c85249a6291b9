//! `pattern chain`: the fewest parts from one element to another.

use crate::cli::{Answer, Call, JSON};
use crate::describe;
use crate::document::Document;
use crate::engine;
use crate::fault::{Fault, Status};
use crate::json::Json;

/// Runs the command.
pub fn run(call: &Call) -> Result<Answer, Fault> {
    let document = Document::load(&call.operands[0])?;
    let (from, to) = (document.element(call.text(1)?)?, document.element(call.text(2)?)?);
    let refused = |rule| document.refused(rule);
    let run = engine::chain(&document.bytes, from, to).map_err(refused)?;
    let status = if run.is_some() { Status::Well } else { Status::Other };
    let steps = pattern::steps(&document.bytes).map_err(refused)?;
    let clusters = engine::clusters(&document.bytes, document.sheet.constraints.len(), &steps).map_err(refused)?;
    let chosen = run.map(|run| {
        let named = |number: &u16| clusters.iter().find(|cluster| cluster.number == usize::from(*number));
        run.iter().filter_map(named).collect::<Vec<_>>()
    });
    if call.has(&JSON) {
        let object = |cluster| describe::cluster_json(&document, cluster);
        let clusters = chosen.map(|run| Json::List(run.into_iter().map(object).collect()));
        return Ok(Answer::json(call, Json::Object(vec![("clusters", Json::maybe(clusters))]), status));
    }
    let row = |cluster: &&engine::Cluster| {
        format!("cluster {} holds {}\n", cluster.number, document.named(cluster.elements).join(" "))
    };
    let out = chosen.map_or("none\n".to_string(), |run| run.iter().map(row).collect());
    Ok(Answer::print(out, status))
}
