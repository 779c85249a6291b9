//! The picture as a page of its own: with the report, parts and dimensions that the mouse lights, and the steps of the
//! plan. It loads nothing.

use super::layout::Layout;
use super::scene::{Options, Scene};
use super::steps::{views, View};
use super::svg::{bare, constraint_keys, escaped};
use crate::describe;
use crate::document::Document;
use crate::draw::Position;
use crate::engine;
use crate::finding::Finding;
use crate::json::Json;
use crate::sheet::members;

const STYLE: &str = include_str!("page.css");
const SCRIPT: &str = include_str!("page.js");

/// The page of a sheet.
pub fn page(
    document: &Document,
    finding: &Finding,
    layout: &Layout,
    position: Option<&Position>,
    options: Options,
) -> String {
    let scene = Scene::of(document, finding, layout, options);
    let (name, verdict) = (escaped(document.title()), finding.verdict.name());
    let line = |line: &String| {
        let class = if line.to_lowercase().starts_with("warning") { " class=\"loud\"" } else { "" };
        format!("<p{class}>{}</p>\n", escaped(line))
    };
    let lines: String = describe::lines(document, finding, position).iter().map(line).collect();
    let parts: String = (0..finding.clusters.len()).map(|p| part(&scene, p)).collect();
    let constraints: String = (0..document.sheet.constraints.len()).map(|k| constraint(&scene, k)).collect();
    let report = escaped(&engine::report(&document.bytes).unwrap_or_default());
    let views = views(document, &finding.steps);
    let steps =
        Json::List(views.iter().map(|view| step(document, view)).collect()).laid_out(1, 0).replace('<', "\\u003c");
    let slider = match views.len() {
        0 => String::new(),
        most => format!(
            "<div id=\"steps\"><label for=\"step\">steps</label>\
             <input id=\"step\" type=\"range\" min=\"0\" max=\"{most}\" value=\"0\"/>\
             <output for=\"step\"></output></div>\n"
        ),
    };
    format!(
        "<!DOCTYPE html>\n<html lang=\"en\">\n<head><meta charset=\"utf-8\"><title>{name}: {verdict}</title>\n\
         <style>\n{STYLE}</style></head>\n<body>\n\
         <header><h1>{name}: {verdict}</h1></header>\n<main>\n\
         <div id=\"picture\">{}{slider}</div>\n<div id=\"tables\">\n{lines}\
         <h2>Parts</h2>\n<table>\n{parts}</table>\n<h2>Dimensions</h2>\n<table>\n{constraints}</table>\n\
         <h2>Report</h2>\n<pre>{report}</pre>\n</div>\n</main>\n\
         <script>\nconst STEPS = {steps};\n{SCRIPT}</script>\n</body>\n</html>\n",
        bare(&scene)
    )
}

/// What the page knows of a step: its words, and the keys of what it shows.
fn step(document: &Document, view: &View) -> Json {
    let (n, e) = (document.sheet.elements.len(), document.sheet.constraints.len());
    let keys = |elements: u64, constraints: u128| {
        let elements = members(elements).filter(|&i| i < n).map(|i| format!("e{i}"));
        let constraints = (0..e.min(128)).filter(move |k| constraints >> k & 1 == 1).map(|k| format!("k{k}"));
        Json::list(elements.chain(constraints))
    };
    let [one, two, three] = view.parts.map(|part| keys(part.elements, part.constraints));
    let words = format!("{}; {}", view.words, view.next_words(document));
    Json::Object(vec![
        ("words", words.into()),
        ("built", keys(view.built.elements, view.built.constraints)),
        ("part0", one),
        ("part1", two),
        ("part2", three),
        ("joint", keys(view.step.joint, 0)),
    ])
}

/// The row of a part.
fn part(scene: &Scene, p: usize) -> String {
    let cluster = &scene.finding.clusters[p];
    let rests: Vec<usize> = (0..128).filter(|k| cluster.rests >> k & 1 == 1).collect();
    let numbers = rests.iter().map(usize::to_string).collect::<Vec<_>>().join(" ");
    let keys = [format!("p{p}")]
        .into_iter()
        .chain(rests.iter().map(|k| format!("k{k}")))
        .chain(members(cluster.elements).map(|i| format!("e{i}")));
    format!(
        "<tr tabindex=\"0\" data-key=\"p{p}\" data-lit=\"{}\">\
         <td><span class=\"swatch\" style=\"background:{}\"></span></td><td>{}</td><td>{}</td><td>rests on {numbers}</td></tr>\n",
        keys.collect::<Vec<_>>().join(" "),
        scene.colour(p),
        cluster.number,
        escaped(&scene.document.named(cluster.elements).join(" "))
    )
}

/// The row of a constraint.
fn constraint(scene: &Scene, k: usize) -> String {
    let paint = scene.constraint_paint(k);
    format!(
        "<tr tabindex=\"0\" data-key=\"k{k}\" data-lit=\"{}\">\
         <td><span class=\"swatch\" style=\"background:{}\"></span></td><td>{k}</td><td>{}</td></tr>\n",
        constraint_keys(scene, k),
        paint.colour,
        escaped(&scene.document.statement(k))
    )
}
