//! The picture as SVG.

use std::fmt::Write;

use super::labels::Frame;
use super::layout::Layout;
use super::legend;
use super::place::{along, direction, Place};
use super::scene::{Options, Paint, Scene, ARC, MARGIN};
use super::spots::{self, Spots};
use super::steps::View;
use crate::document::Document;
use crate::draw::Position;
use crate::finding::Finding;
use crate::sheet::{members, Constraint, Dimension};

/// The height of a line of the legend.
const LINE: f64 = 18.0;
/// The least width of a picture, so that the legend fits.
const LEAST: f64 = 720.0;
/// The red of what does not fit.
const RED: &str = "#d00000";

const STYLE: &str = "text{font:13px sans-serif;fill:#222}\
.label{paint-order:stroke;stroke:#fff;stroke-width:4px;stroke-linejoin:round}\
.name{font-weight:bold}.size{font-size:11px}.dense .name{font-size:10px}.dense .size{font-size:9px}\
.dense .label{stroke-width:3px}.catch{stroke:#000;stroke-opacity:0;stroke-width:14;fill:none;pointer-events:stroke}\
.head{font-weight:bold;font-size:15px}.loud{fill:#d00000;font-weight:bold}";

/// The picture of a sheet, with its legend.
pub fn picture(
    document: &Document,
    finding: &Finding,
    layout: &Layout,
    position: Option<&Position>,
    options: Options,
) -> String {
    let scene = Scene::of(document, finding, layout, options);
    let drawing = Drawing::of(&scene);
    let legend = [legend::words(&scene, position), legend::parts(&scene), legend::noted(&scene, drawing.left_out)];
    drawing.framed(&scene, &legend.concat())
}

/// The picture of a step of the plan.
pub fn step_picture(document: &Document, finding: &Finding, layout: &Layout, view: &View, options: Options) -> String {
    let mut scene = Scene::of(document, finding, layout, options);
    let legend = legend::step(&scene, view);
    scene.step = Some(view.clone());
    Drawing::of(&scene).framed(&scene, &legend)
}

/// The drawing of a scene for a page that has the words and the parts beside it.
pub fn bare(scene: &Scene) -> String {
    let drawing = Drawing::of(scene);
    let legend = legend::noted(scene, drawing.left_out);
    drawing.framed(scene, &legend)
}

/// What is drawn of a scene.
struct Drawing {
    content: String,
    /// How many sizes had no room.
    left_out: usize,
}

impl Drawing {
    /// Draws a scene: lines below, then dimensions, points and circles, then labels.
    fn of(scene: &Scene) -> Drawing {
        let sheet = &scene.document.sheet;
        let (n, e) = (sheet.elements.len(), sheet.constraints.len());
        let (lines, points): (Vec<usize>, Vec<usize>) = (0..n).partition(|&i| sheet.elements[i].is_line());
        let joint = scene.step.as_ref().map_or(0, |view| view.step.joint);
        let mut content: String = members(joint).map(|i| halo(scene, i)).collect();
        content.extend(lines.iter().map(|&i| grouped_element(scene, i, element(scene, i))));
        content.extend((0..e).map(|k| grouped_constraint(scene, k, constraint(scene, k))));
        content.extend(points.iter().map(|&i| grouped_element(scene, i, element(scene, i))));
        let spots = Spots::of(scene);
        for i in points.into_iter().chain(lines) {
            content += &grouped_element(scene, i, name(scene, &spots, i));
        }
        for &k in &spots.order {
            content += &grouped_constraint(scene, k, size_label(scene, &spots, k));
        }
        let left_out = spots.left_out;
        Drawing { content, left_out }
    }

    /// The drawing with some lines below it.
    fn framed(&self, scene: &Scene, legend: &[String]) -> String {
        let width = (scene.size[0] + 2.0 * MARGIN).max(LEAST);
        let top = scene.size[1] + 2.0 * MARGIN;
        let height = top + LINE * (legend.len() as f64 + 1.0);
        let verdict = scene.finding.verdict.name();
        let mut out = format!(
            "<svg xmlns=\"http://www.w3.org/2000/svg\" viewBox=\"0 0 {width:.0} {height:.0}\" \
             width=\"{width:.0}\" height=\"{height:.0}\" role=\"img\">\n\
             <title>{}: {verdict}</title>\n<style>{STYLE}</style>\n\
             <rect width=\"100%\" height=\"100%\" fill=\"#fff\"/>\n",
            escaped(scene.document.title())
        );
        let shift = (width - scene.size[0] - 2.0 * MARGIN) / 2.0;
        let class = if scene.dense() { "dense" } else { "clear" };
        let _ = writeln!(out, "<g class=\"{class}\" transform=\"translate({shift:.1} 0)\">\n{}</g>", self.content);
        for (row, line) in legend.iter().enumerate() {
            let y = top + LINE * row as f64;
            let _ = writeln!(out, "<g transform=\"translate(24 {y:.0})\">{line}</g>");
        }
        out + "</svg>\n"
    }
}

/// A text as XML has it.
pub fn escaped(text: &str) -> String {
    let mut out = String::new();
    for c in text.chars() {
        match c {
            '&' => out.push_str("&amp;"),
            '<' => out.push_str("&lt;"),
            '>' => out.push_str("&gt;"),
            '"' => out.push_str("&quot;"),
            c if c.is_control() && c != '\n' => out.push('\u{fffd}'),
            c => out.push(c),
        }
    }
    out
}

/// The stroke of a paint.
fn stroke(paint: Paint, width: f64) -> String {
    let dash = if paint.dashed { " stroke-dasharray=\"6 4\"" } else { "" };
    let width = if paint.heavy { 2.5 * width } else { width };
    format!("stroke=\"{}\" stroke-width=\"{width}\" fill=\"none\"{dash}", paint.colour)
}

/// A group that tells what it is, and lights with others.
fn group(class: &str, title: &str, key: &str, lit: &str, content: String) -> String {
    if content.is_empty() {
        return content;
    }
    let title = escaped(title);
    format!("<g class=\"{class}\" data-key=\"{key}\" data-lit=\"{lit}\"><title>{title}</title>{content}</g>\n")
}

/// What is drawn of an element, as a group.
fn grouped_element(scene: &Scene, i: usize, content: String) -> String {
    let document = scene.document;
    let lit = [vec![format!("e{i}")], keyed('p', scene.parts_of(i)), keyed('k', scene.constraints_of(i))];
    let title = format!("{} {}, element {i}", document.sheet.elements[i].name(), document.names[i]);
    group(class("element", scene.element_paint(i)), &title, &format!("e{i}"), &lit.concat().join(" "), content)
}

/// What is drawn of a constraint, as a group.
fn grouped_constraint(scene: &Scene, k: usize, content: String) -> String {
    let title = format!("{}, constraint {k}", scene.document.statement(k));
    let class = class("constraint", scene.constraint_paint(k));
    group(class, &title, &format!("k{k}"), &constraint_keys(scene, k), content)
}

/// The class of a group: what stands back has an opacity of its own.
fn class(name: &'static str, paint: Paint) -> &'static str {
    match (name, paint.faint) {
        ("element", true) => "element\" opacity=\".4",
        (_, true) => "constraint\" opacity=\".4",
        (name, false) => name,
    }
}

/// A straight line on the canvas, with a wide stroke about it that catches the mouse.
fn straight(scene: &Scene, a: Place, b: Place, stroke: &str) -> String {
    let ([x, y], [z, w]) = (scene.at(a), scene.at(b));
    let path = format!("d=\"M{x:.1} {y:.1}L{z:.1} {w:.1}\"");
    format!("<path {path} {stroke}/><path class=\"catch\" {path}/>")
}

/// The head of an arrow at a place, in a direction of the plane.
fn arrow([x, y]: Place, way: Place, colour: &str) -> String {
    let tip = |back: f64, aside: f64| {
        format!("{:.1} {:.1}", x - back * way[0] - aside * way[1], y + back * way[1] - aside * way[0])
    };
    format!("<path d=\"M{x:.1} {y:.1}L{}L{}z\" fill=\"{colour}\"/>", tip(11.0, 4.0), tip(11.0, -4.0))
}

/// A text of the canvas, its middle at a place.
fn label([x, y]: Place, class: &str, font: f64, colour: &str, text: &str) -> String {
    let y = y + 0.35 * font;
    format!(
        "<text class=\"label {class}\" x=\"{x:.1}\" y=\"{y:.1}\" text-anchor=\"middle\" \
         style=\"fill:{colour}\">{}</text>",
        escaped(text)
    )
}

/// The name of an element, where it stands.
fn name(scene: &Scene, spots: &Spots, i: usize) -> String {
    let middle = match spots.names[i] {
        Some(middle) => middle,
        None => return String::new(),
    };
    let [font, _] = spots::fonts(scene);
    label(middle, "name", font, scene.element_paint(i).colour, &scene.document.names[i])
}

/// The size of a constraint, where it stands.
fn size_label(scene: &Scene, spots: &Spots, k: usize) -> String {
    let Frame { middle, half } = match spots.sizes[k] {
        Some(spot) => spot,
        None => return String::new(),
    };
    let colour = if scene.unmet.contains(&k) { RED } else { scene.constraint_paint(k).colour };
    let ([x, y], [w, h], [_, font]) = (middle, half, spots::fonts(scene));
    let ground = format!(
        "<rect x=\"{:.1}\" y=\"{:.1}\" width=\"{:.1}\" height=\"{:.1}\" fill=\"#fff\" fill-opacity=\".85\"/>",
        x - w,
        y - h,
        2.0 * w,
        2.0 * h
    );
    ground + &label(middle, "size", font, colour, &spots::size_words(scene, k))
}

/// A ring about an element of a joint, or a band along it.
fn halo(scene: &Scene, i: usize) -> String {
    let paint = "stroke=\"#ffc94d\" stroke-opacity=\".8\" fill=\"none\"";
    match scene.segment(i) {
        Some([a, b]) => {
            let ([x, y], [z, w]) = (scene.at(a), scene.at(b));
            format!("<path class=\"joint\" d=\"M{x:.1} {y:.1}L{z:.1} {w:.1}\" stroke-width=\"9\" {paint}/>\n")
        }
        None => {
            let [x, y] = scene.at(scene.place(i));
            format!("<circle class=\"joint\" cx=\"{x:.1}\" cy=\"{y:.1}\" r=\"12\" stroke-width=\"6\" {paint}/>\n")
        }
    }
}

/// The shape of an element.
fn element(scene: &Scene, i: usize) -> String {
    let paint = scene.element_paint(i);
    match (scene.segment(i), scene.radius(i)) {
        (Some([a, b]), _) => {
            let width = if scene.dense() { 1.5 } else { 2.0 };
            let head = arrow(scene.at(b), direction(scene.place(i)[0]), paint.colour);
            straight(scene, a, b, &stroke(Paint { heavy: false, ..paint }, width)) + &head
        }
        (None, radius) => {
            let at = scene.at(scene.place(i));
            let ring = radius.map_or(String::new(), |radius| circle(at, radius, &stroke(paint, 2.0)));
            let fill = if paint.dashed { "#ffffff" } else { paint.colour };
            let small = if scene.dense() { 2.5 } else { 4.0 };
            ring + &circle(at, small, &format!("fill=\"{fill}\" stroke=\"{}\" stroke-width=\"1.5\"", paint.colour))
        }
    }
}

/// A circle on the canvas.
fn circle([x, y]: Place, radius: f64, paint: &str) -> String {
    format!("<circle cx=\"{x:.1}\" cy=\"{y:.1}\" r=\"{radius:.1}\" {paint}/>")
}

/// Keys of one kind.
fn keyed(letter: char, numbers: Vec<usize>) -> Vec<String> {
    numbers.into_iter().map(|i| format!("{letter}{i}")).collect()
}

/// The keys that light a constraint.
pub fn constraint_keys(scene: &Scene, k: usize) -> String {
    let c = &scene.document.sheet.constraints[k];
    let part = scene.part_on(k).into_iter().collect();
    [vec![format!("k{k}")], keyed('p', part), keyed('e', vec![c.first, c.second])].concat().join(" ")
}

/// The shape of a constraint: what it measures.
fn constraint(scene: &Scene, k: usize) -> String {
    let sheet = &scene.document.sheet;
    let c = &sheet.constraints[k];
    let paint = scene.constraint_paint(k);
    let lines = [c.first, c.second].map(|end| sheet.elements[end].is_line());
    match (lines, c.dimension) {
        ([true, true], _) => angle(scene, k, paint),
        (_, Dimension::On) => marked(scene, if lines[0] { c.second } else { c.first }, paint),
        (_, Dimension::Tangent | Dimension::OtherTangent) => contact(scene, c, paint),
        _ => {
            let [a, b] = scene.span(c);
            straight(scene, a, b, &stroke(paint, 1.2))
        }
    }
}

/// A point on a line: a ring about it.
fn marked(scene: &Scene, point: usize, paint: Paint) -> String {
    let radius = if scene.dense() { 5.0 } else { 8.0 };
    circle(scene.at(scene.place(point)), radius, &stroke(paint, 1.2))
}

/// A contact: a square where the two touch.
fn contact(scene: &Scene, c: &Constraint, paint: Paint) -> String {
    let [x, y] = scene.at(scene.touching(c));
    let turned = format!("transform=\"rotate(45 {x:.1} {y:.1})\"");
    format!("<path d=\"M{:.1} {:.1}h9v9h-9z\" fill=\"{}\" {turned}/>", x - 4.5, y - 4.5, paint.colour)
}

/// An angle: an arc with an arrow where the lines meet. Lines that meet nowhere near have their size alone.
fn angle(scene: &Scene, k: usize, paint: Paint) -> String {
    let c = &scene.document.sheet.constraints[k];
    let meeting = match scene.meeting(c) {
        Some(meeting) => meeting,
        None => return marks(scene, c, paint),
    };
    let (from, turn) = scene.angle_of(c);
    let radius = ARC / scene.long(1.0);
    let arc = scene.arc(c, meeting).into_iter().map(|place| scene.at(place));
    let path: String =
        arc.enumerate().map(|(i, [x, y])| format!("{}{x:.1} {y:.1}", if i == 0 { 'M' } else { 'L' })).collect();
    let end = scene.at(along(meeting, radius, direction(from + turn)));
    // the head lies along the last part of the arc
    let way = direction(from + turn + turn.signum() * (std::f64::consts::FRAC_PI_2 - 0.18));
    let head = if turn.abs() * ARC > 14.0 { arrow(end, way, paint.colour) } else { String::new() };
    format!("<path d=\"{path}\" {}/><path class=\"catch\" d=\"{path}\"/>{head}", stroke(paint, 1.2))
}

/// Two small strokes across lines that are held by an angle and meet nowhere near.
fn marks(scene: &Scene, c: &Constraint, paint: Paint) -> String {
    let [a, b] = scene.marks(c);
    straight(scene, a[0], a[1], &stroke(paint, 1.2)) + &straight(scene, b[0], b[1], &stroke(paint, 1.2))
}
