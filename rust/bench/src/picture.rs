//! A picture of time against n as SVG: panels side by side with one scale, and a legend.

use std::fmt::Write;

/// One line: its words, and the time in µs at each n.
pub struct Line {
    pub words: &'static str,
    pub times: Vec<(usize, f64)>,
}

/// One panel: its title and its lines, which are the same shapes in every panel.
pub struct Panel {
    pub title: &'static str,
    pub lines: Vec<Line>,
}

/// How a line looks: colour, dashes, and a marker about the origin.
struct Look {
    colour: &'static str,
    dashes: &'static str,
    marker: &'static str,
}

const LOOKS: [Look; 5] = [
    Look { colour: "#0072b2", dashes: "none", marker: "M-3.5 0a3.5 3.5 0 1 0 7 0a3.5 3.5 0 1 0 -7 0z" },
    Look { colour: "#d55e00", dashes: "8 3", marker: "M-3.2 -3.2h6.4v6.4h-6.4z" },
    Look { colour: "#009e73", dashes: "2 3", marker: "M0 -4.2L4 3H-4z" },
    Look { colour: "#aa4499", dashes: "9 3 2 3", marker: "M0 -4.6L4.6 0L0 4.6L-4.6 0z" },
    Look { colour: "#222222", dashes: "4 2", marker: "M-3.5 -3.5L3.5 3.5M-3.5 3.5L3.5 -3.5" },
];

const STYLE: &str = "text{font:13px sans-serif;fill:#222}.head{font-weight:bold;font-size:15px}\
     .name{font-weight:bold}.size{font-size:11px}.axis{stroke:#222}.grid{stroke:#ddd}path{stroke-width:1.6}";

/// Where the panels stand: the left edge of the first, the step to the next, their width, top and bottom.
const LEFT: f64 = 52.0;
const STEP: f64 = 346.0;
const WIDTH: f64 = 302.0;
const TOP: f64 = 76.0;
const BOTTOM: f64 = 346.0;
/// The highest n, and those that are named under the axis.
const MOST: f64 = 64.0;
const NAMED: [usize; 5] = [4, 16, 32, 48, 64];

/// The picture.
pub fn svg(title: &str, panels: &[Panel]) -> String {
    let top = top_of(panels);
    let mut out = String::new();
    put(
        &mut out,
        r#"<svg xmlns="http://www.w3.org/2000/svg" viewBox="0 0 720 480" width="720" height="480" role="img">"#,
    );
    put(&mut out, &format!("<title>{title}</title>\n<style>{STYLE}</style>"));
    put(&mut out, r##"<rect width="100%" height="100%" fill="#fff"/>"##);
    text(&mut out, (16.0, 26.0), "head", "start", title);
    for (k, panel) in panels.iter().enumerate() {
        draw(&mut out, panel, LEFT + k as f64 * STEP, top);
    }
    for (k, (line, look)) in panels[0].lines.iter().zip(&LOOKS).enumerate() {
        legend(&mut out, line.words, look, (LEFT + (k % 2) as f64 * STEP, 412.0 + (k / 2) as f64 * 24.0));
    }
    put(&mut out, "</svg>");
    out
}

/// The top of the scale, and the step between its lines, which is 1, 2 or 5 times a power of ten.
fn top_of(panels: &[Panel]) -> (f64, f64) {
    let times = panels.iter().flat_map(|panel| &panel.lines).flat_map(|line| &line.times);
    let most = times.fold(0.0, |most: f64, &(_, time)| most.max(time));
    let power = 10_f64.powf((most / 6.0).log10().floor());
    let step = [1.0, 2.0, 5.0, 10.0].map(|by| by * power).into_iter().find(|step| most <= 6.0 * step).unwrap_or(most);
    ((most / step).ceil() * step, step)
}

/// Adds a panel with its left edge at `left`.
fn draw(out: &mut String, panel: &Panel, left: f64, (top, step): (f64, f64)) {
    let x = |n: usize| left + n as f64 / MOST * WIDTH;
    let y = |time: f64| BOTTOM - time / top * (BOTTOM - TOP);
    text(out, (left, TOP - 28.0), "name", "start", panel.title);
    text(out, (left, TOP - 10.0), "size", "start", "µs a call");
    for k in 0..=(top / step).round() as usize {
        let time = k as f64 * step;
        let class = if k == 0 { "axis" } else { "grid" };
        rule(out, class, (left, y(time)), (left + WIDTH, y(time)));
        text(out, (left - 7.0, y(time) + 4.0), "size", "end", &number(time, step));
    }
    rule(out, "axis", (left, TOP), (left, BOTTOM));
    for n in NAMED {
        rule(out, "axis", (x(n), BOTTOM), (x(n), BOTTOM + 5.0));
        text(out, (x(n), BOTTOM + 18.0), "size", "middle", &n.to_string());
    }
    text(out, (left + WIDTH / 2.0, BOTTOM + 36.0), "size", "middle", "n, the number of elements");
    for (line, look) in panel.lines.iter().zip(&LOOKS) {
        let places: Vec<(f64, f64)> = line.times.iter().map(|&(n, time)| (x(n), y(time))).collect();
        trace(out, look, &places, &places);
    }
}

/// Adds an entry of the legend.
fn legend(out: &mut String, words: &str, look: &Look, (x, y): (f64, f64)) {
    trace(out, look, &[(x, y), (x + 46.0, y)], &[(x + 23.0, y)]);
    text(out, (x + 56.0, y + 4.5), "shape", "start", words);
}

/// Adds a line through places, and a marker at each of others.
fn trace(out: &mut String, look: &Look, places: &[(f64, f64)], marked: &[(f64, f64)]) {
    let Look { colour, dashes, marker } = look;
    let steps = places.iter().enumerate().map(|(k, (x, y))| format!("{}{x:.1} {y:.1}", if k == 0 { "M" } else { "L" }));
    let steps: String = steps.collect();
    put(out, &format!(r#"<path d="{steps}" stroke="{colour}" stroke-dasharray="{dashes}" fill="none"/>"#));
    for (x, y) in marked {
        put(
            out,
            &format!(r#"<path d="{marker}" transform="translate({x:.1} {y:.1})" stroke="{colour}" fill="{colour}"/>"#),
        );
    }
}

/// A number of the scale, with as many digits as its step needs.
fn number(time: f64, step: f64) -> String {
    let digits = if step < 1.0 { 1 } else { 0 };
    format!("{time:.digits$}")
}

/// Adds a straight line.
fn rule(out: &mut String, class: &str, from: (f64, f64), to: (f64, f64)) {
    let ((x1, y1), (x2, y2)) = (from, to);
    put(out, &format!(r#"<line class="{class}" x1="{x1:.1}" y1="{y1:.1}" x2="{x2:.1}" y2="{y2:.1}"/>"#));
}

/// Adds words.
fn text(out: &mut String, (x, y): (f64, f64), class: &str, anchor: &str, words: &str) {
    put(out, &format!(r#"<text class="{class}" x="{x:.1}" y="{y:.1}" text-anchor="{anchor}">{words}</text>"#));
}

/// Adds a line of the file.
fn put(out: &mut String, line: &str) {
    writeln!(out, "{line}").expect("a string takes all");
}
