//! The lines below a picture.

use super::note;
use super::scene::Scene;
use super::steps::{piece_words, View};
use super::svg::escaped;
use crate::describe::{self, counted};
use crate::draw::Position;
use crate::engine::Cluster;

/// The most clusters that are named.
const MOST_PARTS: usize = 12;
/// The most lines of words: the command check tells all.
const MOST_WORDS: usize = 40;
/// The longest line in characters, and the longest in the larger letters of a heading.
const WRAP: usize = 84;
const WRAP_HEAD: usize = 70;

/// A line of the legend.
fn line(class: &str, text: &str) -> String {
    format!("<text class=\"{class}\">{}</text>", escaped(text))
}

/// The verdict and what there is to say of it.
pub fn words(scene: &Scene, position: Option<&Position>) -> Vec<String> {
    let mut rows = vec![line("head", scene.finding.verdict.name())];
    for words in describe::lines(scene.document, scene.finding, position) {
        let class = if words.to_lowercase().starts_with("warning") { "loud" } else { "plain" };
        rows.extend(wrapped_words(&words).iter().map(|words| line(class, words)));
    }
    let rest = rows.len().saturating_sub(MOST_WORDS);
    if rest > 1 {
        rows.truncate(MOST_WORDS);
        rows.push(line("plain", &format!("and {rest} more lines, which pattern check prints")));
    }
    rows
}

/// The parts with their colours.
pub fn parts(scene: &Scene) -> Vec<String> {
    let clusters = &scene.finding.clusters;
    let row = |(p, cluster): (usize, &Cluster)| {
        let (dash, free) = if scene.free(p) { (" stroke-dasharray=\"6 4\"", ", free") } else { ("", "") };
        let swatch = format!("<path d=\"M0 -4h26\" stroke=\"{}\" stroke-width=\"4\"{dash}/>", scene.colour(p));
        let names = shortened(&scene.document.named(cluster.elements).join(" "));
        format!("{swatch}<text x=\"34\">{}</text>", escaped(&format!("part {}: {names}{free}", cluster.number)))
    };
    let mut rows: Vec<String> = clusters.iter().enumerate().take(MOST_PARTS).map(row).collect();
    let rest = clusters.len().saturating_sub(MOST_PARTS);
    rows.extend((rest > 0).then(|| line("plain", &format!("and {rest} more parts"))));
    rows
}

/// How it was laid out, and how many sizes had no room.
pub fn noted(scene: &Scene, left_out: usize) -> Vec<String> {
    let mut words = wrapped_words(note(scene.how));
    if left_out > 0 {
        let sizes = counted(left_out, "size");
        words.push(format!("{sizes} left out for want of room: a larger --size has more, and the page of --html all."));
    }
    words.iter().map(|words| line("size", words)).collect()
}

/// A step: what it joins, where, and what is open next.
pub fn step(scene: &Scene, view: &View) -> Vec<String> {
    let document = scene.document;
    let mut rows: Vec<String> = wrapped_at(&view.words, WRAP_HEAD).iter().map(|words| line("head", words)).collect();
    for (i, part) in view.parts.iter().enumerate() {
        let swatch = format!("<path d=\"M0 -4h26\" stroke=\"{}\" stroke-width=\"4\"/>", scene.colour(i));
        let words = escaped(&shortened(&piece_words(document, part)));
        rows.push(format!("{swatch}<text x=\"34\">{words}</text>"));
    }
    let ring = "<path d=\"M0 -4h26\" stroke=\"#ffc94d\" stroke-width=\"9\"/>";
    let joint = escaped(&document.named(view.step.joint).join(" "));
    rows.push(format!("{ring}<text x=\"34\">the joint: {joint}</text>"));
    rows.extend(wrapped_words(&view.next_words(document)).iter().map(|words| line("plain", words)));
    rows.push(line("size", "Dark grey is built before, pale and dashed is not built yet."));
    rows
}

/// A text that is cut where it is too long for a line.
fn shortened(text: &str) -> String {
    match text.char_indices().nth(WRAP - 16) {
        Some((end, _)) => format!("{} ..", &text[..end]),
        None => text.to_string(),
    }
}

/// A text in lines that are short enough.
fn wrapped_words(text: &str) -> Vec<String> {
    wrapped_at(text, WRAP)
}

/// A text in lines of at most so many characters.
fn wrapped_at(text: &str, most: usize) -> Vec<String> {
    let mut lines = vec![String::new()];
    for word in text.split(' ') {
        let last = lines.len() - 1;
        if lines[last].chars().count() + word.chars().count() > most {
            lines.push(format!("   {word}"));
        } else {
            let gap = if lines[last].is_empty() { "" } else { " " };
            lines[last].extend([gap, word]);
        }
    }
    lines
}
