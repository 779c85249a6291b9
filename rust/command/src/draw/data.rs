//! A drawing as data: what a picture shows, for a program that draws it. Places are in millimetres, x to the right and y
//! up; labels have their places for the window that was asked for.

use super::layout::Layout;
use super::place::{Motion, Place};
use super::scene::{Options, Paint, Scene};
use super::spots::{self, Spots};
use crate::document::Document;
use crate::finding::Finding;
use crate::json::Json;
use crate::sheet::{Constraint, Dimension, Kind};

/// The drawing of a layout. Where the text says nothing of places the first point is at 0 0, as in `place`.
pub fn data(document: &Document, finding: &Finding, layout: &Layout, options: Options) -> Json {
    Json::Object(fields(document, finding, layout, options))
}

/// The same by its fields.
pub fn fields(document: &Document, finding: &Finding, layout: &Layout, options: Options) -> Vec<(&'static str, Json)> {
    let [x, y] = super::origin(document, layout);
    let away = Motion { turn: 0.0, shift: [-x, -y] };
    let kinds = document.sheet.elements.iter();
    let places = layout.places.iter().zip(kinds).map(|(place, kind)| away.apply(*place, kind.is_line())).collect();
    let scene = Scene::of(document, finding, &Layout { places, ..layout.clone() }, options);
    let spots = Spots::of(&scene);
    let frame = scene.frame.iter().flatten().all(|x| x.is_finite()).then(|| pairs(&scene.frame));
    vec![
        ("how", layout.how.name().into()),
        ("frame", frame.unwrap_or(Json::Null)),
        ("dense", scene.dense().into()),
        ("left_out", spots.left_out.into()),
        ("elements", Json::List((0..document.names.len()).map(|i| element(&scene, &spots, i)).collect())),
        (
            "constraints",
            Json::List((0..document.sheet.constraints.len()).map(|k| constraint(&scene, &spots, k)).collect()),
        ),
    ]
}

/// Places for a program.
fn pairs(places: &[Place]) -> Json {
    Json::List(places.iter().map(|place| Json::list(*place)).collect())
}

/// A paint for a program.
fn painted(paint: Paint) -> [(&'static str, Json); 3] {
    [("colour", paint.colour.into()), ("dashed", paint.dashed.into()), ("heavy", paint.heavy.into())]
}

/// An element: where it is, how it is painted, the parts that it is in, where its name stands.
fn element(scene: &Scene, spots: &Spots, i: usize) -> Json {
    let kind = &scene.document.sheet.elements[i];
    let mut fields = vec![("name", (&scene.document.names[i]).into()), ("kind", kind.name().into())];
    match scene.segment(i) {
        Some([from, to]) => fields.extend([("from", Json::list(from)), ("to", Json::list(to))]),
        None => fields.push(("at", Json::list(scene.place(i)))),
    }
    if let Kind::Circle(radius) = kind {
        fields.push(("radius", (f64::from(*radius) / 10.0).into()));
    }
    fields.extend(painted(scene.element_paint(i)));
    fields.push(("parts", Json::list(scene.parts_of(i).iter().map(|&part| scene.finding.clusters[part].number))));
    fields.push(("placed", scene.document.places[i].is_some().into()));
    fields.push(("label", Json::maybe(spots.names[i].map(|middle| Json::list(scene.under(middle))))));
    Json::Object(fields)
}

/// A constraint: its shape with the places that it runs through, its words, where they stand.
fn constraint(scene: &Scene, spots: &Spots, k: usize) -> Json {
    let c = &scene.document.sheet.constraints[k];
    let ends = [c.first, c.second].map(|end| scene.document.names[end].as_str());
    let (shape, places) = shape(scene, c);
    let mut fields = vec![
        ("ends", Json::list(ends)),
        ("text", scene.document.statement(k).into()),
        ("words", spots::size_words(scene, k).into()),
        ("shape", shape.into()),
        ("places", pairs(&places)),
        ("unmet", scene.unmet.contains(&k).into()),
    ];
    fields.extend(painted(scene.constraint_paint(k)));
    fields.push(("label", Json::maybe(spots.sizes[k].map(|frame| Json::list(scene.under(frame.middle))))));
    Json::Object(fields)
}

/// The shape of a constraint: a stroke from end to end, the arc of an angle, marks across lines that meet nowhere near,
/// a ring about a point on a line, or the place of a contact.
fn shape(scene: &Scene, c: &Constraint) -> (&'static str, Vec<Place>) {
    let lines = [c.first, c.second].map(|end| scene.document.sheet.elements[end].is_line());
    match (lines, c.dimension) {
        ([true, true], _) => match scene.meeting(c) {
            Some(meeting) => ("arc", scene.arc(c, meeting)),
            None => ("marks", scene.marks(c).concat()),
        },
        (_, Dimension::On) => ("ring", vec![scene.place(if lines[0] { c.second } else { c.first })]),
        (_, Dimension::Tangent | Dimension::OtherTangent) => ("contact", vec![scene.touching(c)]),
        _ => ("stroke", scene.span(c).to_vec()),
    }
}
