//! The shapes of the cases in plain words.

/// Each case's name, and the shape in plain words. Those with 30 % lines have tags on half their constraints, which a held sketch does not keep.
const WORDS: [(&str, &str); 51] = [
    // reading and writing
    ("200 distances", "200 distances between points"),
    ("200 distances, every tag", "200 distances between points, tagged"),
    ("200 mixed, half the tags", "200 between points and lines, half tagged"),
    ("64 circles, 200 contacts", "circles that touch"),
    ("64 circles, 200 distances", "circles with distances"),
    ("64 circles, half of each", "circles, half touch, half with distances"),
    ("64 circles, contacts, every tag", "circles that touch, tagged"),
    ("points, lines and circles", "points, lines and circles, half tagged"),
    ("no circle, 200 mixed", "points and lines in a PF02 sheet"),
    // shapes of one cluster
    ("strip", "strip of triangles"),
    ("strip, mixed", "strip of triangles, shuffled"),
    ("strip, 6% lines", "strip of triangles, 6 % lines"),
    ("merge tree", "random tree of merges"),
    ("merge tree, lines and tags", "random tree of merges, 30 % lines"),
    ("Henneberg, no split", "Henneberg growth, no split"),
    ("Henneberg, 30 % split", "Henneberg growth, 30 % splits"),
    ("Henneberg, 90 % split", "Henneberg growth, 90 % splits"),
    ("Henneberg, no split, lines", "Henneberg growth, no split, 30 % lines"),
    ("fan, spokes first", "fan, spokes listed first"),
    ("fan, spokes last", "fan, spokes listed last"),
    ("book, spine last", "triangles on one side, which is listed last"),
    ("book, mixed", "triangles on one side, shuffled"),
    ("K2,31 closed late", "two hubs, 31 leaves, joined last"),
    ("K2,31 closed late, lines", "two hubs, 31 leaves, joined last, 30 % lines"),
    ("K2,44 closed late", "two hubs, 44 leaves, joined last"),
    ("five points, every set", "five points, every set of distances"),
    // shapes that lack constraints
    ("scattered", "random pairs"),
    ("scattered, few", "random pairs, few"),
    ("strip less 1, 6% lines", "strip of triangles less 1, 6 % lines"),
    ("merge tree less 8", "random tree of merges less 8"),
    ("merge tree less 8, 6% lines", "random tree of merges less 8, 6 % lines"),
    ("merge tree less 8, 90% lines", "random tree of merges less 8, 90 % lines"),
    ("Henneberg less 1, lines", "Henneberg growth less 1, 30 % lines"),
    ("row, all lines", "row of lines"),
    ("row, mixed, all lines", "row of lines, shuffled"),
    ("tree, mixed, all lines", "tree of lines, shuffled"),
    ("comb, mixed, all lines", "comb of lines, shuffled"),
    ("four rows, mixed, all lines", "four rows of lines, shuffled"),
    ("row of lines and five round, mixed", "row of lines and a ring of five, shuffled"),
    ("parts that share lines, in a row", "row of triangles that share lines"),
    ("the same, mixed", "row of triangles that share lines, shuffled"),
    ("ring of parts, all lines", "ring of parts, all lines"),
    // over sheets
    ("over, the last of 126", "over by the last constraint"),
    ("over, full first", "over, first a full sheet"),
    ("over, scattered", "over, random pairs"),
    // circles
    ("64 circles, strip", "circles, strip of triangles"),
    ("64 circles, merge tree", "circles, random tree of merges"),
    ("64 circles, Henneberg, no split", "circles, Henneberg growth, no split"),
    ("64 circles, over", "circles, over, random pairs"),
    ("mixed, merge tree", "points, lines, circles, tree of merges"),
    ("mixed, merge tree less 8", "points, lines, circles, tree of merges less 8"),
];

/// The shape of a case in plain words.
pub fn of(name: &str) -> &'static str {
    let (_, words) = WORDS.iter().find(|(known, _)| *known == name).expect("a shape with words");
    words
}
