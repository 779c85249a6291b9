//! The reference on the sheets that document 01 gives ("The report", "Sheets to try").

use crate::facts::{Columns, Constraint, Kind, Sheet};
use crate::graph::Graph;
use crate::interface::{self, Found};
use crate::{shapes, writer};

/// Points with these constraints: the ends and the size.
fn points(n: usize, constraints: &[(u8, u8, i32)]) -> Sheet {
    let constraint = |&(first, second, size)| Constraint::sized(first, second, size);
    Sheet::first(vec![Kind::Point; n], constraints.iter().map(constraint).collect())
}

/// Points with these pairs, all of size 300.
fn pairs(graph: &Graph) -> Sheet {
    let sizes: Vec<_> = graph.pairs.iter().map(|&(a, b)| (a as u8, b as u8, 300)).collect();
    points(graph.n, &sizes)
}

/// A sheet's report.
fn report(sheet: &Sheet) -> String {
    String::from_utf8(Found::of(&writer::bytes(sheet)).report().expect("an accepted sheet")).expect("ASCII")
}

/// The sheet of "The report", with more elements and pairs.
fn example(n: usize, more: &[(usize, usize)]) -> Sheet {
    let all = [(0, 1), (0, 2), (1, 2), (1, 3), (2, 3)];
    pairs(&Graph::of(n, all.into_iter().chain(more.iter().copied())))
}

/// Line 0 and points 1 and 2: (0,1) without size, (0,2) 300, (1,2) of this size.
fn point_on_line(size: i32) -> Sheet {
    let mut sheet = points(3, &[(0, 1, 0), (0, 2, 300), (1, 2, size)]);
    sheet.kinds[0] = Kind::Line;
    sheet.constraints[0] = Constraint::bare(0, 1);
    sheet
}

#[test]
fn the_report() {
    let wanted = "verdict well\n\
                  elements 4 constraints 5\n\
                  step 5 from 0 1 2 joint 0 1 2 kind ppp ways 2\n\
                  step 6 from 3 4 5 joint 1 2 3 kind ppp ways ?\n\
                  cluster 6 holds 0 1 2 3 rests on 0 1 2 3 4\n";
    assert_eq!(report(&example(4, &[])), wanted);
}

#[test]
fn few_constraints() {
    assert_eq!(report(&points(2, &[])), "verdict under\nelements 2 constraints 0\n");
    let one = "verdict well\nelements 2 constraints 1\ncluster 0 holds 0 1 rests on 0\n";
    assert_eq!(report(&points(2, &[(0, 1, 300)])), one);
    let star = "verdict under\nelements 4 constraints 3\n\
                cluster 0 holds 0 1 rests on 0\ncluster 1 holds 0 2 rests on 1\ncluster 2 holds 0 3 rests on 2\n";
    assert_eq!(report(&pairs(&shapes::bipartite(1, 4))), star);
}

#[test]
fn angle() {
    let mut sheet = pairs(&shapes::ring(3));
    sheet.kinds.fill(Kind::Line);
    assert!(report(&sheet).starts_with("verdict angle\n"));
}

#[test]
fn over() {
    let wanted = "verdict over\nelements 4 constraints 6\nfirst 5\nset 0 1 2 3\n";
    assert_eq!(report(&example(4, &[(0, 3)])), wanted);
    assert_eq!(report(&example(5, &[(0, 3)])), wanted.replace("elements 4", "elements 5"));
}

#[test]
fn stuck() {
    let sheet = report(&pairs(&shapes::bipartite(3, 6)));
    assert!(sheet.starts_with("verdict stuck\n") && !sheet.contains("step"));
}

#[test]
fn placements() {
    assert!(report(&point_on_line(300)).contains("kind ppl ways 1\n"));
    assert!(report(&point_on_line(299)).contains("kind ppl ways 0\n"));
    assert!(report(&points(3, &[(0, 1, 100), (0, 2, 200), (1, 2, 300)])).contains("kind ppp ways 1\n"));
    assert!(report(&points(3, &[(0, 1, 100), (0, 2, 200), (1, 2, 301)])).contains("kind ppp ways 0\n"));
}

#[test]
fn counts_and_ranges() {
    let written = |sheet: &Sheet| writer::write(&Columns::of(sheet)).map(|_| ());
    assert_eq!(written(&points(64, &[])), Ok(()));
    assert_eq!(written(&points(1, &[])), Err(3));
    assert_eq!(written(&points(65, &[])), Err(3));
    assert_eq!(written(&points(2, &[(0, 1, 40_000)])), Ok(()));
    assert_eq!(written(&points(2, &[(0, 1, 40_001)])), Err(9));
    let angle = |size| Sheet { kinds: vec![Kind::Line; 2], ..points(2, &[(0, 1, size)]) };
    assert_eq!(written(&angle(17_999)), Ok(()));
    assert_eq!(written(&angle(18_000)), Err(9));
}

#[test]
fn a_saved_plan() {
    let bytes = writer::bytes(&example(4, &[]));
    let other = "verdict well\n\
                 elements 4 constraints 5\n\
                 step 5 from 2 3 4 joint 1 2 3 kind ppp ways 2\n\
                 step 6 from 0 1 5 joint 0 1 2 kind ppp ways ?\n\
                 cluster 6 holds 0 1 2 3 rests on 0 1 2 3 4\n";
    assert_eq!(interface::check_plan(&bytes, &[4, 2, 3, 5, 0, 1]), Ok(other.as_bytes().to_vec()));
    for (plan, rule) in [
        (&[0, 1][..], 12),
        (&[0, 1, 5], 13),
        (&[0, 1, 1], 13),
        (&[0, 1, 256], 13),
        (&[0, 1, 3], 15),
        (&[], 16),
        (&[0, 1, 2], 16),
    ] {
        assert_eq!(interface::check_plan(&bytes, plan), Err(rule), "{plan:?}");
    }
    let over = writer::bytes(&example(4, &[(0, 3)]));
    assert_eq!(interface::check_plan(&over, &[0]), Err(11));
}
