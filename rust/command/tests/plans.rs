//! Plans step by step: the merges that are open, and how far a saved plan is right.

use pattern_command::document::Document;
use pattern_command::{draw, merges};

/// The examples that are not over.
fn documents() -> Vec<Document> {
    let folder = concat!(env!("CARGO_MANIFEST_DIR"), "/../../examples/text");
    let files = std::fs::read_dir(folder).unwrap().map(|entry| entry.unwrap().path());
    let documents = files.map(|path| Document::load(path.as_os_str()).unwrap());
    documents.filter(|document| pattern::steps(&document.bytes).is_ok()).collect()
}

/// The merges open among the parts that live after each step are the proved library's.
#[test]
fn open_merges() {
    let mut seen = 0;
    for document in documents() {
        let steps = pattern::steps(&document.bytes).unwrap();
        let views = draw::views(&document, &steps);
        let saved = draw::saved_views(&document, &steps, steps.len());
        for (own, saved) in views.iter().zip(&saved) {
            assert_eq!(own.next, saved.next, "{}: {}", document.path, own.words);
            seen += own.next.len();
        }
        assert_eq!(merges::open(&draw::first_pieces(&document)).len(), draw::open_first(&document).len());
    }
    assert!(seen > 100, "{seen}");
}

/// Of a plan that goes wrong at a step, the steps before it are told, as the library tells them of the whole plan.
#[test]
fn right_steps() {
    for document in documents() {
        let steps = pattern::steps(&document.bytes).unwrap();
        let plan: Vec<u16> = steps.iter().flat_map(|step| step.parts.map(|part| part as u16)).collect();
        for wrong in 0..steps.len() {
            let mut saved = plan.clone();
            saved[3 * wrong + 1] = saved[3 * wrong];
            assert_eq!(merges::right_steps(&document, &saved), steps[..wrong], "{}", document.path);
        }
        assert_eq!(merges::right_steps(&document, &plan), steps);
    }
}
