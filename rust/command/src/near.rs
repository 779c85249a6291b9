//! What was meant: the known word that is nearest to one that is not known.

/// The nearest of some known words, if it is near enough to have been meant: one slip in a short word, two
/// in a long one.
pub fn nearest<'a>(word: &str, known: impl IntoIterator<Item = &'a str>) -> Option<&'a str> {
    let most = match word.chars().count() {
        0..=2 => 0,
        3..=5 => 1,
        6..=40 => 2,
        _ => return None,
    };
    let slips = known.into_iter().map(|candidate| (slips(word, candidate), candidate));
    slips.filter(|(count, _)| *count <= most).min_by_key(|(count, _)| *count).map(|(_, candidate)| candidate)
}

/// The question that goes with a word that is not known; empty where nothing known is near.
pub fn did_you_mean<'a>(word: &str, known: impl IntoIterator<Item = &'a str>) -> String {
    nearest(word, known).map_or(String::new(), |meant| format!("did you mean {meant}?"))
}

/// How many slips make one word of the other, whatever the case: letters left out, put in, changed, or two exchanged.
fn slips(a: &str, b: &str) -> usize {
    let [a, b] = [a, b].map(|word| word.to_lowercase().chars().collect::<Vec<_>>());
    if a.len().abs_diff(b.len()) > 2 {
        return usize::MAX;
    }
    // row i: slips from the first i letters of a to each beginning of b
    let mut rows = vec![(0..=b.len()).collect::<Vec<_>>()];
    for i in 1..=a.len() {
        let mut row = vec![i];
        for j in 1..=b.len() {
            let change = rows[i - 1][j - 1] + usize::from(a[i - 1] != b[j - 1]);
            let exchanged = i > 1 && j > 1 && a[i - 1] == b[j - 2] && a[i - 2] == b[j - 1];
            let exchange = if exchanged { rows[i - 2][j - 2] + 1 } else { usize::MAX };
            row.push(change.min(exchange).min(rows[i - 1][j] + 1).min(row[j - 1] + 1));
        }
        rows.push(row);
    }
    rows[a.len()][b.len()]
}

#[cfg(test)]
mod tests {
    use super::*;

    #[test]
    fn slips_are_counted() {
        assert_eq!(nearest("distnce", ["point", "distance"]), Some("distance"));
        assert_eq!(nearest("tagnent", ["point", "tangent"]), Some("tangent"));
        assert_eq!(nearest("Point", ["point", "line"]), Some("point"));
        assert_eq!(nearest("a", ["A", "b"]), Some("A"));
        assert_eq!(nearest("c", ["a", "b"]), None);
        assert_eq!(nearest("pin", ["line", "pint"]), Some("pint"));
        assert_eq!(nearest("nonsense", ["distance", "line"]), None);
        assert_eq!(nearest("", ["a"]), None);
    }
}
