//! Linear equations.

/// A pivot below this part of the largest entry is none.
const PIVOT: f64 = 1e-10;

/// Solves equations, a row each, by elimination with the largest pivot; none where they have no single solution.
pub fn solve(mut rows: Vec<Vec<f64>>, mut right: Vec<f64>) -> Option<Vec<f64>> {
    let width = right.len();
    let largest = rows.iter().flatten().fold(0.0, |most: f64, x| most.max(x.abs()));
    for i in 0..width {
        let pivot = (i..width).max_by(|&a, &b| rows[a][i].abs().total_cmp(&rows[b][i].abs()))?;
        rows.swap(i, pivot);
        right.swap(i, pivot);
        if rows[i][i].abs() <= PIVOT * largest {
            return None;
        }
        for j in i + 1..width {
            let times = rows[j][i] / rows[i][i];
            if times != 0.0 {
                let (above, below) = rows.split_at_mut(j);
                below[0][i..].iter_mut().zip(&above[i][i..]).for_each(|(x, y)| *x -= times * y);
                right[j] -= times * right[i];
            }
        }
    }
    for i in (0..width).rev() {
        let sum: f64 = (i + 1..width).map(|k| rows[i][k] * right[k]).sum();
        right[i] = (right[i] - sum) / rows[i][i];
    }
    Some(right)
}

#[cfg(test)]
mod tests {
    use super::*;

    #[test]
    fn equations_are_solved_or_have_no_single_solution() {
        let rows = vec![vec![0.0, 2.0, 1.0], vec![1.0, 1.0, 0.0], vec![3.0, 0.0, -1.0]];
        let found = solve(rows.clone(), vec![7.0, 3.0, 0.0]).expect("one solution");
        for (row, wanted) in rows.iter().zip([7.0, 3.0, 0.0]) {
            let is: f64 = row.iter().zip(&found).map(|(x, y)| x * y).sum();
            assert!((is - wanted).abs() < 1e-12, "{found:?}");
        }
        assert_eq!(solve(vec![vec![1.0, 2.0], vec![2.0, 4.0]], vec![1.0, 2.0]), None);
    }
}
