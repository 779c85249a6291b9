//! Plain Rust that is written to be fast: what a Rust programmer would put in the proved library's place.

pub mod chain;
pub mod missing;
pub mod over;
pub mod plan;
pub mod report;
pub mod sheet;
pub mod sketch;

#[cfg(test)]
mod tests {
    use pattern_tests::facts::{Constraint, Rule};
    use pattern_tests::interface::Found;
    use pattern_tests::random::Random;
    use pattern_tests::space::{Item, Space};
    use pattern_tests::{damage, dress, ffi, interface, reader, sketch, tags};

    /// Sheets, sound and damaged.
    fn sheets() -> impl Iterator<Item = Vec<u8>> {
        let mut random = Random::new(1);
        (0..4_000).flat_map(move |_| {
            let sheet = dress::any(64, &mut random);
            let bytes = tags::any(&sheet, &mut random);
            let cut = bytes[..random.below(bytes.len())].to_vec();
            [damage::aimed(&bytes, &mut random), damage::changed(&bytes, &mut random), cut, bytes]
        })
    }

    /// Compares a call's number and lent space with what they must be.
    fn same<T: Item>(bytes: &[u8], answer: &Result<Vec<T>, Rule>, call: impl Fn(&[u8], &mut [T]) -> i32) {
        let mut space = Space::new(4_000, &mut Random::new(2));
        let wanted = space.expected(answer);
        let number = call(bytes, space.lent());
        assert_eq!((number, space.cells()), (wanted.0, &wanted.1[..]), "{bytes:02x?}");
    }

    #[test]
    fn as_the_reference() {
        let mut random = Random::new(3);
        for bytes in sheets() {
            let found = Found::of(&bytes);
            same(&bytes, &interface::rewrite(&bytes), super::sheet::rewrite);
            same(&bytes, &interface::over(&bytes), super::over::over);
            same(&bytes, &found.plan(), super::plan::plan);
            same(&bytes, &found.report(), super::report::report);
            let (from, to) = (random.below(70), random.below(64));
            same(&bytes, &found.chain(from, to), |bytes, out| super::chain::chain(bytes, from, to, out));
            let verdict = found.verdict().map_or_else(|rule| -i32::from(rule), i32::from);
            assert_eq!(super::plan::verdict(&bytes), verdict);
        }
    }

    #[test]
    fn saved_plans_as_the_reference() {
        let mut random = Random::new(4);
        for bytes in sheets().step_by(2) {
            let plan = Found::of(&bytes).plan().unwrap_or_default();
            let plan = if random.chance(50) { damage::plan(&plan, &mut random) } else { plan };
            same(&bytes, &interface::check_plan(&bytes, &plan), |bytes, out| {
                super::report::check_plan(bytes, &plan, out)
            });
        }
    }

    #[test]
    fn held_sketches_as_the_reference() {
        let mut random = Random::new(5);
        for bytes in sheets() {
            let sheet = match reader::read(&bytes) {
                Ok(sheet) => sheet,
                Err(_) => continue,
            };
            let more = damage::offered(&sheet, &mut random);
            let Constraint { first, second, map, size } = more;
            let plain = super::sheet::Constraint { first, second, map, size };
            let count = (bytes.len() as u16).to_le_bytes();
            let mut record: Vec<u8> = count.into_iter().chain(bytes).collect();
            record.resize(record.len() + random.below(9), 0);
            let answer = sketch::ask(&record, &more).map_or_else(|rule| -i32::from(rule), i32::from);
            assert_eq!(super::sketch::ask(&record, &plain), answer, "{record:02x?}, {more:?}");
            let told = sheet.e() + random.below(2);
            let mut by_plain = record.clone();
            let answer = ffi::place(&mut record, &more, told);
            assert_eq!((super::sketch::place(&mut by_plain, &plain, told), by_plain), (answer, record), "{more:?}");
        }
    }
}
