//! The search for an over set, with reading and without.

use pattern_bench::timing::Contender;
use pattern_bench::{cases, plain, table};
use pattern_tests::ffi;

fn main() {
    let mut contenders = vec![
        Contender::lending::<_, 2>("proved", ffi::over),
        Contender::lending::<_, 2>("plain Rust", plain::over::over),
    ];
    #[cfg(feature = "yardstick")]
    contenders.push(Contender::lending::<_, 2>("yardstick", pattern_bench::yardstick::over));
    table::print("over", &cases::for_over(), &mut contenders);
    table::print_less_reading("over", &cases::for_over(), &mut contenders);
}
