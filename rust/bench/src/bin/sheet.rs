//! Reading a sheet and writing it again.

use pattern_bench::timing::Contender;
use pattern_bench::{cases, plain, table};
use pattern_tests::ffi;

fn main() {
    let mut contenders = vec![
        Contender::lending::<_, 2048>("proved", ffi::rewrite),
        Contender::lending::<_, 2048>("plain Rust", plain::sheet::rewrite),
    ];
    #[cfg(feature = "yardstick")]
    contenders.push(Contender::lending::<_, 2048>("yardstick", pattern_bench::yardstick::rewrite).keeping_tags());
    table::print("read and write", &cases::for_sheet(), &mut contenders);
    let mut contenders = [
        Contender::lending::<_, 2048>("proved", ffi::rewrite),
        Contender::lending::<_, 2048>("plain Rust", plain::sheet::rewrite),
    ];
    table::print("read and write, PF02", &cases::for_round_sheet(), &mut contenders);
}
