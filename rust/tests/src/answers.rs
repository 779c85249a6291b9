//! What the library answers of a sheet, all calls together, so that two sheets can be compared that must be judged alike.

use crate::ffi;

/// The most items of an answer: no room is too short.
const ROOM: usize = 5000;

/// What was written into lent space, or minus the rule that refused.
pub type Answer<T> = Result<Vec<T>, i32>;

/// The library's answers of a sheet, of a plan that was saved for it and of a price list.
#[derive(PartialEq, Eq, Debug)]
pub struct Answers {
    verdict: i32,
    over: Answer<u64>,
    initial: Answer<u64>,
    plan: Answer<u16>,
    clusters: Answer<u64>,
    rests: Answer<u64>,
    report: Answer<u8>,
    steps: Answer<u64>,
    checked: Answer<u8>,
    saved_steps: Answer<u64>,
    part: Answer<u8>,
    chain: Answer<u16>,
    missing: Answer<u16>,
    open: [Answer<u16>; 2],
}

impl Answers {
    /// Makes all the calls; the part is that of cluster `number`, the chain runs from element 0 to the last.
    #[inline]
    pub fn of(sheet: &[u8], plan: &[u16], prices: &[u16], number: usize) -> Answers {
        let last = usize::from(sheet[4]) - 1;
        Answers {
            verdict: ffi::verdict(sheet),
            over: lent(|out| ffi::over(sheet, out)),
            initial: lent(|out| ffi::initial(sheet, out)),
            plan: lent(|out| ffi::plan(sheet, out)),
            clusters: lent(|out| ffi::clusters(sheet, out)),
            rests: lent(|out| ffi::rests(sheet, out)),
            report: lent(|out| ffi::report(sheet, out)),
            steps: lent(|out| ffi::steps(sheet, out)),
            checked: lent(|out| ffi::check_plan(sheet, plan, out)),
            saved_steps: lent(|out| ffi::saved_steps(sheet, plan, out)),
            part: lent(|out| ffi::part(sheet, number, out)),
            chain: lent(|out| ffi::chain(sheet, 0, last, out)),
            missing: lent(|out| ffi::missing(sheet, prices, out)),
            open: [0, 1].map(|steps| lent(|out| ffi::open(sheet, steps, out))),
        }
    }
}

/// What a call writes into lent space, or minus the rule that refuses it.
pub fn lent<T: Default + Clone>(call: impl FnOnce(&mut [T]) -> i32) -> Answer<T> {
    let mut space = vec![T::default(); ROOM];
    let answer = call(&mut space);
    space.truncate(usize::try_from(answer).map_err(|_| answer)?);
    Ok(space)
}
