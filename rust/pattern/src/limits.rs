//! The limits of `include/pattern.h`.

/// The most elements of a sheet.
pub const MOST_ELEMENTS: usize = 64;
/// The most constraints of a sheet.
pub const MOST_CONSTRAINTS: usize = 200;
/// The most bytes of a written sheet: with so much space no sheet is refused by rule 17.
pub const MOST_BYTES: usize = 1678;
/// The most bytes of a sheet that is read: it may carry tags.
pub const MOST_READ: usize = 2078;
/// The most bytes of a report: with so much space no report is refused by rule 17.
pub const MOST_REPORT: usize = 4667;
/// The most bytes of one cluster's steps: with so much space none are refused by rule 17.
pub const MOST_PART: usize = 3534;
/// The most numbers of a plan, three a step.
pub const MOST_PLAN: usize = 186;
/// The most steps of a plan.
pub const MOST_STEPS: usize = 62;
/// The most clusters that are left.
pub const MOST_CLUSTERS: usize = 125;
/// The most words of what they rest on, two a cluster.
pub const MOST_RESTS: usize = 250;
/// The most clusters of a chain.
pub const MOST_CHAIN: usize = 63;
/// The most numbers of the open merges, three each.
pub const MOST_OPEN: usize = 186;
/// The most dimensions that a sheet lacks.
pub const MOST_MISSING: usize = 125;
/// The most bytes of a held sketch's record.
pub const MOST_RECORD: usize = 1155;
/// The price of a pair that can't be measured.
pub const UNMEASURED: u16 = 65_535;
