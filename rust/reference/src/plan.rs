//! Size and passes told beforehand (02, C-17). No row is read, and no visit is made.

use crate::list::Call;
use crate::{book, bounds as boxes};

/// "Here a sheet of over 1,000,000 records is refused by check 5."
pub const MAX_RECORDS: usize = 1_000_000;

/// "From a trailer: the length of each buffer that n and m fix": n and m, then bounds, coefficients, right
/// sides, kinds, table, ties, the coefficients and right sides of clique rows, and the book's bytes.
pub fn lengths(n: usize, m: usize) -> [usize; 11] {
    [n, m, 2 * n, m * n, m, m, 4 * n * n, n, 2 * n * n, 2 * n, book::length(n, m)]
}

/// "the total width, the sum of u − l (0 for the void box)"
pub fn width(bounds: &[i32]) -> u64 {
    if boxes::is_empty(bounds) {
        return 0;
    }
    bounds.chunks_exact(2).map(|pair| u64::from(pair[1].abs_diff(pair[0]))).sum()
}

/// "a settle budget that is never spent, the width plus 1"
pub fn budget(bounds: &[i32]) -> u64 {
    width(bounds) + 1
}

/// "an upper limit on the passes it makes, each settle, refused or not, counting the lesser of its budget
/// and the width plus 1, each probe twice that"
pub fn passes(bounds: &[i32], calls: &[Call]) -> u64 {
    let enough = budget(bounds);
    let counts = |&[kind, _, _, budget]: &Call| match kind {
        2 => enough.min(budget.into()),
        3 => 2 * enough.min(budget.into()),
        _ => 0,
    };
    calls.iter().map(counts).sum()
}
