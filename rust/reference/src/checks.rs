//! The checks, in 01's order with 02's new ones in their places: each runs over everything that the call
//! is lent before the next begins.

use crate::bounds;
use crate::propagation::MAX_BUDGET;
use crate::row::AT_MOST;

/// `Err` has the number of the failed check.
pub type Check = Result<(), u32>;

/// Passes where `holds`, else fails with number `check`.
pub fn ensure(check: u32, holds: bool) -> Check {
    if holds { Ok(()) } else { Err(check) }
}

/// Check 3.
pub fn size(n: usize, m: usize) -> Check {
    ensure(3, (1..=128).contains(&n) && m <= 120)
}

/// Check 5: pairs of a buffer's length and the length needed.
pub fn lengths(pairs: &[(usize, usize)]) -> Check {
    ensure(5, pairs.iter().all(|(len, needed)| len == needed))
}

/// Checks 6, 7, 23, 8 and 9 (02, C-22: 23 comes "straight after check 7").
pub fn numbers(bounds: &[i32], coefs: &[i32], rhs: &[i32]) -> Check {
    let within = |xs: &[i32], low, high| xs.iter().all(|x| (low..=high).contains(x));
    let ordered = || bounds.chunks_exact(2).all(|pair| pair[0] <= pair[1]);
    ensure(6, within(bounds, -32_768, 32_767))?;
    ensure(7, ordered() || bounds::is_empty(bounds))?;
    ensure(23, bounds.chunks_exact(2).all(|pair| pair[1] - pair[0] <= 4_096))?; // the empty box: −1
    ensure(8, within(coefs, -1_000_000, 1_000_000))?;
    ensure(9, within(rhs, -1_000_000_000, 1_000_000_000))
}

/// Check 16: "a kind byte above 1, after check 9" (02, C-14).
pub fn kinds(bytes: &[u8]) -> Check {
    ensure(16, bytes.iter().all(|&byte| byte <= 1))
}

/// Check 17: "an = row to be written into a first-edition book, straight after 16" (02, C-14).
pub fn no_equality(kinds: &[u8]) -> Check {
    ensure(17, kinds.iter().all(|&kind| kind == AT_MOST))
}

/// Check 10.
pub fn table(bytes: &[u8]) -> Check {
    ensure(10, bytes.iter().all(|&byte| byte <= 1))
}

/// Check 21: "a place of the tie list above 2n, straight after check 10" (02, C-19).
pub fn places(ties: &[u16], n: usize) -> Check {
    ensure(21, ties.iter().all(|&place| usize::from(place) <= 2 * n))
}

/// Check 12.
pub fn row(row: u32, m: usize) -> Check {
    ensure(12, (row as usize) < m)
}

/// Check 13.
pub fn variable(variable: u32, n: usize) -> Check {
    ensure(13, (variable as usize) < n)
}

/// Checks 13 and 14, the latter where the box is not empty.
pub fn free_variable(k: u32, bounds: &[i32]) -> Check {
    variable(k, bounds.len() / 2)?;
    let k = k as usize;
    ensure(14, bounds::is_empty(bounds) || bounds::is_free(bounds, k))
}

/// Check 15.
pub fn budget(budget: u32) -> Check {
    ensure(15, (1..=MAX_BUDGET).contains(&budget))
}
