//! Many proposed allocations against one model (02, C-21): "The rows are read once, upwards, and each
//! proposal is held against the row."
#![allow(clippy::too_many_arguments)] // the interface is what it is

use crate::checks::{self, Check};
use crate::row::{EQUAL, Row, Rows};

/// "Members send up to 64 proposed allocations".
pub const MAX_PROPOSALS: u32 = 64;

/// What a proposal gets.
#[derive(Clone, Copy, Debug, PartialEq, Eq)]
pub enum Verdict {
    Inside,
    /// "outside the box at the lowest such variable"
    Outside(usize),
    /// "if inside the box, the lowest row broken"
    Breaks(usize),
}

impl Verdict {
    /// The two numbers that the C interface tells it by.
    pub fn numbers(self) -> [u32; 2] {
        match self {
            Verdict::Inside => [0, 0],
            Verdict::Outside(variable) => [1, variable as u32],
            Verdict::Breaks(row) => [2, row as u32],
        }
    }
}

fn outside(bounds: &[i32], proposal: &[i32]) -> Option<usize> {
    (0..proposal.len()).find(|&j| proposal[j] < bounds[2 * j] || bounds[2 * j + 1] < proposal[j])
}

/// Whether the row fails at a proposal that is inside the box: so its sum is far within an `i64`.
fn is_broken(row: Row, proposal: &[i32]) -> bool {
    let terms = row.coefs.iter().zip(proposal);
    let sum: i64 = terms.map(|(&a, &x)| i64::from(a) * i64::from(x)).sum();
    if row.kind == EQUAL { sum != row.rhs.into() } else { sum > row.rhs.into() }
}

/// The verdicts of proposals of n numbers each.
pub fn verdicts(bounds: &[i32], rows: Rows, proposals: &[i32]) -> Vec<Verdict> {
    let proposals: Vec<&[i32]> = proposals.chunks_exact(bounds.len() / 2).collect();
    let by_the_box = |x: &&[i32]| outside(bounds, x).map_or(Verdict::Inside, Verdict::Outside);
    let mut verdicts: Vec<Verdict> = proposals.iter().map(by_the_box).collect();
    for (i, row) in rows.iter().enumerate() {
        for (verdict, proposal) in verdicts.iter_mut().zip(&proposals) {
            if *verdict == Verdict::Inside && is_broken(row, proposal) {
                *verdict = Verdict::Breaks(i);
            }
        }
    }
    verdicts
}

/// Checks 3, 22, 5, 6, 7, 23, 8, 9 and 16: "22, a count not 1 to 64, straight before check 5".
fn check(
    n: usize,
    m: usize,
    bounds: &[i32],
    coefs: &[i32],
    rhs: &[i32],
    kinds: &[u8],
    proposals: &[i32],
    count: u32,
    verdicts: &[u32],
) -> Check {
    checks::size(n, m)?;
    checks::ensure(22, (1..=MAX_PROPOSALS).contains(&count))?;
    let count = count as usize;
    checks::lengths(&[(bounds.len(), 2 * n), (coefs.len(), m * n), (rhs.len(), m)])?;
    checks::lengths(&[
        (kinds.len(), m),
        (proposals.len(), count * n),
        (verdicts.len(), 2 * count),
    ])?;
    checks::numbers(bounds, coefs, rhs)?;
    checks::kinds(kinds)
}

/// The call as the C interface has it: 0, or the number of the failed check, and then nothing is written.
pub fn check_allocations(
    n: usize,
    m: usize,
    bounds: &[i32],
    coefs: &[i32],
    rhs: &[i32],
    kinds: &[u8],
    proposals: &[i32],
    count: u32,
    told: &mut [u32],
) -> u32 {
    if let Err(number) = check(n, m, bounds, coefs, rhs, kinds, proposals, count, told) {
        return number;
    }
    let found = verdicts(bounds, Rows::new(n, coefs, rhs, kinds), proposals);
    let numbers: Vec<u32> = found.into_iter().flat_map(Verdict::numbers).collect();
    told.copy_from_slice(&numbers);
    0
}
