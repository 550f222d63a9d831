//! Tied variables (02, C-19): a variable that always equals another, or its opposite, is put into the rows as
//! that other one.

use crate::bounds;
use crate::probing::literal;

/// The rows, the table and the tie list that a tie is made on.
pub struct Tied<'a> {
    pub n: usize,
    pub bounds: &'a [i32],
    pub coefs: &'a mut [i32],
    pub rhs: &'a mut [i32],
    pub table: &'a [u8],
    /// A place for each variable: "0 for no tie, or 1 plus the number of the literal of k that holds just when
    /// j is 1".
    pub ties: &'a mut [u16],
}

/// Why the call answers Same. There can be several reasons.
#[derive(Clone, Copy, Debug, PartialEq, Eq)]
pub enum Reason {
    /// "if the table doesn't say so"
    NotSaid,
    /// "if k is j"
    OneVariable,
    /// "if a coefficient or right side would leave its limits": here a coefficient
    Coefficient,
    /// and here a right side
    RightSide,
    /// "if k or j is not free 0-1"
    NotFree,
    /// "if either is already the replaced one of a tie"
    Replaced,
}

/// "Where the table says that k at 0 gives j at w and k at 1 gives j at 1 − w .. Where the table says both, w
/// is 0."
pub fn value_said(n: usize, table: &[u8], k: usize, j: usize) -> Option<usize> {
    let says = |v, w| table[literal(k, v) * 2 * n + literal(j, w)] == 1;
    (0..2).find(|&w| says(0, w) && says(1, 1 - w))
}

/// The coefficient of k and the right side of a row in which j is put as k (w = 0) or as 1 − k (w = 1).
fn put(coefs: &[i32], rhs: i32, k: usize, j: usize, w: usize) -> (i32, i32) {
    // Both within their limits, so that no sum overflows.
    if w == 0 { (coefs[k] + coefs[j], rhs) } else { (coefs[k] - coefs[j], rhs - coefs[j]) }
}

impl Tied<'_> {
    /// The w by which j is tied to k; or every reason for which it is not.
    pub fn reasons(&self, k: usize, j: usize) -> Result<usize, Vec<Reason>> {
        let mut reasons = vec![];
        let mut unless = |reason, holds: bool| {
            if !holds {
                reasons.push(reason);
            }
        };
        let free = |variable| bounds::is_free(self.bounds, variable);
        let said = value_said(self.n, self.table, k, j);
        unless(Reason::NotSaid, said.is_some());
        unless(Reason::OneVariable, k != j);
        unless(Reason::NotFree, free(k) && free(j));
        unless(Reason::Replaced, self.ties[k] == 0 && self.ties[j] == 0);
        let w = said.unwrap_or(0);
        let rows = self.coefs.chunks_exact(self.n).zip(&*self.rhs);
        let new: Vec<(i32, i32)> = rows.map(|(coefs, &b)| put(coefs, b, k, j, w)).collect();
        unless(Reason::Coefficient, new.iter().all(|(a, _)| a.abs() <= 1_000_000));
        unless(Reason::RightSide, new.iter().all(|(_, b)| b.abs() <= 1_000_000_000));
        if reasons.is_empty() { Ok(w) } else { Err(reasons) }
    }

    /// Ties j to k: true for Tied, false for Same.
    pub fn tie(&mut self, k: usize, j: usize) -> bool {
        let Ok(w) = self.reasons(k, j) else { return false };
        for (coefs, rhs) in self.coefs.chunks_exact_mut(self.n).zip(&mut *self.rhs) {
            (coefs[k], *rhs) = put(coefs, *rhs, k, j, w);
            coefs[j] = 0;
        }
        // j is 1 just when k is 1 − w.
        self.ties[j] = 1 + literal(k, 1 - w) as u16;
        true
    }
}

/// Whether the point meets the ties of a list, "as these equations": j is k where its place names "k is 1", and
/// 1 − k where it names "k is 0".
pub fn hold(ties: &[u16], point: &[i32]) -> bool {
    ties.iter().zip(point).all(|(&place, &x)| match place.checked_sub(1) {
        None => true,
        Some(literal) if literal % 2 == 1 => x == point[usize::from(literal / 2)],
        Some(literal) => x == 1 - point[usize::from(literal / 2)],
    })
}
