//! One row: its activities (01's Lmin and Lmax), and the three calls that look at one row only, by its kind.

use crate::bounds;

/// The least right side that tightening may write; it only ever lowers one.
const MIN_RHS: i64 = -1_000_000_000;

/// The kind byte of a row that says: sum of coefficient × variable ≤ right side (02, C-14: "0 for ≤").
pub const AT_MOST: u8 = 0;

/// The kind byte of a row that says: sum of coefficient × variable = right side ("1 for =").
pub const EQUAL: u8 = 1;

/// One row, read in place.
#[derive(Clone, Copy)]
pub struct Row<'a> {
    pub coefs: &'a [i32],
    pub rhs: i32,
    /// [`AT_MOST`] or [`EQUAL`].
    pub kind: u8,
}

/// The rows of a model, read in place.
#[derive(Clone, Copy)]
pub struct Rows<'a> {
    n: usize,
    coefs: &'a [i32],
    rhs: &'a [i32],
    kinds: &'a [u8],
}

impl<'a> Rows<'a> {
    pub fn new(n: usize, coefs: &'a [i32], rhs: &'a [i32], kinds: &'a [u8]) -> Self {
        Rows { n, coefs, rhs, kinds }
    }

    /// Row `r`.
    pub fn at(self, r: usize) -> Row<'a> {
        Row { coefs: &self.coefs[r * self.n..][..self.n], rhs: self.rhs[r], kind: self.kinds[r] }
    }

    /// Each row, upwards.
    pub fn iter(self) -> impl Iterator<Item = Row<'a>> {
        (0..self.rhs.len()).map(move |r| self.at(r))
    }
}

/// What the propagation of one row says.
#[derive(Clone, Copy, Debug, PartialEq, Eq)]
pub enum RowPropagation {
    /// 01's None: the box is empty.
    Infeasible,
    /// 01's Narrowed, with the number of bounds that moved (02, C-11).
    Tightened(u32),
    /// 01's Same.
    Unchanged,
}

impl RowPropagation {
    fn moved(bounds: u32) -> Self {
        if bounds > 0 { RowPropagation::Tightened(bounds) } else { RowPropagation::Unchanged }
    }
}

/// What the tightening or the removal of one row says.
#[derive(Clone, Copy, Debug, PartialEq, Eq)]
pub enum Outcome {
    /// 01's None: the box is empty.
    Infeasible,
    /// 01's Sharpened or Dropped.
    Changed,
    /// 01's Same.
    Unchanged,
}

impl Outcome {
    fn changed(changed: bool) -> Self {
        if changed { Outcome::Changed } else { Outcome::Unchanged }
    }
}

/// Lmin: the least value that the row's sum takes in the box.
pub fn min_activity(bounds: &[i32], coefs: &[i32]) -> i64 {
    activity(bounds, coefs, |a, l, u| if a > 0 { a * l } else { a * u })
}

/// Lmax: the greatest value that the row's sum takes in the box.
pub fn max_activity(bounds: &[i32], coefs: &[i32]) -> i64 {
    activity(bounds, coefs, |a, l, u| if a > 0 { a * u } else { a * l })
}

fn activity(bounds: &[i32], coefs: &[i32], term: impl Fn(i64, i64, i64) -> i64) -> i64 {
    bounds
        .chunks_exact(2)
        .zip(coefs)
        .map(|(pair, &a)| term(a.into(), pair[0].into(), pair[1].into()))
        .sum()
}

/// Division towards minus infinity, for a positive divisor.
fn floor_div(x: i64, d: i64) -> i64 {
    x.div_euclid(d)
}

/// Division towards plus infinity, for a positive divisor.
fn ceil_div(x: i64, d: i64) -> i64 {
    -floor_div(-x, d)
}

/// Propagates one row over the box, by its kind (01's visit). The box is not empty, or the caller has seen
/// to it.
///
/// 02, C-14: "A visit of an = row is a visit of its ≤ form and then of its negated form; it ends at the first
/// of them that answers None, is then None as a whole and counts no bound, and otherwise may report up to 2n
/// bounds moved." The second form begins with the box that the first left.
pub fn propagate_row(bounds: &mut [i32], row: Row) -> RowPropagation {
    if row.kind == AT_MOST {
        return propagate_at_most(bounds, row.coefs, row.rhs);
    }
    let before = bounds.to_vec();
    let negated: Vec<i32> = row.coefs.iter().map(|a| -a).collect();
    for (coefs, rhs) in [(row.coefs, row.rhs), (&negated[..], -row.rhs)] {
        if propagate_at_most(bounds, coefs, rhs) == RowPropagation::Infeasible {
            return RowPropagation::Infeasible;
        }
    }
    RowPropagation::moved(before.iter().zip(&*bounds).map(|(old, new)| u32::from(old != new)).sum())
}

/// Propagates `coefs · x ≤ rhs`. Of each variable it moves one bound at most, and counts it where it differs
/// from the old one.
fn propagate_at_most(bounds: &mut [i32], coefs: &[i32], rhs: i32) -> RowPropagation {
    let b = i64::from(rhs);
    let min = min_activity(bounds, coefs);
    if min > b {
        bounds::make_empty(bounds);
        return RowPropagation::Infeasible;
    }
    let mut moved = 0;
    for (pair, &a) in bounds.chunks_exact_mut(2).zip(coefs) {
        let (a, l, u) = (i64::from(a), i64::from(pair[0]), i64::from(pair[1]));
        // The new bound lies between l and u, so it fits an i32.
        if a > 0 {
            let limit = floor_div(b - min + a * l, a);
            if limit < u {
                pair[1] = limit as i32;
                moved += 1;
            }
        } else if a < 0 {
            let g = -a;
            let limit = ceil_div(min + g * u - b, g);
            if limit > l {
                pair[0] = limit as i32;
                moved += 1;
            }
        }
    }
    RowPropagation::moved(moved)
}

/// Tightens the coefficient of the free binary variable `k` (01's sharpen) in a row of this kind: "Sharpen
/// answers Same" on an = row (02, C-14).
///
/// The right side goes down with a positive coefficient only: lowering it with a negative one is the
/// mistake that cut off lawful allocations.
pub fn tighten_coefficient(
    bounds: &[i32],
    coefs: &mut [i32],
    rhs: &mut i32,
    kind: u8,
    k: usize,
) -> Outcome {
    if bounds::is_empty(bounds) {
        return Outcome::Infeasible;
    }
    if kind == EQUAL {
        return Outcome::Unchanged;
    }
    let (a, b) = (i64::from(coefs[k]), i64::from(*rhs));
    let max = max_activity(bounds, coefs);
    if a == 0 || max <= b || max - a.abs() >= b {
        return Outcome::Unchanged;
    }
    if a > 0 {
        if max - a < MIN_RHS {
            return Outcome::Unchanged;
        }
        coefs[k] = (max - b) as i32;
        *rhs = (max - a) as i32;
    } else {
        coefs[k] = (b - max) as i32;
    }
    Outcome::Changed
}

/// Zeroes the row where the box alone implies it (01's drop). 02, C-14: an = row "only when Lmin and Lmax both
/// equal b", and its kind becomes 0: so a number changes also where it says 0 = 0.
pub fn remove_redundant_row(
    bounds: &[i32],
    coefs: &mut [i32],
    rhs: &mut i32,
    kind: &mut u8,
) -> Outcome {
    if bounds::is_empty(bounds) {
        return Outcome::Infeasible;
    }
    let (b, min, max) = (i64::from(*rhs), min_activity(bounds, coefs), max_activity(bounds, coefs));
    let implied = if *kind == EQUAL { min == b && max == b } else { max <= b };
    if !implied {
        return Outcome::Unchanged;
    }
    let changed = *kind != AT_MOST || *rhs != 0 || coefs.iter().any(|&a| a != 0);
    coefs.fill(0);
    *rhs = 0;
    *kind = AT_MOST;
    Outcome::changed(changed)
}
