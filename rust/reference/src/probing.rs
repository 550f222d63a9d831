//! Probing of one free binary variable, and the probing fixpoint (01's rest).

use crate::bounds;
use crate::propagation::{Ending, MAX_BUDGET, propagate};
use crate::row::{RowPropagation, Rows, propagate_row};

/// What a probe tells of one side.
#[derive(Clone, Copy, Debug, Default, PartialEq, Eq)]
pub struct Side {
    pub passes: u32,
    pub spent: bool,
    /// The bounds that its propagation moved (02, C-11); setting the variable itself is not counted.
    pub moved: u32,
}

#[derive(Clone, Copy, Debug, PartialEq, Eq)]
pub enum Verdict {
    /// 01's None: neither side is feasible.
    Infeasible,
    /// 01's Fixed: only this side is.
    Fixed(usize),
    /// 01's Both, with the number of table bytes that went from 0 to 1.
    BothFeasible(u64),
}

#[derive(Clone, Copy, Debug, PartialEq, Eq)]
pub struct Probe {
    pub verdict: Verdict,
    pub sides: [Side; 2],
}

/// One side: the box with `k` set to `v`, propagated. No box where it is infeasible.
fn side(bounds: &[i32], rows: Rows, k: usize, v: usize, budget: u32) -> (Option<Vec<i32>>, Side) {
    let mut reached = bounds.to_vec();
    reached[2 * k..2 * k + 2].fill(v as i32);
    let propagation = propagate(&mut reached, rows, budget);
    let side = Side {
        passes: propagation.passes,
        spent: propagation.ending == Ending::BudgetSpent,
        moved: propagation.moved,
    };
    let feasible = propagation.ending != Ending::Infeasible;
    (feasible.then_some(reached), side)
}

/// Probes the free binary variable `k`. Both sides start from the box given, whatever the first gives.
pub fn probe(bounds: &mut [i32], rows: Rows, table: &mut [u8], k: usize, budget: u32) -> Probe {
    if bounds::is_empty(bounds) {
        return Probe { verdict: Verdict::Infeasible, sides: [Side::default(); 2] };
    }
    let (box0, side0) = side(bounds, rows, k, 0, budget);
    let (box1, side1) = side(bounds, rows, k, 1, budget);
    let verdict = match (box0, box1) {
        (None, None) => {
            bounds::make_empty(bounds);
            Verdict::Infeasible
        }
        (Some(only), None) => {
            bounds.copy_from_slice(&only);
            Verdict::Fixed(0)
        }
        (None, Some(only)) => {
            bounds.copy_from_slice(&only);
            Verdict::Fixed(1)
        }
        (Some(box0), Some(box1)) => {
            let new = record(bounds, [&box0, &box1], table, k);
            bounds.copy_from_slice(&bounds::hull(&box0, &box1));
            Verdict::BothFeasible(new)
        }
    };
    Probe { verdict, sides: [side0, side1] }
}

/// Records what each side fixes: "k is v" implies "j is w", and its contrapositive "j is 1 − w"
/// implies "k is 1 − v", for each other variable j that is free in the box before the probe.
/// Counts the bytes that went from 0 to 1.
fn record(before: &[i32], sides: [&[i32]; 2], table: &mut [u8], k: usize) -> u64 {
    let n = before.len() / 2;
    let mut new = 0;
    let mut imply = |p: usize, q: usize| {
        let byte = &mut table[p * 2 * n + q];
        new += u64::from(*byte == 0);
        *byte = 1;
    };
    for j in (0..n).filter(|&j| j != k && bounds::is_free(before, j)) {
        for (v, reached) in sides.iter().enumerate() {
            if let Some(w) = bounds::fixed_at(reached, j) {
                let w = w as usize;
                imply(literal(k, v), literal(j, w));
                imply(literal(j, 1 - w), literal(k, 1 - v));
            }
        }
    }
    new
}

/// The number of the literal "variable k is v".
pub fn literal(k: usize, v: usize) -> usize {
    2 * k + v
}

/// What the rest call answers: yes, or a no with what it found (02, C-13).
#[derive(Clone, Copy, Debug, PartialEq, Eq)]
pub enum Rest {
    Yes,
    NoByRow(usize),
    NoByVariable(usize),
}

/// Whether the box is at rest: it is empty; or no row changes it, and no probe carried to its end does. Else
/// the lowest row that does or, if none does, the lowest free variable whose sides fail.
pub fn rest(bounds: &[i32], rows: Rows) -> Rest {
    if bounds::is_empty(bounds) {
        return Rest::Yes;
    }
    if let Some(row) = first_moving(bounds, rows) {
        return Rest::NoByRow(row);
    }
    let mut free = (0..bounds.len() / 2).filter(|&k| bounds::is_free(bounds, k));
    free.find(|&k| !sides_leave(bounds, rows, k)).map_or(Rest::Yes, Rest::NoByVariable)
}

/// The lowest row that changes the box, also by making it empty; none where it is 01's quiet.
pub fn first_moving(bounds: &[i32], rows: Rows) -> Option<usize> {
    rows.iter()
        .position(|row| propagate_row(&mut bounds.to_vec(), row) != RowPropagation::Unchanged)
}

/// Whether both sides of `k` are feasible and their hull is the box itself. The largest budget is
/// never spent, so each side ends in its greatest fixpoint.
fn sides_leave(bounds: &[i32], rows: Rows, k: usize) -> bool {
    let reached = |v| side(bounds, rows, k, v, MAX_BUDGET).0;
    match (reached(0), reached(1)) {
        (Some(box0), Some(box1)) => bounds::hull(&box0, &box1) == bounds,
        _ => false,
    }
}
