//! Prepared models: a model checked once, then propagated and probed over any box.
//!
//! "The answers, counts and boxes are those of `astrolabe_propagate` and `astrolabe_probe` on the model that
//! was prepared. Also told, in a lent list that may be empty: which variables' bounds moved, and for each the
//! row that moved it last; where infeasible, the row that was". So nothing is prepared here: the rows are kept as
//! they are, and every call looks at all of them.
#![allow(clippy::too_many_arguments)] // the interface is what it is

use crate::bounds;
use crate::calls::{self, ANSWER, check_model, ending_case, places, reply};
use crate::checks;
use crate::probing;
use crate::propagation::{Ending, Propagation};
use crate::row::{self, RowPropagation, Rows};

/// The numbers of a workspace.
pub const WORKSPACE: usize = 16_768;

/// No row: none moved the bound, or none was infeasible.
pub const NO_ROW: u32 = u32::MAX;

/// What a propagation says when it is asked which row did what.
#[derive(Clone, Debug, PartialEq, Eq)]
pub struct Traced {
    pub propagation: Propagation,
    /// For each bound the row that moved it last.
    pub reasons: Vec<u32>,
    /// The row that was infeasible.
    pub infeasible: u32,
}

/// Propagates all rows, pass after pass, and looks after each row at what it moved. A row that is infeasible moves
/// nothing, also an = row whose first form did (02, C-14: it "counts no bound").
pub fn trace(bounds: &mut [i32], rows: Rows, budget: u32) -> Traced {
    let mut reasons = vec![NO_ROW; bounds.len()];
    let (mut passes, mut moved, mut infeasible) = (1, 0, NO_ROW);
    let ending = 'ended: {
        if bounds::is_empty(bounds) {
            break 'ended Ending::Infeasible;
        }
        loop {
            let moved_before = moved;
            for (r, row) in rows.iter().enumerate() {
                let before = bounds.to_vec();
                match row::propagate_row(bounds, row) {
                    RowPropagation::Infeasible => {
                        infeasible = r as u32;
                        break 'ended Ending::Infeasible;
                    }
                    RowPropagation::Tightened(more) => moved += more,
                    RowPropagation::Unchanged => {}
                }
                for i in (0..before.len()).filter(|&i| before[i] != bounds[i]) {
                    reasons[i] = r as u32;
                }
            }
            if moved == moved_before {
                break 'ended Ending::Converged;
            }
            if passes == budget {
                break;
            }
            passes += 1;
        }
        match probing::first_moving(bounds, rows) {
            Some(_) => Ending::BudgetSpent,
            None => Ending::Converged,
        }
    };
    Traced { propagation: Propagation { ending, passes, moved }, reasons, infeasible }
}

/// The rows of a model that was prepared.
#[derive(Clone, Debug, PartialEq, Eq)]
pub struct Prepared {
    pub n: usize,
    pub coefs: Vec<i32>,
    pub rhs: Vec<i32>,
    pub kinds: Vec<u8>,
}

impl Prepared {
    pub fn rows(&self) -> Rows<'_> {
        Rows::new(self.n, &self.coefs, &self.rhs, &self.kinds)
    }
}

/// The model's checks; the workspace's length is check 5, with the others.
pub fn prepare(
    n: usize,
    m: usize,
    bounds: &[i32],
    coefs: &[i32],
    rhs: &[i32],
    kinds: &[u8],
    workspace_len: usize,
) -> Result<Prepared, u32> {
    let lengths = [(workspace_len, WORKSPACE)];
    check_model(n, m, bounds, coefs, rhs, kinds, None, &lengths)?;
    Ok(Prepared { n, coefs: coefs.to_vec(), rhs: rhs.to_vec(), kinds: kinds.to_vec() })
}

/// Check 5: a workspace that is ours (`None` is one that is not), and the lengths.
fn ours<'a>(
    prepared: Option<&'a Prepared>,
    bounds: &[i32],
    lengths: impl FnOnce(usize) -> Vec<(usize, usize)>,
) -> Result<&'a Prepared, u32> {
    let prepared = prepared.ok_or(5u32)?;
    checks::lengths(&[(bounds.len(), 2 * prepared.n)])?;
    checks::lengths(&lengths(prepared.n))?;
    Ok(prepared)
}

/// "the lent bounds are checked (5, 6, 7, 23)", then the budget. `reasons` has a number for each bound, or none.
pub fn propagate(
    prepared: Option<&Prepared>,
    bounds: &mut [i32],
    budget: u32,
    reasons: &mut [u32],
    answer: &mut [u64],
) -> u32 {
    reply(answer, |answer_len| {
        let prepared = ours(prepared, bounds, |n| {
            let needed = if reasons.is_empty() { 0 } else { 2 * n };
            vec![(reasons.len(), needed), (answer_len, ANSWER)]
        })?;
        checks::numbers(bounds, &[], &[])?;
        checks::budget(budget)?;
        let Traced { propagation, reasons: told, infeasible } =
            trace(bounds, prepared.rows(), budget);
        if !reasons.is_empty() {
            reasons.copy_from_slice(&told);
        }
        let Propagation { ending, passes, moved } = propagation;
        Ok(places([ending_case(ending), passes.into(), moved.into(), infeasible.into()]))
    })
}

/// What side `value` of a probe tells, "the box with k set to v"; of the empty box no side is tried.
fn trace_side(lent: &[i32], rows: Rows, variable: usize, value: i32, budget: u32) -> Traced {
    let mut side = lent.to_vec();
    if !bounds::is_empty(lent) {
        side[2 * variable..][..2].fill(value);
    }
    trace(&mut side, rows, budget)
}

/// The probe of the rows that were prepared: after 5, 6, 7 and 23 its own checks, as on a model. `reasons` has a number
/// for each bound of side 0 and then for each of side 1, or none; the infeasible rows of the sides stand after the
/// places of a probe.
pub fn probe(
    prepared: Option<&Prepared>,
    bounds: &mut [i32],
    table: &mut [u8],
    variable: u32,
    budget: u32,
    reasons: &mut [u32],
    answer: &mut [u64],
) -> u32 {
    let checked = ours(prepared, bounds, |n| {
        let needed = if reasons.is_empty() { 0 } else { 4 * n };
        vec![(table.len(), 4 * n * n), (reasons.len(), needed)]
    });
    let Ok(prepared) = checked else { return 5 };
    let Prepared { n, coefs, rhs, kinds } = prepared;
    let lent = bounds.to_vec();
    let number =
        calls::probe(*n, rhs.len(), bounds, coefs, rhs, kinds, table, variable, budget, answer);
    if number != 0 {
        return number;
    }
    let rows = prepared.rows();
    let sides = [0, 1].map(|value| trace_side(&lent, rows, variable as usize, value, budget));
    if !reasons.is_empty() {
        reasons.copy_from_slice(&[&sides[0].reasons[..], &sides[1].reasons].concat());
    }
    answer[8] = sides[0].infeasible.into();
    answer[9] = sides[1].infeasible.into();
    0
}
