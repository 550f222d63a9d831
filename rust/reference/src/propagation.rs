//! Propagation of all rows, pass after pass (01's settle).

use crate::bounds;
use crate::probing;
use crate::row::{self, RowPropagation, Rows};

/// The largest budget: 128 variables of width 65,535, and one pass that moves nothing. Since C-22 no
/// accepted variable is wider than 4,096; "The largest budget remains".
pub const MAX_BUDGET: u32 = 8_388_481;

/// How a propagation ended.
#[derive(Clone, Copy, Debug, PartialEq, Eq)]
pub enum Ending {
    /// 01's None.
    Infeasible,
    /// 01's Settled: no row would change the box.
    Converged,
    /// 01's Spent: the budget's passes are made, and some row would still move a bound or be infeasible
    /// (02, C-15).
    BudgetSpent,
}

/// What a propagation says.
#[derive(Clone, Copy, Debug, PartialEq, Eq)]
pub struct Propagation {
    pub ending: Ending,
    /// The passes made; one that is broken off counts.
    pub passes: u32,
    /// The bounds moved, summed over all rows' propagations (02, C-11): those of a pass that ended in None
    /// too, but for the row that is infeasible.
    pub moved: u32,
}

/// Makes passes until one moves nothing, a row is infeasible or the budget's passes are made. Then a look at
/// the rows, which moves nothing, decides whether the budget is spent.
pub fn propagate(bounds: &mut [i32], rows: Rows, budget: u32) -> Propagation {
    if bounds::is_empty(bounds) {
        return Propagation { ending: Ending::Infeasible, passes: 1, moved: 0 };
    }
    let mut moved = 0;
    for passes in 1..=budget {
        let pass = pass(bounds, rows);
        moved += pass.moved;
        if !pass.feasible {
            return Propagation { ending: Ending::Infeasible, passes, moved };
        }
        if pass.moved == 0 {
            return Propagation { ending: Ending::Converged, passes, moved };
        }
    }
    let ending = match probing::first_moving(bounds, rows) {
        Some(_) => Ending::BudgetSpent,
        None => Ending::Converged,
    };
    Propagation { ending, passes: budget, moved }
}

/// What one pass comes to.
struct Pass {
    feasible: bool,
    moved: u32,
}

/// Propagates each row once, upwards; an infeasible one ends the pass.
fn pass(bounds: &mut [i32], rows: Rows) -> Pass {
    let mut moved = 0;
    for row in rows.iter() {
        match row::propagate_row(bounds, row) {
            RowPropagation::Infeasible => return Pass { feasible: false, moved },
            RowPropagation::Tightened(more) => moved += more,
            RowPropagation::Unchanged => {}
        }
    }
    Pass { feasible: true, moved }
}
