//! A call list (01's run sheet): many calls on one state.

use crate::State;
use crate::bounds;
use crate::checks::{self, Check};
use crate::probing::Verdict;
use crate::propagation::Ending;
use crate::row::{self, RowPropagation, Rows};

/// A call record: kind, row, variable, budget. A field that its kind lacks is ignored.
pub type Call = [u32; 4];

/// What a call of a list did, by the place of its count: "refused, None, changed .., unchanged".
#[derive(Clone, Copy, Debug, PartialEq, Eq)]
pub enum Class {
    Refused = 0,
    None = 1,
    Changed = 2,
    Unchanged = 3,
}

/// How many calls of a list ended in which way.
#[derive(Clone, Copy, Debug, Default, PartialEq, Eq)]
pub struct Counts {
    pub refused: u64,
    pub none: u64,
    pub changed: u64,
    pub unchanged: u64,
}

/// Makes the calls one after another and says what each did; a refused one leaves the state and the run
/// goes on.
pub fn classes(state: &mut State, calls: &[Call]) -> Vec<Class> {
    let class = |&call: &Call| {
        let before = state.snapshot();
        match apply(state, call) {
            Err(_) => Class::Refused,
            Ok(Feasible(false)) => Class::None,
            Ok(Feasible(true)) if state.snapshot() != before => Class::Changed,
            Ok(Feasible(true)) => Class::Unchanged,
        }
    };
    calls.iter().map(class).collect()
}

/// The same, counted.
pub fn run(state: &mut State, calls: &[Call]) -> Counts {
    Counts::of(&classes(state, calls))
}

impl Counts {
    pub fn of(classes: &[Class]) -> Counts {
        let count = |class| classes.iter().filter(|&&c| c == class).count() as u64;
        Counts {
            refused: count(Class::Refused),
            none: count(Class::None),
            changed: count(Class::Changed),
            unchanged: count(Class::Unchanged),
        }
    }
}

/// Whether a call answered anything but None.
struct Feasible(bool);

/// The checks of one call, then the call.
fn apply(state: &mut State, call: Call) -> Result<Feasible, u32> {
    check(state, call)?;
    let [kind, row, variable, budget] = call;
    Ok(Feasible(match kind {
        1 => propagate_row(state, row as usize) != RowPropagation::Infeasible,
        2 => state.propagate(budget).ending != Ending::Infeasible,
        _ => state.probe(variable as usize, budget).verdict != Verdict::Infeasible,
    }))
}

fn check(state: &State, [kind, row, variable, budget]: Call) -> Check {
    checks::ensure(11, (1..=5).contains(&kind))?;
    // "Kinds 4 and 5 are retired from run sheets" (02, C-16).
    checks::ensure(18, !matches!(kind, 4 | 5))?;
    if kind == 1 {
        checks::row(row, state.rhs.len())?;
    }
    if kind == 3 {
        checks::free_variable(variable, state.bounds)?;
    }
    if matches!(kind, 2 | 3) {
        checks::budget(budget)?;
    }
    Ok(())
}

fn propagate_row(state: &mut State, r: usize) -> RowPropagation {
    if bounds::is_empty(state.bounds) {
        return RowPropagation::Infeasible;
    }
    let row = Rows::new(state.n, state.coefs, state.rhs, state.kinds).at(r);
    row::propagate_row(state.bounds, row)
}
