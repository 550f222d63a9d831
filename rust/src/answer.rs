//! What the calls answer, taken from the places of the C interface.

use crate::ffi;
use crate::ties::Tie;

/// The places of an answer; those that a call does not use are 0.
pub(crate) type Places = [u64; ffi::ANSWER_LEN];

/// What the propagation of one row did (document 01's visit). An = row is propagated as its ≤ form and then
/// as its negated form; where one of them is infeasible, the row is, and no bound is counted.
#[derive(Clone, Copy, Debug, PartialEq, Eq, Hash)]
pub enum RowPropagation {
    /// The model has no integer point; the box is empty (01's None).
    Infeasible,
    /// This many bounds moved: 1 to n, of an = row 1 to 2n (01's Narrowed).
    Tightened { moved: u32 },
    /// No bound moved (01's Same).
    Unchanged,
}

/// What the tightening of a coefficient or the removal of a row did.
#[derive(Clone, Copy, Debug, PartialEq, Eq, Hash)]
pub enum Outcome {
    /// The model has no integer point; the box is empty (01's None).
    Infeasible,
    /// A number changed (01's Sharpened or Dropped).
    Changed,
    /// Nothing changed (01's Same).
    Unchanged,
}

/// How a propagation ended (01's settle), with the passes made and the bounds moved: the sum over all rows'
/// propagations, so that a bound counts each time that it moves. `passes - 1 <= moved`, since each pass
/// but the last moved a bound.
#[derive(Clone, Copy, Debug, PartialEq, Eq, Hash)]
pub enum Propagation {
    /// The model has no integer point; the box is empty (01's None). What moved before the infeasible row
    /// is counted.
    Infeasible { passes: u32, moved: u32 },
    /// No row would change the box (01's Settled).
    Converged { passes: u32, moved: u32 },
    /// The budget's passes are made, and some row would still move a bound or be infeasible (01's Spent).
    BudgetSpent { passes: u32, moved: u32 },
}

/// What a probe tells of one side.
#[derive(Clone, Copy, Debug, PartialEq, Eq, Hash)]
pub struct Side {
    /// The passes that its propagation made.
    pub passes: u32,
    /// Whether its budget was spent, as in [`Propagation`]; its box was used as it was reached.
    pub spent: bool,
    /// The bounds that its propagation moved, as in [`Propagation`]; the probed variable's own are not
    /// among them.
    pub moved: u32,
}

/// What a probe found.
#[derive(Clone, Copy, Debug, PartialEq, Eq, Hash)]
pub enum Probe {
    /// Neither side is feasible: the box is empty (01's None).
    Infeasible { sides: [Side; 2] },
    /// Only the side of this value is feasible, and its box is the new one (01's Fixed).
    Fixed { value: u8, sides: [Side; 2] },
    /// Both are: the new box is their hull, and this many table bytes went from 0 to 1 (01's Both).
    BothFeasible { new_implications: u64, sides: [Side; 2] },
}

/// How many calls of a list ended in which way. The four add up to the list's length.
#[derive(Clone, Copy, Debug, Default, PartialEq, Eq, Hash)]
pub struct Counts {
    /// Refused; they changed nothing.
    pub refused: u64,
    /// Answered infeasible (01's None).
    pub infeasible: u64,
    /// Changed a bound, a row (its kind too) or a table byte.
    pub changed: u64,
    /// Changed nothing.
    pub unchanged: u64,
}

/// What a call of a list did. Its number is the place of its count among the four.
#[derive(Clone, Copy, Debug, PartialEq, Eq, Hash)]
#[repr(u8)] // the library writes a list of them as one of bytes
pub enum Class {
    /// Refused; it changed nothing.
    Refused = 0,
    /// Answered infeasible (01's None).
    Infeasible = 1,
    /// Changed a bound or a table byte.
    Changed = 2,
    /// Changed nothing.
    Unchanged = 3,
}

/// Whether the box is a probing fixpoint (01's at rest), and what was found where it is not.
#[derive(Clone, Copy, Debug, PartialEq, Eq, Hash)]
pub enum Rest {
    /// It is.
    Yes,
    /// This row, and no lower one, changes the box when it is propagated, or is infeasible.
    NoByRow(u32),
    /// No row changes the box, but of this free binary variable, and of no lower one, a side is infeasible
    /// or the two sides, propagated to their ends, do not span the box: a probe of it with a budget that
    /// is not spent changes the box.
    NoByVariable(u32),
}

/// How the rounds ended, how many were made, and whether the budget of a probe's side was spent in the last
/// of them.
#[derive(Clone, Copy, Debug, PartialEq, Eq, Hash)]
pub enum Rounds {
    /// The model has no integer point; found in the last of these rounds (01's None).
    Infeasible { rounds: u64, spent: bool },
    /// The last of these rounds changed nothing. Where no side was spent in it, the model is at rest:
    /// [`Model::is_probing_fixpoint`](crate::Model::is_probing_fixpoint) says yes.
    Unchanged { rounds: u64, spent: bool },
    /// The limit's rounds are made, and the last one changed something; or the limit is 0.
    LimitReached { rounds: u64, spent: bool },
}

/// The library's contract has no other case.
fn no_such_case(case: u64) -> ! {
    unreachable!("the library answered case {case}, which its contract rules out")
}

/// Passes are at most a budget, which is `u32`; bounds moved are at most the width that is lost, 524,288.
fn count(value: u64) -> u32 {
    u32::try_from(value).expect("a count is within 32 bits by the library's contract")
}

impl From<Places> for RowPropagation {
    fn from([case, moved, ..]: Places) -> Self {
        match case {
            0 => RowPropagation::Infeasible,
            1 => RowPropagation::Tightened { moved: count(moved) },
            2 => RowPropagation::Unchanged,
            case => no_such_case(case),
        }
    }
}

impl From<Places> for Outcome {
    fn from(places: Places) -> Self {
        match places[0] {
            0 => Outcome::Infeasible,
            1 => Outcome::Changed,
            2 => Outcome::Unchanged,
            case => no_such_case(case),
        }
    }
}

impl From<Places> for Propagation {
    fn from([case, passes, moved, ..]: Places) -> Self {
        let (passes, moved) = (count(passes), count(moved));
        match case {
            0 => Propagation::Infeasible { passes, moved },
            1 => Propagation::Converged { passes, moved },
            2 => Propagation::BudgetSpent { passes, moved },
            case => no_such_case(case),
        }
    }
}

impl From<Places> for Probe {
    fn from([case, value, passes0, spent0, moved0, passes1, spent1, moved1, ..]: Places) -> Self {
        let side = |passes, spent, moved| Side {
            passes: count(passes),
            spent: spent == 1,
            moved: count(moved),
        };
        let sides = [side(passes0, spent0, moved0), side(passes1, spent1, moved1)];
        match case {
            0 => Probe::Infeasible { sides },
            1 => Probe::Fixed { value: u8::from(value == 1), sides },
            2 => Probe::BothFeasible { new_implications: value, sides },
            case => no_such_case(case),
        }
    }
}

impl From<Places> for Rest {
    fn from(places: Places) -> Self {
        match places[..3] {
            [1, ..] => Rest::Yes,
            [0, 0, row] => Rest::NoByRow(count(row)),
            [0, 1, variable] => Rest::NoByVariable(count(variable)),
            _ => no_such_case(places[0]),
        }
    }
}

impl From<Places> for Tie {
    fn from(places: Places) -> Self {
        match places[0] {
            1 => Tie::Tied,
            2 => Tie::Unchanged,
            case => no_such_case(case),
        }
    }
}

impl From<Places> for Counts {
    fn from([refused, infeasible, changed, unchanged, ..]: Places) -> Self {
        Counts { refused, infeasible, changed, unchanged }
    }
}

impl From<Places> for Rounds {
    fn from([case, rounds, spent, ..]: Places) -> Self {
        let spent = spent == 1;
        match case {
            0 => Rounds::Infeasible { rounds, spent },
            1 => Rounds::Unchanged { rounds, spent },
            2 => Rounds::LimitReached { rounds, spent },
            case => no_such_case(case),
        }
    }
}
