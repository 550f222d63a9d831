//! The rounds of the program `reduce`, with a limit of the caller's.

use crate::State;
use crate::bounds;
use crate::probing::Verdict;
use crate::propagation::Ending;

/// The budget of each propagation in a round, and of each side of a probe.
const BUDGET: u32 = 1_000;

/// How the rounds ended.
#[derive(Clone, Copy, Debug, PartialEq, Eq)]
pub enum RoundsEnding {
    /// 01's None.
    Infeasible,
    /// The last round changed nothing.
    Unchanged,
    /// The last allowed round still changed a number, or no round was allowed.
    LimitReached,
}

#[derive(Clone, Copy, Debug, PartialEq, Eq)]
pub struct Rounds {
    pub ending: RoundsEnding,
    /// The number of rounds, the last one included.
    pub made: u64,
    /// Whether a side of a probe in the last round was Spent (02, C-24).
    pub spent: bool,
}

/// Makes rounds until one changes nothing, the model is infeasible, or `limit` rounds are made.
pub fn rounds(state: &mut State, limit: u64) -> Rounds {
    let mut spent = false;
    for made in 1..=limit {
        let before = state.snapshot();
        let last = round(state);
        spent = last.spent;
        if !last.feasible {
            return Rounds { ending: RoundsEnding::Infeasible, made, spent };
        }
        if state.snapshot() == before {
            return Rounds { ending: RoundsEnding::Unchanged, made, spent };
        }
    }
    Rounds { ending: RoundsEnding::LimitReached, made: limit, spent }
}

struct Round {
    /// False at None, where the round is broken off.
    feasible: bool,
    /// Whether a side of one of its probes was Spent; its own propagation does not count.
    spent: bool,
}

/// One round. Whether a variable is free is judged at its own turn.
fn round(state: &mut State) -> Round {
    let (n, m) = (state.n, state.rhs.len());
    let mut spent = false;
    if state.propagate(BUDGET).ending == Ending::Infeasible {
        return Round { feasible: false, spent };
    }
    for r in 0..m {
        state.remove_redundant_row(r);
    }
    for r in 0..m {
        for k in 0..n {
            if bounds::is_free(state.bounds, k) {
                state.tighten_coefficient(r, k);
            }
        }
    }
    for k in 0..n {
        if bounds::is_free(state.bounds, k) {
            let probe = state.probe(k, BUDGET);
            spent |= probe.sides.iter().any(|side| side.spent);
            if probe.verdict == Verdict::Infeasible {
                return Round { feasible: false, spent };
            }
        }
    }
    Round { feasible: true, spent }
}
