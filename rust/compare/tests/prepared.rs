//! The walks over prepared models, tried on a plain Rust implementation that keeps the last box and the rows to look at,
//! and on deliberately broken copies of it. No library is needed here.

use compare::lent;
use compare::prepared::{self, Backend, Loan, MARK, Operation};
use compare::suite::{Plan, SEED};
use reference::prepared::{NO_ROW, Prepared, WORKSPACE};
use reference::row::{self, EQUAL, RowPropagation, Rows};
use reference::{bounds, calls, checks, probing};

const PLAN: Plan = Plan { seed: SEED, first: 0, cases: 2_000 };

/// What is wrong with a copy.
#[derive(Clone, Copy, Debug, PartialEq)]
enum Bug {
    Nothing,
    BoxNotKept,
    EmptySetKept,
    RefusalWrites,
    HeadNotCompared,
    UpperBoundsNotCompared,
    WiderBoundsNotCompared,
    SecondVariableNotCompared,
    MovedBoundNotHeard,
    EqualityRowDone,
    ReasonOfTheFirst,
    ReasonOfTheNext,
    ReasonsLeftFromBefore,
    InfeasibleRowBlamed,
    InfeasibleRowIsTheLast,
    ProbeKeepsASide,
    ProbeTellsOneSide,
    ProbeSidesSwapped,
    ProbeRowsSwapped,
    ProbeTakesRoomOfOneSide,
    WritesBeyond,
    RowsOfAnother,
}

/// Where things stand in this workspace: a set of rows as flags, the box, right sides, kinds, coefficients.
const SET: usize = 4;
const BOX: usize = 124;
const RHS: usize = 380;
const KINDS: usize = 500;
const COEFS: usize = 620;

struct Incremental(Bug);

/// The rows that a workspace holds.
fn rows(ws: &[u32]) -> Prepared {
    let (n, m) = (ws[1] as usize, ws[2] as usize);
    let some = |from: usize, len: usize, most: i32| -> Vec<i32> {
        ws[from..from + len].iter().map(|&w| (w as i32).clamp(-most, most)).collect()
    };
    Prepared {
        n,
        coefs: some(COEFS, m * n, 1_000_000),
        rhs: some(RHS, m, 1_000_000_000),
        kinds: ws[KINDS..KINDS + m].iter().map(|&w| (w % 2) as u8).collect(),
    }
}

impl Incremental {
    fn is_ours(&self, ws: &[u32]) -> bool {
        ws.len() == WORKSPACE
            && (self.0 == Bug::HeadNotCompared || ws[0] == MARK)
            && (1..=128).contains(&ws[1])
            && ws[2] <= 120
    }

    /// The rows that read a bound that differs are to be looked at.
    fn hear(&self, rows: Rows, m: usize, old: &[i32], new: &[i32], set: &mut [u32]) {
        let mut heard = 0;
        for i in (0..old.len()).filter(|&i| old[i] != new[i]) {
            heard += 1;
            let wider = (i % 2 == 0) == (new[i] < old[i]);
            let deaf = match self.0 {
                Bug::UpperBoundsNotCompared => i % 2 == 1,
                Bug::WiderBoundsNotCompared => wider,
                Bug::SecondVariableNotCompared => heard > 1,
                _ => false,
            };
            for r in (0..m).filter(|&r| rows.at(r).coefs[i / 2] != 0 && !deaf) {
                set[r] = 1;
            }
        }
    }

    /// Passes over the rows to look at: case, passes, moved, the infeasible row.
    fn passes(
        &self,
        rows: Rows,
        m: usize,
        bounds: &mut [i32],
        budget: u32,
        set: &mut [u32],
        reasons: &mut [u32],
    ) -> [u64; 4] {
        let (mut passes, mut moved, none) = (0, 0, u64::from(NO_ROW));
        while passes < u64::from(budget) {
            passes += 1;
            let before_pass = moved;
            for r in 0..m {
                if set[r] == 0 {
                    continue;
                }
                let before = bounds.to_vec();
                let row = rows.at(r);
                let said = row::propagate_row(bounds, row);
                if said == RowPropagation::Infeasible {
                    if self.0 == Bug::InfeasibleRowBlamed {
                        reasons.fill(r as u32);
                    }
                    let last = self.0 == Bug::InfeasibleRowIsTheLast;
                    let r = if last { m - 1 } else { r };
                    return [0, passes, moved, r as u64];
                }
                if self.0 != Bug::MovedBoundNotHeard {
                    self.hear(rows, m, &before, bounds, set);
                }
                let same = said == RowPropagation::Unchanged;
                if same || row.kind != EQUAL || self.0 == Bug::EqualityRowDone {
                    set[r] = 0;
                }
                for i in (0..bounds.len()).filter(|&i| before[i] != bounds[i]) {
                    moved += 1;
                    if let Some(reason) = reasons.get_mut(i) {
                        match self.0 {
                            Bug::ReasonOfTheFirst if *reason != NO_ROW => {}
                            Bug::ReasonOfTheNext => *reason = r as u32 + 1,
                            _ => *reason = r as u32,
                        }
                    }
                }
            }
            if moved == before_pass {
                return [1, passes, moved, none];
            }
        }
        let spent = probing::first_moving(bounds, rows).is_some();
        [if spent { 2 } else { 1 }, passes, moved, none]
    }

    fn keep(&self, ws: &mut [u32], bounds: &[i32], set: &[u32]) {
        for (place, &bound) in ws[BOX..].iter_mut().zip(bounds) {
            if self.0 != Bug::BoxNotKept {
                *place = bound as u32;
            }
        }
        let none = [0; BOX - SET];
        ws[SET..BOX].copy_from_slice(if self.0 == Bug::EmptySetKept { &none } else { set });
    }

    fn propagate(&self, loan: Loan, budget: u32) -> Result<(), u32> {
        let Loan { workspace: ws, bounds, reasons, answer, .. } = loan;
        if self.0 == Bug::RefusalWrites && ws.len() == WORKSPACE {
            ws[3] += 1;
        }
        checks::ensure(5, self.is_ours(ws))?;
        let prepared = rows(ws);
        let needed = if reasons.is_empty() { 0 } else { 2 * prepared.n };
        let lengths = [(bounds.len(), 2 * prepared.n), (reasons.len(), needed)];
        checks::lengths(&lengths)?;
        checks::lengths(&[(answer.len(), 12)])?;
        checks::numbers(bounds, &[], &[])?;
        checks::budget(budget)?;
        if self.0 != Bug::ReasonsLeftFromBefore {
            reasons.fill(NO_ROW);
        }
        answer.fill(0);
        if bounds::is_empty(bounds) {
            answer[..4].copy_from_slice(&[0, 1, 0, NO_ROW.into()]);
            return Ok(());
        }
        let m = prepared.rhs.len();
        let kept: Vec<i32> = ws[BOX..].iter().take(2 * prepared.n).map(|&w| w as i32).collect();
        let mut set = ws[SET..BOX].to_vec();
        self.hear(prepared.rows(), m, &kept, bounds, &mut set);
        let told = self.passes(prepared.rows(), m, bounds, budget, &mut set, reasons);
        answer[..4].copy_from_slice(&told);
        if told[0] != 0 {
            self.keep(ws, bounds, &set);
        }
        if self.0 == Bug::WritesBeyond {
            // SAFETY: none; the harness lends memory beyond the buffer, and sees this.
            unsafe { *ws.as_mut_ptr().add(ws.len()) = 1 };
        }
        Ok(())
    }

    fn probe(&self, loan: Loan, variable: u32, budget: u32) -> u32 {
        let Loan { workspace: ws, bounds, reasons, table, answer } = loan;
        if !self.is_ours(ws) {
            return 5;
        }
        let prepared = rows(ws);
        let one_side = self.0 == Bug::ProbeTakesRoomOfOneSide && reasons.len() == 2 * prepared.n;
        if !reasons.is_empty() && reasons.len() != 4 * prepared.n && !one_side {
            return 5;
        }
        let Prepared { n, coefs, rhs, kinds } = prepared.clone();
        let before = bounds.to_vec();
        let said = calls::probe(
            n,
            rhs.len(),
            bounds,
            &coefs,
            &rhs,
            &kinds,
            table,
            variable,
            budget,
            answer,
        );
        if said == 0 {
            self.tell_sides(&prepared, &before, variable, budget, reasons, answer);
        }
        if said == 0 && answer[0] != 0 && !bounds::is_empty(&before) {
            let kept = if self.0 == Bug::ProbeKeepsASide { before } else { bounds.to_vec() };
            let set = if self.0 == Bug::ProbeKeepsASide { 0 } else { 1 };
            self.keep(ws, &kept, &[set; 120]);
        }
        said
    }
}

impl Incremental {
    /// The reasons and the infeasible row of each side, from passes over all rows.
    fn tell_sides(
        &self,
        prepared: &Prepared,
        before: &[i32],
        variable: u32,
        budget: u32,
        reasons: &mut [u32],
        answer: &mut [u64],
    ) {
        reasons.fill(NO_ROW);
        answer[8..10].fill(NO_ROW.into());
        if bounds::is_empty(before) {
            return;
        }
        let (zero, one) = reasons.split_at_mut(reasons.len() / 2);
        for (value, told) in [zero, one].into_iter().enumerate() {
            if self.0 == Bug::ProbeTellsOneSide && value == 1 {
                continue;
            }
            let swapped = |bug| if self.0 == bug { 1 - value } else { value };
            let mut side = before.to_vec();
            side[2 * variable as usize..][..2].fill(swapped(Bug::ProbeSidesSwapped) as i32);
            let m = prepared.rhs.len();
            let ended = self.passes(prepared.rows(), m, &mut side, budget, &mut [1; 120], told);
            answer[8 + swapped(Bug::ProbeRowsSwapped)] = ended[3];
        }
    }
}

impl Backend for Incremental {
    fn prepare(&mut self, model: &mut lent::Lent, workspace: &mut [u32]) -> u32 {
        let lent::Lent { n, m, bounds, coefs, rhs, kinds, .. } = model;
        let checked =
            reference::prepared::prepare(*n, *m, bounds, coefs, rhs, kinds, workspace.len());
        let Ok(Prepared { n, coefs, rhs, kinds }) = checked else {
            return checked.expect_err("not prepared");
        };
        workspace[..4].copy_from_slice(&[MARK, n as u32, *m as u32, 0]);
        let free = bounds::is_empty(bounds);
        let kept = if free { vec![0; 2 * n] } else { bounds.clone() };
        Incremental(Bug::Nothing).keep(workspace, &kept, &[1; 120]);
        let put = |at: usize, numbers: Vec<i32>, ws: &mut [u32]| {
            ws[at..].iter_mut().zip(numbers).for_each(|(place, x)| *place = x as u32);
        };
        put(RHS, rhs, workspace);
        put(KINDS, kinds.iter().map(|&kind| kind.into()).collect(), workspace);
        put(COEFS, coefs, workspace);
        if self.0 == Bug::RowsOfAnother && *m > 1 {
            workspace.swap(COEFS, COEFS + n);
        }
        0
    }

    fn call(&mut self, operation: Operation, loan: Loan) -> u32 {
        match operation {
            Operation::Propagate { budget } => self.propagate(loan, budget).err().unwrap_or(0),
            Operation::Probe { variable, budget } => self.probe(loan, variable, budget),
        }
    }
}

#[test]
fn the_walks_meet_everything() {
    let coverage = prepared::run(PLAN, &mut Incremental(Bug::Nothing)).unwrap();
    assert_eq!(coverage.missing(), Vec::<String>::new());
    assert!(coverage.calls > 10 * PLAN.cases);
}

#[test]
fn catches_each_broken_copy() {
    use Bug::*;
    for bug in [
        BoxNotKept,
        EmptySetKept,
        RefusalWrites,
        HeadNotCompared,
        UpperBoundsNotCompared,
        WiderBoundsNotCompared,
        SecondVariableNotCompared,
        MovedBoundNotHeard,
        EqualityRowDone,
        ReasonOfTheFirst,
        ReasonOfTheNext,
        ReasonsLeftFromBefore,
        InfeasibleRowBlamed,
        InfeasibleRowIsTheLast,
        ProbeKeepsASide,
        ProbeTellsOneSide,
        ProbeSidesSwapped,
        ProbeRowsSwapped,
        ProbeTakesRoomOfOneSide,
        WritesBeyond,
        RowsOfAnother,
    ] {
        let difference = prepared::run(PLAN, &mut Incremental(bug))
            .expect_err(&format!("{bug:?} was not caught"));
        assert!(difference.contains("again: ASTROLABE_SEED="), "{bug:?}");
    }
}
