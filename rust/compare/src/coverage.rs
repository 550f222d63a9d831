//! What the cases of a run met.

use std::collections::{BTreeMap, BTreeSet};
use std::fmt;

use reference::bounds;
use reference::plan;
use reference::row::{self, AT_MOST, EQUAL, Outcome, RowPropagation, Rows};
use reference::ties::{Reason, Tied};

use crate::damage;
use crate::lent::{Lent, Operation};

/// How often each call was refused by which check, and gave which case of its answer.
#[derive(Debug, Default)]
pub struct Coverage {
    pub refused: BTreeMap<(&'static str, u32), u64>,
    pub answered: BTreeMap<(&'static str, u64), u64>,
    pub calls: u64,
    pub most_passes: u64,
    /// The most bounds that one propagation moved.
    pub most_moved: u64,
    /// Which of [`MOVES`], [`EQUALITIES`], [`UNREST`], [`PLANS`], [`RETIRED`], [`CLASSES`], [`TIES`], [`CLIQUES`] and [`PAGES`] were met.
    pub met: BTreeSet<&'static str>,
}

/// What a long enough run must have met of the numbers of bounds moved, beside each case of each answer.
const MOVES: [&str; 4] = [
    "a row that moved several bounds",
    "a propagation that moved a bound more than once",
    "a propagation that moved bounds before it was infeasible",
    "a side that moved bounds before it was infeasible",
];

/// The same of = rows (02, C-14).
const EQUALITIES: [&str; 7] = [
    "an equality row that moved more bounds than there are variables",
    "an equality row that is infeasible by its negated form alone",
    "an equality row that was removed",
    "an equality row that says 0 = 0 and was removed",
    "an equality row kept that a row at most would not be",
    "an equality row not tightened that a row at most would be",
    "rounds that removed an equality row",
];

/// The same of the rest call's no (02, C-13).
const UNREST: [&str; 4] = [
    "a no by a row behind others that leave the box",
    "a no by a row that is infeasible",
    "a no by variable 0",
    "a no by a variable behind free ones that pass",
];

/// The same of the limit on a list's passes (02, C-17).
const PLANS: [&str; 4] = [
    "a list that made as many passes as its limit, with a probe among them",
    "a list that made fewer passes than its limit",
    "a list that made passes on the empty box",
    "a propagation with just the budget that is never spent",
];

/// The same of records of kinds 4 and 5, which a list refuses (02, C-16).
const RETIRED: [&str; 3] = [
    "a call list with a retired kind whose other fields pass their checks",
    "a call list with a retired kind whose row is not below m",
    "a call list with a retired kind on the empty box",
];

/// The same of what the records of a list did.
const CLASSES: [&str; 2] = [
    "a call list with records of all four classes",
    "a call list of no record, and so of no class",
];

/// The same of ties (02, C-19): those made, and for each reason one that is not made for it alone.
const TIES: [&str; 17] = [
    "a tie that keeps each of several points",
    "a tie that loses a point, by a table from elsewhere",
    "a tie of a variable and its equal",
    "a tie of a variable and its opposite",
    "a tie where the table says both values",
    "a tie of a variable that another one is tied to",
    "a tie that changes a right side of an equality row",
    "no tie: the table says half of it",
    "no tie: the table says nothing of it",
    "no tie: k is j",
    "no tie: a coefficient would leave its limits",
    "no tie: a right side would leave its limits",
    "no tie: k is not free",
    "no tie: j is not free",
    "no tie: k is replaced",
    "no tie: j is replaced",
    "no tie: the box is empty",
];

/// The same of clique rows (02, C-12).
const CLIQUES: [&str; 4] = [
    "clique rows of a table that calls filled, held against its points",
    "a clique row over a variable meant at 0, held against points",
    "a clique row of four or more",
    "several clique rows",
];

/// The same of the pages for the floor (02, C-23).
const PAGES: [&str; 6] = [
    "pages of the empty box",
    "pages with a bound of -32,768",
    "a variable with eight literals",
    "a variable with nine literals",
    "a last page without an empty line",
    "seventy pages",
];

impl Coverage {
    /// Notes how many points of a small model a tie kept and lost.
    pub fn tied(&mut self, kept: usize, lost: usize) {
        self.met(TIES[0], kept > 1 && lost == 0);
        self.met(TIES[1], lost > 0);
    }

    /// What an accepted tie of k and j met.
    fn note_tie(&mut self, before: &Lent, after: &Lent, k: usize, j: usize) {
        let [_, _, equal, opposite, both, chain, equality, no @ ..] = TIES;
        let byte = |v, w| before.table[(2 * k + v) * 2 * before.n + 2 * j + w] == 1;
        let mut copy = before.clone();
        let tied = Tied {
            n: before.n,
            bounds: &before.bounds,
            coefs: &mut copy.coefs,
            rhs: &mut copy.rhs,
            table: &before.table,
            ties: &mut copy.ties,
        };
        let Err(reasons) = tied.reasons(k, j) else {
            let place = after.ties[j];
            self.met(equal, place.is_multiple_of(2));
            self.met(opposite, place % 2 == 1);
            self.met(both, byte(0, 0) && byte(1, 1) && byte(0, 1) && byte(1, 0));
            self.met(chain, before.ties.iter().any(|&p| p > 0 && usize::from(p - 1) / 2 == j));
            let moved = |r: usize| before.kinds[r] == EQUAL && before.rhs[r] != after.rhs[r];
            self.met(equality, (0..before.m).any(moved));
            return;
        };
        let [half, nothing, one, coefficient, rhs, k_free, j_free, k_tied, j_tied, empty] = no;
        let free = |variable| bounds::is_free(&before.bounds, variable);
        let said = [byte(0, 0), byte(0, 1), byte(1, 0), byte(1, 1)];
        self.met(empty, bounds::is_empty(&before.bounds) && reasons == [Reason::NotFree]);
        match reasons[..] {
            [Reason::NotSaid] => {
                self.met(half, said.contains(&true));
                self.met(nothing, !said.contains(&true));
            }
            [Reason::OneVariable] => self.met(one, true),
            [Reason::Coefficient] => self.met(coefficient, true),
            [Reason::RightSide] => self.met(rhs, true),
            [Reason::NotFree] => {
                self.met(k_free, free(j));
                self.met(j_free, free(k));
            }
            [Reason::Replaced] => {
                self.met(k_tied, before.ties[j] == 0);
                self.met(j_tied, before.ties[k] == 0);
            }
            _ => {}
        }
    }

    /// Notes the clique rows that were written, and the points that they were held against.
    pub fn clique_rows(&mut self, after: &Lent, points: &[Vec<i32>]) {
        let [held, meant_at_0, four, several] = CLIQUES;
        let rows = after.clique_coefs.chunks(after.n).take(after.answer[0] as usize);
        for row in rows {
            self.met(held, !points.is_empty());
            self.met(meant_at_0, !points.is_empty() && row.contains(&-1));
            self.met(four, row.iter().filter(|&&a| a != 0).count() > 3);
        }
        self.met(several, after.answer[0] > 1);
    }

    /// Notes what the records of a list did.
    pub fn classes(&mut self, classes: &[u8]) {
        let [all, none] = CLASSES;
        self.met(all, (0..4).all(|class| classes.contains(&class)));
        self.met(none, classes.is_empty());
    }

    /// Notes what pages were written.
    fn note_pages(&mut self, before: &Lent, pages: &[u8]) {
        let [empty, lowest, eight, nine, full, most] = PAGES;
        let n = before.n;
        let literals = |k: usize| {
            before.table[(2 * k + 1) * 2 * n..][..2 * n].iter().filter(|&&byte| byte == 1).count()
        };
        self.met(empty, bounds::is_empty(&before.bounds));
        self.met(lowest, before.bounds.contains(&-32_768));
        self.met(eight, (0..n).any(|k| literals(k) == 8));
        self.met(nine, (0..n).any(|k| literals(k) == 9));
        self.met(full, !pages[pages.len() - 81..].trim_ascii().is_empty());
        self.met(most, pages.len() == 70 * reference::pages::PAGE);
    }

    /// Notes how many passes a list made that was lent `before`, and their limit.
    pub fn planned(&mut self, before: &Lent, made: u64, limit: u64) {
        let [reached, below, on_empty, _] = PLANS;
        let probes = before.calls.chunks(4).any(|record| record[0] == 3);
        self.met(reached, made == limit && probes && made > 1);
        self.met(below, made < limit);
        self.met(on_empty, made > 0 && bounds::is_empty(&before.bounds));
    }

    /// Notes what a call returned and left, and what it was lent.
    pub fn note(&mut self, operation: Operation, before: &Lent, said: u32, after: &Lent) {
        let (n, answer) = (before.n, &after.answer);
        self.calls += 1;
        if said != 0 {
            *self.refused.entry((operation.name(), said)).or_default() += 1;
            return;
        }
        // A call without cases (a list's, a plan's, a book's) counts as case 0.
        let case = match operation {
            Operation::Run
            | Operation::RunClasses
            | Operation::PlanWidth
            | Operation::PlanRun
            | Operation::PlanLengths
            | Operation::Cliques
            | Operation::BookTrailer
            | Operation::BookRead
            | Operation::BookWrite
            | Operation::PageCount
            | Operation::WritePages => 0,
            _ if Operation::SPARSE.contains(&operation) => 0,
            _ => answer[0],
        };
        *self.answered.entry((operation.name(), case)).or_default() += 1;
        self.note_equalities(operation, before, after);
        if operation == Operation::IsProbingFixpoint {
            self.note_unrest(before, answer);
        }
        if let Operation::Tie { k, j } = operation {
            self.note_tie(before, after, k as usize, j as usize);
        }
        if operation == Operation::WritePages {
            self.note_pages(before, &after.book);
        }
        let [several, again, before_infeasible, side_before_infeasible] = MOVES;
        match answer[..] {
            [1, moved, ..] if matches!(operation, Operation::PropagateRow { .. }) => {
                self.met(several, moved > 1);
            }
            [case, passes, moved, ..] if matches!(operation, Operation::Propagate { .. }) => {
                self.propagated(passes, moved);
                self.met(before_infeasible, case == 0 && moved > 0);
                self.met(again, case != 0 && moved > 2 * n as u64);
                let enough = Operation::Propagate { budget: plan::budget(&before.bounds) as u32 };
                self.met(PLANS[3], operation == enough);
            }
            [case, value, passes0, _, moved0, passes1, _, moved1, ..]
                if matches!(operation, Operation::Probe { .. }) =>
            {
                self.propagated(passes0, moved0);
                self.propagated(passes1, moved1);
                let infeasible =
                    [case == 0 || case == 1 && value == 1, case == 0 || case == 1 && value == 0];
                let met = infeasible[0] && moved0 > 0 || infeasible[1] && moved1 > 0;
                self.met(side_before_infeasible, met);
            }
            _ => {}
        }
    }

    /// What an answer of the rest call met.
    fn note_unrest(&mut self, before: &Lent, answer: &[u64]) {
        let [later, infeasible, first, behind] = UNREST;
        let (no, by_variable, number) = (answer[0] == 0, answer[1] == 1, answer[2] as usize);
        self.met(later, no && !by_variable && number > 0);
        self.met(first, no && by_variable && number == 0);
        if no && by_variable {
            self.met(behind, (0..number).any(|k| bounds::is_free(&before.bounds, k)));
        } else if no {
            let rows = Rows::new(before.n, &before.coefs, &before.rhs, &before.kinds);
            let said = row::propagate_row(&mut before.bounds.clone(), rows.at(number));
            self.met(infeasible, said == RowPropagation::Infeasible);
        }
    }

    /// What an accepted call met of = rows.
    fn note_equalities(&mut self, operation: Operation, before: &Lent, after: &Lent) {
        let [.., by_rounds] = EQUALITIES;
        match operation {
            Operation::Run | Operation::RunClasses => self.note_retired(before),
            Operation::Rounds { .. } => self.met(by_rounds, before.kinds != after.kinds),
            Operation::PropagateRow { row }
            | Operation::RemoveRedundantRow { row }
            | Operation::TightenCoefficient { row, .. }
                if before.kinds[row as usize] == EQUAL && !bounds::is_empty(&before.bounds) =>
            {
                self.note_equality(operation, before, row as usize, after.answer[0]);
                self.met(EQUALITIES[0], after.answer[1] > before.n as u64);
            }
            _ => {}
        }
    }

    /// What an accepted list met of retired kinds.
    fn note_retired(&mut self, before: &Lent) {
        let [accepted, no_row, empty] = RETIRED;
        let is_empty = bounds::is_empty(&before.bounds);
        for call in before.calls.chunks(4).filter(|call| matches!(call[0], 4 | 5)) {
            let in_range = (call[1] as usize) < before.m;
            self.met(accepted, in_range && call[0] == 5 && !is_empty);
            self.met(no_row, !in_range);
            self.met(empty, is_empty);
        }
    }

    /// What a call on the = row r over a box that is not empty met.
    fn note_equality(&mut self, operation: Operation, before: &Lent, r: usize, case: u64) {
        let [_, negated, removed, zero, kept, untightened, ..] = EQUALITIES;
        let (coefs, mut rhs) = (&before.coefs[r * before.n..][..before.n], before.rhs[r]);
        let bounds = &before.bounds;
        match operation {
            Operation::PropagateRow { .. } => {
                let met = row::min_activity(bounds, coefs) <= rhs.into();
                self.met(negated, case == 0 && met);
            }
            Operation::TightenCoefficient { variable, .. } => {
                let (coefs, k) = (&mut coefs.to_vec(), variable as usize);
                let at_most = row::tighten_coefficient(bounds, coefs, &mut rhs, AT_MOST, k);
                self.met(untightened, case == 2 && at_most == Outcome::Changed);
            }
            _ => {
                self.met(removed, case == 1);
                self.met(zero, case == 1 && rhs == 0 && coefs.iter().all(|&a| a == 0));
                self.met(kept, case == 2 && row::max_activity(bounds, coefs) <= rhs.into());
            }
        }
    }

    fn propagated(&mut self, passes: u64, moved: u64) {
        self.most_passes = self.most_passes.max(passes);
        self.most_moved = self.most_moved.max(moved);
    }

    fn met(&mut self, what: &'static str, met: bool) {
        if met {
            self.met.insert(what);
        }
    }

    /// What a long enough run must have met and has not: each check of each call, each case of each
    /// answer, and each of [`MOVES`], [`EQUALITIES`], [`UNREST`], [`PLANS`], [`RETIRED`], [`CLASSES`], [`TIES`], [`CLIQUES`] and [`PAGES`].
    pub fn missing(&self) -> Vec<String> {
        let (row, variable, budget, limit) = (0, 0, 0, 0);
        let tie = Operation::Tie { k: variable, j: variable };
        let all = [
            (Operation::PropagateRow { row }, 3),
            (Operation::Propagate { budget }, 3),
            (Operation::Probe { variable, budget }, 3),
            (Operation::TightenCoefficient { row, variable }, 3),
            (Operation::RemoveRedundantRow { row }, 3),
            (Operation::IsProbingFixpoint, 2),
            (Operation::Run, 1),
            (Operation::RunClasses, 1),
            (Operation::Rounds { limit }, 3),
            (tie, 0), // its cases are among TIES
            (Operation::PlanWidth, 1),
            (Operation::PlanRun, 1),
            (Operation::Cliques, 1),
            (Operation::PlanLengths, 1),
            (Operation::BookTrailer, 1),
            (Operation::BookRead, 1),
            (Operation::BookWrite, 1),
            (Operation::PageCount, 1),
            (Operation::WritePages, 1),
        ];
        let all = all.into_iter().chain(Operation::SPARSE.map(|operation| (operation, 1)));
        let mut missing: Vec<String> =
            [&MOVES[..], &EQUALITIES, &UNREST, &PLANS, &RETIRED, &CLASSES, &TIES, &CLIQUES, &PAGES]
                .concat()
                .into_iter()
                .filter(|what| !self.met.contains(what))
                .map(str::to_string)
                .collect();
        for (operation, cases) in all {
            let name = operation.name();
            for &check in damage::checks(operation) {
                if !self.refused.contains_key(&(name, check)) {
                    missing.push(format!("{name} refused by {check}"));
                }
            }
            for case in 0..cases {
                if !self.answered.contains_key(&(name, case)) {
                    missing.push(format!("{name} with answer {case}"));
                }
            }
        }
        missing
    }
}

impl fmt::Display for Coverage {
    fn fmt(&self, f: &mut fmt::Formatter) -> fmt::Result {
        let Coverage { calls, most_passes, most_moved, .. } = self;
        writeln!(
            f,
            "{calls} calls, at most {most_passes} passes and {most_moved} bounds moved in one"
        )?;
        let mut names: Vec<_> = self.answered.keys().map(|key| key.0).collect();
        names.dedup();
        for name in names {
            write!(f, "  {name}:")?;
            for ((_, case), count) in self.answered.iter().filter(|(key, _)| key.0 == name) {
                write!(f, " answer {case}: {count}")?;
            }
            write!(f, "; refused")?;
            for ((_, check), count) in self.refused.iter().filter(|(key, _)| key.0 == name) {
                write!(f, " {check}: {count}")?;
            }
            writeln!(f)?;
        }
        Ok(())
    }
}
