//! Prepared models, compared over random walks in a tree: down by a bound or two, up, sideways, to any other box,
//! with copies of the workspace, calls that are refused, and workspaces that hold something else. A walk is one
//! case. It is lent buffers that no other call has, so its cases, damage and coverage stand here.

use std::collections::{BTreeMap, BTreeSet};

use reference::bounds::{is_empty, is_free};
use reference::calls::{self, ANSWER};
use reference::checks;
use reference::prepared::{self, NO_ROW, Prepared, WORKSPACE};

use crate::damage;
use crate::lent;
use crate::models::{self, Family, MAX_BOUND, MAX_BUDGET, MAX_ROWS, MAX_VARIABLES, MIN_BOUND};
use crate::rng::Rng;
use crate::suite::Plan;

/// What a workspace that is ours begins with; then come n and m.
pub const MARK: u32 = u32::from_le_bytes(*b"AST1");

/// A call on a prepared model.
#[derive(Clone, Copy, Debug, PartialEq, Eq)]
pub enum Operation {
    Propagate { budget: u32 },
    Probe { variable: u32, budget: u32 },
}

impl Operation {
    /// Its checks, in the order in which they are made.
    fn checks(self) -> &'static [u32] {
        match self {
            Operation::Propagate { .. } => &[5, 6, 7, 23, 15],
            Operation::Probe { .. } => &[5, 6, 7, 23, 10, 13, 14, 15],
        }
    }

    /// How many propagations it tells of.
    fn sides(self) -> usize {
        match self {
            Operation::Propagate { .. } => 1,
            Operation::Probe { .. } => 2,
        }
    }

    fn name(self) -> &'static str {
        match self {
            Operation::Propagate { .. } => "propagate",
            Operation::Probe { .. } => "probe",
        }
    }
}

/// The checks of the call that prepares, in their order.
const PREPARE_CHECKS: [u32; 8] = [3, 5, 6, 7, 23, 8, 9, 16];

/// What a call on a prepared model can be lent, owned. A propagation has no table.
#[derive(Clone, Debug, PartialEq, Eq)]
pub struct Lent {
    pub workspace: Vec<u32>,
    pub bounds: Vec<i32>,
    pub reasons: Vec<u32>,
    pub table: Vec<u8>,
    pub answer: Vec<u64>,
}

/// The same buffers, lent for one call.
pub struct Loan<'a> {
    pub workspace: &'a mut [u32],
    pub bounds: &'a mut [i32],
    pub reasons: &'a mut [u32],
    pub table: &'a mut [u8],
    pub answer: &'a mut [u64],
}

/// An implementation that prepares models in a workspace. Everything is lent mutably, so that a write into what a
/// call takes as const is seen.
pub trait Backend {
    fn prepare(&mut self, model: &mut lent::Lent, workspace: &mut [u32]) -> u32;
    fn call(&mut self, operation: Operation, loan: Loan) -> u32;
}

/// Guard cells on each side of a buffer: a write beyond it is seen.
const GUARD: usize = 4;

/// The buffers with guard cells around each.
struct Guarded(Lent);

impl Guarded {
    fn new(lent: &Lent) -> Self {
        fn guard<T: Copy>(buffer: &[T], mark: T) -> Vec<T> {
            [&[mark; GUARD], buffer, &[mark; GUARD]].concat()
        }
        Guarded(Lent {
            workspace: guard(&lent.workspace, 0x5555_5555),
            bounds: guard(&lent.bounds, 0x5555_5555),
            reasons: guard(&lent.reasons, 0x5555_5555),
            table: guard(&lent.table, 0x55),
            answer: guard(&lent.answer, 0x5555_5555_5555_5555),
        })
    }

    fn lend(&mut self) -> Loan<'_> {
        fn inner<T>(cells: &mut [T]) -> &mut [T] {
            let end = cells.len() - GUARD;
            &mut cells[GUARD..end]
        }
        let cells = &mut self.0;
        Loan {
            workspace: inner(&mut cells.workspace),
            bounds: inner(&mut cells.bounds),
            reasons: inner(&mut cells.reasons),
            table: inner(&mut cells.table),
            answer: inner(&mut cells.answer),
        }
    }

    /// The buffers without their guard cells, which must be whole.
    fn into_lent(mut self) -> Result<Lent, String> {
        let loan = self.lend();
        let lent = Lent {
            workspace: loan.workspace.to_vec(),
            bounds: loan.bounds.to_vec(),
            reasons: loan.reasons.to_vec(),
            table: loan.table.to_vec(),
            answer: loan.answer.to_vec(),
        };
        if Guarded::new(&lent).0 == self.0 { Ok(lent) } else { Err("a guard cell changed".into()) }
    }
}

/// What the walks met.
#[derive(Debug, Default)]
pub struct Coverage {
    /// How often a check refused a call.
    pub refused: BTreeMap<(&'static str, u32), u64>,
    met: BTreeSet<&'static str>,
    /// The calls made.
    pub calls: u64,
}

/// What a long enough run must have met.
const MET: [&str; 33] = [
    "down",
    "again",
    "up",
    "sideways",
    "anywhere inside",
    "a box outside the first",
    "the empty box",
    "a copy of the workspace",
    "prepared with the empty box",
    "prepared without rows",
    "the workspace is prepared once more",
    "propagate: infeasible by row 0",
    "propagate: infeasible by a later row",
    "propagate: infeasible, the box was empty",
    "propagate: infeasible, after bounds moved",
    "propagate: converged, nothing moved",
    "propagate: converged, bounds moved",
    "propagate: spent",
    "propagate: no reasons asked for",
    "propagate: a bound moved by two rows",
    "propagate: bounds moved by an = row",
    "probe: infeasible",
    "probe: fixed",
    "probe: both feasible",
    "probe: a side spent",
    "probe: no reasons asked for",
    "probe: infeasible, the box was empty",
    "probe: a bound moved in one side alone",
    "probe: a bound moved by another row in each side",
    "probe: bounds moved in an infeasible side",
    "after an infeasible call",
    "after a budget was spent",
    "another workspace's content",
];

impl Coverage {
    fn met(&mut self, what: &'static str) {
        debug_assert!(MET.contains(&what), "{what}");
        self.met.insert(what);
    }

    /// What a long enough run must have met and has not.
    pub fn missing(&self) -> Vec<String> {
        let propagate = Operation::Propagate { budget: 0 };
        let probe = Operation::Probe { variable: 0, budget: 0 };
        let calls = [propagate, probe]
            .into_iter()
            .flat_map(|call| call.checks().iter().map(move |&check| (call.name(), check)));
        let checks = PREPARE_CHECKS.iter().map(|&check| ("prepare", check)).chain(calls);
        let refused = checks.filter(|what| !self.refused.contains_key(what));
        let met = MET.iter().filter(|what| !self.met.contains(*what));
        refused
            .map(|(call, check)| format!("{call} refused by {check}"))
            .chain(met.map(|s| s.to_string()))
            .collect()
    }
}

/// Makes the plan's walks; the first difference from the reference ends it.
pub fn run(plan: Plan, actual: &mut impl Backend) -> Result<Coverage, String> {
    let mut coverage = Coverage::default();
    for number in plan.first..plan.first + plan.cases {
        let mut rng = Rng::for_case(plan.seed, number);
        walk(&mut rng, &mut coverage, actual).map_err(|difference| {
            format!("{difference}\nagain: ASTROLABE_SEED={} ASTROLABE_CASE={number}", plan.seed)
        })?;
    }
    Ok(coverage)
}

/// A walk: the model, its workspace and copies of it, and the boxes from the root to the node.
struct Walk<'a, B> {
    rng: &'a mut Rng,
    coverage: &'a mut Coverage,
    actual: &'a mut B,
    model: lent::Lent,
    prepared: Prepared,
    workspaces: Vec<Vec<u32>>,
    path: Vec<Vec<i32>>,
    table: Vec<u8>,
    /// How the last call ended: its `answer[0]`, where it propagated.
    last: Option<u64>,
}

fn walk(rng: &mut Rng, coverage: &mut Coverage, actual: &mut impl Backend) -> Result<(), String> {
    let family = match rng.between(0, 99) {
        0..30 => Family::Tiny,
        30..55 => Family::Binary,
        55..80 => Family::Mixed,
        80..82 => Family::Largest,
        82..88 => Family::Limits,
        88..96 => Family::Crawling,
        _ => Family::Empty,
    };
    let model = models::model(rng, family);
    refuse_prepare(rng, coverage, actual, &model)?;
    // What the workspace held before does not matter.
    let old = rng.pick(&[0, u32::MAX, MARK, rng.clone().next_u64() as u32]);
    let workspace = prepare(actual, &model, vec![old; WORKSPACE])?;
    if is_empty(&model.bounds) {
        coverage.met("prepared with the empty box");
    }
    if model.m == 0 {
        coverage.met("prepared without rows");
    }
    let lent::Lent { n, bounds, coefs, rhs, kinds, .. } = model.clone();
    let mut walk = Walk {
        rng,
        coverage,
        actual,
        model,
        prepared: Prepared { n, coefs, rhs, kinds },
        workspaces: vec![workspace],
        path: vec![bounds],
        table: vec![0; 4 * n * n],
        last: None,
    };
    for _ in 0..if n > 40 { 10 } else { walk.rng.between(5, 40) } {
        walk.step()?;
    }
    Ok(())
}

/// Prepares a model that is accepted; it stays as it is. The workspace.
fn prepare(
    actual: &mut impl Backend,
    model: &lent::Lent,
    workspace: Vec<u32>,
) -> Result<Vec<u32>, String> {
    let mut lent = Guarded::new(&Lent {
        workspace,
        bounds: vec![],
        reasons: vec![],
        table: vec![],
        answer: vec![],
    });
    let mut after = model.clone();
    let said = actual.prepare(&mut after, lent.lend().workspace);
    if said != 0 || after != *model {
        return Err(format!("{model:?}\nprepare returned {said}, and the model {after:?}"));
    }
    Ok(lent.into_lent()?.workspace)
}

/// Now and then a model that is refused first: nothing changes.
fn refuse_prepare(
    rng: &mut Rng,
    coverage: &mut Coverage,
    actual: &mut impl Backend,
    model: &lent::Lent,
) -> Result<(), String> {
    if model.m == 0 || is_empty(&model.bounds) || !rng.chance(30) {
        return Ok(());
    }
    let mut model = model.clone();
    let mut workspace = vec![rng.next_u64() as u32; WORKSPACE];
    let place = rng.index(PREPARE_CHECKS.len());
    for later in (place..PREPARE_CHECKS.len()).rev() {
        if later > place && !rng.chance(30) {
            continue;
        }
        match PREPARE_CHECKS[later] {
            3 if rng.chance(50) => model.n = rng.pick(&[0, 129, 1 << 63, usize::MAX]),
            3 => model.m = rng.pick(&[121, 1 << 32, usize::MAX]),
            5 => match rng.between(0, 5) {
                0 => resize(rng, &mut model.bounds),
                1 => resize(rng, &mut model.coefs),
                2 => resize(rng, &mut model.rhs),
                3 => resize(rng, &mut model.kinds),
                _ => resize(rng, &mut workspace),
            },
            16 => {
                let at = rng.index(model.m);
                model.kinds[at] = rng.pick(&[2, 3, 128, 255]);
            }
            check => damage::wrong_number(rng, &mut model, check),
        }
    }
    let lent::Lent { n, m, bounds, coefs, rhs, kinds, .. } = &model;
    let expected = prepared::prepare(*n, *m, bounds, coefs, rhs, kinds, workspace.len());
    let number = expected.expect_err("the model was damaged");
    assert_eq!(number, PREPARE_CHECKS[place], "{model:?}");
    let (mut after, mut left) = (model.clone(), workspace.clone());
    let said = actual.prepare(&mut after, &mut left);
    if said != number || after != model || left != workspace {
        return Err(format!(
            "{model:?}\nprepare: {said} instead of {number}, or something changed"
        ));
    }
    *coverage.refused.entry(("prepare", number)).or_default() += 1;
    Ok(())
}

impl<B: Backend> Walk<'_, B> {
    /// One step of the walk, which makes one call.
    fn step(&mut self) -> Result<(), String> {
        let (bounds, down) = match self.rng.between(0, 99) {
            0..40 => (self.branch("down"), true),
            40..48 => (self.node("again"), false),
            48..60 => {
                if self.path.len() > 1 {
                    self.path.pop();
                }
                (self.node("up"), false)
            }
            60..72 => {
                if self.path.len() > 1 {
                    self.path.pop();
                }
                (self.branch("sideways"), true)
            }
            72..84 => (self.elsewhere(), false),
            84..90 => {
                self.copy()?;
                (self.branch("down"), true)
            }
            90..96 => return self.refused(),
            _ => return self.foreign(),
        };
        let operation = self.operation(&bounds);
        let after = self.agree(operation, bounds)?;
        if down && !is_empty(&after.bounds) {
            self.path.push(after.bounds);
        }
        Ok(())
    }

    fn node(&mut self, what: &'static str) -> Vec<i32> {
        self.coverage.met(what);
        self.path.last().expect("the root stays").clone()
    }

    /// The node's box with a bound or two changed.
    fn branch(&mut self, what: &'static str) -> Vec<i32> {
        let mut bounds = self.node(what);
        for _ in 0..self.rng.pick(&[1, 1, 1, 2]) {
            let open: Vec<usize> =
                (0..bounds.len() / 2).filter(|j| bounds[2 * j] < bounds[2 * j + 1]).collect();
            if open.is_empty() {
                break;
            }
            let j = self.rng.pick(&open);
            let (l, u) = (i64::from(bounds[2 * j]), i64::from(bounds[2 * j + 1]));
            let middle = match self.rng.between(0, 2) {
                0 => l,
                1 => u - 1,
                _ => self.rng.between(l, u - 1),
            };
            match self.rng.between(0, 1) {
                0 => bounds[2 * j + 1] = middle as i32,
                _ => bounds[2 * j] = middle as i32 + 1,
            }
        }
        bounds
    }

    /// Any other box: inside the first one, around it, beside it, or the empty one.
    fn elsewhere(&mut self) -> Vec<i32> {
        let first = &self.path[0];
        let n = first.len() / 2;
        if self.rng.chance(8) {
            self.coverage.met("the empty box");
            return [1, 0].repeat(n);
        }
        let empty = is_empty(first);
        let inside = !empty && self.rng.chance(60);
        let what = if inside { "anywhere inside" } else { "a box outside the first" };
        self.coverage.met(what);
        let mut bounds = vec![];
        for pair in first.chunks(2) {
            let (l, u) = if empty { (0, 1) } else { (i64::from(pair[0]), i64::from(pair[1])) };
            let (low, high) = if inside { (l, u) } else { (l - 3, u + 3) };
            let (low, high) = (low.max(MIN_BOUND.into()), high.min(MAX_BOUND.into()));
            let from = if self.rng.chance(50) { low } else { self.rng.between(low, high) };
            let to = if self.rng.chance(50) { high } else { self.rng.between(from, high) };
            bounds.extend([from as i32, to.min(from + 4_096) as i32]);
        }
        bounds
    }

    /// Another copy of a workspace; at most three are kept. Now and then one is prepared once more.
    fn copy(&mut self) -> Result<(), String> {
        let mut copy = self.rng.pick(&[0, 1, 2]);
        copy %= self.workspaces.len();
        let mut workspace = self.workspaces[copy].clone();
        if self.rng.chance(25) {
            self.coverage.met("the workspace is prepared once more");
            workspace = prepare(self.actual, &self.model, workspace)?;
        }
        self.coverage.met("a copy of the workspace");
        if self.workspaces.len() < 3 {
            self.workspaces.push(workspace);
        } else {
            let at = self.rng.index(3);
            self.workspaces[at] = workspace;
        }
        Ok(())
    }

    /// Mostly a propagation, else a probe, where a variable is free.
    fn operation(&mut self, bounds: &[i32]) -> Operation {
        let n = bounds.len() / 2;
        let budget = self.rng.pick(&[MAX_BUDGET, MAX_BUDGET, MAX_BUDGET, 1_000, 1, 1, 2, 3]);
        let free: Vec<usize> = (0..n).filter(|&k| is_empty(bounds) || is_free(bounds, k)).collect();
        if free.is_empty() || self.rng.chance(75) {
            return Operation::Propagate { budget };
        }
        Operation::Probe { variable: self.rng.pick(&free) as u32, budget }
    }

    /// The buffers of a call, full of what no call leaves there.
    fn lend(&mut self, operation: Operation, workspace: Vec<u32>, bounds: Vec<i32>) -> Lent {
        let sides = operation.sides();
        let told = if self.rng.chance(80) { sides * bounds.len() } else { 0 };
        let reasons = vec![0x5a5a_5a5a; told];
        let table = match operation {
            Operation::Probe { .. } => self.table.clone(),
            Operation::Propagate { .. } => vec![],
        };
        Lent { workspace, bounds, reasons, table, answer: vec![0x5a5a_5a5a_5a5a_5a5a; ANSWER] }
    }

    /// An accepted call on one of the workspaces; it stays ours.
    fn agree(&mut self, operation: Operation, bounds: Vec<i32>) -> Result<Lent, String> {
        let at = self.rng.index(self.workspaces.len());
        let workspace = self.workspaces[at].clone();
        let before = self.lend(operation, workspace, bounds);
        let (said, after) = compare(operation, &before, Some(&self.prepared), self.actual)?;
        assert_eq!(said, 0, "{operation:?} was to be accepted: {before:?}");
        self.coverage.calls += 1;
        self.plain(operation, &before, &after);
        self.note(operation, &before, &after);
        self.workspaces[at].clone_from(&after.workspace);
        if let Operation::Probe { .. } = operation {
            self.table.clone_from(&after.table);
        }
        Ok(after)
    }

    /// "The answers, counts and boxes are those of `astrolabe_propagate` and `astrolabe_probe` on the model that was
    /// prepared", whatever the two sides agree on; and the reasons are of the bounds that moved.
    fn plain(&mut self, operation: Operation, before: &Lent, after: &Lent) {
        let mut plain = self.model.clone();
        plain.bounds.clone_from(&before.bounds);
        plain.table.clone_from(&before.table);
        plain.answer = vec![0; ANSWER];
        let lent::Lent { n, m, bounds, coefs, rhs, kinds, table, answer, .. } = &mut plain;
        let said = match operation {
            Operation::Propagate { budget } => {
                calls::propagate(*n, *m, bounds, coefs, rhs, kinds, budget, answer)
            }
            Operation::Probe { variable, budget } => {
                calls::probe(*n, *m, bounds, coefs, rhs, kinds, table, variable, budget, answer)
            }
        };
        let infeasible = infeasible_sides(operation, before, after);
        let rows = match operation {
            Operation::Propagate { .. } => 3..4,
            Operation::Probe { .. } => 8..10,
        };
        answer[rows.clone()].copy_from_slice(&after.answer[rows.clone()]);
        let told: Vec<bool> =
            after.answer[rows].iter().map(|&row| row != u64::from(NO_ROW)).collect();
        assert_eq!(told, infeasible, "{before:?}");
        assert_eq!((said, &*answer, &*bounds), (0, &after.answer, &after.bounds), "{before:?}");
        assert_eq!(*table, after.table, "{before:?}");
        if after.answer[0] == 0 || after.reasons.is_empty() {
            return;
        }
        // A bound moved exactly if it moved in each side that is feasible; a probed variable is set by its sides.
        let probed = match operation {
            Operation::Propagate { .. } => None,
            Operation::Probe { variable, .. } => Some(variable as usize),
        };
        for i in (0..bounds.len()).filter(|i| Some(i / 2) != probed) {
            let mut sides = after.reasons.chunks(bounds.len()).zip(&infeasible);
            let moved = sides.all(|(side, &infeasible)| infeasible || side[i] != NO_ROW);
            assert_eq!(moved, before.bounds[i] != after.bounds[i], "{before:?}");
        }
    }

    /// Counts what an accepted call met.
    fn note(&mut self, operation: Operation, before: &Lent, after: &Lent) {
        match self.last {
            Some(0) => self.coverage.met("after an infeasible call"),
            Some(2) => self.coverage.met("after a budget was spent"),
            _ => {}
        }
        let case = after.answer[0];
        if let Operation::Probe { .. } = operation {
            let what = ["probe: infeasible", "probe: fixed", "probe: both feasible"];
            self.coverage.met(what[case as usize]);
            if after.answer[3] + after.answer[6] > 0 {
                self.coverage.met("probe: a side spent");
            }
            self.note_sides(before, after);
            self.last = None;
            return;
        }
        self.last = Some(case);
        let (moved, row) = (after.answer[2], after.answer[3]);
        let none = u64::from(NO_ROW);
        self.coverage.met(match (case, moved) {
            (0, _) if row == none => "propagate: infeasible, the box was empty",
            (0, 0) if row == 0 => "propagate: infeasible by row 0",
            (0, 0) => "propagate: infeasible by a later row",
            (0, _) => "propagate: infeasible, after bounds moved",
            (1, 0) => "propagate: converged, nothing moved",
            (1, _) => "propagate: converged, bounds moved",
            _ => "propagate: spent",
        });
        if before.reasons.is_empty() {
            self.coverage.met("propagate: no reasons asked for");
            return;
        }
        let told = after.reasons.iter().filter(|&&row| row != NO_ROW);
        if moved > told.clone().count() as u64 {
            self.coverage.met("propagate: a bound moved by two rows");
        }
        if told.clone().any(|&row| self.model.kinds[row as usize] == 1) {
            self.coverage.met("propagate: bounds moved by an = row");
        }
    }

    /// Counts what the reasons of an accepted probe met.
    fn note_sides(&mut self, before: &Lent, after: &Lent) {
        if is_empty(&before.bounds) {
            self.coverage.met("probe: infeasible, the box was empty");
        }
        if before.reasons.is_empty() {
            self.coverage.met("probe: no reasons asked for");
            return;
        }
        let (zero, one) = after.reasons.split_at(before.bounds.len());
        if after.answer[0] == 2
            && zero.iter().zip(one).any(|(a, b)| (*a == NO_ROW) != (*b == NO_ROW))
        {
            self.coverage.met("probe: a bound moved in one side alone");
        }
        if zero.iter().zip(one).any(|(a, b)| a != b && *a != NO_ROW && *b != NO_ROW) {
            self.coverage.met("probe: a bound moved by another row in each side");
        }
        let rows = &after.answer[8..10];
        let moved = [zero, one].map(|side| side.iter().any(|&row| row != NO_ROW));
        if rows.iter().zip(moved).any(|(&row, moved)| row != u64::from(NO_ROW) && moved) {
            self.coverage.met("probe: bounds moved in an infeasible side");
        }
    }

    /// A call that fails a check: nothing changes.
    fn refused(&mut self) -> Result<(), String> {
        let bounds = match &self.path[0] {
            root if is_empty(root) => return Ok(()),
            root => root.clone(),
        };
        let n = bounds.len() / 2;
        let mut operation = match self.rng.between(0, 1) {
            0 => Operation::Propagate { budget: 1_000 },
            _ => Operation::Probe { variable: self.rng.index(n) as u32, budget: 1_000 },
        };
        let at = self.rng.index(self.workspaces.len());
        let workspace = self.workspaces[at].clone();
        let mut lent = self.lend(operation, workspace, bounds);
        let place = self.rng.index(operation.checks().len());
        let mut ours = true;
        // From the last check to the chosen one: what is damaged later never repairs an earlier check.
        for later in (place..operation.checks().len()).rev() {
            if later == place || self.rng.chance(30) {
                let check = operation.checks()[later];
                ours &= self.damage(&mut operation, &mut lent, check);
            }
        }
        let number = operation.checks()[place];
        let (said, _) = compare(operation, &lent, ours.then_some(&self.prepared), self.actual)?;
        // A probed variable that is not free by itself, or one that the damage made so, is refused by 14.
        if said != number && !matches!(operation, Operation::Probe { .. }) {
            panic!("{operation:?} was made to return {number}, not {said}: {lent:?}");
        }
        if said != 0 {
            *self.coverage.refused.entry((operation.name(), said)).or_default() += 1;
        }
        Ok(())
    }

    /// Makes the call fail the check. Whether the workspace is still ours.
    fn damage(&mut self, operation: &mut Operation, lent: &mut Lent, check: u32) -> bool {
        let rng = &mut *self.rng;
        match (check, &mut *operation) {
            (5, _) => return self.damage_lengths(*operation, lent),
            (10, _) => *any(rng, &mut lent.table) = rng.pick(&[2, 3, 255]),
            (13, Operation::Probe { variable, .. }) => {
                *variable = rng.pick(&[self.prepared.n as u32, 128, u32::MAX]);
            }
            (14, Operation::Probe { variable, .. }) => {
                let k = (*variable as usize).min(self.prepared.n - 1);
                lent.bounds[2 * k..][..2].copy_from_slice(&rng.pick(&[[0, 0], [1, 1], [0, 2]]));
            }
            (15, Operation::Propagate { budget } | Operation::Probe { budget, .. }) => {
                *budget = rng.pick(&[0, MAX_BUDGET + 1, u32::MAX]);
            }
            _ => {
                let mut model = lent::Lent { bounds: lent.bounds.clone(), ..lent::Lent::default() };
                damage::wrong_number(rng, &mut model, check);
                lent.bounds = model.bounds;
            }
        }
        true
    }

    /// A wrong length, or a head that is not ours.
    fn damage_lengths(&mut self, operation: Operation, lent: &mut Lent) -> bool {
        let rng = &mut *self.rng;
        let probe = matches!(operation, Operation::Probe { .. });
        match rng.between(0, 6) {
            0 => resize(rng, &mut lent.bounds),
            1 => resize(rng, &mut lent.answer),
            2 if probe && rng.chance(50) => resize(rng, &mut lent.table),
            2 => {
                // One or two too many; of a probe also the room of one side.
                let n = self.prepared.n;
                let needed = 2 * operation.sides() * n;
                let one_side = if probe { 2 * n } else { needed + 1 };
                lent.reasons = vec![7; rng.pick(&[needed + 1, needed + 2, one_side])];
            }
            3 => {
                resize(rng, &mut lent.workspace);
                return false;
            }
            4 => {
                lent.workspace[0] ^= 1 << rng.index(32);
                return false;
            }
            5 => {
                lent.workspace[1] = rng.pick(&[0, 129, 1 << 31, u32::MAX]);
                return false;
            }
            _ => {
                lent.workspace[2] = rng.pick(&[121, 1 << 31, u32::MAX]);
                return false;
            }
        }
        true
    }

    /// A workspace whose length and head are ours and whose content is not: the call is accepted and ends, it writes
    /// nothing beyond what it is lent, and the bounds stay a box. Nothing else is promised.
    fn foreign(&mut self) -> Result<(), String> {
        let at = self.rng.index(self.workspaces.len());
        let mut workspace = self.workspaces[at].clone();
        let rng = &mut *self.rng;
        match rng.between(0, 3) {
            0 => workspace[4..].fill_with(|| rng.next_u64() as u32),
            1 => workspace[4..].fill_with(|| rng.pick(&[0, 1, 127, u32::MAX])),
            2 => {
                for _ in 0..rng.between(1, 200) {
                    let place = rng.pick(&[4, 8, 264, 384, 1_408]) + rng.index(130);
                    workspace[place] = rng.next_u64() as u32;
                }
            }
            _ => {
                workspace[1] = rng.between(1, MAX_VARIABLES as i64) as u32;
                workspace[2] = rng.between(0, MAX_ROWS as i64) as u32;
            }
        }
        let n = workspace[1] as usize;
        let mut bounds =
            self.path.last().expect("the root stays").repeat(1 + 128 / self.prepared.n);
        bounds.truncate(2 * n);
        let mut operation = self.operation(&bounds);
        let (Operation::Propagate { budget } | Operation::Probe { budget, .. }) = &mut operation;
        *budget = (*budget).min(1_000);
        let mut before = self.lend(operation, workspace, bounds);
        before.table.resize(if before.table.is_empty() { 0 } else { 4 * n * n }, 0);
        let mut lent = Guarded::new(&before);
        let said = self.actual.call(operation, lent.lend());
        let after = lent.into_lent().map_err(|e| format!("{operation:?}, {before:?}\n{e}"))?;
        if said != 0 || checks::numbers(&after.bounds, &[], &[]).is_err() {
            return Err(format!("{operation:?}, {before:?}\nreturned {said}, {:?}", after.bounds));
        }
        self.coverage.met("another workspace's content");
        Ok(())
    }
}

/// Makes a call on both sides and compares the number and every buffer but the workspace, which only a refusal must
/// leave as it was.
fn compare(
    operation: Operation,
    lent: &Lent,
    prepared: Option<&Prepared>,
    actual: &mut impl Backend,
) -> Result<(u32, Lent), String> {
    let mut expected = lent.clone();
    let number = {
        let Lent { bounds, reasons, table, answer, .. } = &mut expected;
        match operation {
            Operation::Propagate { budget } => {
                prepared::propagate(prepared, bounds, budget, reasons, answer)
            }
            Operation::Probe { variable, budget } => {
                prepared::probe(prepared, bounds, table, variable, budget, reasons, answer)
            }
        }
    };
    let mut cells = Guarded::new(lent);
    let said = actual.call(operation, cells.lend());
    let after = cells.into_lent().map_err(|error| format!("{operation:?}: {error}"))?;
    if said == 0 {
        expected.workspace.clone_from(&after.workspace);
    }
    if said == number && after == expected {
        return Ok((said, after));
    }
    let [left, right] = [&expected, &after].map(|lent| {
        format!("{:?}, reasons {:?}, answer {:?}", lent.bounds, lent.reasons, lent.answer)
    });
    let kept = if after.workspace == expected.workspace { "" } else { ", the workspace changed" };
    let rows = prepared.map(|rows| format!("{rows:?}")).unwrap_or_default();
    Err(format!(
        "{operation:?}, bounds {:?}\nreturned {said} instead of {number}{kept}\nexpected {left}\ngot      \
         {right}\n{rows}",
        lent.bounds
    ))
}

/// Of each side of an accepted call whether a row of it was infeasible: none is in the empty box.
fn infeasible_sides(operation: Operation, before: &Lent, after: &Lent) -> Vec<bool> {
    let tried = !is_empty(&before.bounds);
    match (operation, after.answer[0]) {
        (_, 0) => vec![tried; operation.sides()],
        (Operation::Probe { .. }, 1) => vec![after.answer[1] == 1, after.answer[1] == 0],
        _ => vec![false; operation.sides()],
    }
}

fn any<'a, T>(rng: &mut Rng, buffer: &'a mut [T]) -> &'a mut T {
    let at = rng.index(buffer.len());
    &mut buffer[at]
}

/// An element too many, too few, or none at all.
fn resize<T: Copy + Default>(rng: &mut Rng, buffer: &mut Vec<T>) {
    match rng.between(0, 2) {
        0 => buffer.push(T::default()),
        1 => drop(buffer.pop()),
        _ => buffer.clear(),
    }
}
