//! The comparison of two implementations, case by case.

use std::env;
use std::fmt;

use reference::plan;

use crate::cases::{self, Case, Step};
use crate::coverage::Coverage;
use crate::lent::{Backend, Lent, Loan, Operation};
use crate::points::{implications_hold, points, sum};

/// The default seed.
pub const SEED: u64 = 20_240_917;

/// Which cases to make.
#[derive(Clone, Copy, Debug)]
pub struct Plan {
    pub seed: u64,
    pub first: u64,
    pub cases: u64,
}

impl Plan {
    /// `cases` cases from the default seed; `ASTROLABE_SEED` and `ASTROLABE_CASES` overrule, and
    /// `ASTROLABE_CASE` makes one case alone.
    pub fn from_env(cases: u64) -> Self {
        let number = |name: &str| {
            env::var(name).ok().map(|text| {
                text.parse().unwrap_or_else(|_| panic!("{name}={text} is not a whole number"))
            })
        };
        let seed = number("ASTROLABE_SEED").unwrap_or(SEED);
        match number("ASTROLABE_CASE") {
            Some(first) => Plan { seed, first, cases: 1 },
            None => Plan { seed, first: 0, cases: number("ASTROLABE_CASES").unwrap_or(cases) },
        }
    }
}

/// Makes the plan's cases on both sides; the first difference ends it.
pub fn run(
    plan: Plan,
    expected: &mut impl Backend,
    actual: &mut impl Backend,
) -> Result<Coverage, Box<Difference>> {
    let mut coverage = Coverage::default();
    for number in plan.first..plan.first + plan.cases {
        let case = cases::case(plan.seed, number);
        play(case, &mut coverage, expected, actual).map_err(|mut difference| {
            difference.case = Some((plan.seed, number));
            difference
        })?;
    }
    Ok(coverage)
}

/// Makes the calls of a case on both sides.
pub fn play(
    case: Case,
    coverage: &mut Coverage,
    expected: &mut impl Backend,
    actual: &mut impl Backend,
) -> Result<(), Box<Difference>> {
    let mut lent = case.lent.clone();
    for Step { afresh, operation } in case.steps {
        if afresh {
            lent = case.lent.clone();
        }
        // No answer looks like this: what a call leaves unwritten is seen.
        lent.answer.fill(0x5a5a_5a5a_5a5a_5a5a);
        let before = lent.clone();
        let said = compare(operation, &mut lent, expected, actual)?;
        if let Some(number) = case.returns {
            assert_eq!(said, number, "{operation:?} was made to return {number}: {lent:?}");
        }
        if said == 0 {
            check_moved(operation, &before.bounds, &lent);
            check_not_spent(operation, &before.bounds, &lent.answer);
            if operation == Operation::Run {
                let (made, limit) = check_passes(&before, &lent, expected, actual)?;
                coverage.planned(&before, made, limit);
            }
            if operation == Operation::RunClasses {
                check_classes(&before, &lent, expected);
                coverage.classes(&lent.classes);
            }
            if matches!(operation, Operation::Tie { .. }) {
                let (kept, lost) = check_tie(&before, &lent);
                coverage.tied(kept, lost);
            }
            if operation == Operation::Cliques {
                let points = clique_points(&case.lent);
                check_clique_rows(&lent, &points);
                coverage.clique_rows(&lent, &points);
            }
        }
        coverage.note(operation, &before, said, &lent);
    }
    Ok(())
}

/// What the number of bounds moved says of itself (02, C-11), whatever the two sides agree on: a row moved
/// the bounds that differ, and each pass but the last moved one; without an infeasible row none moved
/// without a step of the total width.
fn check_moved(operation: Operation, before: &[i32], after: &Lent) {
    let width = |bounds: &[i32]| -> u64 {
        bounds.chunks(2).map(|pair| u64::from(pair[1].abs_diff(pair[0]))).sum()
    };
    let ends = |passes: u64, moved: u64| {
        assert!(passes <= moved + 1, "{operation:?}: {passes} passes, {moved} moved");
    };
    match (operation, &after.answer[..]) {
        (Operation::PropagateRow { .. }, &[case, moved, ..]) => {
            let differing =
                before.iter().zip(&after.bounds).filter(|(old, new)| old != new).count();
            assert_eq!(moved, if case == 0 { 0 } else { differing as u64 }, "{operation:?}");
        }
        (Operation::Propagate { .. }, &[case, passes, moved, ..]) => {
            ends(passes, moved);
            if case != 0 {
                assert!(
                    moved <= width(before) - width(&after.bounds),
                    "{operation:?}: {moved} moved"
                );
            }
        }
        (Operation::Probe { .. }, &[_, _, passes0, _, moved0, passes1, _, moved1, ..]) => {
            ends(passes0, moved0);
            ends(passes1, moved1);
        }
        _ => {}
    }
}

/// A budget above the total width is never spent (02, C-17).
fn check_not_spent(operation: Operation, before: &[i32], answer: &[u64]) {
    if let Operation::Propagate { budget } = operation
        && u64::from(budget) >= plan::budget(before)
    {
        assert_ne!(answer[0], 2, "{operation:?} was spent: {before:?}");
    }
}

/// What a tie promises of the points of a small model, whatever the two sides agree on (02, C-19): none is
/// added, and none is lost at which every recorded implication holds. How many were kept and lost.
fn check_tie(before: &Lent, after: &Lent) -> (usize, usize) {
    if after.answer[0] == 2 {
        let same = Lent { answer: after.answer.clone(), ..before.clone() };
        assert!(same == *after, "nothing changes where no tie is made: {before:?}");
        return (0, 0);
    }
    let (Some(old), Some(new)) = (points(before), points(after)) else { return (0, 0) };
    assert!(new.iter().all(|point| old.contains(point)), "a point was added: {before:?}");
    let lost: Vec<_> = old.iter().filter(|point| !new.contains(point)).collect();
    let wrong = lost.iter().find(|point| implications_hold(before, point));
    assert_eq!(wrong, None, "a point was lost: {before:?}");
    (new.len(), lost.len())
}

/// The points that must meet the clique rows: those of the model that the case began with, where its table
/// was all 0, so that its calls filled the table, and where they are few enough to be tried one by one.
fn clique_points(start: &Lent) -> Vec<Vec<i32>> {
    if start.table.contains(&1) {
        return Vec::new();
    }
    points(start).unwrap_or_default()
}

/// What the clique rows say of themselves (02, C-12), whatever the two sides agree on: each is over three
/// variables or more, no two are the same, and every point meets each of them.
fn check_clique_rows(after: &Lent, points: &[Vec<i32>]) {
    let (n, number) = (after.n, after.answer[0] as usize);
    let rows: Vec<&[i32]> = after.clique_coefs.chunks(n).take(number).collect();
    for (i, (coefs, &rhs)) in rows.iter().zip(&after.clique_rhs).enumerate() {
        assert!(coefs.iter().filter(|&&a| a != 0).count() >= 3, "row {i}: {after:?}");
        assert!(!rows[..i].contains(coefs), "row {i} is written twice: {after:?}");
        for point in points {
            assert!(sum(coefs, point) <= rhs.into(), "row {i} cuts off {point:?}: {after:?}");
        }
    }
}

/// A list's passes, counted call by call, never exceed the limit that the bounds and the list give (02,
/// C-17), and the calls one by one leave what the list left. The passes made and the limit.
fn check_passes(
    before: &Lent,
    after: &Lent,
    expected: &mut impl Backend,
    actual: &mut impl Backend,
) -> Result<(u64, u64), Box<Difference>> {
    let mut told = before.clone();
    let said = compare(Operation::PlanRun, &mut told, expected, actual)?;
    assert_eq!(said, 0, "a list that is run has a limit: {before:?}");
    let mut lent = before.clone();
    let made = before.calls.chunks(4).map(|record| call_alone(record, &mut lent, expected)).sum();
    let limit = told.answer[2];
    assert!(made <= limit, "{made} passes, told at most {limit}: {before:?}");
    lent.answer.clone_from(&after.answer);
    assert!(lent == *after, "a list is its calls: {before:?}");
    Ok((made, limit))
}

/// What a list tells of each record is what its call does by itself, and the four counts are those of the
/// classes.
fn check_classes(before: &Lent, after: &Lent, expected: &mut impl Backend) {
    let mut lent = before.clone();
    let alone = |record| class_alone(record, &mut lent, expected);
    let classes: Vec<u8> = before.calls.chunks(4).map(alone).collect();
    assert_eq!(after.classes, classes, "the classes are those of the calls: {before:?}");
    for (class, &count) in (0..).zip(&after.answer[..4]) {
        let told = classes.iter().filter(|&&c| c == class).count() as u64;
        assert_eq!(count, told, "the counts are those of the classes: {before:?}");
    }
}

/// The direct call that a record asks for. One of a retired kind asks for none (02, C-16), nor does one of no
/// kind.
fn direct(record: &[u32]) -> Option<Operation> {
    let &[kind, row, variable, budget] = record else { unreachable!("four numbers a record") };
    match kind {
        1 => Some(Operation::PropagateRow { row }),
        2 => Some(Operation::Propagate { budget }),
        3 => Some(Operation::Probe { variable, budget }),
        _ => None,
    }
}

/// Makes the call of a record by itself; the passes that it made.
fn call_alone(record: &[u32], lent: &mut Lent, backend: &mut impl Backend) -> u64 {
    let Some(operation) = direct(record) else { return 0 };
    match (backend.call(operation, lent.lend()), operation) {
        (0, Operation::Propagate { .. }) => lent.answer[1],
        (0, Operation::Probe { .. }) => lent.answer[2] + lent.answer[5],
        _ => 0,
    }
}

/// Makes the call of a record by itself; what it did: 0 refused, 1 None, 2 changed, 3 unchanged.
fn class_alone(record: &[u32], lent: &mut Lent, backend: &mut impl Backend) -> u8 {
    let Some(operation) = direct(record) else { return 0 };
    let before = lent.clone();
    if backend.call(operation, lent.lend()) != 0 {
        return 0;
    }
    if lent.answer[0] == 0 {
        return 1;
    }
    if lent.bounds == before.bounds && lent.table == before.table { 3 } else { 2 }
}

/// Makes one call on both sides and compares the number returned and every buffer. The buffers are
/// left as the call leaves them.
pub fn compare(
    operation: Operation,
    lent: &mut Lent,
    expected: &mut impl Backend,
    actual: &mut impl Backend,
) -> Result<u32, Box<Difference>> {
    let (mut left, mut right) = (Guarded::new(lent), Guarded::new(lent));
    let said = [expected.call(operation, left.lend()), actual.call(operation, right.lend())];
    if said[0] != said[1] || left != right {
        return Err(Box::new(Difference {
            case: None,
            operation,
            before: lent.clone(),
            said,
            after: [left.cells, right.cells],
        }));
    }
    *lent = left.into_lent();
    Ok(said[0])
}

/// Buffers with guard cells before and after each: a write beyond a buffer is seen as a difference.
#[derive(PartialEq)]
struct Guarded {
    cells: Lent,
}

/// Guard cells on each side of a buffer.
const GUARD: usize = 4;

impl Guarded {
    fn new(lent: &Lent) -> Self {
        fn guard<T: Copy>(buffer: &[T], mark: T) -> Vec<T> {
            let marks = [mark; GUARD];
            [&marks, buffer, &marks].concat()
        }
        let cells = Lent {
            n: lent.n,
            m: lent.m,
            bounds: guard(&lent.bounds, 0x5555_5555),
            coefs: guard(&lent.coefs, 0x5555_5555),
            rhs: guard(&lent.rhs, 0x5555_5555),
            kinds: guard(&lent.kinds, 0x55),
            table: guard(&lent.table, 0x55),
            ties: guard(&lent.ties, 0x5555),
            calls: guard(&lent.calls, 0x5555_5555),
            classes: guard(&lent.classes, 0x55),
            book: guard(&lent.book, 0x55),
            clique_coefs: guard(&lent.clique_coefs, 0x5555_5555),
            clique_rhs: guard(&lent.clique_rhs, 0x5555_5555),
            to: guard(&lent.to, 0x55),
            answer: guard(&lent.answer, 0x5555_5555_5555_5555),
        };
        Guarded { cells }
    }

    fn lend(&mut self) -> Loan<'_> {
        fn inner<T>(cells: &mut [T]) -> &mut [T] {
            let end = cells.len() - GUARD;
            &mut cells[GUARD..end]
        }
        let cells = &mut self.cells;
        Loan {
            n: cells.n,
            m: cells.m,
            bounds: inner(&mut cells.bounds),
            coefs: inner(&mut cells.coefs),
            rhs: inner(&mut cells.rhs),
            kinds: inner(&mut cells.kinds),
            table: inner(&mut cells.table),
            ties: inner(&mut cells.ties),
            calls: inner(&mut cells.calls),
            classes: inner(&mut cells.classes),
            book: inner(&mut cells.book),
            clique_coefs: inner(&mut cells.clique_coefs),
            clique_rhs: inner(&mut cells.clique_rhs),
            to: inner(&mut cells.to),
            answer: inner(&mut cells.answer),
        }
    }

    fn into_lent(mut self) -> Lent {
        let loan = self.lend();
        Lent {
            n: loan.n,
            m: loan.m,
            bounds: loan.bounds.to_vec(),
            coefs: loan.coefs.to_vec(),
            rhs: loan.rhs.to_vec(),
            kinds: loan.kinds.to_vec(),
            table: loan.table.to_vec(),
            ties: loan.ties.to_vec(),
            calls: loan.calls.to_vec(),
            classes: loan.classes.to_vec(),
            book: loan.book.to_vec(),
            clique_coefs: loan.clique_coefs.to_vec(),
            clique_rhs: loan.clique_rhs.to_vec(),
            to: loan.to.to_vec(),
            answer: loan.answer.to_vec(),
        }
    }
}

/// A call on which the two sides differ.
pub struct Difference {
    /// The seed and the number of the case.
    pub case: Option<(u64, u64)>,
    pub operation: Operation,
    pub before: Lent,
    /// The numbers returned: expected, actual.
    pub said: [u32; 2],
    /// All cells after the call, guards included: expected, actual.
    pub after: [Lent; 2],
}

impl fmt::Display for Difference {
    fn fmt(&self, f: &mut fmt::Formatter) -> fmt::Result {
        fn first<T: PartialEq + fmt::Debug>(
            f: &mut fmt::Formatter,
            name: &str,
            [left, right]: [&[T]; 2],
        ) -> fmt::Result {
            match (0..left.len()).find(|&at| left[at] != right[at]) {
                Some(at) => writeln!(
                    f,
                    "  {name}[{}]: expected {:?}, got {:?}",
                    at as isize - GUARD as isize,
                    left[at],
                    right[at]
                ),
                None => Ok(()),
            }
        }
        writeln!(f, "{:?}, n = {}, m = {}", self.operation, self.before.n, self.before.m)?;
        if let Some((seed, case)) = self.case {
            writeln!(f, "  again: ASTROLABE_SEED={seed} ASTROLABE_CASE={case}")?;
        }
        writeln!(f, "  returned: expected {}, got {}", self.said[0], self.said[1])?;
        let [left, right] = &self.after;
        first(f, "bounds", [&left.bounds, &right.bounds])?;
        first(f, "coefs", [&left.coefs, &right.coefs])?;
        first(f, "rhs", [&left.rhs, &right.rhs])?;
        first(f, "kinds", [&left.kinds, &right.kinds])?;
        first(f, "table", [&left.table, &right.table])?;
        first(f, "ties", [&left.ties, &right.ties])?;
        first(f, "calls", [&left.calls, &right.calls])?;
        first(f, "classes", [&left.classes, &right.classes])?;
        first(f, "book", [&left.book, &right.book])?;
        first(f, "clique_coefs", [&left.clique_coefs, &right.clique_coefs])?;
        first(f, "clique_rhs", [&left.clique_rhs, &right.clique_rhs])?;
        first(f, "to", [&left.to, &right.to])?;
        first(f, "answer", [&left.answer, &right.answer])?;
        if self.before.n.saturating_mul(self.before.m) <= 64 {
            writeln!(f, "  before: {:?}", self.before)?;
        }
        Ok(())
    }
}

impl fmt::Debug for Difference {
    fn fmt(&self, f: &mut fmt::Formatter) -> fmt::Result {
        write!(f, "{self}")
    }
}
