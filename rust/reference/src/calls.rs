//! The calls as the C interface has them.
//!
//! Each returns 0 or the number of the failed check, and writes its answer into twelve places, 0 into
//! those that it does not use. On a refusal nothing is written. The length of `answer` is check 5, with
//! the other lengths.
#![allow(clippy::too_many_arguments)] // the interface is what it is

use crate::checks::{self, Check};
use crate::cliques as clique_rows;
use crate::list::{self, Counts};
use crate::pages;
use crate::plan;
use crate::probing::{self, Rest, Verdict};
use crate::propagation::{self, Ending};
use crate::rounds::{self, Rounds, RoundsEnding};
use crate::row::{self, AT_MOST, Outcome, RowPropagation, Rows};
use crate::ties::Tied;
use crate::{State, book, bounds as boxes, sparse};

/// The places of an answer.
pub const ANSWER: usize = 12;

pub(crate) type Answer = Result<[u64; ANSWER], u32>;

/// Fills the places from the left, the others with 0.
pub(crate) fn places<const N: usize>(values: [u64; N]) -> [u64; ANSWER] {
    let mut all = [0; ANSWER];
    all[..N].copy_from_slice(&values);
    all
}

/// Makes a call, which is told the answer's length, and writes its answer; or returns the number of the
/// failed check.
pub(crate) fn reply(answer: &mut [u64], call: impl FnOnce(usize) -> Answer) -> u32 {
    match call(answer.len()) {
        Ok(values) => {
            answer.copy_from_slice(&values);
            0
        }
        Err(check) => check,
    }
}

/// Checks 3, 5, 6, 7, 23, 8, 9, 16 and 10 of a model, with its table where the call is lent one; `others` are
/// the lengths of further lent buffers, with the lengths that they need.
pub(crate) fn check_model(
    n: usize,
    m: usize,
    bounds: &[i32],
    coefs: &[i32],
    rhs: &[i32],
    kinds: &[u8],
    table: Option<&[u8]>,
    others: &[(usize, usize)],
) -> Check {
    checks::size(n, m)?;
    checks::lengths(&[
        (bounds.len(), 2 * n),
        (coefs.len(), m * n),
        (rhs.len(), m),
        (kinds.len(), m),
    ])?;
    if let Some(table) = table {
        checks::lengths(&[(table.len(), 4 * n * n)])?;
    }
    checks::lengths(others)?;
    checks::numbers(bounds, coefs, rhs)?;
    checks::kinds(kinds)?;
    table.map_or(Ok(()), checks::table)
}

fn outcome(outcome: Outcome) -> [u64; ANSWER] {
    places([match outcome {
        Outcome::Infeasible => 0,
        Outcome::Changed => 1,
        Outcome::Unchanged => 2,
    }])
}

/// 01's visit.
pub fn propagate_row(
    n: usize,
    m: usize,
    bounds: &mut [i32],
    coefs: &[i32],
    rhs: &[i32],
    kinds: &[u8],
    row: u32,
    answer: &mut [u64],
) -> u32 {
    reply(answer, |places_lent| {
        check_model(n, m, bounds, coefs, rhs, kinds, None, &[(places_lent, ANSWER)])?;
        checks::row(row, m)?;
        if boxes::is_empty(bounds) {
            return Ok(places([0, 0]));
        }
        let row = Rows::new(n, coefs, rhs, kinds).at(row as usize);
        Ok(match row::propagate_row(bounds, row) {
            RowPropagation::Infeasible => places([0, 0]),
            RowPropagation::Tightened(moved) => places([1, moved.into()]),
            RowPropagation::Unchanged => places([2, 0]),
        })
    })
}

pub(crate) fn ending_case(ending: Ending) -> u64 {
    match ending {
        Ending::Infeasible => 0,
        Ending::Converged => 1,
        Ending::BudgetSpent => 2,
    }
}

/// 01's settle.
pub fn propagate(
    n: usize,
    m: usize,
    bounds: &mut [i32],
    coefs: &[i32],
    rhs: &[i32],
    kinds: &[u8],
    budget: u32,
    answer: &mut [u64],
) -> u32 {
    reply(answer, |places_lent| {
        check_model(n, m, bounds, coefs, rhs, kinds, None, &[(places_lent, ANSWER)])?;
        checks::budget(budget)?;
        let rows = Rows::new(n, coefs, rhs, kinds);
        let propagation = propagation::propagate(bounds, rows, budget);
        let case = ending_case(propagation.ending);
        Ok(places([case, propagation.passes.into(), propagation.moved.into()]))
    })
}

/// 01's probe.
pub fn probe(
    n: usize,
    m: usize,
    bounds: &mut [i32],
    coefs: &[i32],
    rhs: &[i32],
    kinds: &[u8],
    table: &mut [u8],
    variable: u32,
    budget: u32,
    answer: &mut [u64],
) -> u32 {
    reply(answer, |places_lent| {
        check_model(n, m, bounds, coefs, rhs, kinds, Some(table), &[(places_lent, ANSWER)])?;
        checks::free_variable(variable, bounds)?;
        checks::budget(budget)?;
        let rows = Rows::new(n, coefs, rhs, kinds);
        let probe = probing::probe(bounds, rows, table, variable as usize, budget);
        let [side0, side1] = probe.sides;
        let (case, value) = match probe.verdict {
            Verdict::Infeasible => (0, 0),
            Verdict::Fixed(v) => (1, v as u64),
            Verdict::BothFeasible(new) => (2, new),
        };
        Ok(places([
            case,
            value,
            side0.passes.into(),
            side0.spent.into(),
            side0.moved.into(),
            side1.passes.into(),
            side1.spent.into(),
            side1.moved.into(),
        ]))
    })
}

/// 01's sharpen.
pub fn tighten_coefficient(
    n: usize,
    m: usize,
    bounds: &[i32],
    coefs: &mut [i32],
    rhs: &mut [i32],
    kinds: &[u8],
    row: u32,
    variable: u32,
    answer: &mut [u64],
) -> u32 {
    reply(answer, |places_lent| {
        check_model(n, m, bounds, coefs, rhs, kinds, None, &[(places_lent, ANSWER)])?;
        checks::row(row, m)?;
        checks::free_variable(variable, bounds)?;
        let (r, k) = (row as usize, variable as usize);
        let coefs = &mut coefs[r * n..][..n];
        Ok(outcome(row::tighten_coefficient(bounds, coefs, &mut rhs[r], kinds[r], k)))
    })
}

/// 01's drop.
pub fn remove_redundant_row(
    n: usize,
    m: usize,
    bounds: &[i32],
    coefs: &mut [i32],
    rhs: &mut [i32],
    kinds: &mut [u8],
    row: u32,
    answer: &mut [u64],
) -> u32 {
    reply(answer, |places_lent| {
        check_model(n, m, bounds, coefs, rhs, kinds, None, &[(places_lent, ANSWER)])?;
        checks::row(row, m)?;
        let r = row as usize;
        let coefs = &mut coefs[r * n..][..n];
        Ok(outcome(row::remove_redundant_row(bounds, coefs, &mut rhs[r], &mut kinds[r])))
    })
}

/// 01's rest call.
pub fn is_probing_fixpoint(
    n: usize,
    m: usize,
    bounds: &[i32],
    coefs: &[i32],
    rhs: &[i32],
    kinds: &[u8],
    answer: &mut [u64],
) -> u32 {
    reply(answer, |places_lent| {
        check_model(n, m, bounds, coefs, rhs, kinds, None, &[(places_lent, ANSWER)])?;
        let rows = Rows::new(n, coefs, rhs, kinds);
        Ok(match probing::rest(bounds, rows) {
            Rest::Yes => places([1]),
            Rest::NoByRow(row) => places([0, 0, row as u64]),
            Rest::NoByVariable(variable) => places([0, 1, variable as u64]),
        })
    })
}

/// 01's run sheet; `calls` has four numbers a record.
pub fn run(
    n: usize,
    m: usize,
    bounds: &mut [i32],
    coefs: &mut [i32],
    rhs: &mut [i32],
    kinds: &mut [u8],
    table: &mut [u8],
    calls: &[u32],
    answer: &mut [u64],
) -> u32 {
    reply(answer, |places_lent| {
        let (records, rest) = calls.as_chunks();
        let lengths = [(rest.len(), 0), (places_lent, ANSWER)];
        check_model(n, m, bounds, coefs, rhs, kinds, Some(table), &lengths)?;
        Ok(counts(list::run(&mut State { n, bounds, coefs, rhs, kinds, table }, records)))
    })
}

fn counts(Counts { refused, none, changed, unchanged }: Counts) -> [u64; ANSWER] {
    places([refused, none, changed, unchanged])
}

/// The same with a byte for each record: the number of what it did.
pub fn run_classes(
    n: usize,
    m: usize,
    bounds: &mut [i32],
    coefs: &mut [i32],
    rhs: &mut [i32],
    kinds: &mut [u8],
    table: &mut [u8],
    calls: &[u32],
    classes: &mut [u8],
    answer: &mut [u64],
) -> u32 {
    reply(answer, |places_lent| {
        let (records, rest) = calls.as_chunks();
        let lengths = [(rest.len(), 0), (classes.len(), records.len()), (places_lent, ANSWER)];
        check_model(n, m, bounds, coefs, rhs, kinds, Some(table), &lengths)?;
        let told = list::classes(&mut State { n, bounds, coefs, rhs, kinds, table }, records);
        for (byte, &class) in classes.iter_mut().zip(&told) {
            *byte = class as u8;
        }
        Ok(counts(Counts::of(&told)))
    })
}

/// The rounds of 01's program `reduce`, with a limit given.
pub fn rounds(
    n: usize,
    m: usize,
    bounds: &mut [i32],
    coefs: &mut [i32],
    rhs: &mut [i32],
    kinds: &mut [u8],
    table: &mut [u8],
    limit: u64,
    answer: &mut [u64],
) -> u32 {
    reply(answer, |places_lent| {
        check_model(n, m, bounds, coefs, rhs, kinds, Some(table), &[(places_lent, ANSWER)])?;
        let mut state = State { n, bounds, coefs, rhs, kinds, table };
        let Rounds { ending, made, spent } = rounds::rounds(&mut state, limit);
        let case = match ending {
            RoundsEnding::Infeasible => 0,
            RoundsEnding::Unchanged => 1,
            RoundsEnding::LimitReached => 2,
        };
        Ok(places([case, made, spent.into()]))
    })
}

/// Ties variable j to variable k (02, C-19). It writes rows and the tie list.
pub fn tie(
    n: usize,
    m: usize,
    bounds: &[i32],
    coefs: &mut [i32],
    rhs: &mut [i32],
    kinds: &[u8],
    table: &[u8],
    ties: &mut [u16],
    k: u32,
    j: u32,
    answer: &mut [u64],
) -> u32 {
    reply(answer, |places_lent| {
        let lengths = [(ties.len(), n), (places_lent, ANSWER)];
        check_model(n, m, bounds, coefs, rhs, kinds, Some(table), &lengths)?;
        checks::places(ties, n)?;
        checks::variable(k, n)?;
        checks::variable(j, n)?;
        let tied = Tied { n, bounds, coefs, rhs, table, ties }.tie(k as usize, j as usize);
        Ok(places([if tied { 1 } else { 2 }]))
    })
}

/// n and m of 16 trailer bytes.
pub fn book_trailer(bytes: &[u8], answer: &mut [u64]) -> u32 {
    reply(answer, |places_lent| {
        let (n, m) = book::trailer(bytes, places_lent == ANSWER)?;
        Ok(places([n as u64, m as u64]))
    })
}

/// Checks 3, 5, 6, 7 and 23 of n and the bounds, where neither m nor a row is lent; `others` as in
/// [`check_model`].
fn check_bounds(n: usize, bounds: &[i32], others: &[(usize, usize)]) -> Check {
    checks::size(n, 0)?;
    checks::lengths(&[(bounds.len(), 2 * n)])?;
    checks::lengths(others)?;
    checks::numbers(bounds, &[], &[])
}

/// The length of each buffer that the n and m of 16 trailer bytes fix (02, C-17).
pub fn plan_lengths(bytes: &[u8], answer: &mut [u64]) -> u32 {
    reply(answer, |places_lent| {
        let (n, m) = book::trailer(bytes, places_lent == ANSWER)?;
        Ok(places(plan::lengths(n, m).map(|length| length as u64)))
    })
}

/// The total width of a box and a budget that is never spent (02, C-17).
pub fn plan_width(n: usize, bounds: &[i32], answer: &mut [u64]) -> u32 {
    reply(answer, |places_lent| {
        check_bounds(n, bounds, &[(places_lent, ANSWER)])?;
        Ok(places([plan::width(bounds), plan::budget(bounds)]))
    })
}

/// The same, and an upper limit on the passes that a list makes (02, C-17); `calls` has four numbers a record.
pub fn plan_run(n: usize, bounds: &[i32], calls: &[u32], answer: &mut [u64]) -> u32 {
    reply(answer, |places_lent| {
        let (records, rest) = calls.as_chunks();
        let beyond = records.len().saturating_sub(plan::MAX_RECORDS);
        check_bounds(n, bounds, &[(rest.len(), 0), (beyond, 0), (places_lent, ANSWER)])?;
        Ok(places([plan::width(bounds), plan::budget(bounds), plan::passes(bounds, records)]))
    })
}

/// Writes the clique rows of the table into a lent list of 2n rows (02, C-12). It needs n and the table only.
pub fn cliques(
    n: usize,
    table: &[u8],
    clique_coefs: &mut [i32],
    clique_rhs: &mut [i32],
    answer: &mut [u64],
) -> u32 {
    reply(answer, |places_lent| {
        checks::size(n, 0)?;
        checks::lengths(&[
            (table.len(), 4 * n * n),
            (clique_coefs.len(), 2 * n * n),
            (clique_rhs.len(), 2 * n),
            (places_lent, ANSWER),
        ])?;
        checks::table(table)?;
        Ok(places([clique_rows::write(n, table, clique_coefs, clique_rhs) as u64]))
    })
}

/// The number of pages of a table (02, C-23). Checks 3, 5 and 10.
pub fn page_count(n: usize, table: &[u8], answer: &mut [u64]) -> u32 {
    reply(answer, |places_lent| {
        checks::size(n, 0)?;
        checks::lengths(&[(table.len(), 4 * n * n), (places_lent, ANSWER)])?;
        checks::table(table)?;
        Ok(places([pages::count(n, table) as u64]))
    })
}

/// Writes the pages of a box and a table (02, C-23). Checks 3, 5, 6, 7, 23 and 10: the number of pages, which
/// gives the length, is that of the bytes that are 1, and other bytes are left to 10.
pub fn write_pages(n: usize, bounds: &[i32], table: &[u8], lent: &mut [u8]) -> u32 {
    let check = || -> Check {
        checks::size(n, 0)?;
        checks::lengths(&[(bounds.len(), 2 * n), (table.len(), 4 * n * n)])?;
        checks::lengths(&[(lent.len(), pages::PAGE * pages::count(n, table))])?;
        checks::numbers(bounds, &[], &[])?;
        checks::table(table)
    };
    if let Err(check) = check() {
        return check;
    }
    lent.copy_from_slice(&pages::write(n, bounds, table));
    0
}

/// Reads a book into lent buffers. 02, C-14: "First-edition books have kind 0 throughout."
pub fn book_read(
    book: &[u8],
    bounds: &mut [i32],
    coefs: &mut [i32],
    rhs: &mut [i32],
    kinds: &mut [u8],
    answer: &mut [u64],
) -> u32 {
    reply(answer, |places_lent| {
        let (n, m) = book::size(book)?;
        checks::lengths(&[
            (bounds.len(), 2 * n),
            (coefs.len(), m * n),
            (rhs.len(), m),
            (kinds.len(), m),
            (places_lent, ANSWER),
        ])?;
        let (new_bounds, new_coefs, new_rhs) = book::numbers(book, n, m);
        checks::numbers(&new_bounds, &new_coefs, &new_rhs)?;
        bounds.copy_from_slice(&new_bounds);
        coefs.copy_from_slice(&new_coefs);
        rhs.copy_from_slice(&new_rhs);
        kinds.fill(AT_MOST);
        Ok(places([n as u64, m as u64]))
    })
}

/// Writes the book of a model into a lent buffer of exactly its length. A first-edition book holds no = row.
pub fn book_write(
    n: usize,
    m: usize,
    bounds: &[i32],
    coefs: &[i32],
    rhs: &[i32],
    kinds: &[u8],
    book: &mut [u8],
) -> u32 {
    let check = || -> Check {
        checks::size(n, m)?; // before a length is reckoned from it
        check_model(n, m, bounds, coefs, rhs, kinds, None, &[(book.len(), book::length(n, m))])?;
        checks::no_equality(kinds)
    };
    if let Err(check) = check() {
        return check;
    }
    book.copy_from_slice(&book::write(n, m, bounds, coefs, rhs));
    0
}

/// n and m of the 16 trailer bytes of a sparse book (02, C-18).
pub fn sparse_trailer(bytes: &[u8], answer: &mut [u64]) -> u32 {
    reply(answer, |places_lent| {
        let (n, m) = sparse::trailer(bytes, places_lent == ANSWER)?;
        Ok(places([n as u64, m as u64]))
    })
}

/// Reads a sparse book into lent buffers.
pub fn sparse_read(
    book: &[u8],
    bounds: &mut [i32],
    coefs: &mut [i32],
    rhs: &mut [i32],
    kinds: &mut [u8],
    answer: &mut [u64],
) -> u32 {
    reply(answer, |places_lent| {
        let (n, m, starts) = sparse::layout(book)?;
        checks::lengths(&[
            (bounds.len(), 2 * n),
            (coefs.len(), m * n),
            (rhs.len(), m),
            (kinds.len(), m),
            (places_lent, ANSWER),
        ])?;
        let new = sparse::numbers(book, n, &starts);
        checks::numbers(&new.bounds, &new.coefs, &new.rhs)?;
        checks::kinds(&new.kinds)?;
        bounds.copy_from_slice(&new.bounds);
        coefs.copy_from_slice(&new.coefs);
        rhs.copy_from_slice(&new.rhs);
        kinds.copy_from_slice(&new.kinds);
        Ok(places([n as u64, m as u64]))
    })
}

/// Writes the sparse book of a model into a lent buffer of exactly its length.
pub fn sparse_write(
    n: usize,
    m: usize,
    bounds: &[i32],
    coefs: &[i32],
    rhs: &[i32],
    kinds: &[u8],
    book: &mut [u8],
) -> u32 {
    let check = || -> Check {
        checks::size(n, m)?; // before a length is reckoned from it
        check_model(
            n,
            m,
            bounds,
            coefs,
            rhs,
            kinds,
            None,
            &[(book.len(), sparse::length(n, m, coefs))],
        )
    };
    if let Err(check) = check() {
        return check;
    }
    book.copy_from_slice(&sparse::write(n, bounds, coefs, rhs, kinds));
    0
}

/// The length of the sparse book of a model.
pub fn sparse_length(
    n: usize,
    m: usize,
    bounds: &[i32],
    coefs: &[i32],
    rhs: &[i32],
    kinds: &[u8],
    answer: &mut [u64],
) -> u32 {
    reply(answer, |places_lent| {
        check_model(n, m, bounds, coefs, rhs, kinds, None, &[(places_lent, ANSWER)])?;
        Ok(places([sparse::length(n, m, coefs) as u64]))
    })
}

/// The length of the sparse edition of a first-edition book.
pub fn book_to_sparse_length(book: &[u8], answer: &mut [u64]) -> u32 {
    reply(answer, |places_lent| {
        let (n, m) = book::size(book)?;
        checks::lengths(&[(places_lent, ANSWER)])?;
        let (bounds, coefs, rhs) = book::numbers(book, n, m);
        checks::numbers(&bounds, &coefs, &rhs)?;
        Ok(places([sparse::length(n, m, &coefs) as u64]))
    })
}

/// Turns a first-edition book into a sparse one.
pub fn book_to_sparse(from: &[u8], to: &mut [u8]) -> u32 {
    let convert = || -> Result<Vec<u8>, u32> {
        let (n, m) = book::size(from)?;
        let (bounds, coefs, rhs) = book::numbers(from, n, m);
        checks::lengths(&[(to.len(), sparse::length(n, m, &coefs))])?;
        checks::numbers(&bounds, &coefs, &rhs)?;
        Ok(sparse::write(n, &bounds, &coefs, &rhs, &vec![AT_MOST; m]))
    };
    put(convert(), to)
}

/// Turns a sparse book into a first-edition one: "an = row is refused as 17".
pub fn sparse_to_book(from: &[u8], to: &mut [u8]) -> u32 {
    let convert = || -> Result<Vec<u8>, u32> {
        let (n, m, starts) = sparse::layout(from)?;
        checks::lengths(&[(to.len(), book::length(n, m))])?;
        let new = sparse::numbers(from, n, &starts);
        checks::numbers(&new.bounds, &new.coefs, &new.rhs)?;
        checks::kinds(&new.kinds)?;
        checks::no_equality(&new.kinds)?;
        Ok(book::write(n, m, &new.bounds, &new.coefs, &new.rhs))
    };
    put(convert(), to)
}

/// A book into a buffer of its length, or the number of the check that refuses it.
fn put(book: Result<Vec<u8>, u32>, to: &mut [u8]) -> u32 {
    match book {
        Ok(book) => {
            to.copy_from_slice(&book);
            0
        }
        Err(check) => check,
    }
}
