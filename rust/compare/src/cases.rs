//! Cases: a model and the calls made on it, from a seed and a number.

use reference::row::EQUAL;

use crate::damage;
use crate::lent::{Lent, Operation};
use crate::models::{self, Family, MAX_BUDGET, MAX_WIDTH};
use crate::rng::Rng;

/// Buffers and the calls made on them, one after another.
#[derive(Debug)]
pub struct Case {
    pub lent: Lent,
    pub steps: Vec<Step>,
    /// What the call must return where the case was made for it: the check that fails, or 0.
    pub returns: Option<u32>,
}

/// A call on what the call before it left, or afresh on what the case began with: after a few calls a
/// model is often at rest or empty, and nothing would happen any more.
#[derive(Clone, Copy, Debug)]
pub struct Step {
    pub afresh: bool,
    pub operation: Operation,
}

/// A case of one accepted call.
fn single(lent: Lent, operation: Operation) -> Case {
    Case { lent, steps: vec![Step { afresh: false, operation }], returns: None }
}

/// Case `number` of a seed.
pub fn case(seed: u64, number: u64) -> Case {
    let mut rng = Rng::for_case(seed, number);
    match number % 10 {
        0..4 if rng.chance(4) => pages(&mut rng),
        0..4 => session(&mut rng),
        4 => tied(&mut rng),
        5 if number % 20 == 5 => book(&mut rng),
        5 => sparse_book(&mut rng),
        6 => around_the_widest(&mut rng),
        7 if number % 20 == 7 => clique_rows(&mut rng),
        7 => damaged_sparse(&mut rng),
        _ => damaged(&mut rng),
    }
}

/// An accepted model and a handful of calls on it, refused ones among them.
fn session(rng: &mut Rng) -> Case {
    let family = match rng.between(0, 999) {
        0..300 => Family::Tiny,
        300..600 => Family::Binary,
        600..800 => Family::Mixed,
        800..810 => Family::Largest,
        810..870 => Family::Limits,
        870..890 => Family::LeastRhs,
        890..950 => Family::Crawling,
        _ => Family::Empty,
    };
    let mut lent = models::model(rng, family);
    lend_calls(rng, &mut lent);
    lend_list(&mut lent);
    let count = if family == Family::Largest { 3 } else { rng.between(4, 12) };
    let steps = (0..count)
        .map(|_| Step { afresh: rng.chance(50), operation: operation(rng, &lent) })
        .collect();
    Case { lent, steps, returns: None }
}

/// Ties and what leads to them: probes, which fill the table, and ties of any two variables.
fn tied(rng: &mut Rng) -> Case {
    let (mut lent, pairs) = models::tied(rng);
    lend_calls(rng, &mut lent);
    if rng.chance(5) {
        lent.bounds = [1, 0].repeat(lent.n);
    }
    // A table from elsewhere says something already.
    let said = lent.table.contains(&1);
    let probes = if rng.chance(if said { 20 } else { 95 }) { lent.n as u32 } else { 0 };
    let probed = (0..probes).map(|variable| Operation::Probe { variable, budget: 1_000 });
    let mut operations: Vec<Operation> = probed.collect();
    for _ in 0..rng.between(3, 12) {
        operations.push(match rng.between(0, 9) {
            0 => operation(rng, &lent),
            1..6 => Operation::Tie { k: variable(rng, &lent), j: variable(rng, &lent) },
            _ => {
                let [k, j] = rng.pick(&pairs);
                Operation::Tie { k, j }
            }
        });
    }
    let steps = operations.into_iter().map(|operation| Step { afresh: false, operation }).collect();
    Case { lent, steps, returns: None }
}

/// The work of carrying propagation to its end where every pass moves one bound by one.
fn longest_crawl(lent: &Lent) -> i64 {
    let width: i64 = lent.bounds.chunks(2).map(|pair| i64::from(pair[1] - pair[0]).max(0)).sum();
    (width + 1) * (lent.n * lent.m) as i64
}

/// What a call without a small budget may take: beyond it one case could take minutes.
const LONGEST: i64 = 20_000_000;

/// A call of any kind; now and then with a row, variable or budget that is refused.
fn operation(rng: &mut Rng, lent: &Lent) -> Operation {
    let crawls_long = longest_crawl(lent) > LONGEST;
    let largest = lent.n * lent.m > 5_000;
    let (row, other, variable) = (row(rng, lent), variable(rng, lent), variable(rng, lent));
    let budget = if crawls_long { budget(rng).min(1_000) } else { budget(rng) };
    match rng.between(0, 17) {
        0..3 => Operation::PropagateRow { row },
        3..5 => Operation::Propagate { budget },
        5..9 => Operation::Probe { variable, budget },
        9..11 => Operation::TightenCoefficient { row, variable },
        11 => Operation::RemoveRedundantRow { row },
        12 if !crawls_long => Operation::IsProbingFixpoint,
        13 if largest => Operation::Rounds { limit: rng.pick(&[0, 1]) },
        13 if crawls_long => Operation::Rounds { limit: rng.pick(&[0, 1, 2, 3, 8, 100]) },
        13 => Operation::Rounds { limit: rng.pick(&[0, 1, 2, 3, 8, 1 << 32, u64::MAX]) },
        14 => rng.pick(&[Operation::PlanWidth, Operation::PlanRun]),
        15 => Operation::Tie { k: variable, j: other },
        17 => Operation::Cliques,
        _ => rng.pick(&[Operation::Run, Operation::RunClasses]),
    }
}

/// A row: mostly one that exists.
fn row(rng: &mut Rng, lent: &Lent) -> u32 {
    match rng.between(0, 19) {
        0 => rng.pick(&[lent.m as u32, u32::MAX]),
        _ => rng.index(lent.m.max(1)) as u32,
    }
}

/// A variable: mostly one that is free where there is one.
fn variable(rng: &mut Rng, lent: &Lent) -> u32 {
    let free: Vec<u32> = (0..lent.n as u32)
        .filter(|&k| reference::bounds::is_free(&lent.bounds, k as usize))
        .collect();
    match rng.between(0, 19) {
        0 => rng.pick(&[lent.n as u32, u32::MAX]),
        1 | 2 => rng.index(lent.n) as u32,
        _ if free.is_empty() => rng.index(lent.n) as u32,
        _ => rng.pick(&free),
    }
}

fn budget(rng: &mut Rng) -> u32 {
    match rng.between(0, 19) {
        0 => rng.pick(&[0, MAX_BUDGET + 1, u32::MAX]),
        1..8 => rng.between(1, 4) as u32,
        8..14 => rng.pick(&[1_000, 100]),
        _ => MAX_BUDGET,
    }
}

/// Records of all kinds, with numbers in the fields that a kind lacks.
fn call_list(rng: &mut Rng, lent: &Lent) -> Vec<u32> {
    let crawls_long = longest_crawl(lent) > LONGEST;
    (0..rng.between(0, 12))
        .flat_map(|_| {
            let kind = match rng.between(0, 29) {
                0 => rng.pick(&[0, 6, u32::MAX]),
                _ => rng.pick(&[1, 2, 3, 3, 4, 4, 5]),
            };
            let budget = if crawls_long { budget(rng).min(1_000) } else { budget(rng) };
            [kind, row(rng, lent), variable(rng, lent), budget]
        })
        .collect()
}

/// A call list, and a byte for each of its records that no class has.
fn lend_calls(rng: &mut Rng, lent: &mut Lent) {
    lent.calls = call_list(rng, lent);
    lent.classes = vec![0x5a; lent.calls.len() / 4];
}

/// Writes a model into a book, which an = row refuses, and reads one back into other buffers, trailer first.
fn book(rng: &mut Rng) -> Case {
    let family = rng.pick(&[Family::Tiny, Family::Mixed, Family::Limits, Family::Empty]);
    let family = if rng.chance(1) { Family::Largest } else { family };
    let mut lent = models::model(rng, family);
    match rng.between(0, 2) {
        0 => {
            lent.book = vec![0x55; reference::book::length(lent.n, lent.m)];
            single(lent, Operation::BookWrite)
        }
        1 => {
            damage::write_book(&mut lent);
            scramble(&mut lent);
            single(lent, Operation::BookRead)
        }
        _ => {
            trailer_only(&mut lent);
            single(lent, rng.pick(&[Operation::BookTrailer, Operation::PlanLengths]))
        }
    }
}

/// A list for the clique rows, full of numbers that none has.
fn lend_list(lent: &mut Lent) {
    lent.clique_coefs = vec![i32::MIN; 2 * lent.n * lent.n];
    lent.clique_rhs = vec![i32::MAX; 2 * lent.n];
}

/// Clique rows: of a table that probes of every variable fill, of rows that say "at most one"; or of a table
/// from elsewhere in which many literals are joined.
fn clique_rows(rng: &mut Rng) -> Case {
    let n = rng.between(1, 10) as usize;
    let mut lent = models::at_most_one(rng, n);
    lend_list(&mut lent);
    if rng.chance(50) {
        models::join_literals(rng, &mut lent);
        return single(lent, Operation::Cliques);
    }
    let probe = |k| Operation::Probe { variable: k as u32, budget: MAX_BUDGET };
    let operations =
        (0..n).map(probe).chain([Operation::Cliques, Operation::Run, Operation::Cliques]);
    lend_calls(rng, &mut lent);
    let steps = operations.map(|operation| Step { afresh: false, operation }).collect();
    Case { lent, steps, returns: None }
}

/// One accepted call on a sparse book, or from one edition to the other; an = row is refused on the way to
/// the first.
fn sparse_book(rng: &mut Rng) -> Case {
    let family = rng.pick(&[Family::Tiny, Family::Mixed, Family::Limits, Family::Empty]);
    let family = if rng.chance(1) { Family::Largest } else { family };
    let mut lent = models::model(rng, family);
    let operation = rng.pick(&Operation::SPARSE);
    if operation == Operation::SparseToBook && rng.chance(50) {
        lent.kinds.fill(0);
    }
    lend_books(&mut lent, operation);
    single(lent, operation)
}

/// The books that the call reads and writes.
fn lend_books(lent: &mut Lent, operation: Operation) {
    if operation.reads_book() {
        damage::write_book(lent);
    } else {
        damage::write_sparse(lent);
    }
    if operation == Operation::SparseTrailer {
        lent.book.drain(..lent.book.len() - reference::book::TRAILER);
    }
    damage::room(operation, lent);
    if operation == Operation::SparseRead {
        scramble(lent);
    }
}

/// One call on a sparse book that fails a check, each check of each call as often as the others.
fn damaged_sparse(rng: &mut Rng) -> Case {
    let mut operation = rng.pick(&Operation::SPARSE);
    let mut lent = loop {
        let family = if rng.chance(2) { Family::Largest } else { Family::Tiny };
        let mut lent = models::model(rng, family);
        if operation == Operation::SparseToBook {
            lent.kinds.fill(0);
        }
        if lent.coefs.iter().any(|&a| a != 0) && !reference::bounds::is_empty(&lent.bounds) {
            break lent;
        }
    };
    let (bounds, coefs) = (lent.bounds.clone(), lent.coefs.clone());
    let (rhs, kinds) = (lent.rhs.clone(), lent.kinds.clone());
    lend_books(&mut lent, operation);
    (lent.bounds, lent.coefs, lent.rhs, lent.kinds) = (bounds, coefs, rhs, kinds);
    let check = rng.pick(damage::checks(operation));
    damage::damage(rng, &mut operation, &mut lent, check);
    if operation == Operation::SparseRead {
        scramble(&mut lent);
    }
    Case { returns: Some(check), ..single(lent, operation) }
}

/// Fills the buffers that a book is read into with numbers that no model has.
fn scramble(lent: &mut Lent) {
    lent.bounds.fill(i32::MIN);
    lent.coefs.fill(i32::MAX);
    lent.rhs.fill(i32::MIN);
    lent.kinds.fill(u8::MAX);
}

fn trailer_only(lent: &mut Lent) {
    damage::write_book(lent);
    lent.book.drain(..lent.book.len() - reference::book::TRAILER);
}

/// The number of pages of a table, or the pages: of a table that a few probes filled, or of one with bytes 1
/// anywhere, from none to all; about eight literals of a variable, or about a whole page of lines.
fn pages(rng: &mut Rng) -> Case {
    let family = rng.pick(&[Family::Tiny, Family::Mixed, Family::Limits, Family::Empty]);
    let family = if rng.chance(10) { Family::Largest } else { family };
    let mut lent = models::model(rng, family);
    if rng.chance(20) {
        // As many variables as a page has lines for, or one more.
        lent = models::model(rng, Family::Largest);
        lent.n = rng.pick(&[59, 60, 118, 119]);
        lent.bounds.truncate(2 * lent.n);
        lent.table = vec![0; 4 * lent.n * lent.n];
        lent.coefs.truncate(lent.n * lent.m);
    }
    let n = lent.n;
    match rng.between(0, 3) {
        0 => {}
        1 => lent.table.fill(1),
        2 => {
            let k = rng.index(n);
            let some = rng.pick(&[1, 7, 8, 9, 16, 17, 254, 2 * n]).min(2 * n);
            lent.table[(2 * k + 1) * 2 * n..][..some].fill(1);
        }
        _ => {
            let chance = rng.pick(&[1, 10, 50]);
            lent.table.iter_mut().for_each(|byte| *byte = u8::from(rng.chance(chance)));
        }
    }
    damage::pages_room(&mut lent);
    single(lent, rng.pick(&Operation::ON_PAGES))
}

/// One call on a model whose variables are about as wide as they may be, alone or with another fault of
/// its numbers: 6 and 7 come before 23, and 8 after it.
fn around_the_widest(rng: &mut Rng) -> Case {
    let mut lent = models::around_the_widest(rng);
    let row = rng.index(lent.m) as u32;
    let [on_bounds @ .., _, _, _, read, write] =
        Operation::each(row, 0, rng.pick(&[1, MAX_BUDGET]), 1);
    let operation = rng.pick(&[&on_bounds[..], &[read, write, Operation::WritePages]].concat());
    let reads_rows =
        !matches!(operation, Operation::PlanWidth | Operation::PlanRun | Operation::WritePages);
    let too_wide = lent.bounds.chunks(2).any(|pair| pair[1] - pair[0] > MAX_WIDTH);
    let fault = rng.pick(&[0, 0, 0, 6, 7, 8]);
    if fault > 0 {
        damage::wrong_number(rng, &mut lent, fault);
    }
    match operation {
        Operation::WritePages => damage::pages_room(&mut lent),
        _ => damage::write_book(&mut lent),
    }
    let returns = match fault {
        0 | 8 if too_wide => 23,
        8 if !reads_rows => 0,
        0 if operation == Operation::BookWrite && lent.kinds.contains(&EQUAL) => 17,
        _ => fault,
    };
    if operation == Operation::BookRead {
        scramble(&mut lent);
    }
    Case { returns: Some(returns), ..single(lent, operation) }
}

/// One call that fails a check, each check of each call as often as the others.
fn damaged(rng: &mut Rng) -> Case {
    let mut lent = loop {
        let family = if rng.chance(2) { Family::Largest } else { Family::Tiny };
        let lent = models::model(rng, family);
        if lent.m > 0 && reference::bounds::is_free(&lent.bounds, 0) {
            break lent;
        }
    };
    let (row, variable, budget) = (rng.index(lent.m) as u32, 0, rng.pick(&[1, MAX_BUDGET]));
    let all = [&Operation::each(row, variable, budget, 1)[..], &Operation::ON_PAGES].concat();
    let mut operation = rng.pick(&all);
    if let Operation::Tie { j, .. } = &mut operation {
        *j = rng.index(lent.n) as u32;
    }
    lend_calls(rng, &mut lent);
    lend_list(&mut lent);
    match operation {
        Operation::BookTrailer | Operation::PlanLengths => trailer_only(&mut lent),
        Operation::WritePages => damage::pages_room(&mut lent),
        _ => damage::write_book(&mut lent),
    }
    let check = rng.pick(damage::checks(operation));
    damage::damage(rng, &mut operation, &mut lent, check);
    if operation == Operation::BookRead {
        scramble(&mut lent);
    }
    Case { returns: Some(check), ..single(lent, operation) }
}
