//! Makes a call fail a chosen check, at its boundary where it has one.

use reference::row::EQUAL;

use crate::lent::{Lent, Operation};
use crate::models::{MAX_BOUND, MAX_BUDGET, MAX_COEF, MAX_RHS, MAX_WIDTH, MIN_BOUND};
use crate::rng::Rng;

/// The checks that a call makes, in the order in which it makes them. In `run`, checks 11, 18 and 12 to 15
/// are of the records, and none of them refuses the list.
pub fn checks(operation: Operation) -> &'static [u32] {
    match operation {
        Operation::PropagateRow { .. } | Operation::RemoveRedundantRow { .. } => {
            &[3, 5, 6, 7, 23, 8, 9, 16, 12]
        }
        Operation::Propagate { .. } => &[3, 5, 6, 7, 23, 8, 9, 16, 15],
        Operation::Probe { .. } => &[3, 5, 6, 7, 23, 8, 9, 16, 10, 13, 14, 15],
        Operation::TightenCoefficient { .. } => &[3, 5, 6, 7, 23, 8, 9, 16, 12, 13, 14],
        Operation::IsProbingFixpoint => &[3, 5, 6, 7, 23, 8, 9, 16],
        Operation::BookWrite => &[3, 5, 6, 7, 23, 8, 9, 16, 17],
        Operation::Run | Operation::RunClasses | Operation::Rounds { .. } => {
            &[3, 5, 6, 7, 23, 8, 9, 16, 10]
        }
        Operation::Tie { .. } => &[3, 5, 6, 7, 23, 8, 9, 16, 10, 21, 13],
        Operation::PlanWidth | Operation::PlanRun => &[3, 5, 6, 7, 23],
        Operation::Cliques | Operation::PageCount => &[3, 5, 10],
        Operation::BookTrailer | Operation::PlanLengths | Operation::SparseTrailer => &[1, 5, 3, 4],
        Operation::BookRead | Operation::BookToSparseLength | Operation::BookToSparse => {
            &[1, 2, 3, 4, 5, 6, 7, 23, 8, 9]
        }
        Operation::SparseRead => &[1, 2, 3, 4, 19, 20, 5, 6, 7, 23, 8, 9, 16],
        Operation::SparseWrite | Operation::SparseLength => &[3, 5, 6, 7, 23, 8, 9, 16],
        Operation::SparseToBook => &[1, 2, 3, 4, 19, 20, 5, 6, 7, 23, 8, 9, 16, 17],
        Operation::WritePages => &[3, 5, 6, 7, 23, 10],
    }
}

/// Damages an accepted call so that `check` is the first that fails; often later ones fail as well.
/// The model has a row, and its box is not empty.
pub fn damage(rng: &mut Rng, operation: &mut Operation, lent: &mut Lent, check: u32) {
    let order = checks(*operation);
    let place = order.iter().position(|&c| c == check).expect("the call makes this check");
    let more = rng.chance(50);
    // From the last check to the chosen one: what is damaged later never repairs an earlier check.
    for &later in order[place + 1..].iter().rev() {
        if more && rng.chance(50) {
            damage_one(rng, operation, lent, later);
        }
    }
    damage_one(rng, operation, lent, check);
}

fn damage_one(rng: &mut Rng, operation: &mut Operation, lent: &mut Lent, check: u32) {
    match check {
        1 => lent.book.truncate(rng.pick(&[15, 15, 14, 8, 1, 0])),
        2 => wrong_book_length(rng, &mut lent.book),
        3 => wrong_size(rng, *operation, lent),
        4 => wrong_layout(rng, *operation, lent),
        5 => wrong_length(rng, *operation, lent),
        6..=9 | 23 => {
            wrong_number(rng, lent, check);
            rewrite(*operation, lent);
        }
        16 => {
            *any(rng, &mut lent.kinds) = rng.pick(&[2, 3, 128, 255]);
            rewrite(*operation, lent);
        }
        17 => {
            *any(rng, &mut lent.kinds) = EQUAL;
            rewrite(*operation, lent);
        }
        19 => wrong_column(rng, lent),
        20 => {
            let places = entries(&lent.book);
            let at = rng.pick(&places);
            lent.book[at + 2..at + 6].fill(0);
        }
        10 => {
            *any(rng, &mut lent.table) = rng.pick(&[2, 3, 128, 255]);
            if *operation == Operation::WritePages {
                pages_room(lent); // a byte that is no longer 1 counts no more
            }
        }
        21 => {
            let most = 2 * lent.n as u16;
            *any(rng, &mut lent.ties) = rng.pick(&[most + 1, most + 1, most + 2, u16::MAX]);
        }
        _ => wrong_argument(rng, operation, lent, check),
    }
}

/// The book of the model as it stands, accepted or not.
pub fn write_book(lent: &mut Lent) {
    lent.book = reference::book::write(lent.n, lent.m, &lent.bounds, &lent.coefs, &lent.rhs);
}

/// The sparse book of the model as it stands, accepted or not.
pub fn write_sparse(lent: &mut Lent) {
    lent.book = reference::sparse::write(lent.n, &lent.bounds, &lent.coefs, &lent.rhs, &lent.kinds);
}

/// The book that the call reads, once more, after a number of the model has changed. The book that a
/// conversion writes gets the length that the new numbers need.
fn rewrite(operation: Operation, lent: &mut Lent) {
    if operation.reads_book() {
        write_book(lent);
    } else if operation.reads_sparse() {
        write_sparse(lent);
    }
    room(operation, lent);
}

/// Room of the length needed for the book that the call writes.
pub fn room(operation: Operation, lent: &mut Lent) {
    let sparse = reference::sparse::length(lent.n, lent.m, &lent.coefs);
    match operation {
        Operation::SparseWrite => lent.book = vec![0x55; sparse],
        Operation::BookToSparse => lent.to = vec![0x55; sparse],
        Operation::SparseToBook => {
            lent.to = vec![0x55; reference::book::length(lent.n, lent.m)];
        }
        _ => {}
    }
}

/// The places of all entries of an accepted sparse book.
fn entries(book: &[u8]) -> Vec<usize> {
    let end = book.len() - reference::book::TRAILER;
    let (n, m) = reference::sparse::trailer(&book[end..], true).expect("a trailer");
    let starts = reference::sparse::row_starts(book, n, m, end).expect("a walk");
    starts.iter().flat_map(|&start| reference::sparse::entries(book, start)).collect()
}

/// Check 19: a column that is n or more, or not above the one before in its row. Where a coefficient is 0
/// already, the first entry is damaged, so that its column decides.
fn wrong_column(rng: &mut Rng, lent: &mut Lent) {
    let places = entries(&lent.book);
    let column = |at: usize| u16::from_le_bytes(lent.book[at..at + 2].try_into().unwrap());
    let zeros = places.iter().any(|&at| lent.book[at + 2..at + 6] == [0; 4]);
    let second: Vec<usize> = (1..places.len())
        .filter(|&e| places[e] == places[e - 1] + 6 && column(places[e - 1]) < column(places[e]))
        .collect();
    let n = lent.n as u16;
    let (at, wrong) = if zeros {
        (places[0], rng.pick(&[n, n + 1, u16::MAX]))
    } else if second.is_empty() || rng.chance(50) {
        (rng.pick(&places), rng.pick(&[n, n + 1, u16::MAX]))
    } else {
        let e = rng.pick(&second);
        (places[e], column(places[e - 1]) - u16::from(rng.chance(50) && column(places[e - 1]) > 0))
    };
    lent.book[at..at + 2].copy_from_slice(&wrong.to_le_bytes());
}

/// A buffer for the pages of the table as it stands, filled with what no page has.
pub fn pages_room(lent: &mut Lent) {
    let pages = reference::pages::count(lent.n, &lent.table);
    lent.book = vec![0x55; reference::pages::PAGE * pages];
}

/// A place of the buffer: often the first or the last.
fn any<'a, T>(rng: &mut Rng, buffer: &'a mut [T]) -> &'a mut T {
    let last = buffer.len() - 1;
    let at = match rng.between(0, 3) {
        0 => 0,
        1 => last,
        _ => rng.index(last + 1),
    };
    &mut buffer[at]
}

/// Where the trailer's fields are, from the book's end: width in bytes and distance.
const BOUNDS_AT: (usize, usize) = (4, 16);
const ROWS_AT: (usize, usize) = (4, 12);
const N: (usize, usize) = (2, 8);
const M: (usize, usize) = (2, 6);
const LENGTH: (usize, usize) = (4, 4);

fn set_field(book: &mut [u8], (width, from_end): (usize, usize), value: u32) {
    let at = book.len() - from_end;
    book[at..at + width].copy_from_slice(&value.to_le_bytes()[..width]);
}

/// Check 2: bytes too many or too few, or a length in the trailer that is not the book's.
fn wrong_book_length(rng: &mut Rng, book: &mut Vec<u8>) {
    let len = book.len() as u32;
    match rng.between(0, 4) {
        0 => book.insert(0, 0),
        1 => drop(book.remove(0)),
        2 => set_field(book, LENGTH, len + 1),
        3 => set_field(book, LENGTH, len - 1),
        _ => set_field(book, LENGTH, rng.pick(&[0, 16, u32::MAX])),
    }
}

/// Whether n and m are in the bytes that the call is lent.
fn reads_bytes(operation: Operation) -> bool {
    operation.reads_trailer() || operation.reads_book() || operation.reads_sparse()
}

/// Check 3: n is 0 or above 128, or m is above 120. Sometimes the lengths are right for the wrong size.
fn wrong_size(rng: &mut Rng, operation: Operation, lent: &mut Lent) {
    let only_n = matches!(
        operation,
        Operation::PlanWidth
            | Operation::PlanRun
            | Operation::Cliques
            | Operation::PageCount
            | Operation::WritePages
    );
    let n_is_wrong = only_n || rng.chance(50);
    match operation {
        _ if reads_bytes(operation) && n_is_wrong => {
            set_field(&mut lent.book, N, rng.pick(&[0, 129, 256, 65_535]));
        }
        _ if reads_bytes(operation) => {
            set_field(&mut lent.book, M, rng.pick(&[121, 256, 65_535]));
        }
        _ if n_is_wrong => lent.n = rng.pick(&[0, 129, 1 << 31, 1 << 63, usize::MAX]),
        _ => lent.m = rng.pick(&[121, 1 << 32, usize::MAX]),
    }
    let small = lent.n <= 129 && lent.m <= 121;
    if small && !reads_bytes(operation) && rng.chance(50) {
        lent.bounds.resize(2 * lent.n, 0);
        lent.coefs.resize(lent.n * lent.m, 0);
        lent.rhs.resize(lent.m, 0);
        lent.kinds.resize(lent.m, 0);
        lent.table.resize(4 * lent.n * lent.n, 0);
        lent.ties.resize(lent.n, 0);
        lent.clique_coefs.resize(2 * lent.n * lent.n, 0);
        lent.clique_rhs.resize(2 * lent.n, 0);
    }
}

/// Check 4: an offset, or a length that n and m do not give.
fn wrong_layout(rng: &mut Rng, operation: Operation, lent: &mut Lent) {
    let (n, m) = (lent.n as u32, lent.m as u32);
    let book = &mut lent.book;
    match rng.between(0, 4) {
        0 => set_field(book, BOUNDS_AT, rng.pick(&[1, 16, u32::MAX])),
        1 => set_field(book, ROWS_AT, rng.pick(&[8 * n - 1, 8 * n + 1, 0, u32::MAX])),
        2 => set_field(book, N, if n == 1 { 2 } else { n - 1 }),
        3 if operation != Operation::SparseTrailer => {
            set_field(book, M, if m == 0 { 1 } else { m - 1 });
        }
        _ if operation == Operation::SparseTrailer => set_field(book, BOUNDS_AT, 8),
        _ if operation.reads_sparse() => {
            // The last row says another count, so that the walk ends elsewhere; or the book is longer and says so.
            let starts = reference::sparse::row_starts(book, lent.n, lent.m, book.len() - 16);
            let at = starts.expect("a walk").pop().expect("a row") + 5;
            let count = u16::from_le_bytes(book[at..at + 2].try_into().unwrap());
            let counts = [count.wrapping_sub(1), count + 1, u16::MAX];
            book[at..at + 2].copy_from_slice(&rng.pick(&counts).to_le_bytes());
        }
        _ if matches!(operation, Operation::BookTrailer | Operation::PlanLengths) => {
            let length = reference::book::length(lent.n, lent.m) as u32;
            set_field(book, LENGTH, rng.pick(&[length - 1, length + 1, 0, u32::MAX]));
        }
        _ => {
            // A longer book that says so itself.
            let more = rng.pick(&[1, 4, 1_000]);
            book.splice(0..0, vec![0; more]);
            let len = book.len() as u32;
            set_field(book, LENGTH, len);
        }
    }
}

/// Check 5: one buffer of the call is an element too short or too long, or empty.
fn wrong_length(rng: &mut Rng, operation: Operation, lent: &mut Lent) {
    let model = ["bounds", "coefs", "rhs", "kinds"];
    let others: &[&str] = match operation {
        Operation::Probe { .. } | Operation::Rounds { .. } => &["answer", "table"],
        Operation::Run => &["answer", "table", "calls"],
        Operation::RunClasses => &["answer", "table", "calls", "classes"],
        Operation::Tie { .. } => &["answer", "table", "ties"],
        Operation::PlanWidth => &["answer", "bounds"],
        Operation::PlanRun => &["answer", "bounds", "calls"],
        Operation::Cliques => &["answer", "table", "clique_coefs", "clique_rhs"],
        _ if operation.reads_trailer() => &["answer", "trailer"],
        Operation::BookWrite | Operation::SparseWrite => &["book"],
        Operation::BookToSparse | Operation::SparseToBook => &["to"],
        Operation::PageCount => &["answer", "table"],
        Operation::WritePages => &["bounds", "table", "pages"],
        _ => &["answer"],
    };
    let buffers = match operation {
        Operation::PlanWidth | Operation::PlanRun | Operation::Cliques => others.to_vec(),
        Operation::BookToSparseLength | Operation::BookToSparse | Operation::SparseToBook => {
            others.to_vec()
        }
        _ if operation.reads_trailer() => others.to_vec(),
        Operation::PageCount | Operation::WritePages => others.to_vec(),
        _ => [&model, others].concat(),
    };
    match rng.pick(&buffers) {
        "bounds" => resize(rng, &mut lent.bounds),
        "coefs" => resize(rng, &mut lent.coefs),
        "rhs" => resize(rng, &mut lent.rhs),
        "kinds" => resize(rng, &mut lent.kinds),
        "table" => resize(rng, &mut lent.table),
        "ties" => resize(rng, &mut lent.ties),
        "classes" => resize(rng, &mut lent.classes),
        "clique_coefs" => resize(rng, &mut lent.clique_coefs),
        "clique_rhs" => resize(rng, &mut lent.clique_rhs),
        "answer" if rng.chance(20) => lent.answer.truncate(6), // its length before C-11
        "answer" => resize(rng, &mut lent.answer),
        "book" => resize(rng, &mut lent.book),
        "pages" if rng.chance(50) => lent.book.resize(lent.book.len() + reference::pages::PAGE, 0),
        "pages" => resize(rng, &mut lent.book),
        "calls" if operation == Operation::PlanRun && rng.chance(5) => {
            lent.calls = vec![2; 4 * (reference::plan::MAX_RECORDS + 1)];
        }
        "to" => resize(rng, &mut lent.to),
        "calls" => lent.calls.extend(vec![1; rng.pick(&[1, 2, 3])]),
        _ => lent.book.extend(vec![0; rng.pick(&[1, 16, 28])]),
    }
}

fn resize<T: Copy + Default>(rng: &mut Rng, buffer: &mut Vec<T>) {
    match rng.between(0, 4) {
        0 | 1 => buffer.push(T::default()),
        2 if !buffer.is_empty() => buffer.clear(),
        _ if buffer.pop().is_none() => buffer.push(T::default()),
        _ => {}
    }
}

/// Checks 6, 7, 23, 8 and 9, of the model's numbers.
pub fn wrong_number(rng: &mut Rng, lent: &mut Lent, check: u32) {
    match check {
        6 => {
            let beyond = [MIN_BOUND - 1, MAX_BOUND + 1, i32::MIN, i32::MAX];
            *any(rng, &mut lent.bounds) = rng.pick(&beyond);
        }
        7 => cross_a_pair(rng, &mut lent.bounds),
        23 => widen_a_pair(rng, &mut lent.bounds),
        8 => {
            let beyond = [-MAX_COEF - 1, MAX_COEF + 1, i32::MIN, i32::MAX];
            *any(rng, &mut lent.coefs) = rng.pick(&beyond);
        }
        _ => {
            let beyond = [-MAX_RHS - 1, MAX_RHS + 1, i32::MIN, i32::MAX];
            *any(rng, &mut lent.rhs) = rng.pick(&beyond);
        }
    }
}

/// A lower bound above its upper in a box that is not the empty one, though it can be close to it.
fn cross_a_pair(rng: &mut Rng, bounds: &mut [i32]) {
    let at = 2 * rng.index(bounds.len() / 2);
    let crossed = [[2, 1], [0, -1], [1, -1], [2, 0], [MAX_BOUND, MIN_BOUND]];
    if bounds.len() > 2 && rng.chance(50) {
        // The empty box but for one variable, which is crossed otherwise or not at all.
        bounds.chunks_mut(2).for_each(|pair| pair.copy_from_slice(&[1, 0]));
        let odd = [[0, 0], [1, 1], [0, 1], [2, 1], [1, -1]];
        bounds[at..at + 2].copy_from_slice(&rng.pick(&odd));
    } else {
        bounds[at..at + 2].copy_from_slice(&rng.pick(&crossed));
    }
}

/// A variable over 4,096 wide, mostly by one.
fn widen_a_pair(rng: &mut Rng, bounds: &mut [i32]) {
    let width = rng.pick(&[4_097, 4_097, 4_098, 30_000, 65_535]);
    let l = rng.pick(&[MIN_BOUND, MAX_BOUND - width, 0]);
    let at = 2 * rng.index(bounds.len() / 2);
    bounds[at..at + 2].copy_from_slice(&[l, (l + width).min(MAX_BOUND)]);
}

/// Checks 12 to 15, of the call's own numbers.
fn wrong_argument(rng: &mut Rng, operation: &mut Operation, lent: &mut Lent, check: u32) {
    let (n, m) = (lent.n as u32, lent.m as u32);
    match (check, operation) {
        (
            12,
            Operation::PropagateRow { row }
            | Operation::TightenCoefficient { row, .. }
            | Operation::RemoveRedundantRow { row },
        ) => *row = rng.pick(&[m, m, m + 1, u32::MAX]),
        (
            13,
            Operation::Probe { variable, .. } | Operation::TightenCoefficient { variable, .. },
        ) => {
            *variable = rng.pick(&[n, n, n + 1, u32::MAX]);
        }
        (13, Operation::Tie { k, j }) => {
            // Of k, of j or of both.
            let beyond = rng.pick(&[n, n, n + 1, u32::MAX]);
            match rng.between(0, 2) {
                0 => *k = beyond,
                1 => *j = beyond,
                _ => (*k, *j) = (beyond, beyond),
            }
        }
        (
            14,
            Operation::Probe { variable, .. } | Operation::TightenCoefficient { variable, .. },
        ) => {
            let k = 2 * *variable as usize;
            let pairs = [[0, 0], [1, 1], [0, 2], [-1, 1], [-1, 0], [1, 2], [0, MAX_WIDTH]];
            lent.bounds[k..k + 2].copy_from_slice(&rng.pick(&pairs));
        }
        (15, Operation::Propagate { budget } | Operation::Probe { budget, .. }) => {
            *budget = rng.pick(&[0, MAX_BUDGET + 1, u32::MAX]);
        }
        (check, operation) => unreachable!("{operation:?} does not make check {check}"),
    }
}
