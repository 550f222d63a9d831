//! What the program `convert` writes: the book of the other edition (02, C-18, "Converting goes both ways").

use crate::book::{self, TRAILER, Trailer};
use crate::{calls, checks, sparse};

/// The length of the longest sparse book: 128 variables, 120 rows, no coefficient 0.
const LONGEST: usize = 8 * 128 + 120 * (7 + 6 * 128) + TRAILER;

/// The book of the other edition, or `refused N`. What the sparse edition accepts is sparse; else check 4 of the first
/// edition tells which one the input is: what fails it is sparse, unless it is longer than a sparse book can be (D-53 in
/// `docs/DECISIONS.md`).
pub fn convert(input: &[u8]) -> Vec<u8> {
    let other = match book::size(input) {
        _ if sparse_accepts(input) => to_first(input),
        Err(4) if input.len() <= LONGEST => to_first(input),
        Err(number) => Err(number),
        Ok(_) => to_sparse(input),
    };
    other.unwrap_or_else(|number| format!("refused {number}\n").into_bytes())
}

fn sparse_accepts(input: &[u8]) -> bool {
    sparse::layout(input).is_ok_and(|(n, _, starts)| {
        let read = sparse::numbers(input, n, &starts);
        checks::numbers(&read.bounds, &read.coefs, &read.rhs).is_ok()
            && checks::kinds(&read.kinds).is_ok()
    })
}

fn to_sparse(from: &[u8]) -> Result<Vec<u8>, u32> {
    let mut answer = [0; calls::ANSWER];
    accepted(calls::book_to_sparse_length(from, &mut answer))?;
    let mut to = vec![0; answer[0] as usize];
    accepted(calls::book_to_sparse(from, &mut to))?;
    Ok(to)
}

fn to_first(from: &[u8]) -> Result<Vec<u8>, u32> {
    let trailer = Trailer::read(&from[from.len() - TRAILER..]);
    let mut to = vec![0; book::length(trailer.n, trailer.m)];
    accepted(calls::sparse_to_book(from, &mut to))?;
    Ok(to)
}

fn accepted(number: u32) -> Result<(), u32> {
    if number == 0 { Ok(()) } else { Err(number) }
}
