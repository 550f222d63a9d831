//! What the program `allocations` prints: a book, then the count of the proposals in 32 bits, then their numbers (02,
//! C-21; the reading is D-59 in `docs/DECISIONS.md`).

use crate::allocations::{self, MAX_PROPOSALS, Verdict};
use crate::book;
use crate::checks;
use crate::row::Rows;

/// The longest book, a count, and 64 proposals of 128 numbers: what is longer is refused by 2, however it goes on.
pub const LONGEST: usize = 62_960 + 4 + 64 * 128 * 4;

/// A line for each proposal, or `refused N`.
pub fn lines(input: &[u8]) -> String {
    match judge(input) {
        Err(number) => format!("refused {number}\n"),
        Ok(verdicts) => verdicts.into_iter().map(line).collect(),
    }
}

fn line(verdict: Verdict) -> String {
    match verdict {
        Verdict::Inside => "inside\n".to_string(),
        Verdict::Outside(variable) => format!("variable {variable}\n"),
        Verdict::Breaks(row) => format!("row {row}\n"),
    }
}

/// Checks 1 to 4, 22 and 5 where the book ends at `end`: n, m and the count.
fn split(input: &[u8], end: usize) -> Result<(usize, usize, usize), u32> {
    let (book, behind) = input.split_at(end);
    let (n, m) = book::size(book)?;
    let count = behind.first_chunk().map_or(0, |bytes| u32::from_le_bytes(*bytes));
    checks::ensure(22, (1..=MAX_PROPOSALS).contains(&count))?;
    checks::ensure(5, behind.len() == 4 + 4 * count as usize * n)?;
    Ok((n, m, count as usize))
}

/// The first place that splits the input, else the first that ends a book, else the input's end.
fn book_end(input: &[u8]) -> usize {
    let first = |ends: &dyn Fn(usize) -> bool| (0..=input.len()).find(|&end| ends(end));
    first(&|end| split(input, end).is_ok())
        .or(first(&|end| book::size(&input[..end]).is_ok()))
        .unwrap_or(input.len())
}

fn judge(input: &[u8]) -> Result<Vec<Verdict>, u32> {
    checks::ensure(2, input.len() <= LONGEST)?;
    let end = book_end(input);
    let (n, m, count) = split(input, end)?;
    let (bounds, coefs, rhs) = book::numbers(&input[..end], n, m);
    checks::numbers(&bounds, &coefs, &rhs)?;
    let word = |bytes: &[u8]| i32::from_le_bytes(bytes.try_into().unwrap());
    let proposals: Vec<i32> = input[end + 4..].chunks_exact(4).map(word).collect();
    assert_eq!(proposals.len(), count * n);
    Ok(allocations::verdicts(&bounds, Rows::new(n, &coefs, &rhs, &vec![0; m]), &proposals))
}
