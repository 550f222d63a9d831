//! The sparse book, the second edition (02, C-18): the bounds and the trailer of the first, and rows that name
//! the columns that they touch.

use crate::book::{TRAILER, Trailer};
use crate::checks::{self, Check};

/// Bytes of a row before its entries: b (32 bits), kind (8), count (16).
const ROW_HEAD: usize = 7;

/// Bytes of an entry: column (16), coefficient (32).
const ENTRY: usize = 6;

fn half(bytes: &[u8], at: usize) -> usize {
    u16::from_le_bytes(bytes[at..at + 2].try_into().unwrap()).into()
}

fn word(bytes: &[u8], at: usize) -> i32 {
    i32::from_le_bytes(bytes[at..at + 4].try_into().unwrap())
}

/// Check 4 of a trailer alone: "the offsets are 0 and 8n".
fn offsets(trailer: &Trailer) -> Check {
    checks::ensure(4, trailer.bounds_at == 0 && trailer.rows_at as usize == 8 * trailer.n)
}

/// Checks 1, 5, 3 and 4 of 16 trailer bytes alone; `lengths_fit` is check 5 of what else is lent.
pub fn trailer(bytes: &[u8], lengths_fit: bool) -> Result<(usize, usize), u32> {
    checks::ensure(1, bytes.len() >= TRAILER)?;
    checks::ensure(5, bytes.len() == TRAILER && lengths_fit)?;
    let trailer = Trailer::read(bytes);
    checks::size(trailer.n, trailer.m)?;
    offsets(&trailer)?;
    Ok((trailer.n, trailer.m))
}

/// Where each of m rows starts, by the walk "from the rows' offset"; none where it does not end at `end`.
pub fn row_starts(book: &[u8], n: usize, m: usize, end: usize) -> Option<Vec<usize>> {
    let (mut starts, mut at) = (vec![], 8 * n);
    for _ in 0..m {
        starts.push(at);
        if at + ROW_HEAD > end {
            return None;
        }
        at += ROW_HEAD + ENTRY * half(book, at + 5);
    }
    (at == end).then_some(starts)
}

/// The places of the entries of the row at `start`.
pub fn entries(book: &[u8], start: usize) -> impl Iterator<Item = usize> + use<> {
    (0..half(book, start + 5)).map(move |e| start + ROW_HEAD + e * ENTRY)
}

/// Checks 1 to 4, 19 and 20 of a whole book: its n and m, and where its rows start.
pub fn layout(book: &[u8]) -> Result<(usize, usize, Vec<usize>), u32> {
    checks::ensure(1, book.len() >= TRAILER)?;
    let end = book.len() - TRAILER;
    let trailer = Trailer::read(&book[end..]);
    checks::ensure(2, trailer.length as usize == book.len())?;
    let (n, m) = (trailer.n, trailer.m);
    checks::size(n, m)?;
    offsets(&trailer)?;
    let starts = row_starts(book, n, m, end).ok_or(4u32)?;
    // "the entry read first deciding, and in one entry the column"
    for &start in &starts {
        let mut before = None;
        for at in entries(book, start) {
            let column = half(book, at);
            checks::ensure(19, column < n && before.is_none_or(|before| before < column))?;
            checks::ensure(20, word(book, at + 2) != 0)?;
            before = Some(column);
        }
    }
    Ok((n, m, starts))
}

/// The numbers of a book.
pub struct Numbers {
    pub bounds: Vec<i32>,
    pub coefs: Vec<i32>,
    pub rhs: Vec<i32>,
    pub kinds: Vec<u8>,
}

/// The numbers of a book whose layout is accepted.
pub fn numbers(book: &[u8], n: usize, starts: &[usize]) -> Numbers {
    let mut coefs = vec![0; starts.len() * n];
    for (row, &start) in coefs.chunks_exact_mut(n).zip(starts) {
        for at in entries(book, start) {
            row[half(book, at)] = word(book, at + 2);
        }
    }
    Numbers {
        bounds: (0..2 * n).map(|i| word(book, 4 * i)).collect(),
        coefs,
        rhs: starts.iter().map(|&start| word(book, start)).collect(),
        kinds: starts.iter().map(|&start| book[start + 4]).collect(),
    }
}

/// The length of the sparse book of n variables, m rows and these coefficients.
pub fn length(n: usize, m: usize, coefs: &[i32]) -> usize {
    8 * n + ROW_HEAD * m + ENTRY * coefs.iter().filter(|&&a| a != 0).count() + TRAILER
}

/// The sparse book of a model.
pub fn write(n: usize, bounds: &[i32], coefs: &[i32], rhs: &[i32], kinds: &[u8]) -> Vec<u8> {
    let mut book: Vec<u8> = bounds.iter().flat_map(|x| x.to_le_bytes()).collect();
    for ((row, b), &kind) in coefs.chunks_exact(n).zip(rhs).zip(kinds) {
        let some: Vec<_> = (0u16..).zip(row).filter(|&(_, &a)| a != 0).collect();
        book.extend_from_slice(&b.to_le_bytes());
        book.push(kind);
        book.extend_from_slice(&(some.len() as u16).to_le_bytes());
        for (column, a) in some {
            book.extend_from_slice(&column.to_le_bytes());
            book.extend_from_slice(&a.to_le_bytes());
        }
    }
    let length = (book.len() + TRAILER) as u32;
    book.extend_from_slice(&0u32.to_le_bytes());
    book.extend_from_slice(&(8 * n as u32).to_le_bytes());
    book.extend_from_slice(&(n as u16).to_le_bytes());
    book.extend_from_slice(&(rhs.len() as u16).to_le_bytes());
    book.extend_from_slice(&length.to_le_bytes());
    book
}
