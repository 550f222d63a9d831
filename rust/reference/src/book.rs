//! The book, a file format: bounds, then b and the coefficients of each row, then a 16-byte trailer.

use crate::checks::{self, Check};

/// The trailer's length in bytes.
pub const TRAILER: usize = 16;

/// The last 16 bytes of a book.
pub struct Trailer {
    pub bounds_at: u32,
    pub rows_at: u32,
    pub n: usize,
    pub m: usize,
    pub length: u32,
}

impl Trailer {
    /// Reads the trailer from exactly 16 bytes.
    pub fn read(bytes: &[u8]) -> Self {
        let word = |at: usize| u32::from_le_bytes(bytes[at..at + 4].try_into().unwrap());
        let half = |at: usize| u16::from_le_bytes(bytes[at..at + 2].try_into().unwrap());
        Trailer {
            bounds_at: word(0),
            rows_at: word(4),
            n: half(8).into(),
            m: half(10).into(),
            length: word(12),
        }
    }

    /// Check 4, of n and m that passed check 3.
    fn layout(&self) -> Check {
        let agree = |stated: u32, given: usize| stated as usize == given;
        checks::ensure(
            4,
            agree(self.bounds_at, 0)
                && agree(self.rows_at, 8 * self.n)
                && agree(self.length, length(self.n, self.m)),
        )
    }
}

/// The length of the book of n variables and m rows.
pub fn length(n: usize, m: usize) -> usize {
    8 * n + m * (4 + 4 * n) + TRAILER
}

/// Checks 1, 5, 3 and 4 of 16 trailer bytes alone; `lengths_fit` is check 5 of what else is lent.
pub fn trailer(bytes: &[u8], lengths_fit: bool) -> Result<(usize, usize), u32> {
    checks::ensure(1, bytes.len() >= TRAILER)?;
    checks::ensure(5, bytes.len() == TRAILER && lengths_fit)?;
    let trailer = Trailer::read(bytes);
    checks::size(trailer.n, trailer.m)?;
    trailer.layout()?;
    Ok((trailer.n, trailer.m))
}

/// Checks 1 to 4 of a whole book.
pub fn size(book: &[u8]) -> Result<(usize, usize), u32> {
    checks::ensure(1, book.len() >= TRAILER)?;
    let trailer = Trailer::read(&book[book.len() - TRAILER..]);
    checks::ensure(2, trailer.length as usize == book.len())?;
    checks::size(trailer.n, trailer.m)?;
    trailer.layout()?;
    Ok((trailer.n, trailer.m))
}

/// The bounds, coefficients and right sides of a book whose size is known to be n and m.
pub fn numbers(book: &[u8], n: usize, m: usize) -> (Vec<i32>, Vec<i32>, Vec<i32>) {
    let words: Vec<i32> = book[..book.len() - TRAILER]
        .chunks_exact(4)
        .map(|word| i32::from_le_bytes(word.try_into().unwrap()))
        .collect();
    let (bounds, rows) = words.split_at(2 * n);
    let mut coefs = Vec::with_capacity(m * n);
    let mut rhs = Vec::with_capacity(m);
    for row in rows.chunks_exact(1 + n) {
        rhs.push(row[0]);
        coefs.extend_from_slice(&row[1..]);
    }
    (bounds.to_vec(), coefs, rhs)
}

/// The book of a model.
pub fn write(n: usize, m: usize, bounds: &[i32], coefs: &[i32], rhs: &[i32]) -> Vec<u8> {
    let mut book = Vec::with_capacity(length(n, m));
    let mut put = |x: i32| book.extend_from_slice(&x.to_le_bytes());
    bounds.iter().for_each(|&x| put(x));
    for (row, &b) in coefs.chunks_exact(n).zip(rhs) {
        put(b);
        row.iter().for_each(|&x| put(x));
    }
    book.extend_from_slice(&0u32.to_le_bytes());
    book.extend_from_slice(&(8 * n as u32).to_le_bytes());
    book.extend_from_slice(&(n as u16).to_le_bytes());
    book.extend_from_slice(&(m as u16).to_le_bytes());
    book.extend_from_slice(&(length(n, m) as u32).to_le_bytes());
    book
}
