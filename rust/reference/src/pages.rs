//! The pages for the floor (02, C-23). Variables count from 0, pages and columns from 1.

use crate::calls::{self, ANSWER};
use crate::row::AT_MOST;
use crate::{book, checks};

/// "A page has 60 lines of 80 columns, space filled, each ended by a line feed."
const LINES: usize = 60;
const COLUMNS: usize = 80;

/// "a lent buffer of 4,860 bytes for each page"
pub const PAGE: usize = LINES * (COLUMNS + 1);

/// "those that \"this variable is 1\" implies, rising"
fn implied(n: usize, table: &[u8], k: usize) -> Vec<usize> {
    let row = &table[(2 * k + 1) * 2 * n..][..2 * n];
    (0..2 * n).filter(|&q| row[q] == 1).collect()
}

/// "A literal is + for \"is 1\" or - for \"is 0\", then the variable's number, then spaces", six columns each.
fn literal(&q: &usize) -> String {
    let sign = if q % 2 == 1 { '+' } else { '-' };
    format!("{:<6}", format!("{sign}{}", q / 2))
}

/// The lines of variable k: "up to eight literals", and "Further ones go on a new line with the first 23
/// columns empty."
fn variable(n: usize, bounds: &[i32], table: &[u8], k: usize) -> Vec<String> {
    let literals: Vec<String> = implied(n, table, k).iter().map(literal).collect();
    let mut lines: Vec<String> =
        literals.chunks(8).map(|eight| format!("{:23}{}", "", eight.concat())).collect();
    if lines.is_empty() {
        lines.push(" ".repeat(23));
    }
    let (l, u) = (bounds[2 * k], bounds[2 * k + 1]);
    lines[0].replace_range(..23, &format!("{k:>6} {l:>7} {u:>7} "));
    lines
}

/// The number of pages, by the table's bytes that are 1. "Line 1 of each page is the page number", so 59 are
/// left.
pub fn count(n: usize, table: &[u8]) -> usize {
    let lines: usize = (0..n).map(|k| implied(n, table, k).len().div_ceil(8).max(1)).sum();
    lines.div_ceil(LINES - 1)
}

/// The pages, "variables upwards". "The last page is filled with empty lines."
pub fn write(n: usize, bounds: &[i32], table: &[u8]) -> Vec<u8> {
    let lines: Vec<String> = (0..n).flat_map(|k| variable(n, bounds, table, k)).collect();
    let mut pages = String::new();
    for (page, content) in lines.chunks(LINES - 1).enumerate() {
        let number = format!("{:74}{:>6}", "", page + 1);
        let mut lines = vec![number];
        lines.extend_from_slice(content);
        lines.resize(LINES, String::new());
        for line in lines {
            pages += &format!("{line:80}\n");
        }
    }
    pages.into_bytes()
}

/// The output of the program `floor` for a book on standard input: the pages of the reduced model.
pub fn floor(input: &[u8]) -> Vec<u8> {
    match reduced(input) {
        Err(check) => format!("refused {check}\n").into_bytes(),
        Ok(None) => b"none\n".to_vec(),
        Ok(Some(pages)) => pages,
    }
}

/// `None` where the model is infeasible.
fn reduced(input: &[u8]) -> Result<Option<Vec<u8>>, u32> {
    let (n, m) = book::size(input)?;
    let (mut bounds, mut coefs, mut rhs) = book::numbers(input, n, m);
    checks::numbers(&bounds, &coefs, &rhs)?;
    let (mut kinds, mut table) = (vec![AT_MOST; m], vec![0; 4 * n * n]);
    let mut answer = [0; ANSWER];
    // As many rounds as it takes: none of these books takes so many.
    let rounds = calls::rounds;
    let limit = u32::MAX as _;
    rounds(n, m, &mut bounds, &mut coefs, &mut rhs, &mut kinds, &mut table, limit, &mut answer);
    Ok((answer[0] != 0).then(|| write(n, &bounds, &table)))
}
