//! The rows of a sparse book whose layout was accepted, read only to say which number is refused.

use crate::explain::{Names, Numbers, grouped, reason};
use crate::failure::Failure;
use astrolabe::Refusal;

/// A row as it stands in the book: any kind, any columns.
struct Row {
    rhs: i64,
    kind: u8,
    entries: Vec<(usize, i64)>,
}

/// The next bytes of the book, from low to high, as a number without a sign.
fn next(bytes: &mut &[u8], count: usize) -> Option<u32> {
    let (first, rest) = bytes.split_at_checked(count)?;
    *bytes = rest;
    Some(first.iter().rev().fold(0, |number, &byte| number << 8 | u32::from(byte)))
}

fn signed(number: u32) -> i64 {
    i64::from(number as i32)
}

/// Right-hand side (32 bits), kind (8), count (16), then column (16) and coefficient (32) of each entry.
fn next_row(bytes: &mut &[u8]) -> Option<Row> {
    let rhs = signed(next(bytes, 4)?);
    let kind = next(bytes, 1)? as u8;
    let count = next(bytes, 2)?;
    let entry = |_| Some((next(bytes, 2)? as usize, signed(next(bytes, 4)?)));
    let entries = (0..count).map(entry).collect::<Option<_>>()?;
    Some(Row { rhs, kind, entries })
}

/// The refusal of a sparse book as a sentence; the book's trailer says as many variables and rows as there are names.
pub fn explain(book: &[u8], refusal: Refusal, names: &Names) -> Failure {
    let n = names.columns.len();
    let mut bytes = book;
    let bounds = (0..2 * n).filter_map(|_| next(&mut bytes, 4)).map(signed).collect();
    let rows: Vec<Row> = names.rows.iter().filter_map(|_| next_row(&mut bytes)).collect();
    let said = rows.iter().zip(&names.rows).find_map(|(row, name)| match refusal {
        Refusal::SparseColumn => column(row, n, name),
        Refusal::SparseZero => zero(row, names, name),
        Refusal::RowKind => kind(row, name),
        _ => None,
    });
    match refusal {
        Refusal::SparseColumn | Refusal::SparseZero | Refusal::RowKind => {
            Failure::by_check(refusal, said.unwrap_or_else(|| reason(refusal)))
        }
        _ => numbers(bounds, &rows, n).explain(refusal, names),
    }
}

fn column(row: &Row, n: usize, name: &str) -> Option<String> {
    let columns = row.entries.iter().map(|entry| entry.0);
    let before = std::iter::once(None).chain(columns.clone().map(Some));
    let (_, at) =
        before.zip(columns).find(|(before, at)| *at >= n || before.is_some_and(|b| *at <= b))?;
    Some(format!(
        "row {name} has an entry of column {at}, which is not below {n} or not above the one before"
    ))
}

fn zero(row: &Row, names: &Names, name: &str) -> Option<String> {
    let (column, _) = row.entries.iter().find(|entry| entry.1 == 0)?;
    let column = names.columns.get(*column)?;
    Some(format!("row {name} has an entry of {column} whose coefficient is 0"))
}

fn kind(row: &Row, name: &str) -> Option<String> {
    (row.kind > 1)
        .then(|| format!("row {name} has the kind {}, at most 1", grouped(row.kind.into())))
}

/// The numbers with every coefficient in its place, where all columns are below n.
fn numbers(bounds: Vec<i64>, rows: &[Row], n: usize) -> Numbers {
    let mut coefs = vec![0; rows.len() * n];
    for (index, row) in rows.iter().enumerate() {
        for &(column, value) in row.entries.iter().filter(|entry| entry.0 < n) {
            coefs[index * n + column] = value;
        }
    }
    Numbers { bounds, coefs, rhs: rows.iter().map(|row| row.rhs).collect() }
}

#[cfg(test)]
mod tests {
    use super::*;
    use astrolabe::{Model, sparse_size};

    fn said(book: &[u8]) -> String {
        let (n, m) = sparse_size(&book[book.len() - 16..]).unwrap();
        let refusal = Model::from_sparse_book(book).unwrap_err();
        explain(book, refusal, &Names::numbered(n, m)).to_string()
    }

    #[test]
    fn the_number_at_fault_is_named() {
        let model = Model::new(vec![0, 1, 0, 1], vec![3, 2], vec![4]).unwrap();
        let book = model.to_sparse_book().unwrap();
        let with = |at: usize, bytes: &[u8]| {
            let mut book = book.clone();
            book[at..at + bytes.len()].copy_from_slice(bytes);
            said(&book)
        };
        // bounds 0 to 15, right-hand side 16, kind 20, count 21, entries at 23 and 29
        assert_eq!(
            with(12, &5_000_i32.to_le_bytes()),
            "refused 23: variable x1 is 5,000 wide, at most 4,096"
        );
        assert_eq!(with(20, &[2]), "refused 16: row r0 has the kind 2, at most 1");
        assert!(
            with(29, &[0, 0]).starts_with("refused 19: row r0 has an entry of column 0, which is")
        );
        assert!(
            with(29, &[2, 0]).starts_with("refused 19: row r0 has an entry of column 2, which is")
        );
        assert_eq!(
            with(31, &[0; 4]),
            "refused 20: row r0 has an entry of x1 whose coefficient is 0"
        );
        let coefficient = with(25, &2_000_000_i32.to_le_bytes());
        assert!(coefficient.starts_with("refused 8: row r0 has the coefficient 2,000,000 of x0"));
        let side = with(16, &2_000_000_000_i32.to_le_bytes());
        assert!(side.starts_with("refused 9: row r0 has the right-hand side 2,000,000,000"));
    }
}
