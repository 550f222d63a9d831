//! What `allocations` prints for an input: a book, a count and proposals (02, C-21; D-59).

use reference::allocations_input::{LONGEST, lines};

/// Numbers of 32 bits, the lowest byte first.
fn words(numbers: &[i32]) -> Vec<u8> {
    numbers.iter().flat_map(|x| x.to_le_bytes()).collect()
}

/// The book of n variables and m rows whose numbers are given.
fn book(n: u16, m: u16, numbers: &[i32]) -> Vec<u8> {
    let mut book = words(numbers);
    let length = book.len() as u32 + 16;
    book.extend(words(&[0, 8 * i32::from(n)]));
    book.extend([n.to_le_bytes(), m.to_le_bytes()].concat());
    book.extend(length.to_le_bytes());
    book
}

/// 3x + 2y ≤ 4 over 0-1 variables, then a count and numbers.
fn asked(count: i32, numbers: &[i32]) -> String {
    let mut input = book(2, 1, &[0, 1, 0, 1, 4, 3, 2]);
    input.extend(words(&[count]));
    input.extend(words(numbers));
    lines(&input)
}

#[test]
fn a_line_for_each_proposal() {
    assert_eq!(asked(3, &[0, 1, 0, 2, 1, 1]), "inside\nvariable 1\nrow 0\n");
}

#[test]
fn the_count_comes_before_the_length() {
    assert_eq!(asked(0, &[]), "refused 22\n");
    assert_eq!(asked(65, &[0, 1]), "refused 22\n");
    assert_eq!(asked(-1, &[0, 1]), "refused 22\n");
    assert_eq!(asked(2, &[0, 1]), "refused 5\n");
    assert_eq!(asked(1, &[0, 1, 0]), "refused 5\n");
    assert_eq!(asked(64, &[1; 128]), "row 0\n".repeat(64));
}

#[test]
fn a_book_alone_has_no_count() {
    assert_eq!(lines(&book(2, 1, &[0, 1, 0, 1, 4, 3, 2])), "refused 22\n");
    assert_eq!(lines(&[]), "refused 1\n");
    assert_eq!(lines(&[0; 16]), "refused 2\n");
    assert_eq!(lines(&vec![0; LONGEST + 1]), "refused 2\n");
}

#[test]
fn numbers_are_checked_behind_the_split() {
    for (bounds, refused) in [([3, 2], 7), ([0, 32_768], 6), ([0, 4_097], 23)] {
        let mut input = book(1, 0, &bounds);
        input.extend(words(&[1, 0]));
        assert_eq!(lines(&input), format!("refused {refused}\n"));
    }
}

#[test]
fn a_spelled_trailer_ends_the_book_only_where_proposals_fit() {
    // The bounds of variables 1 and 2 spell the trailer of a book of one variable: 0, 8, 1 and 0, 24.
    let mut input = book(3, 1, &[0, 1, 0, 8, 1, 24, 20, 0, 1, 1]);
    input.extend(words(&[1, 1, 8, 13]));
    assert_eq!(lines(&input), "row 0\n");
    // With a count of 1 and one number behind it, the shorter book is the first place that fits.
    let mut short = words(&[0, 1, 0, 8, 1, 24]);
    short.extend(words(&[1, 1]));
    assert_eq!(lines(&short), "inside\n");
}
