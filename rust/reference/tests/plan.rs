//! Size and passes told beforehand (02, C-17).

use reference::calls::{self, ANSWER};
use reference::plan::MAX_RECORDS;
use reference::{book, plan};

const EMPTY: [i32; 4] = [1, 0, 1, 0];

fn run(bounds: &[i32], list: &[u32]) -> Result<[u64; 3], u32> {
    let mut answer = [7; ANSWER];
    match calls::plan_run(bounds.len() / 2, bounds, list, &mut answer) {
        0 => {
            assert_eq!(answer[3..], [0; ANSWER - 3]);
            Ok([answer[0], answer[1], answer[2]])
        }
        check => {
            assert_eq!(answer, [7; ANSWER], "a refusal writes nothing");
            Err(check)
        }
    }
}

#[test]
fn widths_and_budgets() {
    assert_eq!((plan::width(&[0, 5, -3, 4]), plan::budget(&[0, 5, -3, 4])), (12, 13));
    assert_eq!((plan::width(&[7, 7]), plan::budget(&[7, 7])), (0, 1));
    assert_eq!((plan::width(&EMPTY), plan::budget(&EMPTY)), (0, 1));
    let widest = [0, 4_096].repeat(128);
    assert_eq!((plan::width(&widest), plan::budget(&widest)), (524_288, 524_289));
}

#[test]
fn limits_of_lists() {
    let bounds = [0, 5, -3, 4];
    let limit = |list: &[u32]| run(&bounds, list).unwrap()[2];
    assert_eq!(run(&bounds, &[]), Ok([12, 13, 0]));
    // The lesser of the budget and the width plus 1; a probe twice that; refused or not.
    assert_eq!(
        [9, 13, 14, 0, u32::MAX].map(|budget| limit(&[2, 0, 0, budget])),
        [9, 13, 13, 0, 13]
    );
    assert_eq!(
        [9, 13, 14, 0, u32::MAX].map(|budget| limit(&[3, 9, 9, budget])),
        [18, 26, 26, 0, 26]
    );
    // Other kinds make no pass.
    assert_eq!([0, 1, 4, 5, 6, u32::MAX].map(|kind| limit(&[kind, 0, 0, 9])), [0; 6]);
    assert_eq!(limit(&[2, 0, 0, 9, 3, 0, 0, 4, 2, 0, 0, 1]), 18);
    // On the empty box a settle makes 1 pass.
    assert_eq!(run(&EMPTY, &[2, 0, 0, 9, 3, 0, 0, 9]), Ok([0, 1, 3]));
}

#[test]
fn long_lists() {
    let list = [3, 0, 0, u32::MAX].repeat(MAX_RECORDS);
    let widest = [0, 4_096].repeat(128);
    assert_eq!(run(&widest, &list), Ok([524_288, 524_289, 2 * 524_289 * MAX_RECORDS as u64]));
    assert_eq!(run(&widest, &[list, vec![1, 0, 0, 0]].concat()), Err(5));
}

#[test]
fn refusals_in_their_order() {
    assert_eq!(run(&[], &[1]), Err(3));
    assert_eq!(run(&[40_000, 0], &[1]), Err(5));
    assert_eq!(run(&[40_000, 0], &[]), Err(6));
    assert_eq!(run(&[4_100, 0], &[]), Err(7));
    assert_eq!(run(&[0, 4_097], &[]), Err(23));
    assert_eq!(run(&[0, 4_096], &[]), Ok([4_096, 4_097, 0]));
    let mut answer = [0; ANSWER];
    assert_eq!(calls::plan_width(129, &[], &mut answer), 3);
    assert_eq!(calls::plan_width(2, &[0, 1], &mut answer), 5);
    assert_eq!(calls::plan_width(1, &[40_000, 0], &mut answer[..11]), 5);
    assert_eq!(calls::plan_width(1, &[40_000, 0], &mut answer), 6);
}

#[test]
fn lengths_of_a_trailer() {
    let book = book::write(3, 2, &[0; 6], &[0; 6], &[0; 2]);
    let trailer = &book[book.len() - book::TRAILER..];
    let mut answer = [7; ANSWER];
    assert_eq!(calls::plan_lengths(trailer, &mut answer), 0);
    assert_eq!(answer, [3, 2, 6, 6, 2, 2, 36, 3, 18, 6, 72, 0]);
    assert_eq!(book.len(), 72);
    assert_eq!(calls::plan_lengths(&trailer[1..], &mut answer[..11]), 1);
    assert_eq!(calls::plan_lengths(trailer, &mut answer[..11]), 5);
    assert_eq!(calls::plan_lengths(&book, &mut answer), 5);
}
