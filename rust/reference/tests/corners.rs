//! Corner cases: what docs/DECISIONS.md decides where 01 leaves a point open (D-1 and following), what
//! 02's requests change, and what the issue fixes for the C interface.

mod common;
use common::{Model, ok};
use reference::calls::{self, ANSWER};

const MAX_BUDGET: u32 = 8_388_481;

/// The empty box over one row.
fn empty_box() -> Model {
    Model::new(&[(1, 0), (1, 0)], &[(&[1, 1], 1)])
}

/// Each call answers infeasible there, rest says yes, and nothing changes.
fn answers_on_the_empty_box(model: &mut Model) {
    let before = model.clone();
    assert_eq!(model.propagate_row(0), ok(&[0]));
    assert_eq!(model.propagate(3), ok(&[0, 1]));
    assert_eq!(model.probe(0, 3), ok(&[0]));
    assert_eq!(model.tighten(0, 0), ok(&[0]));
    assert_eq!(model.remove(0), ok(&[0]));
    assert_eq!(model.at_rest(), ok(&[1]));
    assert_eq!(*model, before);
}

#[test]
fn checks_run_strictly_in_their_order() {
    // D-1: everything is wrong; repairing one check after another shows the next number, 23 after 7 and
    // 16 after 9.
    let mut model = Model::new(&[(0, 40_000), (1, 0)], &[(&[1_000_001, 0], 1_000_000_001)]);
    model.kinds[0] = 2;
    model.table[0] = 2;
    assert_eq!(model.probe(9, 0), Err(6));
    model.bounds[1] = 1;
    assert_eq!(model.probe(9, 0), Err(7));
    model.bounds[3] = 4_098;
    assert_eq!(model.probe(9, 0), Err(23));
    model.bounds[3] = 4_097;
    assert_eq!(model.probe(9, 0), Err(8));
    model.coefs[0] = 1_000_000;
    assert_eq!(model.probe(9, 0), Err(9));
    model.rhs[0] = 1_000_000_000;
    assert_eq!(model.probe(9, 0), Err(16));
    model.kinds[0] = 0;
    assert_eq!(model.probe(9, 0), Err(10));
    model.table[0] = 1;
    assert_eq!(model.probe(2, 0), Err(13));
    assert_eq!(model.probe(1, 0), Err(14));
    assert_eq!(model.probe(0, 0), Err(15));
    assert_eq!(model.probe(0, MAX_BUDGET + 1), Err(15));
    assert_eq!(model.probe(0, MAX_BUDGET), ok(&[2, 0, 1, 0, 0, 1, 0, 0]));
}

#[test]
fn lengths_come_after_the_size_and_before_the_numbers() {
    let mut answer = [7; ANSWER];
    let mut bounds = [0, 40_000, 0];
    let said = |n, m, bounds: &mut [i32], answer: &mut [u64]| {
        calls::propagate_row(n, m, bounds, &[1], &[1], &[2], 0, answer)
    };
    assert_eq!(said(0, 1, &mut bounds, &mut answer), 3);
    assert_eq!(said(129, 1, &mut bounds, &mut answer), 3);
    assert_eq!(said(usize::MAX, usize::MAX, &mut bounds, &mut answer), 3);
    assert_eq!(said(1, 121, &mut bounds, &mut answer), 3);
    assert_eq!(said(1, 1, &mut bounds, &mut answer), 5);
    assert_eq!(said(1, 1, &mut bounds[..2], &mut answer[..ANSWER - 1]), 5);
    assert_eq!(said(1, 1, &mut bounds[..2], &mut answer[..6]), 5); // as long as it was before C-11
    assert_eq!(said(1, 1, &mut bounds[..2], &mut answer), 6);
    assert_eq!(answer, [7; ANSWER]);
}

#[test]
fn a_box_that_is_nearly_empty_is_refused() {
    // 7: one variable with l above u is not the empty box unless all are (1, 0).
    let mut model = Model::new(&[(1, 0), (0, 0)], &[]);
    assert_eq!(model.propagate(1), Err(7));
    model.bounds = vec![1, 0, 1, 0];
    assert_eq!(model.propagate(1), ok(&[0, 1]));
    model.bounds = vec![1, 0, 2, 1];
    assert_eq!(model.propagate(1), Err(7));
}

/// C-22: "A variable whose u − l is over 4,096 is refused, in books and in memory, in every call".
#[test]
fn a_variable_is_at_most_4_096_wide() {
    // Wherever it stands in its range, and whichever of the variables it is.
    for low in [-32_768, -4_097, -2_048, 0, 1, 32_767 - 4_097] {
        for place in 0..3 {
            let mut model = Model::new(&[(0, 1); 3], &[(&[1, 1, 1], 40_000)]);
            model.bounds[2 * place..][..2].copy_from_slice(&[low, low + 4_096]);
            assert_eq!(every_call(&mut model), [0; 10]);
            model.bounds[2 * place + 1] += 1;
            assert_eq!(every_call(&mut model), [23; 10]);
        }
    }
    // The whole range, and a box with the empty box's first pair: that one is crossed, and 7 comes first.
    assert_eq!(every_call(&mut Model::new(&[(-32_768, 32_767)], &[(&[0], 0)])), [23; 10]);
    assert_eq!(every_call(&mut Model::new(&[(1, 0), (0, 4_097)], &[(&[0, 0], 0)])), [7; 10]);
}

/// What each of the ten calls that are lent bounds or a book of the model returns, each on its own copy;
/// 0 also where only the variable is refused (by 14, after every check of the model).
fn every_call(model: &mut Model) -> [u32; 10] {
    let calls: [fn(&mut Model) -> common::Said; 8] = [
        |model| model.propagate_row(0),
        |model| model.propagate(1),
        |model| model.probe(0, 1),
        |model| model.tighten(0, 0),
        |model| model.remove(0),
        |model| model.at_rest(),
        |model| model.run(&[]),
        |model| model.rounds(0),
    ];
    let mut numbers = [0; 10];
    for (number, call) in numbers.iter_mut().zip(calls) {
        *number = call(&mut model.clone()).err().filter(|&check| check != 14).unwrap_or(0);
    }
    let (n, m) = (model.n, model.m);
    let mut book = reference::book::write(n, m, &model.bounds, &model.coefs, &model.rhs);
    let (mut bounds, mut coefs) = (vec![9; 2 * n], vec![9; m * n]);
    let (mut rhs, mut kinds) = (vec![9; m], vec![9; m]);
    let answer = &mut [0; ANSWER];
    numbers[8] = calls::book_read(&book, &mut bounds, &mut coefs, &mut rhs, &mut kinds, answer);
    assert_eq!(numbers[8] == 0, bounds != vec![9; 2 * n], "a refusal writes nothing");
    let (rhs, kinds) = (&model.rhs, &model.kinds);
    numbers[9] = calls::book_write(n, m, &model.bounds, &model.coefs, rhs, kinds, &mut book);
    numbers
}

#[test]
fn the_width_comes_straight_after_7_and_before_8() {
    let wide = (0, 4_097);
    let said = |first, second, a, b| Model::new(&[first, second], &[(&[0, a], b)]).propagate(0);
    let (big_a, big_b) = (1_000_001, 1_000_000_001);
    assert_eq!(said(wide, (0, 32_768), big_a, big_b), Err(6));
    assert_eq!(said((0, 32_768), wide, big_a, big_b), Err(6));
    assert_eq!(said(wide, (1, 0), big_a, big_b), Err(7));
    assert_eq!(said((2, 1), wide, big_a, big_b), Err(7));
    assert_eq!(said(wide, (0, 1), big_a, big_b), Err(23));
    assert_eq!(said((0, 1), wide, 0, big_b), Err(23));
    assert_eq!(said((0, 1), wide, 0, 0), Err(23));
    assert_eq!(said((0, 1), (0, 4_096), big_a, big_b), Err(8));
    assert_eq!(said((0, 1), (0, 4_096), 0, 0), Err(15));
    // A bound out of its range by far: the width is looked at only after 6.
    assert_eq!(said((i32::MIN, i32::MAX), wide, 0, 0), Err(6));
    // The empty box has no width, and with it every other check applies as before.
    assert_eq!(empty_box().propagate(0), Err(15));
}

#[test]
fn the_trailer_call_has_its_own_order() {
    // D-3: 1, then 5, then 3, then 4.
    let book = Model::binary(2, &[(&[3, 2], 4)]).book();
    let trailer = &book[28..];
    let mut answer = [7; ANSWER];
    assert_eq!(calls::book_trailer(trailer, &mut answer), 0);
    assert_eq!(Ok(answer), ok(&[2, 1]));
    assert_eq!(calls::book_trailer(&trailer[..15], &mut answer[..ANSWER - 1]), 1);
    assert_eq!(calls::book_trailer(trailer, &mut answer[..ANSWER - 1]), 5);
    assert_eq!(calls::book_trailer(&book[27..], &mut answer), 5);
    let mut bad = trailer.to_vec();
    bad[12] += 1;
    assert_eq!(calls::book_trailer(&bad, &mut answer), 4);
    bad[8] = 0;
    assert_eq!(calls::book_trailer(&bad, &mut answer), 3);
    bad.push(0);
    assert_eq!(calls::book_trailer(&bad, &mut answer), 5);
}

#[test]
fn a_book_is_checked_in_order() {
    let model = Model::binary(2, &[(&[3, 2], 4)]);
    let good = model.book();
    let read = |book: &[u8], lent: usize| {
        let (mut bounds, mut coefs, mut rhs) = (vec![9; lent], vec![9; 2], vec![9; 1]);
        let (mut kinds, mut answer) = (vec![9; 1], [7; ANSWER]);
        let said =
            calls::book_read(book, &mut bounds, &mut coefs, &mut rhs, &mut kinds, &mut answer);
        let written = bounds != vec![9; lent]
            || coefs != [9; 2]
            || rhs != [9]
            || kinds != [9]
            || answer != [7; ANSWER];
        assert_eq!(said == 0, written, "a refusal writes nothing");
        assert!(said != 0 || kinds == [0], "a first-edition book has kind 0 throughout");
        said
    };
    let with = |at: usize, byte: u8| {
        let mut book = good.clone();
        book[at] = byte;
        book
    };
    assert_eq!(read(&good, 4), 0);
    assert_eq!(read(&good[29..], 4), 1);
    assert_eq!(read(&[], 4), 1);
    assert_eq!(read(&good[1..], 4), 2);
    assert_eq!(read(&with(40, 45), 4), 2);
    assert_eq!(read(&with(36, 0), 4), 3);
    assert_eq!(read(&with(37, 1), 4), 3);
    assert_eq!(read(&with(28, 1), 4), 4);
    assert_eq!(read(&with(32, 17), 4), 4);
    assert_eq!(read(&with(36, 3), 4), 4);
    assert_eq!(read(&good, 3), 5);
    assert_eq!(read(&with(6, 1), 4), 6);
    assert_eq!(read(&with(0, 2), 4), 7);
    assert_eq!(read(&with(5, 0x10), 4), 23); // u = 4,097
    assert_eq!(read(&with(23, 1), 4), 8);
    assert_eq!(read(&with(19, 0x7f), 4), 9);
}

#[test]
fn on_the_empty_box_rows_variables_and_budgets_are_still_checked() {
    // D-4
    let mut model = empty_box();
    assert_eq!(model.propagate_row(1), Err(12));
    assert_eq!(model.remove(1), Err(12));
    assert_eq!(model.tighten(1, 2), Err(12));
    assert_eq!(model.tighten(0, 2), Err(13));
    assert_eq!(model.probe(2, 0), Err(13));
    assert_eq!(model.probe(0, 0), Err(15));
    assert_eq!(model.propagate(0), Err(15));
    answers_on_the_empty_box(&mut model);
    model.coefs[0] = -1_000_001;
    assert_eq!(model.at_rest(), Err(8));
}

#[test]
fn without_rows_a_box_converges_after_one_pass() {
    // D-6
    assert_eq!(Model::new(&[(-3, 3)], &[]).propagate(1), ok(&[1, 1]));
    assert_eq!(Model::new(&[(1, 0)], &[]).propagate(1), ok(&[0, 1]));
}

#[test]
fn both_sides_are_propagated_and_reported() {
    // D-7: side 0 is infeasible in its first pass, and side 1's passes are told all the same.
    let mut model = Model::new(&[(0, 1), (0, 5)], &[(&[-1, 0], -1), (&[0, 2], 5)]);
    assert_eq!(model.probe(0, 9), ok(&[1, 1, 1, 0, 0, 2, 0, 1]));
    assert_eq!(model.bounds, [1, 1, 0, 2]);
    // Both infeasible: the passes are the real ones. With x = 0 rows 1 and 2 put y and z at 1, which
    // row 0 finds in the second pass; with x = 1 row 3 is infeasible in the first.
    let rows: &[(&[i32], i32)] =
        &[(&[0, 1, 1], 1), (&[-1, -1, 0], -1), (&[-1, 0, -1], -1), (&[1, 0, 0], 0)];
    let mut model = Model::binary(3, rows);
    assert_eq!(model.probe(0, 9), ok(&[0, 0, 2, 0, 2, 1, 0, 0]));
    assert!(model.is_empty());
    assert!(model.table.iter().all(|&byte| byte == 0));
}

#[test]
fn a_spent_side_is_used_and_told() {
    // z ≤ y before x + y ≤ 1. Side 1 is spent at budget 1: it puts y at 0, and z is not reached.
    let mut model = Model::binary(3, &[(&[0, -1, 1], 0), (&[1, 1, 0], 1)]);
    assert_eq!(model.probe(0, 1), ok(&[2, 2, 1, 0, 0, 1, 1, 1]));
    assert_eq!(model.bounds, [0, 1, 0, 1, 0, 1]);
    // C-15: a side that moved a bound in its last pass and is quiet now is not spent.
    let mut model = Model::new(&[(0, 1), (0, 5)], &[(&[5, 2], 10)]);
    assert_eq!(model.probe(0, 1), ok(&[2, 0, 1, 0, 0, 1, 0, 1]));
    assert_eq!(model.bounds, [0, 1, 0, 5]);
    // Both sides narrow: the hull does too.
    let mut model = Model::new(&[(0, 1), (0, 5)], &[(&[1, 2], 5)]);
    assert_eq!(model.probe(0, 1), ok(&[2, 0, 1, 0, 1, 1, 0, 1]));
    assert_eq!(model.bounds, [0, 1, 0, 2]);
}

#[test]
fn bounds_moved_before_none_are_counted() {
    // C-11: "including those of a pass that ended in None"; "a visit that answers None adds nothing".
    // Row 0 puts both at 1, row 1 finds 2 > 1 in the same pass.
    let mut model = Model::binary(2, &[(&[-1, -1], -2), (&[1, 1], 1)]);
    assert_eq!(model.propagate(9), ok(&[0, 1, 2]));
    assert!(model.is_empty());
    // The same on the side x = 1 of a third variable, which loosens row 0 when it is 0.
    let mut model = Model::binary(3, &[(&[2, -1, -1], 0), (&[0, 1, 1], 1)]);
    assert_eq!(model.probe(0, 9), ok(&[1, 0, 1, 0, 0, 1, 0, 2]));
    // x + y ≥ 6, 2x ≤ 5, y ≤ x over 0..5. Pass 1: both lower bounds go to 1, then x ≤ 2, then y ≤ 2; in
    // pass 2 the first row finds that 4 < 6.
    let rows: &[(&[i32], i32)] = &[(&[-1, -1], -6), (&[2, 0], 5), (&[-1, 1], 0)];
    let mut model = Model::new(&[(0, 5), (0, 5)], rows);
    assert_eq!(model.clone().propagate(1), ok(&[2, 1, 4]));
    assert_eq!(model.propagate(9), ok(&[0, 2, 4]));
    // The empty box: no row is propagated.
    assert_eq!(model.propagate(9), ok(&[0, 1, 0]));
    assert_eq!(model.propagate_row(0), ok(&[0, 0]));
}

#[test]
fn a_bound_that_moves_in_each_pass_is_counted_in_each() {
    // x ≤ y and 1,000,000 y ≤ 999,999 x over 0..3: y, then x, one down in each pass until both are 0; the
    // sum is the width lost, 6, and not the number of bounds that differ in the end, 2.
    let rows: &[(&[i32], i32)] = &[(&[1, -1], 0), (&[-999_999, 1_000_000], 0)];
    let mut model = Model::new(&[(0, 3), (0, 3)], rows);
    assert_eq!(model.propagate(9), ok(&[1, 5, 6]));
    assert_eq!(model.bounds, [0, 0, 0, 0]);
    let mut model = Model::new(&[(0, 3), (0, 3)], rows);
    assert_eq!(model.propagate(2), ok(&[2, 2, 3]));
    assert_eq!(model.bounds, [0, 2, 0, 1]);
}

#[test]
fn implications_are_of_variables_free_before_the_call() {
    // D-8 and D-9: y is fixed at 0 by both sides; both implications are recorded, z (0..2) none.
    let rows: &[(&[i32], i32)] = &[(&[0, 1, 0], 0), (&[0, 0, 1], 0)];
    let mut model = Model::new(&[(0, 1), (0, 1), (0, 2)], rows);
    assert_eq!(model.probe(0, 9), ok(&[2, 4, 2, 0, 2, 2, 0, 2]));
    let at: Vec<usize> = (0..36).filter(|&at| model.table[at] == 1).collect();
    assert_eq!(at, [2, 6 + 2, 3 * 6, 3 * 6 + 1]);
    assert_eq!(model.bounds, [0, 1, 0, 0, 0, 0]);
    // The same again counts nothing: y is no longer free.
    assert_eq!(model.probe(0, 9), ok(&[2, 0, 1, 0, 0, 1, 0, 0]));
    // A byte that is 1 already does not count.
    let mut model = Model::new(&[(0, 1), (0, 1), (0, 2)], rows);
    model.table[2] = 1;
    assert_eq!(model.probe(0, 9), ok(&[2, 3, 2, 0, 2, 2, 0, 2]));
}

#[test]
fn tightening_at_the_limits() {
    // D-10: refused where the variable is not free, also with a zero coefficient.
    let mut model = Model::new(&[(0, 1), (0, 0)], &[(&[1, 0], 0)]);
    assert_eq!(model.tighten(0, 1), Err(14));
    assert_eq!(Model::binary(2, &[(&[1, 0], 0)]).tighten(0, 1), ok(&[2]));
    // With y = −1,000 and z = −1 the row 3x + 1,000,000y + cz has Lmax = 3 − 1,000,000,000 − c, and
    // the new right side is Lmax − 3: −1,000,000,000 (c = 0) is written, one less (c = 1) is not.
    let model = |c: i32| {
        let bounds = [(0, 1), (-1_000, -1_000), (-1, -1)];
        Model::new(&bounds, &[(&[3, 1_000_000, c], -999_999_999)])
    };
    let mut exact = model(0);
    assert_eq!(exact.tighten(0, 0), ok(&[1]));
    assert_eq!(exact.row(0), (&[2, 1_000_000, 0][..], -1_000_000_000));
    let mut below = model(1);
    assert_eq!(below.tighten(0, 0), ok(&[2]));
    assert_eq!(below.row(0), (&[3, 1_000_000, 1][..], -999_999_999));
}

#[test]
fn removing_all_zero_rows() {
    // D-11
    let mut model = Model::binary(1, &[(&[0], 3)]);
    assert_eq!(model.remove(0), ok(&[1]));
    assert_eq!(model.row(0), (&[0][..], 0));
    assert_eq!(model.remove(0), ok(&[2]));
    let mut model = Model::binary(1, &[(&[0], -3)]);
    assert_eq!(model.remove(0), ok(&[2]));
    assert_eq!(model.row(0), (&[0][..], -3));
}

#[test]
fn a_call_list_counts_each_call_once() {
    // D-12: refused by 11, 18 and 12 to 15, None, changed, unchanged; fields that a kind lacks hold anything.
    let mut model = Model::new(&[(0, 1), (0, 5)], &[(&[0, 2], 5), (&[1, 0], 0)]);
    let any = u32::MAX;
    #[rustfmt::skip]
    let calls = [
        0, 0, 0, 1,         // 11
        6, 0, 0, 1,         // 11
        1, 2, any, any,     // 12
        3, any, 2, 1,       // 13
        3, any, 1, 1,       // 14
        2, any, any, 0,     // 15
        4, 9, 9, any,       // 18, whatever its fields
        4, 1, 0, any,       // 18
        1, 0, any, any,     // y to 0..2
        1, 0, any, any,     // nothing more
        5, 0, any, any,     // 18, though 2y ≤ 5 is redundant now
        3, any, 0, 2,       // x fixed at 0
        2, any, any, MAX_BUDGET, // nothing
    ];
    assert_eq!(model.run(&calls), ok(&[9, 0, 2, 2]));
    assert_eq!(model.bounds, [0, 0, 0, 2]);
    assert_eq!(model.coefs, [0, 2, 1, 0]);
    assert_eq!(model.run(&[]), ok(&[]));
    assert_eq!(model.run(&calls[..43]), Err(5));
    // None counts as None only, also where it empties the box, and the run goes on.
    model.rhs[1] = -1;
    // A retired kind is refused on the empty box too.
    assert_eq!(model.run(&[1, 1, 0, 0, 2, 0, 0, 1, 4, 1, 0, 0, 9, 9, 9, 9]), ok(&[2, 2]));
    assert!(model.is_empty());
    assert_eq!(model.run(&[4, 1, 0, 0, 5, 1, 0, 0, 1, 1, 0, 0]), ok(&[2, 1]));
}

#[test]
fn rounds_and_their_limit() {
    let model = Model::binary(2, &[(&[3, 2], 4)]);
    assert_eq!(model.clone().rounds(8), ok(&[1, 2]));
    assert_eq!(model.clone().rounds(2), ok(&[1, 2]));
    assert_eq!(model.clone().rounds(1), ok(&[2, 1]));
    assert_eq!(model.clone().rounds(0), ok(&[2, 0]));
    assert_eq!(model.clone().rounds(u64::MAX), ok(&[1, 2]));
    let mut none = Model::binary(1, &[(&[1], -1)]);
    assert_eq!(none.rounds(1), ok(&[0, 1]));
    assert_eq!(none.rounds(0), ok(&[2, 0]));
    assert_eq!(none.rounds(1), ok(&[0, 1]));
    // A table that is lent with bytes in it is kept and extended; a byte above 1 is refused.
    let mut model = Model::binary(2, &[(&[3, 2], 4)]);
    model.table[0] = 1;
    assert_eq!(model.rounds(8), ok(&[1, 2]));
    assert_eq!(model.table.iter().map(|&byte| u32::from(byte)).sum::<u32>(), 3);
    model.table[0] = 2;
    assert_eq!(model.rounds(0), Err(10));
}

/// 02, C-24: the rounds tell whether a side of a probe in the last round was Spent.
#[test]
fn rounds_with_a_spent_side() {
    // x + z ≤ y, y ≤ x, x and y 0..2100: with z at 1 no point is left, but 1,000 passes do not show it.
    let rows: [(&[i32], i32); 2] = [(&[1, -1, 1], 0), (&[-1, 1, 0], 0)];
    let model = Model::new(&[(0, 2_100), (0, 2_100), (0, 1)], &rows);
    assert_eq!(model.clone().rounds(8), ok(&[1, 1, 1]));
    assert_eq!(model.clone().rounds(0), ok(&[2, 0, 0]));
    assert_eq!(model.clone().at_rest(), ok(&[0, 1, 2]));
    // With a smaller width they do: z is fixed at 0, and the second round changes nothing, at rest.
    let mut narrow = Model::new(&[(0, 900), (0, 900), (0, 1)], &rows);
    assert_eq!(narrow.clone().rounds(1), ok(&[2, 1, 0]));
    assert_eq!(narrow.rounds(8), ok(&[1, 2, 0]));
    assert_eq!(narrow.at_rest(), ok(&[1]));
    // Infeasible: the round that it broke off is the last, and counts. v + w = 1 and v = w have no point, as only
    // the probe of v shows, after that of z.
    let rows: [(&[i32], i32); 6] = [
        (&[1, -1, 1, 0, 0], 0),
        (&[-1, 1, 0, 0, 0], 0),
        (&[0, 0, 0, 1, 1], 1),
        (&[0, 0, 0, -1, -1], -1),
        (&[0, 0, 0, 1, -1], 0),
        (&[0, 0, 0, -1, 1], 0),
    ];
    let mut none = Model::new(&[(0, 2_100), (0, 2_100), (0, 1), (0, 1), (0, 1)], &rows);
    assert_eq!(none.rounds(8), ok(&[0, 1, 1]));
    // The round's own propagation does not count: it crawls for 1,000 passes, and no variable is free.
    let crawl = Model::new(&[(0, 2_100), (0, 2_100)], &[(&[1, -1], -1), (&[-1, 1], 0)]);
    assert_eq!({ crawl }.rounds(1), ok(&[2, 1, 0]));
}

#[test]
fn reduce_prints_none_and_refusals() {
    use reference::report;
    let reduce = |book: &[u8]| report::reduce(book, report::NO_LIMIT);
    assert_eq!(reduce(&[]), "refused 1\n");
    assert_eq!(reduce(&[0; 16]), "refused 2\n");
    assert_eq!(reduce(&Model::binary(1, &[(&[1], -1)]).book()), "none\n");
    assert_eq!(reduce(&empty_box().book()), "none\n");
    let wide = reference::book::write(1, 0, &[0, 4_097], &[], &[]);
    assert_eq!(reduce(&wide), "refused 23\n");
    let widest = reference::book::write(1, 0, &[-2_048, 2_048], &[], &[]);
    assert_eq!(reduce(&widest), "reduced 1 0 1\nv 0 -2048 2048\n");
    assert_eq!(reduce(&Model::new(&[(-2, 7)], &[(&[0], 5)]).book()), "reduced 1 1 2\nv 0 -2 7\n");
}

/// C-14: "16, a kind byte above 1, after check 9", in every call on a model.
#[test]
fn a_kind_byte_is_0_or_1() {
    let mut model = Model::binary(2, &[(&[1, 1], 1), (&[1, 0], 1)]);
    for place in 0..2 {
        for byte in [2, 3, 128, 255] {
            model.kinds = vec![0, 0];
            model.kinds[place] = byte;
            // A book holds no kinds: reading one never fails by 16.
            assert_eq!(every_call(&mut model), [16, 16, 16, 16, 16, 16, 16, 16, 0, 16]);
        }
    }
    // The empty box is checked as any other.
    let mut empty = empty_box();
    empty.kinds[0] = 2;
    assert_eq!(empty.propagate_row(0), Err(16));
    assert_eq!(empty.at_rest(), Err(16));
}

#[test]
fn kinds_are_as_many_as_rows() {
    let said = |kinds: &[u8], b| {
        calls::propagate_row(1, 1, &mut [0, 1], &[1], &[b], kinds, 0, &mut [0; ANSWER])
    };
    assert_eq!(said(&[1], 1), 0);
    assert_eq!(said(&[], 1), 5);
    assert_eq!(said(&[0, 0], 1), 5);
    assert_eq!(said(&[2, 2], 2_000_000_000), 5);
    assert_eq!(said(&[2], 2_000_000_000), 9);
    assert_eq!(said(&[2], 1), 16);
    // Without rows there are none.
    let without =
        |kinds: &[u8]| calls::propagate(1, 0, &mut [0, 1], &[], &[], kinds, 1, &mut [0; ANSWER]);
    assert_eq!(without(&[]), 0);
    assert_eq!(without(&[0]), 5);
    // In a book's call too.
    let book = Model::binary(1, &[(&[1], 1)]).book();
    let read = |kinds: &mut [u8]| {
        calls::book_read(&book, &mut [9; 2], &mut [9], &mut [9], kinds, &mut [0; ANSWER])
    };
    assert_eq!(read(&mut [9]), 0);
    assert_eq!(read(&mut []), 5);
    assert_eq!(read(&mut [9, 9]), 5);
}

#[test]
fn the_kinds_come_after_9_and_before_10() {
    let mut model = Model::binary(1, &[(&[1], 1_000_000_001), (&[1], 1)]);
    model.kinds = vec![0, 2];
    model.table[0] = 2;
    assert_eq!(model.rounds(0), Err(9));
    model.rhs[0] = 1;
    assert_eq!(model.rounds(0), Err(16));
    model.kinds[1] = 1;
    assert_eq!(model.rounds(0), Err(10));
    // And before a call's own: 12 to 15.
    model.kinds[1] = 2;
    assert_eq!(model.propagate_row(9), Err(16));
    assert_eq!(model.tighten(9, 9), Err(16));
    assert_eq!(model.propagate(0), Err(16));
    assert_eq!(model.remove(9), Err(16));
}

#[test]
fn an_equality_row_does_not_go_into_a_first_edition_book() {
    // C-14: "17, an = row to be written into a first-edition book, straight after 16".
    let model = Model::binary(2, &[(&[1, 1], 1), (&[0, 0], 0)]);
    assert!(model.write().is_ok());
    assert_eq!(model.clone().with_equal(&[0]).write(), Err(17));
    assert_eq!(model.clone().with_equal(&[1]).write(), Err(17)); // 0 = 0 is one as well
    let mut both = model.clone().with_equal(&[0]);
    both.kinds[1] = 2;
    assert_eq!(both.write(), Err(16));
    both.rhs[1] = -1_000_000_001;
    assert_eq!(both.write(), Err(9));
    // Removed, its kind is 0, and the model has a book again.
    let mut removed = model.with_equal(&[1]);
    assert_eq!(removed.remove(1), ok(&[1]));
    assert!(removed.write().is_ok());
}

#[test]
fn all_zero_equality_rows() {
    // 0 = 0 holds, 0 = 1 fails by the negated form, 0 = −1 by the ≤ form.
    let zero = |b| Model::binary(1, &[(&[0], b)]).with_equal(&[0]);
    assert_eq!(zero(0).propagate_row(0), ok(&[2]));
    assert_eq!(zero(1).propagate_row(0), ok(&[0]));
    assert_eq!(zero(-1).propagate_row(0), ok(&[0]));
    // 0 ≤ 1 would be redundant; 0 = 1 is not.
    assert_eq!(zero(1).remove(0), ok(&[2]));
    assert_eq!(zero(-1).remove(0), ok(&[2]));
    // 0 = 0: nothing but its kind changes, and that counts.
    let mut model = zero(0);
    assert_eq!(model.remove(0), ok(&[1]));
    assert_eq!((model.row(0), model.kinds[0]), ((&[0][..], 0), 0));
    assert_eq!(model.remove(0), ok(&[2]));
    assert_eq!(zero(0).run(&[5, 0, 0, 0, 5, 0, 0, 0]), ok(&[2]));
    assert_eq!(zero(0).rounds(8), ok(&[1, 2]));
    assert_eq!(zero(0).rounds(1), ok(&[2, 1]));
}

#[test]
fn an_equality_row_is_removed_only_where_it_always_holds() {
    let model = |bounds: &[(i32, i32)]| Model::new(bounds, &[(&[3, 2], 5)]).with_equal(&[0]);
    // Lmax = b alone would do for 3x + 2y ≤ 5; Lmin = b alone for ≥.
    assert_eq!(model(&[(0, 1), (0, 1)]).remove(0), ok(&[2]));
    assert_eq!(model(&[(1, 2), (1, 1)]).remove(0), ok(&[2]));
    assert_eq!(model(&[(1, 1), (1, 1)]).remove(0), ok(&[1]));
    assert_eq!(model(&[(0, 0), (1, 1)]).remove(0), ok(&[2])); // 2 < 5: no point, but not redundant
    assert_eq!(model(&[(1, 0), (1, 0)]).remove(0), ok(&[0]));
}

#[test]
fn an_equality_row_is_not_tightened() {
    // Tightened as 3x + 2y ≤ 4 is, it would say x + 2y = 2, which (0, 1) meets; no integer point meets it.
    let mut model = Model::binary(2, &[(&[3, 2], 4)]).with_equal(&[0]);
    let before = model.clone();
    assert_eq!(model.tighten(0, 0), ok(&[2]));
    assert_eq!(model.tighten(0, 1), ok(&[2]));
    // Its checks come first.
    assert_eq!(model.tighten(1, 0), Err(12));
    assert_eq!(model.tighten(0, 2), Err(13));
    assert_eq!(model, before);
    model.bounds = vec![0, 0, 0, 1];
    assert_eq!(model.tighten(0, 0), Err(14));
    // On the empty box None, as every call.
    model.bounds = vec![1, 0, 1, 0];
    assert_eq!(model.tighten(0, 0), ok(&[0]));
}

#[test]
fn the_empty_box_with_an_equality_row() {
    answers_on_the_empty_box(&mut empty_box().with_equal(&[0]));
}

#[test]
fn equality_rows_at_the_limits() {
    // The negated form of a row at its limits is within the limits: both say x = 1,000.
    let bounds = [(0, 1_000), (-32_768, -32_768 + 4_096)];
    let mut model = Model::new(&bounds, &[(&[-1_000_000, 0], -1_000_000_000)]).with_equal(&[0]);
    assert_eq!(model.propagate_row(0), ok(&[1, 1]));
    assert_eq!(model.bounds[..2], [1_000, 1_000]);
    assert_eq!(model.remove(0), ok(&[1]));
    let mut model = Model::new(&bounds, &[(&[1_000_000, 0], 1_000_000_000)]).with_equal(&[0]);
    assert_eq!(model.propagate_row(0), ok(&[1, 1]));
    assert_eq!(model.bounds[..2], [1_000, 1_000]);
}

#[test]
fn a_call_list_reads_kinds_and_writes_no_row() {
    // Row 0: x + y = 1, row 1: z = 0. Visit row 1 (z to 0), probe x (4 bytes), settle (nothing); a drop of row 1
    // and a sharpen and a drop of row 0 are refused.
    let bounds = [(0, 1), (0, 1), (0, 3)];
    let mut model = Model::new(&bounds, &[(&[1, 1, 0], 1), (&[0, 0, 1], 0)]).with_equal(&[0, 1]);
    let calls = [1, 1, 0, 0, 5, 1, 0, 0, 4, 0, 0, 0, 5, 0, 0, 0, 3, 0, 0, 9, 2, 0, 0, 9];
    let rows = (model.coefs.clone(), model.rhs.clone(), model.kinds.clone());
    assert_eq!(model.run(&calls), ok(&[3, 0, 2, 1]));
    assert_eq!((&model.coefs, &model.rhs, &model.kinds), (&rows.0, &rows.1, &rows.2));
    assert_eq!(model.bounds, [0, 1, 0, 1, 0, 0]);
    // A list is refused as a whole by 16.
    model.kinds[1] = 2;
    assert_eq!(model.run(&calls), Err(16));
    assert_eq!(model.run(&[]), Err(16));
}

/// 3x + 2y ≤ 4 over two binary variables, as a sparse book: bounds, row (at 16), trailer (at 35).
fn sparse_example() -> Vec<u8> {
    let model = Model::binary(2, &[(&[3, 2], 4)]);
    reference::sparse::write(2, &model.bounds, &model.coefs, &model.rhs, &model.kinds)
}

/// What reading a sparse book says; a refusal writes nothing.
fn read_sparse(book: &[u8], lent: usize) -> u32 {
    let (mut bounds, mut coefs, mut rhs) = (vec![9; lent], vec![9; 2], vec![9; 1]);
    let (mut kinds, mut answer) = (vec![9; 1], [7; ANSWER]);
    let said = calls::sparse_read(book, &mut bounds, &mut coefs, &mut rhs, &mut kinds, &mut answer);
    let written = coefs != [9; 2] || rhs != [9] || kinds != [9] || answer != [7; ANSWER];
    assert_eq!(said == 0, written || bounds != vec![9; lent], "a refusal writes nothing");
    said
}

fn with_bytes(mut book: Vec<u8>, changes: &[(usize, u8)]) -> Vec<u8> {
    changes.iter().for_each(|&(at, byte)| book[at] = byte);
    book
}

#[test]
fn a_sparse_book_is_checked_in_order() {
    // C-18: 1 2 3 4, 19 or 20, 5, 6 7 23 8 9 16.
    let good = sparse_example();
    assert_eq!(good.len(), 16 + 7 + 2 * 6 + 16);
    let read = |changes: &[(usize, u8)]| read_sparse(&with_bytes(good.clone(), changes), 4);
    assert_eq!(read(&[]), 0);
    assert_eq!(read_sparse(&good[36..], 4), 1);
    assert_eq!(read_sparse(&good[1..], 4), 2);
    assert_eq!(read(&[(43, 0)]), 3);
    assert_eq!(read(&[(35, 1)]), 4);
    assert_eq!(read(&[(39, 17)]), 4);
    // The walk: a row too few or too many, an entry too few or too many, the largest count.
    assert_eq!(read(&[(45, 0)]), 4);
    assert_eq!(read(&[(45, 2)]), 4);
    assert_eq!(read(&[(21, 1)]), 4);
    assert_eq!(read(&[(21, 3)]), 4);
    assert_eq!(read(&[(21, 255), (22, 255)]), 4);
    // It is finished before any entry is looked at.
    assert_eq!(read(&[(21, 3), (23, 9), (25, 0)]), 4);
    // A column of n, one that stands twice, one that falls.
    assert_eq!(read(&[(29, 2)]), 19);
    assert_eq!(read(&[(29, 0)]), 19);
    assert_eq!(read(&[(23, 1), (29, 0)]), 19);
    assert_eq!(read(&[(25, 0)]), 20);
    // "the entry read first deciding, and in one entry the column"
    assert_eq!(read(&[(25, 0), (29, 9)]), 20);
    assert_eq!(read(&[(25, 0), (23, 9)]), 19);
    // 5 after them, and before the numbers.
    assert_eq!(read_sparse(&with_bytes(good.clone(), &[(25, 0)]), 3), 20);
    assert_eq!(read_sparse(&with_bytes(good.clone(), &[(6, 1)]), 3), 5);
    assert_eq!(read(&[(6, 1)]), 6);
    assert_eq!(read(&[(0, 2)]), 7);
    assert_eq!(read(&[(5, 0x10)]), 23); // u = 4,097
    assert_eq!(read(&[(28, 1), (19, 0x7f), (20, 2)]), 8);
    assert_eq!(read(&[(19, 0x7f), (20, 2)]), 9);
    assert_eq!(read(&[(20, 2)]), 16);
    assert_eq!(read(&[(20, 1)]), 0);
}

#[test]
fn the_trailer_of_a_sparse_book_says_its_offsets_only() {
    let book = sparse_example();
    let trailer = &book[35..];
    let mut answer = [7; ANSWER];
    assert_eq!(calls::sparse_trailer(trailer, &mut answer), 0);
    assert_eq!(Ok(answer), ok(&[2, 1]));
    // Another length and another m are no matter of the trailer alone.
    assert_eq!(calls::sparse_trailer(&with_bytes(trailer.to_vec(), &[(12, 0)]), &mut answer), 0);
    assert_eq!(calls::sparse_trailer(&with_bytes(trailer.to_vec(), &[(10, 9)]), &mut answer), 0);
    assert_eq!(calls::sparse_trailer(&with_bytes(trailer.to_vec(), &[(8, 3)]), &mut answer), 4);
    assert_eq!(calls::sparse_trailer(&trailer[1..], &mut answer[..ANSWER - 1]), 1);
    assert_eq!(calls::sparse_trailer(&book[34..], &mut answer), 5);
}

#[test]
fn conversions_come_back_and_refuse_an_equality_row() {
    let model = Model::binary(2, &[(&[3, 0], 4), (&[0, 0], 0)]);
    let book = model.book();
    let mut sparse = vec![0; reference::sparse::length(2, 2, &model.coefs)];
    assert_eq!(calls::book_to_sparse(&book, &mut sparse[1..]), 5);
    assert_eq!(calls::book_to_sparse(&book, &mut sparse), 0);
    let mut back = vec![0; book.len()];
    assert_eq!(calls::sparse_to_book(&sparse, &mut back), 0);
    assert_eq!(back, book);
    // 5 stands before 6 and after 19; 17 comes last.
    let wide = with_bytes(sparse.clone(), &[(6, 1)]);
    assert_eq!(calls::sparse_to_book(&wide, &mut back[1..]), 5);
    assert_eq!(calls::sparse_to_book(&with_bytes(sparse.clone(), &[(23, 2)]), &mut back[1..]), 19);
    assert_eq!(calls::sparse_to_book(&with_bytes(sparse.clone(), &[(20, 1)]), &mut back), 17);
    assert_eq!(calls::sparse_to_book(&with_bytes(sparse, &[(20, 1), (33, 2)]), &mut back), 16);
    // With no rows both editions are the same bytes.
    let empty = Model::binary(2, &[]);
    assert_eq!(reference::sparse::write(2, &empty.bounds, &[], &[], &[]), empty.book());
}
