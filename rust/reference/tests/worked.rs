//! 01's worked books, line by line, 000's clique example, and what 02's requests tell.

mod common;
use common::{Model, ok};

/// Case numbers of the answers: 01's None, a change (Narrowed, Sharpened, Dropped), and Same.
const NONE: u64 = 0;
const CHANGED: u64 = 1;
const SAME: u64 = 2;
const SETTLED: u64 = 1;
const SPENT: u64 = 2;

#[test]
fn two_x_at_most_five() {
    let mut model = Model::new(&[(0, 5)], &[(&[2], 5)]);
    assert_eq!(model.propagate_row(0), ok(&[CHANGED, 1]));
    assert_eq!(model.bounds, [0, 2]);
    assert_eq!(model.propagate_row(0), ok(&[SAME]));
}

#[test]
fn a_negative_coefficient_raises_the_lower_bound() {
    let mut model = Model::new(&[(0, 5)], &[(&[-2], -3)]);
    assert_eq!(model.propagate_row(0), ok(&[CHANGED, 1]));
    assert_eq!(model.bounds, [2, 5]);
}

#[test]
fn floor_goes_towards_minus_infinity() {
    let mut model = Model::new(&[(-5, 5)], &[(&[2], -3)]);
    assert_eq!(model.propagate_row(0), ok(&[CHANGED, 1]));
    assert_eq!(model.bounds, [-5, -2]);
}

#[test]
fn all_zero_rows() {
    let mut infeasible = Model::binary(2, &[(&[0, 0], -1)]);
    assert_eq!(infeasible.propagate_row(0), ok(&[NONE]));
    assert!(infeasible.is_empty());
    let mut trivial = Model::binary(2, &[(&[0, 0], 0)]);
    assert_eq!(trivial.propagate_row(0), ok(&[SAME]));
}

#[test]
fn both_must_be_one() {
    let mut model = Model::binary(2, &[(&[-1, -1], -2)]);
    assert_eq!(model.propagate_row(0), ok(&[CHANGED, 2]));
    assert_eq!(model.bounds, [1, 1, 1, 1]);
    let mut model = Model::binary(2, &[(&[-1, -1], -3)]);
    assert_eq!(model.propagate_row(0), ok(&[NONE]));
    assert!(model.is_empty());
}

#[test]
fn tightening_with_a_positive_coefficient() {
    let mut model = Model::binary(2, &[(&[3, 2], 4)]);
    assert_eq!(model.tighten(0, 0), ok(&[CHANGED]));
    assert_eq!(model.row(0), (&[1, 2][..], 2));
}

#[test]
fn tightening_with_a_negative_coefficient_leaves_the_right_side() {
    // x is variable 0, y is variable 1: 2y − 5x ≤ 1.
    let mut model = Model::binary(2, &[(&[-5, 2], 1)]);
    assert_eq!(model.tighten(0, 0), ok(&[CHANGED]));
    assert_eq!(model.row(0), (&[-1, 2][..], 1));
}

#[test]
fn a_redundant_row_is_removed_and_not_tightened() {
    let mut model = Model::binary(2, &[(&[3, 2], 5)]);
    assert_eq!(model.tighten(0, 0), ok(&[SAME]));
    assert_eq!(model.tighten(0, 1), ok(&[SAME]));
    assert_eq!(model.remove(0), ok(&[CHANGED]));
    assert_eq!(model.row(0), (&[0, 0][..], 0));
    let mut model = Model::binary(2, &[(&[1, 1], 1)]);
    assert_eq!(model.tighten(0, 0), ok(&[SAME]));
    assert_eq!(model.remove(0), ok(&[SAME]));
}

#[test]
fn passes_and_budget() {
    // 02 (C-15): "The starred line for budget 1 reads Settled(1)."
    let model = Model::new(&[(0, 5)], &[(&[2], 5)]);
    assert_eq!(model.clone().propagate(1), ok(&[SETTLED, 1, 1]));
    assert_eq!(model.clone().propagate(2), ok(&[SETTLED, 2, 1]));
    // y ≤ x before 2x ≤ 5: a row would still move y; then none would.
    let model = Model::new(&[(0, 5), (0, 5)], &[(&[-1, 1], 0), (&[2, 0], 5)]);
    assert_eq!(model.clone().propagate(1), ok(&[SPENT, 1, 1]));
    assert_eq!(model.clone().propagate(2), ok(&[SETTLED, 2, 2]));
    // The same with y ≥ 3: the first row would be infeasible.
    let rows: &[(&[i32], i32)] = &[(&[-1, 1], 0), (&[2, 0], 5), (&[0, -1], -3)];
    assert_eq!(Model::new(&[(0, 5), (0, 5)], rows).propagate(1), ok(&[SPENT, 1, 2]));
}

#[test]
fn a_propagation_fixpoint_need_not_be_at_rest() {
    let mut model = Model::binary(2, &[(&[1, -1], 0), (&[1, 1], 1)]);
    assert_eq!(model.propagate_row(0), ok(&[SAME]));
    assert_eq!(model.propagate_row(1), ok(&[SAME]));
    assert_eq!(model.at_rest(), ok(&[0, 1, 0]));
    // Side 0 moves nothing. Side 1: row 0 puts y at 1, row 1 finds 2 > 1 in the same pass.
    assert_eq!(model.probe(0, 1_000), ok(&[1, 0, 1, 0, 0, 1, 0, 1]));
    assert_eq!(model.bounds, [0, 0, 0, 1]);
    assert_eq!(model.at_rest(), ok(&[1]));
}

#[test]
fn a_no_carries_the_lowest_row_or_variable() {
    // 02 (C-13): a row that is infeasible changes the box too.
    let mut model = Model::binary(1, &[(&[0], 0), (&[0], -1)]);
    assert_eq!(model.at_rest(), ok(&[0, 0, 1]));
    // y ≤ z and y + z ≤ 1, x in no row; then 0 ≤ −1 behind them.
    let rows: [(&[i32], i32); 3] = [(&[0, 1, -1], 0), (&[0, 1, 1], 1), (&[0, 0, 0], -1)];
    assert_eq!(Model::binary(3, &rows[..2]).at_rest(), ok(&[0, 1, 1]));
    assert_eq!(Model::binary(3, &rows).at_rest(), ok(&[0, 0, 2]));
}

#[test]
fn two_orders_end_alike_once_at_rest() {
    let model = Model::new(&[(0, 5), (0, 5)], &[(&[2, 0], 5), (&[-1, 1], 0)]);
    let visits = |rows: &[u32]| {
        let mut model = model.clone();
        for &row in rows {
            model.propagate_row(row).unwrap();
        }
        (model.at_rest().unwrap()[0] == 1, model.bounds)
    };
    assert_eq!(visits(&[0, 1]), (true, vec![0, 2, 0, 2]));
    assert_eq!(visits(&[1, 0, 1]), (true, vec![0, 2, 0, 2]));
    assert_eq!(visits(&[1, 0]), (false, vec![0, 2, 0, 5]));
}

#[test]
fn the_clique_example_gives_eight_table_bytes() {
    let mut model = Model::binary(
        4,
        &[(&[4, 1, 0, -3], 2), (&[2, 3, 0, 3], 7), (&[1, 4, 2, 0], 5), (&[3, 1, 5, 0], 6)],
    );
    // Both; new bytes; passes, Spent and bounds moved of each side. docs/WORKED.md has them by hand.
    assert_eq!(model.probe(0, 1_000), ok(&[2, 6, 1, 0, 0, 2, 0, 3]));
    assert_eq!(model.probe(1, 1_000), ok(&[2, 2, 1, 0, 0, 2, 0, 1]));
    assert_eq!(model.probe(2, 1_000), ok(&[2, 0, 1, 0, 0, 2, 0, 2]));
    assert_eq!(model.probe(3, 1_000), ok(&[2, 0, 2, 0, 1, 1, 0, 0]));
    assert_eq!(model.table.iter().filter(|&&byte| byte == 1).count(), 8);
    let implies = |k: usize, v: usize, j: usize, w: usize| {
        model.table[reference::probing::literal(k, v) * 8 + reference::probing::literal(j, w)] == 1
    };
    // 000's list, its variables counted from 1: x1 = 1 gives x4 = 1, x2 = 0, x3 = 0; and so on.
    assert!(implies(0, 1, 3, 1) && implies(0, 1, 1, 0) && implies(0, 1, 2, 0));
    assert!(implies(1, 1, 2, 0) && implies(1, 1, 0, 0));
    assert!(implies(2, 1, 1, 0) && implies(2, 1, 0, 0));
    assert!(implies(3, 0, 0, 0));
}

#[test]
fn a_lower_bound_that_two_rows_raise_is_counted_twice() {
    // 000, 2.2.1: x1 x2 x3 y1 y2 y3, y without an upper bound (4,096 here).
    let rows: &[(&[i32], i32)] = &[
        (&[0, 0, 0, -1, -3, 0], -15),
        (&[0, 0, 0, -1, 0, -2], -10),
        (&[0, 0, 0, -2, -1, 0], -20),
        (&[-15, 0, 0, 1, 0, 0], 0),
        (&[0, -20, 0, 0, 1, 0], 0),
        (&[0, 0, -5, 0, 0, 1], 0),
    ];
    let bounds = [(0, 1), (0, 1), (0, 1), (0, 4_096), (0, 4_096), (0, 4_096)];
    let mut model = Model::new(&bounds, rows);
    assert_eq!(model.propagate(1_000), ok(&[SETTLED, 2, 3]));
    assert_eq!(model.bounds[6..], [0, 15, 0, 20, 0, 5]);
    // With x1 = 0 row 0 raises y2 to 5 and row 2 to 20.
    assert_eq!(model.probe(0, 1_000), ok(&[2, 4, 3, 0, 6, 1, 0, 0]));
    assert_eq!(model.probe(1, 1_000), ok(&[2, 0, 3, 0, 3, 1, 0, 0]));
    assert_eq!(model.probe(2, 1_000), ok(&[2, 0, 3, 0, 3, 1, 0, 0]));
}

#[test]
fn the_book_of_44_bytes() {
    let model = Model::binary(2, &[(&[3, 2], 4)]);
    let book = model.book();
    assert_eq!(book.len(), 44);
    assert_eq!(book[28..], [0, 0, 0, 0, 16, 0, 0, 0, 2, 0, 1, 0, 44, 0, 0, 0]);
    let expected = "reduced 2 1 2\nv 0 0 1\nv 1 0 1\nr 0 1 1 1\ni 0 1 1 0\ni 1 1 0 0\n";
    assert_eq!(reference::report::reduce(&book, reference::report::NO_LIMIT), expected);
}

#[test]
fn thirty_lots_typed_as_thirty_thousand() {
    // C-22: x lots of 10 tons, of which at most 305 go. The bound as typed is refused, retyped it is not.
    let mut model = Model::new(&[(0, 30_000)], &[(&[10], 305)]);
    assert_eq!(model.propagate(1_000), Err(23));
    model.bounds = vec![0, 4_097];
    assert_eq!(model.propagate(1_000), Err(23));
    model.bounds = vec![0, 4_096];
    assert_eq!(model.propagate(1_000), ok(&[SETTLED, 2, 1]));
    assert_eq!(model.bounds, [0, 30]);
    model.bounds = vec![0, 30];
    assert_eq!(model.propagate(1_000), ok(&[SETTLED, 1, 0]));
}

// C-14, equality rows. docs/WORKED.md has each number by hand.

#[test]
fn two_x_equal_to_five_has_no_integer_point() {
    // The ≤ form gives 0..2, and −2x ≤ −5 has Lmin −4 there: None as a whole, and no bound counted.
    let model = Model::new(&[(0, 5)], &[(&[2], 5)]).with_equal(&[0]);
    let mut visited = model.clone();
    assert_eq!(visited.propagate_row(0), ok(&[NONE, 0]));
    assert!(visited.is_empty());
    assert_eq!(model.clone().propagate(9), ok(&[NONE, 1, 0]));
    // As two rows the first one's bound is counted.
    assert_eq!(model.in_two_rows().propagate(9), ok(&[NONE, 1, 1]));
}

#[test]
fn x_plus_y_equal_to_one() {
    let mut model = Model::binary(2, &[(&[1, 1], 1)]).with_equal(&[0]);
    assert_eq!(model.propagate_row(0), ok(&[SAME]));
    assert_eq!(model.tighten(0, 0), ok(&[SAME]));
    assert_eq!(model.remove(0), ok(&[SAME]));
    assert_eq!(model.at_rest(), ok(&[1]));
    // Each side fixes y: x is 0 gives y is 1 by the negated form, x is 1 gives y is 0 by the ≤ form.
    assert_eq!(model.probe(0, 1_000), ok(&[2, 4, 2, 0, 1, 2, 0, 1]));
    let at: Vec<usize> = (0..16).filter(|&at| model.table[at] == 1).collect();
    assert_eq!(at, [3, 4 + 2, 2 * 4 + 1, 3 * 4]);
    assert_eq!(model.probe(1, 1_000), ok(&[2, 0, 2, 0, 1, 2, 0, 1]));
    assert_eq!(model.bounds, [0, 1, 0, 1]);
    // Once y is 1 the row moves x and is then redundant.
    model.bounds = vec![0, 1, 1, 1];
    assert_eq!(model.propagate_row(0), ok(&[CHANGED, 1]));
    assert_eq!(model.bounds, [0, 0, 1, 1]);
    assert_eq!(model.remove(0), ok(&[CHANGED]));
    assert_eq!((model.row(0), model.kinds[0]), ((&[0, 0][..], 0), 0));
}

#[test]
fn an_equality_row_can_move_more_when_it_is_propagated_again() {
    // −2x + y = 0: the negated form, 2x ≤ y, puts x at 0; only then the ≤ form puts y at 0.
    let model = Model::binary(2, &[(&[-2, 1], 0)]).with_equal(&[0]);
    let mut visited = model.clone();
    assert_eq!(visited.propagate_row(0), ok(&[CHANGED, 1]));
    assert_eq!(visited.bounds, [0, 0, 0, 1]);
    assert_eq!(visited.propagate_row(0), ok(&[CHANGED, 1]));
    assert_eq!(visited.bounds, [0, 0, 0, 0]);
    assert_eq!(visited.propagate_row(0), ok(&[SAME]));
    assert_eq!(model.clone().propagate(1), ok(&[SPENT, 1, 1]));
    assert_eq!(model.clone().propagate(9), ok(&[SETTLED, 3, 2]));
    // 2x + 2y = 3: the negated form puts both at 1, and the second visit finds 4 > 3.
    let mut model = Model::binary(2, &[(&[2, 2], 3)]).with_equal(&[0]);
    assert_eq!(model.clone().propagate(9), ok(&[NONE, 2, 2]));
    assert_eq!(model.propagate_row(0), ok(&[CHANGED, 2]));
    assert_eq!(model.bounds, [1, 1, 1, 1]);
    assert_eq!(model.propagate_row(0), ok(&[NONE, 0]));
}

#[test]
fn an_exact_tonnage_is_one_row() {
    // Receipts of 30, 25 and 20 tons for a notice of exactly 45.
    let mut model = Model::binary(3, &[(&[30, 25, 20], 45)]).with_equal(&[0]);
    assert_eq!(model.propagate(1_000), ok(&[SETTLED, 1, 0]));
    assert_eq!(model.at_rest(), ok(&[0, 1, 0]));
    // With the first one at 1 the ≤ form puts the others at 0, and 30 < 45: None, and nothing counted.
    assert_eq!(model.in_two_rows().probe(0, 1_000), ok(&[1, 0, 2, 0, 2, 1, 0, 2]));
    assert_eq!(model.probe(0, 1_000), ok(&[1, 0, 2, 0, 2, 1, 0, 0]));
    assert_eq!(model.bounds, [0, 0, 1, 1, 1, 1]);
    assert_eq!(model.remove(0), ok(&[CHANGED]));
    assert_eq!(model.at_rest(), ok(&[1]));
}

#[test]
fn both_bounds_of_every_variable_can_move() {
    // 2x + 3y = 11 over 0..9: the ≤ form gives x ≤ 5 and y ≤ 3, and in that box the negated form x ≥ 1 and
    // y ≥ 1: 2n bounds in one visit. The next one gives x ≤ 4: (1, 3) and (4, 1) are the integer points.
    let model = Model::new(&[(0, 9), (0, 9)], &[(&[2, 3], 11)]).with_equal(&[0]);
    let mut visited = model.clone();
    assert_eq!(visited.propagate_row(0), ok(&[CHANGED, 4]));
    assert_eq!(visited.bounds, [1, 5, 1, 3]);
    assert_eq!(visited.propagate_row(0), ok(&[CHANGED, 1]));
    assert_eq!(visited.bounds, [1, 4, 1, 3]);
    assert_eq!(visited.propagate_row(0), ok(&[SAME]));
    assert_eq!(model.clone().propagate(9), ok(&[SETTLED, 3, 5]));
    // In the box from before the ≤ form the negated form would have moved nothing.
    let mut negated = Model::new(&[(0, 9), (0, 9)], &[(&[-2, -3], -11)]);
    assert_eq!(negated.propagate_row(0), ok(&[SAME]));
}

#[test]
fn facility_location_with_its_equalities() {
    // 000, 2.2.3: three demands as = rows, four capacities. The same box as with each in two rows.
    let mut rows = vec![];
    for (j, demand) in [80, 70, 40].into_iter().enumerate() {
        let mut row = vec![0; 16];
        row[4 + 4 * j..][..4].fill(1);
        rows.push((row, demand));
    }
    for i in 0..4 {
        let mut row = vec![0; 16];
        row[i] = -100;
        (0..3).for_each(|j| row[4 + 4 * j + i] = 1);
        rows.push((row, 0));
    }
    let bounds: Vec<(i32, i32)> = [vec![(0, 1); 4], vec![(0, 4_096); 12]].concat();
    let rows: Vec<(&[i32], i32)> = rows.iter().map(|(row, b)| (&row[..], *b)).collect();
    let mut model = Model::new(&bounds, &rows).with_equal(&[0, 1, 2]);
    let mut two = model.in_two_rows();
    assert_eq!((model.m, two.m), (7, 10));
    assert_eq!(model.propagate(1_000), ok(&[SETTLED, 2, 12]));
    assert_eq!(two.propagate(1_000), ok(&[SETTLED, 2, 12]));
    assert_eq!(model.bounds, two.bounds);
    let uppers: Vec<i32> = model.bounds.chunks(2).map(|pair| pair[1]).collect();
    assert_eq!(uppers, [1, 1, 1, 1, 80, 80, 80, 80, 70, 70, 70, 70, 40, 40, 40, 40]);
    for x in 0..4 {
        assert_eq!(model.probe(x, 1_000), ok(&[2, 0, 2, 0, 3, 1, 0, 0]));
    }
    assert_eq!(model.at_rest(), ok(&[1]));
}
