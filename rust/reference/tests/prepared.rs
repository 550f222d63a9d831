//! Prepared models: which row moved which bound last, which row was infeasible, and the order of the checks.

use reference::prepared::{self, NO_ROW, Prepared, Traced, WORKSPACE, trace};
use reference::propagation::{Ending, MAX_BUDGET, Propagation, propagate};

const NO: u32 = NO_ROW;

/// The rows as coefficients, right side and kind.
fn prepared<const N: usize>(rows: &[([i32; N], i32, u8)]) -> Prepared {
    Prepared {
        n: N,
        coefs: rows.iter().flat_map(|row| row.0).collect(),
        rhs: rows.iter().map(|row| row.1).collect(),
        kinds: rows.iter().map(|row| row.2).collect(),
    }
}

/// What a propagation tells, and the box that it leaves.
fn told(rows: &Prepared, bounds: &[i32], budget: u32) -> (Traced, Vec<i32>) {
    let mut after = bounds.to_vec();
    let traced = trace(&mut after, rows.rows(), budget);
    let mut plain = bounds.to_vec();
    assert_eq!(traced.propagation, propagate(&mut plain, rows.rows(), budget));
    assert_eq!(after, plain);
    (traced, after)
}

#[test]
fn each_bound_has_its_row() {
    // 2x ≤ 5, y ≤ x: the first moves x's upper bound, the second y's.
    let rows = prepared(&[([2, 0], 5, 0), ([-1, 1], 0, 0)]);
    let (traced, after) = told(&rows, &[0, 5, 0, 5], MAX_BUDGET);
    assert_eq!(after, [0, 2, 0, 2]);
    assert_eq!(traced.reasons, [NO, 0, NO, 1]);
    assert_eq!(traced.infeasible, NO);
}

#[test]
fn the_last_row_is_told() {
    // x ≤ 4 by row 0, then x ≤ 3 by row 1; y ≤ x by row 2, and x ≤ y by row 3 moves nothing.
    let rows = prepared(&[([1, 0], 4, 0), ([1, 0], 3, 0), ([-1, 1], 0, 0), ([1, -1], 0, 0)]);
    let (traced, _) = told(&rows, &[0, 9, 0, 9], MAX_BUDGET);
    assert_eq!(traced.reasons, [NO, 1, NO, 2]);
    // In the next pass row 0, x ≤ y, moves x once more: it is the last.
    let rows = prepared(&[([1, -1], 0, 0), ([1, 0], 4, 0), ([0, 1], 2, 0)]);
    let (traced, after) = told(&rows, &[0, 9, 0, 9], MAX_BUDGET);
    assert_eq!(after, [0, 2, 0, 2]);
    assert_eq!(traced.reasons, [NO, 0, NO, 2]);
    // With one pass it is not made yet.
    let (traced, after) = told(&rows, &[0, 9, 0, 9], 1);
    assert_eq!(after, [0, 4, 0, 2]);
    assert_eq!(traced.reasons, [NO, 1, NO, 2]);
    assert_eq!(traced.propagation.ending, Ending::BudgetSpent);
}

#[test]
fn an_equality_row_moves_both_bounds() {
    // x + y = 7, both 0 to 5.
    let rows = prepared(&[([1, 1], 7, 1)]);
    let (traced, after) = told(&rows, &[0, 5, 0, 5], MAX_BUDGET);
    assert_eq!(after, [2, 5, 2, 5]);
    assert_eq!(traced.reasons, [0, NO, 0, NO]);
}

#[test]
fn an_infeasible_row_moves_nothing() {
    // x ≤ 2; then 2x = 7: its first form would move x's upper bound to 3 and does not; its second is infeasible.
    let rows = prepared(&[([1], 2, 0), ([2], 7, 1)]);
    let (traced, after) = told(&rows, &[0, 9], MAX_BUDGET);
    assert_eq!(after, [1, 0]);
    assert_eq!(traced.reasons, [NO, 0]);
    assert_eq!(traced.infeasible, 1);
    // Alone, its first form does move it: all the same it counts no bound, and no bound has a reason.
    let rows = prepared(&[([2], 7, 1)]);
    let (traced, _) = told(&rows, &[0, 9], MAX_BUDGET);
    assert_eq!(traced.propagation, Propagation { ending: Ending::Infeasible, passes: 1, moved: 0 });
    assert_eq!((traced.reasons, traced.infeasible), (vec![NO, NO], 0));
}

#[test]
fn the_row_is_the_one_that_ended_the_pass() {
    // y ≤ 1, x ≤ y − 2 and x ≥ 0: row 1 is infeasible in the first pass, and row 2 is not looked at.
    let rows = prepared(&[([0, 1], 1, 0), ([1, -1], -2, 0), ([1, 1], -1, 0)]);
    let (traced, _) = told(&rows, &[0, 9, 0, 9], MAX_BUDGET);
    assert_eq!(traced.infeasible, 1);
    assert_eq!(traced.reasons, [NO, NO, NO, 0]);
}

#[test]
fn the_empty_box_has_no_row() {
    let rows = prepared(&[([1], -1, 0)]);
    let (traced, _) = told(&rows, &[1, 0], MAX_BUDGET);
    assert_eq!((traced.reasons, traced.infeasible), (vec![NO, NO], NO));
    // And no row, no reason.
    let (traced, _) = told(&prepared::<1>(&[]), &[0, 9], MAX_BUDGET);
    assert_eq!((traced.reasons, traced.infeasible), (vec![NO, NO], NO));
}

#[test]
fn the_call_fills_the_reasons_or_is_lent_none() {
    let rows = prepared(&[([2, 0], 5, 0), ([-1, 1], 0, 0)]);
    for len in 0..6 {
        let (mut bounds, mut reasons, mut answer) = (vec![0, 5, 0, 5], vec![9; len], [7; 12]);
        let said = prepared::propagate(Some(&rows), &mut bounds, 9, &mut reasons, &mut answer);
        if len == 0 || len == 4 {
            assert_eq!((said, &bounds[..]), (0, &[0, 2, 0, 2][..]));
            assert_eq!(answer[..5], [1, 2, 2, NO.into(), 0]);
            assert!(len == 0 || reasons == [NO, 0, NO, 1]);
        } else {
            assert_eq!((said, &bounds[..], answer), (5, &[0, 5, 0, 5][..], [7; 12]));
            assert_eq!(reasons, vec![9; len]);
        }
    }
}

/// What a probe of variable 0 tells in 4n numbers: its case and value, the reasons of each side, the infeasible rows.
fn probed(rows: &Prepared, bounds: &mut [i32]) -> ([u64; 2], [Vec<u32>; 2], [u32; 2]) {
    let (n, mut answer) = (rows.n, [7; 12]);
    let (mut table, mut reasons) = (vec![0; 4 * n * n], vec![9; 4 * n]);
    let said = prepared::probe(Some(rows), bounds, &mut table, 0, 9, &mut reasons, &mut answer);
    assert_eq!((said, &answer[10..]), (0, &[0, 0][..]));
    let sides = [&reasons[..2 * n], &reasons[2 * n..]].map(<[u32]>::to_vec);
    ([answer[0], answer[1]], sides, [answer[8] as u32, answer[9] as u32])
}

#[test]
fn each_side_of_a_probe_has_its_rows() {
    // x + y ≤ 2, z ≤ y, x ≥ z: with x at 1 row 0 moves y; with x at 0 row 2 moves z. The box has none of it.
    let rows = prepared(&[([1, 1, 0], 2, 0), ([0, -1, 1], 0, 0), ([-1, 0, 1], 0, 0)]);
    let mut bounds = [0, 1, 0, 2, 0, 1];
    let (case, sides, infeasible) = probed(&rows, &mut bounds);
    assert_eq!((case[0], bounds), (2, [0, 1, 0, 2, 0, 1]));
    assert_eq!(sides, [vec![NO, NO, NO, NO, NO, 2], vec![NO, NO, NO, 0, NO, NO]]);
    assert_eq!(infeasible, [NO, NO]);
    // y ≤ 1 + x by row 0 where x is 0, y ≤ 2 − x by row 1 where x is 1: both sides move y, each by its own row.
    let rows = prepared(&[([-1, 1], 1, 0), ([1, 1], 2, 0)]);
    let mut bounds = [0, 1, 0, 9];
    let (_, sides, _) = probed(&rows, &mut bounds);
    assert_eq!((sides, bounds), ([vec![NO, NO, NO, 0], vec![NO, NO, NO, 1]], [0, 1, 0, 1]));
}

#[test]
fn an_infeasible_side_of_a_probe_has_its_row() {
    // x ≤ y and x + y ≤ 1: x at 1 raises y by row 0, and then row 1 is infeasible.
    let rows = prepared(&[([1, -1], 0, 0), ([1, 1], 1, 0)]);
    let mut bounds = [0, 1, 0, 1];
    let (case, sides, infeasible) = probed(&rows, &mut bounds);
    assert_eq!((case, bounds), ([1, 0], [0, 0, 0, 1]));
    assert_eq!(sides, [vec![NO; 4], vec![NO, NO, 0, NO]]);
    assert_eq!(infeasible, [NO, 1]);
    // 2x = 1 has no side, and the empty box tries none.
    let rows = prepared(&[([3], 9, 0), ([2], 1, 1)]);
    let mut bounds = [0, 1];
    assert_eq!(probed(&rows, &mut bounds), ([0, 0], [vec![NO; 2], vec![NO; 2]], [1, 1]));
    assert_eq!(probed(&rows, &mut bounds), ([0, 0], [vec![NO; 2], vec![NO; 2]], [NO, NO]));
}

#[test]
fn a_probe_is_lent_room_for_both_sides_or_for_none() {
    let rows = prepared(&[([2, 0], 5, 0), ([-1, 1], 0, 0)]);
    for len in 0..10 {
        let (mut bounds, mut table) = ([0, 1, 0, 1], [0; 16]);
        let (mut reasons, mut answer) = (vec![9; len], [7; 12]);
        let said =
            prepared::probe(Some(&rows), &mut bounds, &mut table, 0, 9, &mut reasons, &mut answer);
        assert_eq!(said, if len == 0 || len == 8 { 0 } else { 5 });
        assert_eq!(reasons.contains(&9), said == 5);
        assert_eq!(answer.contains(&7), said == 5);
    }
}

#[test]
fn the_order_of_the_checks() {
    let rows = prepared(&[([2, 0], 5, 0)]);
    let call = |ours: bool, bounds: &[i32], budget, answer_len| {
        let (mut bounds, mut answer) = (bounds.to_vec(), vec![0; answer_len]);
        prepared::propagate(ours.then_some(&rows), &mut bounds, budget, &mut [], &mut answer)
    };
    assert_eq!(call(false, &[0, 40_000, 5, 1], 0, 12), 5);
    assert_eq!(call(true, &[0, 40_000, 5], 0, 12), 5);
    assert_eq!(call(true, &[0, 40_000, 5, 1], 0, 11), 5);
    assert_eq!(call(true, &[0, 40_000, 5, 1], 0, 12), 6);
    assert_eq!(call(true, &[0, 5_000, 5, 1], 0, 12), 7);
    assert_eq!(call(true, &[0, 5_000, 1, 1], 0, 12), 23);
    assert_eq!(call(true, &[0, 4_096, 1, 1], 0, 12), 15);
    assert_eq!(call(true, &[1, 0, 1, 0], 0, 12), 15);
    assert_eq!(call(true, &[1, 0, 1, 0], 1, 12), 0);

    let probe = |ours: bool, bounds: &[i32], table: Vec<u8>, variable, budget| {
        let (mut bounds, mut table, mut answer) = (bounds.to_vec(), table, vec![0; 12]);
        let rows = ours.then_some(&rows);
        prepared::probe(rows, &mut bounds, &mut table, variable, budget, &mut [], &mut answer)
    };
    assert_eq!(probe(false, &[0, 1, 0, 1], vec![0; 16], 0, 1), 5);
    assert_eq!(probe(true, &[0, 40_000, 0, 1], vec![2; 15], 2, 0), 5);
    assert_eq!(probe(true, &[0, 40_000, 0, 1], vec![2; 16], 2, 0), 6);
    assert_eq!(probe(true, &[0, 1, 0, 1], vec![2; 16], 2, 0), 10);
    assert_eq!(probe(true, &[0, 2, 0, 1], vec![1; 16], 2, 0), 13);
    assert_eq!(probe(true, &[0, 2, 0, 1], vec![1; 16], 0, 0), 14);
    assert_eq!(probe(true, &[0, 1, 0, 1], vec![1; 16], 0, 0), 15);
    assert_eq!(probe(true, &[0, 1, 0, 1], vec![1; 16], 0, 1), 0);
}

#[test]
fn a_model_is_prepared_where_it_passes_its_checks() {
    let prepare =
        |bounds: &[i32], kinds: &[u8], len| prepared::prepare(1, 1, bounds, &[3], &[4], kinds, len);
    let rows = prepare(&[0, 1], &[1], WORKSPACE).unwrap();
    assert_eq!(rows, prepared(&[([3], 4, 1)]));
    assert_eq!(prepare(&[1, 0], &[1], WORKSPACE), Ok(rows));
    assert_eq!(prepare(&[0, 40_000], &[2], WORKSPACE - 1), Err(5));
    assert_eq!(prepare(&[0, 40_000], &[2], WORKSPACE + 1), Err(5));
    assert_eq!(prepare(&[0, 40_000], &[2], WORKSPACE), Err(6));
    assert_eq!(prepare(&[0, 1], &[2], WORKSPACE), Err(16));
}
