//! Proposed allocations, from the words of 02 (C-21), and enumerated on small models.

use reference::allocations::{self, Verdict};
use reference::row::Rows;
use reference::{State, rounds};

/// One proposal against 2x + 3y ≤ 12 (row 0), x − y = 0 (row 1) and y ≤ 4 (row 2), x and y from 0 to 5.
fn verdict(x: i32, y: i32) -> Verdict {
    let (bounds, coefs) = ([0, 5, 0, 5], [2, 3, 1, -1, 0, 1]);
    allocations::verdicts(&bounds, Rows::new(2, &coefs, &[12, 0, 4], &[0, 1, 0]), &[x, y])[0]
}

#[test]
fn the_box_comes_first_and_the_lowest_decides() {
    assert_eq!(verdict(2, 2), Verdict::Inside);
    // The lowest variable, whatever the other one and the rows say; numbers of any size.
    assert_eq!(verdict(-1, 6), Verdict::Outside(0));
    assert_eq!(verdict(0, 6), Verdict::Outside(1));
    assert_eq!(verdict(i32::MIN, i32::MAX), Verdict::Outside(0));
    assert_eq!(verdict(5, i32::MAX), Verdict::Outside(1));
    // The lowest row: all three are broken, then the last two, then the = row alone, by too little.
    assert_eq!(verdict(0, 5), Verdict::Breaks(0));
    assert_eq!(verdict(3, 3), Verdict::Breaks(0));
    assert_eq!(verdict(1, 2), Verdict::Breaks(1));
    assert_eq!(verdict(2, 1), Verdict::Breaks(1));
}

#[test]
fn the_empty_box_is_left_at_variable_0() {
    let verdicts = allocations::verdicts(&[1, 0, 1, 0], Rows::new(2, &[], &[], &[]), &[0, 0, 1, 1]);
    assert_eq!(verdicts, [Verdict::Outside(0); 2]);
}

/// The call on n = 1, x from 0 to 1, no rows.
fn call(count: u32, proposals: usize, verdicts: usize) -> (u32, Vec<u32>) {
    let mut told = vec![7; verdicts];
    let said = allocations::check_allocations(
        1,
        0,
        &[0, 1],
        &[],
        &[],
        &[],
        &vec![1; proposals],
        count,
        &mut told,
    );
    (said, told)
}

#[test]
fn counts_and_lengths_at_their_edges() {
    assert_eq!(call(0, 0, 0).0, 22);
    assert_eq!(call(1, 1, 2), (0, vec![0, 0]));
    assert_eq!(call(64, 64, 128), (0, vec![0; 128]));
    assert_eq!(call(65, 65, 130), (22, vec![7; 130]));
    assert_eq!(call(u32::MAX, 1, 2).0, 22);
    // 22 straight before 5.
    assert_eq!(call(65, 0, 0).0, 22);
    assert_eq!(call(2, 1, 4).0, 5);
    assert_eq!(call(2, 3, 4).0, 5);
    assert_eq!(call(2, 2, 3), (5, vec![7; 3]));
}

#[test]
fn every_point_of_small_models_raw_and_reduced() {
    // Two and three variables, a ≤ row and one of either kind, all small coefficients.
    let numbers = -2..=2;
    for (a, b, c) in numbers.clone().flat_map(|a| {
        let pairs = numbers.clone().flat_map(move |b| (-2..=2).map(move |c| (b, c)));
        pairs.map(move |(b, c)| (a, b, c))
    }) {
        for kind in [0, 1] {
            let raw_bounds = vec![0, 1, -1, 2, 0, 2];
            let (raw_coefs, raw_rhs, raw_kinds) =
                (vec![a, b, c, c, 2, a], vec![b + 1, a], vec![0, kind]);
            let (mut bounds, mut coefs, mut rhs, mut kinds) =
                (raw_bounds.clone(), raw_coefs.clone(), raw_rhs.clone(), raw_kinds.clone());
            let mut state = State {
                n: 3,
                bounds: &mut bounds,
                coefs: &mut coefs,
                rhs: &mut rhs,
                kinds: &mut kinds,
                table: &mut [0; 36],
            };
            rounds::rounds(&mut state, 8);
            for x in -1..=2 {
                for y in -2..=3 {
                    for z in -1..=3 {
                        let point = [x, y, z];
                        let raw = Rows::new(3, &raw_coefs, &raw_rhs, &raw_kinds);
                        let lawful = (0..=1).contains(&x)
                            && (-1..=2).contains(&y)
                            && (0..=2).contains(&z)
                            && a * x + b * y + c * z <= b + 1
                            && if kind == 1 {
                                c * x + 2 * y + a * z == a
                            } else {
                                c * x + 2 * y + a * z <= a
                            };
                        let verdict = allocations::verdicts(&raw_bounds, raw, &point)[0];
                        assert_eq!(verdict == Verdict::Inside, lawful, "{point:?}");
                        let reduced = Rows::new(3, &coefs, &rhs, &kinds);
                        let verdict = allocations::verdicts(&bounds, reduced, &point)[0];
                        assert_eq!(verdict == Verdict::Inside, lawful, "{point:?}, reduced");
                    }
                }
            }
        }
    }
}
