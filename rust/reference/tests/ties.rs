//! Tied variables (02, C-19): worked lines and corners. docs/WORKED.md has the lines by hand.

mod common;
use common::{Model, ok};
use reference::calls::{self, ANSWER};
use reference::ties;

const TIED: u64 = 1;
const SAME: u64 = 2;

/// The model with a table that says everything, which no probe makes.
fn foreign(mut model: Model) -> Model {
    model.table.fill(1);
    model
}

/// The model with a table that says of variable 0 and 1 that they are opposite, and nothing else.
fn opposed(mut model: Model) -> Model {
    for (k, v, j, w) in [(0, 0, 1, 1), (0, 1, 1, 0)] {
        let at = reference::probing::literal(k, v) * 2 * model.n;
        model.table[at + reference::probing::literal(j, w)] = 1;
    }
    model
}

#[test]
fn two_receipts_of_one_car() {
    // x − y = 0 as one = row, and 2x + 3y + z ≤ 5.
    let mut model = Model::binary(3, &[(&[1, -1, 0], 0), (&[2, 3, 1], 5)]).with_equal(&[0]);
    assert_eq!(model.tie(0, 1), ok(&[SAME])); // nothing is said yet
    assert_eq!(model.probe(0, 1_000).unwrap()[..2], [2, 6]);
    let said = model.clone();
    assert_eq!(model.tie(0, 1), ok(&[TIED]));
    assert_eq!((model.row(0), model.row(1)), ((&[0, 0, 0][..], 0), (&[5, 0, 1][..], 5)));
    assert_eq!(model.kinds, [1, 0]);
    // y is 1 just when x is 1: literal 1.
    assert_eq!(model.ties, [0, 2, 0]);
    assert_eq!((&model.bounds, &model.table), (&said.bounds, &said.table));
    // Both are in the tie now, and only y is replaced.
    assert_eq!(model.tie(0, 1), ok(&[SAME]));
    assert_eq!(model.tie(1, 0), ok(&[SAME]));
    // The other way about from the same table.
    let mut model = said;
    assert_eq!(model.tie(1, 0), ok(&[TIED]));
    assert_eq!((model.row(1), &model.ties[..]), ((&[0, 5, 1][..], 5), &[4, 0, 0][..]));
    // Of z the table has x is 1 gives z is 0, and not the other half.
    assert_eq!(model.tie(1, 2), ok(&[SAME]));
}

#[test]
fn one_goes_just_when_the_other_stays() {
    // x + y = 1 in two rows, and 2x + 3y + z ≤ 4: 2x + 3(1 − x) + z ≤ 4.
    let mut model = Model::binary(3, &[(&[1, 1, 0], 1), (&[-1, -1, 0], -1), (&[2, 3, 1], 4)]);
    assert_eq!(model.probe(0, 1_000).unwrap()[..2], [2, 4]);
    assert_eq!(model.tie(0, 1), ok(&[TIED]));
    assert_eq!(model.row(0), (&[0, 0, 0][..], 0));
    assert_eq!(model.row(1), (&[0, 0, 0][..], 0));
    assert_eq!(model.row(2), (&[-1, 0, 1][..], 1));
    // y is 1 just when x is 0: literal 0.
    assert_eq!(model.ties, [0, 1, 0]);
    let meets = |x, y| ties::hold(&model.ties, &[x, y, 0]);
    assert_eq!([meets(0, 0), meets(0, 1), meets(1, 0), meets(1, 1)], [false, true, true, false]);
}

#[test]
fn a_chain_of_three() {
    // x = y and y = z; x + 2y + 4z + t ≤ 7. A probe of x says of both others that they are x.
    let rows: &[(&[i32], i32)] = &[(&[1, -1, 0, 0], 0), (&[0, 1, -1, 0], 0), (&[1, 2, 4, 1], 7)];
    let mut model = Model::binary(4, rows).with_equal(&[0, 1]);
    assert_eq!(model.probe(0, 1_000).unwrap()[0], 2);
    assert_eq!(model.tie(0, 1), ok(&[TIED]));
    assert_eq!(model.row(1), (&[1, 0, -1, 0][..], 0));
    assert_eq!(model.row(2), (&[3, 0, 4, 1][..], 7));
    // x, to which y is tied, is replaced by z: y's place still names x.
    assert_eq!(model.tie(2, 0), ok(&[TIED]));
    assert_eq!(model.row(1), (&[0, 0, 0, 0][..], 0));
    assert_eq!(model.row(2), (&[0, 0, 7, 1][..], 7));
    assert_eq!(model.ties, [6, 2, 0, 0]);
    for (k, j) in [(0, 1), (1, 0), (2, 0), (0, 2), (1, 2), (2, 1), (0, 3), (3, 1)] {
        assert_eq!(model.tie(k, j), ok(&[SAME]), "{k} {j}");
    }
    // All three alike, and no other.
    let points: Vec<u32> = (0..8)
        .filter(|bits| ties::hold(&model.ties, &[0, 1, 2, 9].map(|at| (bits >> at & 1) as i32)))
        .collect();
    assert_eq!(points, [0, 7]);
}

#[test]
fn elimination_of_variables_in_000() {
    // 000, 2.2.4. "xi = 0 ⇒ yj = vj and xi = 1 ⇒ yj = vj imply yj = vj": the probe fixes y, and this is no tie.
    let mut model = Model::binary(2, &[(&[-1, -1], -1), (&[1, -1], 0)]);
    assert_eq!(model.probe(0, 1_000).unwrap()[0], 2);
    assert_eq!(model.bounds, [0, 1, 1, 1]);
    assert_eq!(model.tie(0, 1), ok(&[SAME]));
    // "xi = 0 ⇒ yj = lj and xi = 1 ⇒ yj = uj imply yj = lj + (uj − lj) xi": x for 0 and 1.
    let mut model = Model::binary(2, &[(&[1, -1], 0), (&[-1, 1], 0)]);
    assert_eq!(model.probe(0, 1_000).unwrap()[..2], [2, 4]);
    assert_eq!(model.tie(0, 1), ok(&[TIED]));
    assert_eq!(model.ties, [0, 2]);
    // "xi = 0 ⇒ yj = uj and xi = 1 ⇒ yj = lj imply yj = uj − (uj − lj) xi": 1 − x.
    let mut model = Model::binary(2, &[(&[1, 1], 1), (&[-1, -1], -1)]);
    assert_eq!(model.probe(0, 1_000).unwrap()[..2], [2, 4]);
    assert_eq!(model.tie(0, 1), ok(&[TIED]));
    assert_eq!(model.ties, [0, 1]);
    // A y that is wider is not tied: y = 5x.
    let mut model = foreign(Model::new(&[(0, 1), (0, 5)], &[(&[5, -1], 0)]).with_equal(&[0]));
    assert_eq!(model.tie(0, 1), ok(&[SAME]));
}

#[test]
fn where_the_table_says_both_w_is_0() {
    let mut model = foreign(Model::binary(2, &[(&[2, 3], 4)]));
    assert_eq!(model.tie(1, 0), ok(&[TIED]));
    assert_eq!((model.row(0), &model.ties[..]), ((&[0, 5][..], 4), &[4, 0][..]));
    // Also where w = 0 leaves the limits and w = 1 would not.
    let mut model = foreign(Model::binary(2, &[(&[600_000, 600_000], 4)]));
    assert_eq!(model.tie(0, 1), ok(&[SAME]));
    let mut model = opposed(Model::binary(2, &[(&[600_000, 600_000], 600_004)]));
    assert_eq!(model.tie(0, 1), ok(&[TIED]));
    assert_eq!((model.row(0), &model.ties[..]), ((&[0, 0][..], 4), &[0, 1][..]));
}

#[test]
fn a_limit_makes_it_same() {
    // Coefficients at the ends of their range, and one beyond, in the second of two rows.
    let tie = |a, c, b, opposite| {
        let model = Model::binary(2, &[(&[1, 1], 1), (&[a, c], b)]);
        let mut model = if opposite { opposed(model) } else { foreign(model) };
        let before = model.clone();
        let [said, ..] = model.tie(0, 1).unwrap();
        assert_eq!(said == SAME, model == before);
        (said == TIED).then(|| (model.coefs[2], model.rhs[1]))
    };
    assert_eq!(tie(999_999, 1, 0, false), Some((1_000_000, 0)));
    assert_eq!(tie(1_000_000, 1, 0, false), None);
    assert_eq!(tie(-999_999, -1, 0, false), Some((-1_000_000, 0)));
    assert_eq!(tie(-1_000_000, -1, 0, false), None);
    assert_eq!(tie(999_999, -1, 0, true), Some((1_000_000, 1)));
    assert_eq!(tie(1_000_000, -1, 0, true), None);
    assert_eq!(tie(-1_000_000, 1, 0, true), None);
    // Right sides, which only w = 1 moves.
    assert_eq!(tie(0, 1, -999_999_999, true), Some((-1, -1_000_000_000)));
    assert_eq!(tie(0, 1, -1_000_000_000, true), None);
    assert_eq!(tie(0, -1, 999_999_999, true), Some((1, 1_000_000_000)));
    assert_eq!(tie(0, -1, 1_000_000_000, true), None);
    assert_eq!(tie(0, 1, -1_000_000_000, false), Some((1, -1_000_000_000)));
}

#[test]
fn what_else_makes_it_same() {
    let model = || foreign(Model::binary(3, &[(&[2, 3, 1], 4)]));
    assert_eq!(model().tie(1, 1), ok(&[SAME]));
    for pair in [[0, 0], [1, 1], [0, 2], [-1, 1], [-1, 0]] {
        for variable in [0, 1] {
            let mut model = model();
            model.bounds[2 * variable..][..2].copy_from_slice(&pair);
            assert_eq!(model.tie(0, 1), ok(&[SAME]), "{pair:?}");
        }
        // What the others are does not matter.
        let mut model = model();
        model.bounds[4..].copy_from_slice(&pair);
        assert_eq!(model.tie(0, 1), ok(&[TIED]));
    }
    // Replaced by a list from elsewhere, be it by itself; others may be, also by k or j.
    for (places, said) in [
        ([1, 0, 0], SAME),
        ([0, 4, 0], SAME),
        ([6, 6, 0], SAME),
        ([0, 0, 6], TIED),
        ([0, 0, 4], TIED),
        ([0, 0, 1], TIED),
    ] {
        let mut model = Model { ties: places.to_vec(), ..model() };
        assert_eq!(model.tie(0, 1), ok(&[said]), "{places:?}");
    }
    // On the empty box no variable is free.
    let mut model = Model { bounds: [1, 0].repeat(3), ..model() };
    assert_eq!(model.tie(0, 1), ok(&[SAME]));
}

#[test]
fn each_half_must_be_said() {
    // Of the 16 bytes of two variables only those of k's two lines and j's columns are read.
    let model = || Model::binary(2, &[(&[2, 3], 4)]);
    for bytes in 0..16_u32 {
        let mut model = model();
        for (bit, at) in [2, 3, 4 + 2, 4 + 3].into_iter().enumerate() {
            model.table[at] = (bytes >> bit & 1) as u8;
        }
        // (0 gives 0, 0 gives 1, 1 gives 0, 1 gives 1)
        let (equal, opposite) = (bytes & 0b1001 == 0b1001, bytes & 0b0110 == 0b0110);
        let place = if equal { 2 } else { u16::from(opposite) };
        assert_eq!(model.tie(0, 1), ok(&[if place > 0 { TIED } else { SAME }]), "{bytes:b}");
        assert_eq!(model.ties, [0, place]);
    }
    let mut others = model();
    others.table.fill(1);
    for at in [2, 3, 4 + 2, 4 + 3] {
        others.table[at] = 0;
    }
    assert_eq!(others.tie(0, 1), ok(&[SAME]));
}

#[test]
fn without_a_row_only_the_place_is_set() {
    let mut model = foreign(Model::binary(2, &[]));
    assert_eq!(model.tie(1, 0), ok(&[TIED]));
    assert_eq!(model.ties, [4, 0]);
}

#[test]
fn the_largest_place() {
    let n = 128;
    let mut model = foreign(Model::binary(n, &[(&[1; 128], 9)]));
    assert_eq!(model.tie(127, 0), ok(&[TIED]));
    assert_eq!(model.ties[0], 256);
    assert_eq!((model.coefs[0], model.coefs[127]), (0, 2));
    model.ties[5] = 257;
    assert_eq!(model.tie(127, 1), Err(21));
}

#[test]
fn checks_in_their_order() {
    let mut model = Model::new(&[(0, 40_000), (1, 0)], &[(&[1_000_001, 0], 1_000_000_001)]);
    model.kinds[0] = 2;
    model.table[15] = 2;
    model.ties = vec![0, 5];
    assert_eq!(model.tie(9, 9), Err(6));
    model.bounds[1] = 1;
    assert_eq!(model.tie(9, 9), Err(7));
    model.bounds[3] = 4_098;
    assert_eq!(model.tie(9, 9), Err(23));
    model.bounds[2..].copy_from_slice(&[0, 1]);
    assert_eq!(model.tie(9, 9), Err(8));
    model.coefs[0] = 1;
    assert_eq!(model.tie(9, 9), Err(9));
    model.rhs[0] = 1;
    assert_eq!(model.tie(9, 9), Err(16));
    model.kinds[0] = 1;
    assert_eq!(model.tie(9, 9), Err(10));
    model.table[15] = 1;
    assert_eq!(model.tie(9, 9), Err(21)); // a place of 2n + 1
    model.ties[1] = 4; // of 2n
    assert_eq!(model.tie(2, 0), Err(13));
    assert_eq!(model.tie(0, 2), Err(13));
    assert_eq!(model.tie(u32::MAX, u32::MAX), Err(13));
    assert_eq!(model.tie(0, 1), ok(&[SAME]));
    // A variable that is not free is no refusal here, and on the empty box the checks are the same.
    model.bounds = vec![1, 0, 1, 0];
    assert_eq!(model.tie(0, 1), ok(&[SAME]));
    assert_eq!(model.tie(0, 2), Err(13));
    model.ties[0] = 5;
    assert_eq!(model.tie(0, 2), Err(21));
}

#[test]
fn lengths_come_after_the_size_and_before_the_numbers() {
    let said = |n: usize, places: usize, answer: usize| {
        let (mut coefs, mut rhs, mut ties) = ([1], [1], vec![9; places]);
        let mut answer = vec![7; answer];
        let bounds = [0, 40_000];
        let table = [2; 4];
        let number = calls::tie(
            n,
            1,
            &bounds,
            &mut coefs,
            &mut rhs,
            &[2],
            &table,
            &mut ties,
            9,
            9,
            &mut answer,
        );
        assert!(ties.iter().all(|&place| place == 9) && answer.iter().all(|&place| place == 7));
        number
    };
    assert_eq!(said(0, 1, ANSWER), 3);
    assert_eq!(said(129, 1, 1), 3);
    for (places, answer) in [(0, ANSWER), (2, ANSWER), (1, 6), (1, ANSWER - 1), (1, ANSWER + 1)] {
        assert_eq!(said(1, places, answer), 5);
    }
    assert_eq!(said(1, 1, ANSWER), 6);
}
