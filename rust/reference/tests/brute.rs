//! Small models, enumerated point by point: what demands 2 and 3 promise, seen with a short program.
//!
//! Every box here is small enough to list all its points (and all its sub-boxes), so these tests know
//! the truth without any of the reducer's reasoning.

mod common;
use common::Model;
use reference::calls::ANSWER;
use reference::ties;

const MAX_BUDGET: u32 = 8_388_481;

/// A small generator with a fixed start (splitmix64), so that a failure can be repeated.
struct Rng(u64);

impl Rng {
    fn next(&mut self) -> u64 {
        self.0 = self.0.wrapping_add(0x9e37_79b9_7f4a_7c15);
        let mut z = self.0;
        z = (z ^ (z >> 30)).wrapping_mul(0xbf58_476d_1ce4_e5b9);
        z = (z ^ (z >> 27)).wrapping_mul(0x94d0_49bb_1331_11eb);
        z ^ (z >> 31)
    }

    /// A number from `low` to `high`, both included.
    fn between(&mut self, low: i32, high: i32) -> i32 {
        low + (self.next() % (high - low + 1) as u64) as i32
    }

    fn pick(&mut self, choices: &[u32]) -> u32 {
        choices[self.between(0, choices.len() as i32 - 1) as usize]
    }
}

/// A model of few variables, most of them binary, whose rows are neither all loose nor all infeasible; in
/// half of the models some or all of them are = rows.
fn small_model(rng: &mut Rng, max_n: i32) -> Model {
    let n = rng.between(1, max_n) as usize;
    let m = rng.between(0, 4) as usize;
    let bounds: Vec<(i32, i32)> = (0..n)
        .map(|_| match rng.between(0, 3) {
            0 => {
                let l = rng.between(-3, 2);
                (l, l + rng.between(0, 3))
            }
            _ => (0, 1),
        })
        .collect();
    let rows: Vec<(Vec<i32>, i32)> = (0..m)
        .map(|_| {
            let coefs: Vec<i32> = (0..n).map(|_| rng.between(-4, 4) * rng.between(0, 1)).collect();
            (coefs, rng.between(-4, 6))
        })
        .collect();
    let rows: Vec<(&[i32], i32)> = rows.iter().map(|(coefs, b)| (&coefs[..], *b)).collect();
    let mut model = Model::new(&bounds, &rows);
    let equal = [0, 0, 30, 100][rng.between(0, 3) as usize];
    for ((coefs, _), (kind, b)) in rows.iter().zip(model.kinds.iter_mut().zip(&mut model.rhs)) {
        if rng.between(1, 100) > equal {
            continue;
        }
        *kind = 1;
        // Mostly with the sum at some point of the box as right side: else nearly every model is empty.
        if rng.between(0, 3) > 0 {
            *b = bounds.iter().zip(*coefs).map(|(&(l, u), a)| a * rng.between(l, u)).sum();
        }
    }
    model
}

/// All lists of whole numbers inside the box, without the rows.
fn box_points(bounds: &[i32]) -> Vec<Vec<i32>> {
    bounds.chunks(2).fold(vec![vec![]], |points, pair| {
        points
            .iter()
            .flat_map(|point| {
                (pair[0]..=pair[1]).map(move |x| point.iter().copied().chain([x]).collect())
            })
            .collect()
    })
}

fn meets_rows(model: &Model, point: &[i32]) -> bool {
    (0..model.m).all(|r| {
        let (coefs, b) = model.row(r);
        let sum: i32 = coefs.iter().zip(point).map(|(a, x)| a * x).sum();
        if model.kinds[r] == 1 { sum == b } else { sum <= b }
    })
}

/// The integer points of the model. They read the ties too (02, C-19).
fn integer_points(model: &Model) -> Vec<Vec<i32>> {
    let mut points = box_points(&model.bounds);
    points.retain(|point| meets_rows(model, point) && ties::hold(&model.ties, point));
    points
}

/// Whether each recorded implication holds at each of the points.
fn implications_hold(model: &Model, points: &[Vec<i32>]) -> bool {
    let literals = 2 * model.n;
    let holds = |literal: usize, point: &[i32]| point[literal / 2] == (literal % 2) as i32;
    (0..literals * literals).filter(|&at| model.table[at] == 1).all(|at| {
        let (p, q) = (at / literals, at % literals);
        points.iter().all(|point| !holds(p, point) || holds(q, point))
    })
}

/// One call of any of the five kinds, chosen at random; refused ones among them.
fn any_call(rng: &mut Rng, model: &Model) -> [u32; 4] {
    let row = rng.between(0, model.m as i32) as u32;
    let variable = rng.between(0, model.n as i32) as u32;
    [rng.between(0, 6) as u32, row, variable, rng.between(0, 4) as u32]
}

/// What the same call says when made directly.
fn direct(model: &mut Model, [kind, row, variable, budget]: [u32; 4]) -> common::Said {
    match kind {
        1 => model.propagate_row(row),
        2 => model.propagate(budget),
        3 => model.probe(variable, budget),
        4 => model.tighten(row, variable),
        5 => model.remove(row),
        _ => Err(11),
    }
}

#[test]
fn each_call_keeps_the_integer_points() {
    let mut rng = Rng(1);
    let (mut changed, mut none) = (0, 0);
    for _ in 0..10_000 {
        let mut model = small_model(&mut rng, 5);
        let points = integer_points(&model);
        for _ in 0..12 {
            let before = model.clone();
            let call = any_call(&mut rng, &model);
            let said = direct(&mut model, call);
            assert_eq!(integer_points(&model), points, "{call:?} on {before:?}");
            assert!(implications_hold(&model, &points), "{call:?} on {before:?}");
            match said {
                Ok([0, ..]) => {
                    assert!(points.is_empty() && model.is_empty(), "None on {before:?}");
                    none += 1;
                }
                Ok(_) => assert!(!model.is_empty()),
                Err(_) => assert_eq!(model, before),
            }
            changed += u32::from(model != before);
        }
    }
    // The test would say nothing if the generator never made a call do something.
    assert!(changed > 5_000 && none > 1_000, "{changed} calls changed the state, {none} None");
}

#[test]
fn no_call_adds_a_fractional_point() {
    // Points over a denominator of 4: each that meets the model after a call met it before.
    let mut rng = Rng(2);
    let quarters = |model: &Model| -> Vec<Vec<i32>> {
        let bounds: Vec<i32> = model.bounds.iter().map(|x| 4 * x).collect();
        let mut scaled = model.clone();
        scaled.rhs.iter_mut().for_each(|b| *b *= 4);
        box_points(&bounds).into_iter().filter(|point| meets_rows(&scaled, point)).collect()
    };
    for _ in 0..400 {
        let mut model = small_model(&mut rng, 3);
        for _ in 0..6 {
            let before = model.clone();
            let call = any_call(&mut rng, &model);
            let _ = direct(&mut model, call);
            if model != before {
                let old = quarters(&before);
                let added = quarters(&model).into_iter().find(|p| old.binary_search(p).is_err());
                assert_eq!(added, None, "{call:?} on {before:?}");
            }
        }
    }
}

/// The bounds that differ between two boxes.
fn differing(before: &[i32], after: &[i32]) -> u64 {
    before.iter().zip(after).filter(|(old, new)| old != new).count() as u64
}

fn width(bounds: &[i32]) -> u64 {
    bounds.chunks(2).map(|pair| pair[1].abs_diff(pair[0])).sum::<u32>().into()
}

#[test]
fn moved_bounds_are_those_that_differ() {
    // C-11, row by row: a propagation is its rows' propagations, one after another, and adds them up.
    let mut rng = Rng(8);
    let mut seen = [0; 3];
    for _ in 0..3_000 {
        let model = small_model(&mut rng, 5);
        let budget = rng.between(1, 4) as u32;
        let (mut all, mut one) = (model.clone(), model.clone());
        let [case, passes, moved, ..] = all.propagate(budget).unwrap();
        let mut sum = 0;
        'passes: for _ in 0..passes {
            for row in 0..model.m as u32 {
                let before = one.bounds.clone();
                match one.propagate_row(row).unwrap() {
                    [0, 0, ..] => break 'passes,
                    [1, more, ..] => {
                        assert_eq!(more, differing(&before, &one.bounds));
                        // "from 1 to n"; of an = row "up to 2n" (C-14).
                        let sides = if model.kinds[row as usize] == 1 { 2 } else { 1 };
                        assert!(1 <= more && more <= sides * model.n as u64);
                        sum += more;
                    }
                    answer => assert_eq!(
                        (answer, before),
                        (common::ok(&[2]).unwrap(), one.bounds.clone())
                    ),
                }
            }
        }
        assert_eq!((moved, &all.bounds), (sum, &one.bounds), "{model:?}");
        // C-15: Settled exactly where the box is quiet; Spent where it is not, after the budget's passes.
        let quiet = !all.is_empty() && is_quiet(&all, &all.bounds);
        assert_eq!(case == 1, quiet, "{model:?}");
        assert!(case != 2 || passes == u64::from(budget));
        // Each pass but the last moved a bound, and each bound moved is a step of the total width.
        assert!(passes - 1 <= moved);
        assert!(case == 0 || moved <= width(&model.bounds) - width(&all.bounds));
        seen[case as usize] += u64::from(moved > 0);
    }
    assert!(seen.iter().all(|&cases| cases > 10), "{seen:?}");
}

#[test]
fn a_side_moves_what_a_propagation_of_its_box_does() {
    let mut rng = Rng(9);
    for _ in 0..3_000 {
        let mut model = small_model(&mut rng, 5);
        let (variable, budget) = (rng.between(0, model.n as i32 - 1), rng.between(1, 4) as u32);
        let before = model.clone();
        let Ok([_, _, passes0, spent0, moved0, passes1, spent1, moved1, ..]) =
            model.probe(variable as u32, budget)
        else {
            continue;
        };
        let side = |v: i32| {
            let mut side = before.clone();
            side.bounds[2 * variable as usize..][..2].fill(v);
            let [case, passes, moved, ..] = side.propagate(budget).unwrap();
            (passes, u64::from(case == 2), moved)
        };
        assert_eq!((passes0, spent0, moved0), side(0));
        assert_eq!((passes1, spent1, moved1), side(1));
    }
}

#[test]
fn a_call_list_does_what_its_calls_do() {
    let mut rng = Rng(3);
    for _ in 0..2_000 {
        let model = small_model(&mut rng, 5);
        let calls: Vec<[u32; 4]> =
            (0..rng.between(0, 10)).map(|_| any_call(&mut rng, &model)).collect();
        let (mut one, mut all) = (model.clone(), model);
        let mut counts = [0; ANSWER];
        for &call in &calls {
            let before = one.clone();
            // Kinds 4 and 5 are retired from lists (02, C-16).
            let made = if matches!(call[0], 4 | 5) { Err(18) } else { direct(&mut one, call) };
            let place = match made {
                Err(_) => 0,
                Ok([0, ..]) => 1,
                Ok(_) if one != before => 2,
                Ok(_) => 3,
            };
            counts[place] += 1;
        }
        assert_eq!(all.run(calls.as_flattened()), Ok(counts));
        assert_eq!(all, one);
    }
}

/// Every non-empty box inside this one.
fn boxes_inside(bounds: &[i32]) -> Vec<Vec<i32>> {
    bounds.chunks(2).fold(vec![vec![]], |boxes, pair| {
        let pairs = || (pair[0]..=pair[1]).flat_map(move |l| (l..=pair[1]).map(move |u| [l, u]));
        boxes
            .iter()
            .flat_map(|inner| pairs().map(move |p| inner.iter().copied().chain(p).collect()))
            .collect()
    })
}

fn contains(outer: &[i32], inner: &[i32]) -> bool {
    outer.chunks(2).zip(inner.chunks(2)).all(|(o, i)| o[0] <= i[0] && i[1] <= o[1])
}

/// Whether no row's propagation changes the box (01's quiet), one row at a time.
fn is_quiet(model: &Model, bounds: &[i32]) -> bool {
    let at = Model { bounds: bounds.to_vec(), ..model.clone() };
    (0..model.m as u32).all(|row| at.clone().propagate_row(row).unwrap()[0] == 2)
}

/// 01's largest quiet box inside a box, by looking at all of them; `None` where there is none.
fn largest_quiet(model: &Model, bounds: &[i32]) -> Option<Vec<i32>> {
    let quiet: Vec<Vec<i32>> =
        boxes_inside(bounds).into_iter().filter(|inner| is_quiet(model, inner)).collect();
    let largest = quiet.iter().find(|outer| quiet.iter().all(|inner| contains(outer, inner)));
    assert_eq!(largest.is_none(), quiet.is_empty(), "one of the quiet boxes contains all others");
    largest.cloned()
}

/// Two to four rows over three free binary variables whose coefficients are −1, 0 or 1: often no row changes
/// the box, and a probe does.
fn unit_model(rng: &mut Rng) -> Model {
    let m = rng.between(2, 4) as usize;
    let coefs: Vec<[i32; 3]> = (0..m).map(|_| [(); 3].map(|()| rng.between(-1, 1))).collect();
    let rows: Vec<(&[i32], i32)> = coefs.iter().map(|row| (&row[..], rng.between(0, 1))).collect();
    Model::binary(3, &rows)
}

/// 01's "at rest" word by word, and what a no carries (02, C-13).
fn rest_by_definition(model: &Model) -> [u64; 3] {
    let bounds = &model.bounds;
    let free = |k: usize| bounds[2 * k..2 * k + 2] == [0, 1];
    let side = |k: usize, v: i32| {
        let mut fixed = bounds.clone();
        fixed[2 * k..2 * k + 2].fill(v);
        largest_quiet(model, &fixed)
    };
    let leaves = |k: usize| match (side(k, 0), side(k, 1)) {
        (Some(zero), Some(one)) => reference::bounds::hull(&zero, &one) == *bounds,
        _ => false,
    };
    let moves = |&row: &u32| model.clone().propagate_row(row).unwrap()[0] != 2;
    if model.is_empty() {
        return [1, 0, 0];
    }
    if let Some(row) = (0..model.m as u32).find(moves) {
        return [0, 0, row.into()];
    }
    let unspanned = (0..model.n).filter(|&k| free(k)).find(|&k| !leaves(k));
    unspanned.map_or([1, 0, 0], |k| [0, 1, k as u64])
}

#[test]
fn propagation_ends_in_the_largest_quiet_box() {
    let mut rng = Rng(4);
    for _ in 0..400 {
        let mut model = small_model(&mut rng, 3);
        let largest = largest_quiet(&model, &model.bounds);
        let case = model.propagate(MAX_BUDGET).unwrap()[0];
        match largest {
            None => assert_eq!((case, model.is_empty()), (0, true)),
            Some(largest) => assert_eq!((case, &model.bounds), (1, &largest)),
        }
    }
}

#[test]
fn the_rest_call_agrees_with_the_definition() {
    let mut rng = Rng(5);
    let mut seen = [0; 3];
    for round in 0..2_400 {
        let mut model =
            if round % 3 == 0 { unit_model(&mut rng) } else { small_model(&mut rng, 3) };
        // A third is carried to a fixpoint first: else almost all would be at unrest.
        if round % 3 == 1 {
            model.propagate(MAX_BUDGET).unwrap();
        }
        let said = model.at_rest().unwrap();
        assert_eq!(said[..3], rest_by_definition(&model), "{model:?}");
        seen[if said[0] == 1 { 2 } else { said[1] as usize }] += 1;
    }
    assert!(seen.iter().all(|&times| times > 20), "{seen:?}");
}

/// Makes random visits, settles and probes until the box is at rest.
fn carry_to_rest(rng: &mut Rng, model: &mut Model) {
    while model.at_rest().unwrap()[0] == 0 {
        let row = rng.between(0, model.m as i32) as u32;
        let variable = rng.between(0, model.n as i32) as u32;
        let _ = match rng.between(1, 3) {
            1 => model.propagate_row(row),
            2 => model.propagate(rng.between(0, 3) as u32),
            _ => model.probe(variable, rng.between(0, 3) as u32),
        };
    }
}

#[test]
fn two_runs_at_rest_end_in_equal_boxes() {
    // Demand 3: any calls first, then two runs part, each with its own order and budgets.
    let mut rng = Rng(6);
    for _ in 0..1_500 {
        let mut model = small_model(&mut rng, 5);
        let points = integer_points(&model);
        for _ in 0..rng.between(0, 6) {
            let call = any_call(&mut rng, &model);
            let _ = direct(&mut model, call);
        }
        let (mut left, mut right) = (model.clone(), model);
        carry_to_rest(&mut rng, &mut left);
        carry_to_rest(&mut rng, &mut right);
        assert_eq!(left.bounds, right.bounds);
        for end in [&left, &right] {
            assert_eq!(integer_points(end), points);
            assert!(implications_hold(end, &points));
        }
    }
}

/// The ≤ form of row r, then its negated form, each as the only row of a model over the box.
fn forms(model: &Model, r: usize) -> [Model; 2] {
    let (coefs, b) = model.row(r);
    let negated: Vec<i32> = coefs.iter().map(|a| -a).collect();
    let only = |coefs: &[i32], b| {
        let bounds: Vec<(i32, i32)> =
            model.bounds.chunks(2).map(|pair| (pair[0], pair[1])).collect();
        Model::new(&bounds, &[(coefs, b)])
    };
    [only(coefs, b), only(&negated, -b)]
}

#[test]
fn an_equality_row_is_its_form_at_most_and_then_its_negated_form() {
    // C-14, row by row; and that a second visit can move more.
    let mut rng = Rng(10);
    let [mut first_none, mut second_none, mut second_alone, mut more_again, mut above_n] = [0; 5];
    for _ in 0..20_000 {
        let model = small_model(&mut rng, 5);
        for r in (0..model.m).filter(|&r| model.kinds[r] == 1) {
            let mut whole = model.clone();
            let said = whole.propagate_row(r as u32).unwrap();
            let [mut first, mut second] = forms(&model, r);
            let first_said = first.propagate_row(0).unwrap();
            if first_said[0] == 0 {
                assert_eq!((said, whole.is_empty()), (common::ok(&[0, 0]).unwrap(), true));
                first_none += 1;
                continue;
            }
            second.bounds.clone_from(&first.bounds);
            let second_said = second.propagate_row(0).unwrap();
            if second_said[0] == 0 {
                assert_eq!((said, whole.is_empty()), (common::ok(&[0, 0]).unwrap(), true));
                second_none += 1;
                continue;
            }
            // The two forms move different bounds, so their numbers add up to those that differ.
            let moved = first_said[1] + second_said[1];
            assert_eq!(moved, differing(&model.bounds, &second.bounds));
            assert_eq!(said, common::ok(&[if moved > 0 { 1 } else { 2 }, moved]).unwrap());
            assert_eq!(whole.bounds, second.bounds);
            second_alone += u32::from(first_said[1] == 0 && moved > 0);
            above_n += u32::from(moved > model.n as u64);
            more_again += u32::from(whole.propagate_row(r as u32).unwrap()[0] != 2);
        }
    }
    let seen = [first_none, second_none, second_alone, more_again, above_n];
    assert!(seen.iter().all(|&cases| cases > 50), "{seen:?}");
}

#[test]
fn an_equality_row_and_its_two_rows_end_in_the_same_quiet_box() {
    let mut rng = Rng(11);
    let mut seen = [0; 2];
    for _ in 0..4_000 {
        let model = small_model(&mut rng, 5);
        let two = model.in_two_rows();
        assert_eq!(integer_points(&model), integer_points(&two));
        // Wherever the two rows stand, and in the model of = rows wherever that one does.
        let mut turned = two.clone();
        turned.coefs = turned.coefs.chunks(model.n).rev().flatten().copied().collect();
        turned.rhs.reverse();
        let says_yes = |model: &Model| model.clone().at_rest().unwrap()[0] == 1;
        assert_eq!(says_yes(&model), says_yes(&two));
        let ends = [&model, &two, &turned].map(|start| {
            let mut end = start.clone();
            let case = end.propagate(MAX_BUDGET).unwrap()[0];
            // The rows leave the box, or it is empty: a no is by a variable, and the same one.
            assert_eq!(end.at_rest(), at_rest_in(&turned, &end.bounds));
            (case, end.bounds)
        });
        assert!(ends[0] == ends[1] && ends[1] == ends[2], "{model:?}");
        seen[ends[0].0 as usize] += u32::from(model.kinds.contains(&1));
        // A pass over an = row is a pass over its two rows: the passes are the same too, and the bounds
        // moved where it does not end in None.
        let (one, both) = (model.clone().propagate(9).unwrap(), two.clone().propagate(9).unwrap());
        assert_eq!(one[..2], both[..2]);
        assert!(one[2] == both[2] || one[0] == 0 && one[2] < both[2]);
    }
    assert!(seen.iter().all(|&cases| cases > 500), "{seen:?}");
}

/// What the rest call says of the model's rows over another box.
fn at_rest_in(model: &Model, bounds: &[i32]) -> common::Said {
    Model { bounds: bounds.to_vec(), ..model.clone() }.at_rest()
}

#[test]
fn an_equality_row_is_removed_where_every_point_of_the_box_meets_it() {
    let mut rng = Rng(12);
    let mut seen = [0; 2];
    for _ in 0..20_000 {
        let mut model = small_model(&mut rng, 3);
        for r in (0..model.m).filter(|&r| model.kinds[r] == 1).collect::<Vec<_>>() {
            let (coefs, b) = model.row(r);
            let meets =
                |point: &Vec<i32>| coefs.iter().zip(point).map(|(a, x)| a * x).sum::<i32>() == b;
            let implied = box_points(&model.bounds).iter().all(meets);
            let before = model.clone();
            if implied {
                assert_eq!(model.remove(r as u32), common::ok(&[1]));
                assert_eq!((model.row(r), model.kinds[r]), ((&vec![0; model.n][..], 0), 0));
            } else {
                assert_eq!(model.remove(r as u32), common::ok(&[2]));
                assert_eq!(model, before);
            }
            seen[usize::from(implied)] += 1;
        }
    }
    assert!(seen.iter().all(|&rows| rows > 500), "{seen:?}");
}

#[test]
fn books_come_back() {
    let mut rng = Rng(7);
    let mut refused = 0;
    for _ in 0..1_000 {
        let mut model = small_model(&mut rng, 6);
        if model.kinds.contains(&1) {
            assert_eq!(model.write(), Err(17));
            model.kinds.fill(0);
            refused += 1;
        }
        let book = model.book();
        let mut read = Model {
            bounds: vec![0; 2 * model.n],
            coefs: vec![0; model.m * model.n],
            rhs: vec![0; model.m],
            kinds: vec![9; model.m],
            ..model.clone()
        };
        let mut answer = [0; ANSWER];
        let Model { bounds, coefs, rhs, kinds, .. } = &mut read;
        assert_eq!(reference::calls::book_read(&book, bounds, coefs, rhs, kinds, &mut answer), 0);
        assert_eq!(Ok(answer), common::ok(&[model.n as u64, model.m as u64]));
        assert_eq!(read, model);
        assert_eq!(read.book(), book);
    }
    assert!(refused > 100);
}

/// Three to five free binary variables and a wider one, some pairs of which are equal or opposite: by one = row
/// or by two ≤ rows, with coefficients as they come; and a row or two over all of them.
fn tied_model(rng: &mut Rng) -> Model {
    let free = rng.between(3, 5) as usize;
    let mut bounds = vec![(0, 1); free];
    bounds.push((-1, 1));
    let (mut rows, mut equal) = (vec![], vec![]);
    for _ in 0..rng.between(1, 3) {
        let (k, j) = (rng.between(0, free as i32 - 1) as usize, rng.between(0, free as i32 - 1));
        // a k − a j = 0, or a k + a j = a.
        let (a, w) = (rng.between(1, 3), rng.between(0, 1));
        let mut row = vec![0; free + 1];
        row[k] = a;
        row[j as usize] += a * (2 * w - 1);
        if rng.between(0, 1) == 0 {
            equal.push(rows.len());
            rows.push((row, a * w));
        } else {
            rows.push((row.iter().map(|a| -a).collect(), -a * w));
            rows.push((row, a * w));
        }
    }
    for _ in 0..rng.between(0, 2) {
        rows.push(((0..=free).map(|_| rng.between(-3, 3)).collect(), rng.between(-1, 5)));
    }
    let rows: Vec<(&[i32], i32)> = rows.iter().map(|(row, b)| (&row[..], *b)).collect();
    Model::new(&bounds, &rows).with_equal(&equal)
}

/// A tie of any two variables, or any other call.
fn any_call_or_tie(rng: &mut Rng, model: &mut Model) -> common::Said {
    if rng.between(0, 1) == 0 {
        let mut any = || rng.between(0, model.n as i32) as u32;
        let (k, j) = (any(), any());
        return model.tie(k, j);
    }
    let [_, row, variable, _] = any_call(rng, model);
    let kind = rng.pick(&[1, 3, 3, 3, 3, 4, 5]);
    direct(model, [kind, row, variable, 1_000])
}

#[test]
fn ties_among_other_calls_keep_the_integer_points() {
    // "for a table filled from empty by calls on this model, and the tie list as they left it .. a list of whole
    // values in the box meets the new rows and ties exactly when it met the old ones" (02, C-19).
    let mut rng = Rng(13);
    let (mut tied, mut chains, mut opposite) = (0, 0, 0);
    for _ in 0..6_000 {
        let mut model = tied_model(&mut rng);
        let points = integer_points(&model);
        for _ in 0..24 {
            let before = model.clone();
            let _ = any_call_or_tie(&mut rng, &mut model);
            assert_eq!(integer_points(&model), points, "{before:?} to {model:?}");
            assert!(implications_hold(&model, &points), "{before:?} to {model:?}");
            if model.ties == before.ties {
                continue;
            }
            let j = (0..model.n).find(|&j| model.ties[j] != before.ties[j]).expect("a new tie");
            let place = usize::from(model.ties[j]);
            tied += 1;
            opposite += u32::from(place % 2 == 1);
            chains += u32::from(before.ties.iter().any(|&p| p > 0 && usize::from(p - 1) / 2 == j));
            assert!((0..model.m).all(|r| model.row(r).0[j] == 0));
        }
    }
    assert!(tied > 1_000 && chains > 50 && opposite > 300, "{tied} {chains} {opposite}");
}

#[test]
fn a_tie_by_any_table_adds_no_point() {
    // "With any other table the call does the same, and then it is promised only that no point is added." Whole
    // and in quarters, with a list from elsewhere that may tie in a circle.
    let mut rng = Rng(14);
    let in_quarters = |model: &Model| -> Vec<Vec<i32>> {
        let mut scaled = model.clone();
        scaled.bounds.iter_mut().for_each(|x| *x *= 4);
        scaled.rhs.iter_mut().for_each(|b| *b *= 4);
        let mut points = box_points(&scaled.bounds);
        // An equation j = 1 − k over a denominator of 4 is j = 4 − k.
        let meets = |point: &[i32]| {
            model.ties.iter().zip(point).all(|(&place, &x)| {
                let k = usize::from(place.saturating_sub(1)) / 2;
                place == 0 || x == if place % 2 == 0 { point[k] } else { 4 - point[k] }
            })
        };
        points.retain(|point| meets_rows(&scaled, point) && meets(point));
        points
    };
    let (mut tied, mut lost) = (0, 0);
    for _ in 0..3_000 {
        let mut model = small_model(&mut rng, 4);
        model.table.iter_mut().for_each(|byte| *byte = u8::from(rng.between(0, 2) > 0));
        if rng.between(0, 3) == 0 {
            let places = 2 * model.n as i32;
            let mut any = || rng.between(0, places) as u16;
            model.ties.iter_mut().for_each(|place| *place = any() * any().min(1));
        }
        let before = model.clone();
        let mut any = || rng.between(0, model.n as i32 - 1) as u32;
        let (k, j) = (any(), any());
        if model.tie(k, j).unwrap()[0] == 1 {
            tied += 1;
            let (old, new) = (integer_points(&before), integer_points(&model));
            assert!(new.iter().all(|point| old.contains(point)), "{k} {j} {before:?}");
            lost += u32::from(new.len() < old.len());
            let old = in_quarters(&before);
            let added = in_quarters(&model).into_iter().find(|p| old.binary_search(p).is_err());
            assert_eq!(added, None, "{k} {j} {before:?}");
        }
    }
    assert!(tied > 100 && lost > 30, "{tied} tied, {lost} lost a point");
}

#[test]
fn two_runs_after_ties_end_in_equal_boxes() {
    // Demand 3 with ties in the first list; the points read the list as it stands.
    let mut rng = Rng(15);
    let mut tied = 0;
    for _ in 0..600 {
        let mut model = tied_model(&mut rng);
        let points = integer_points(&model);
        for _ in 0..24 {
            let _ = any_call_or_tie(&mut rng, &mut model);
        }
        tied += u32::from(model.ties.iter().any(|&place| place > 0));
        let (mut left, mut right) = (model.clone(), model);
        carry_to_rest(&mut rng, &mut left);
        carry_to_rest(&mut rng, &mut right);
        assert_eq!(left.bounds, right.bounds);
        for end in [&left, &right] {
            assert_eq!(integer_points(end), points);
            assert!(implications_hold(end, &points));
        }
    }
    assert!(tied > 100, "{tied}");
}
