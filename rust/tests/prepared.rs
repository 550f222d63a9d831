//! Prepared models: the proved library against the plain Rust reference over random walks in a tree, and the safe
//! wrapper.

use std::thread;

use astrolabe::{Bound, Model, Moved, Prepared, Probe, Propagation, Refusal, RowKind};
use compare::models::{self, MAX_ROWS, MAX_VARIABLES};
use compare::prepared;
use compare::rng::Rng;
use compare::suite::{Plan, SEED};
use native_prepared::Native;

mod native_prepared;

/// Enough walks to meet every check and every way to go.
const ENOUGH: u64 = 2_000;

#[test]
fn generated_walks() {
    let plan = Plan::from_env(6_000);
    let coverage = prepared::run(plan, &mut Native).unwrap_or_else(|difference| {
        panic!("the library differs from the reference: {difference}")
    });
    println!("{} walks, {} calls accepted", plan.cases, coverage.calls);
    if plan.cases >= ENOUGH {
        assert_eq!(coverage.missing(), Vec::<String>::new());
    }
}

/// x + y + z ≤ 2, x ≥ y and 2x + 3z = 3, all binary.
fn small() -> Model {
    let coefs = vec![1, 1, 1, -1, 1, 0, 2, 0, 3];
    let kinds = vec![RowKind::AtMost, RowKind::AtMost, RowKind::Equal];
    Model::with_kinds(vec![0, 1, 0, 1, 0, 1], coefs, vec![2, 0, 3], kinds).unwrap()
}

#[test]
fn the_moved_bounds_and_the_infeasible_row() {
    let mut prepared = Prepared::new(&small()).unwrap();
    assert_eq!(prepared.n(), 3);
    let mut bounds = [0, 1, 0, 1, 0, 1];
    let told = prepared.propagate(&mut bounds, 1_000).unwrap();
    // Row 2: z is 1 and x is 0; then row 1: y is 0.
    let moved: Vec<Moved> = told.moved().collect();
    let by = |variable, bound, row| Moved { variable, bound, row };
    let expected = [by(0, Bound::Upper, 2), by(1, Bound::Upper, 1), by(2, Bound::Lower, 2)];
    assert_eq!(moved, expected);
    assert_eq!(told.infeasible_row, None);
    assert_eq!(bounds, [0, 0, 0, 0, 1, 1]);

    // Up again, and to a branch without a point: y is 1, so x is 1 by row 1, and row 2 cannot be met.
    let mut bounds = [0, 1, 1, 1, 0, 1];
    let told = prepared.propagate(&mut bounds, 1_000).unwrap();
    assert!(matches!(told.propagation, Propagation::Infeasible { .. }));
    assert_eq!(told.infeasible_row, Some(2));
    assert_eq!(told.moved().next(), Some(by(0, Bound::Lower, 1)));
    assert_eq!(bounds, [1, 0, 1, 0, 1, 0]);

    // On the empty box no row is infeasible, and nothing moves.
    let told = prepared.propagate(&mut bounds, 1_000).unwrap();
    assert_eq!(told.propagation, Propagation::Infeasible { passes: 1, moved: 0 });
    assert_eq!((told.infeasible_row, told.moved().count()), (None, 0));
}

#[test]
fn a_clone_goes_its_own_way_and_threads_have_one_each() {
    let model = small();
    let root = Prepared::new(&model).unwrap();
    fn sendable<T: Send + Sync + Clone + 'static>(_: &T) {}
    sendable(&root);
    thread::scope(|scope| {
        for value in 0..2 {
            let (mut prepared, mut plain) = (root.clone(), model.clone());
            scope.spawn(move || {
                plain.set_bounds(1, value, value);
                let mut bounds = plain.bounds().to_vec();
                let told = prepared.propagate(&mut bounds, 9).unwrap().propagation;
                assert_eq!(told, plain.propagate(9).unwrap());
                assert_eq!(bounds, plain.bounds());
            });
        }
    });
}

#[test]
fn a_probe_is_that_of_the_model() {
    let mut model = small();
    let mut prepared = Prepared::new(&model).unwrap();
    let (mut bounds, mut table) = (model.bounds().to_vec(), vec![0; 36]);
    let probe = prepared.probe(&mut bounds, &mut table, 1, 1_000).unwrap();
    assert!(matches!(probe, Probe::Fixed { value: 0, .. }));
    assert_eq!(probe, model.probe(1, 1_000).unwrap());
    assert_eq!((&bounds[..], &table[..]), (model.bounds(), model.table()));
}

#[test]
fn a_probe_tells_of_each_side() {
    let mut model = small();
    let mut prepared = Prepared::new(&model).unwrap();
    let (mut bounds, mut table) = (model.bounds().to_vec(), vec![0; 36]);
    let told = prepared.probe_with_reasons(&mut bounds, &mut table, 1, 1_000).unwrap();
    assert_eq!(told.probe, model.probe(1, 1_000).unwrap());
    let by = |variable, bound, row| Moved { variable, bound, row };
    // y is 0: row 2 alone, z is 1 and x is 0. y is 1: x is 1 by row 1, and row 2 cannot be met.
    assert!(told.moved(0).eq([by(0, Bound::Upper, 2), by(2, Bound::Lower, 2)]));
    assert_eq!(told.moved(1).next(), Some(by(0, Bound::Lower, 1)));
    assert_eq!(told.infeasible_rows, [None, Some(2)]);
    assert_eq!((&bounds[..], &table[..]), (model.bounds(), model.table()));
    // After it a propagation tells its own.
    let told = prepared.propagate(&mut bounds, 1_000).unwrap();
    assert_eq!((told.infeasible_row, told.moved().count()), (None, 0));
    // On the empty box no side is tried.
    let told = prepared.probe_with_reasons(&mut [1, 0, 1, 0, 1, 0], &mut table, 1, 9).unwrap();
    assert_eq!(told.infeasible_rows, [None, None]);
    assert_eq!(told.moved(0).chain(told.moved(1)).count(), 0);
}

#[test]
#[should_panic(expected = "a side is 0 or 1, not 2")]
fn a_probe_has_two_sides() {
    let mut prepared = Prepared::new(&small()).unwrap();
    let told = prepared.probe_with_reasons(&mut [0, 1, 0, 1, 0, 1], &mut [0; 36], 1, 9).unwrap();
    let _ = told.moved(2);
}

#[test]
fn refusals_change_nothing() {
    let mut model = small();
    model.set_bounds(0, 2, 1);
    assert_eq!(Prepared::new(&model).unwrap_err(), Refusal::BoundsCrossed);
    let mut prepared = Prepared::new(&small()).unwrap();
    let mut refused = |bounds: &mut [i32], budget, refusal| {
        let before = bounds.to_vec();
        assert_eq!(prepared.propagate(bounds, budget).unwrap_err(), refusal);
        assert_eq!(bounds, before);
    };
    refused(&mut [0, 1, 0, 1], 1, Refusal::BufferLength);
    refused(&mut [0, 1, 0, 1, 0, 40_000], 0, Refusal::BoundOutOfRange);
    refused(&mut [0, 1, 0, 1, 1, 0], 0, Refusal::BoundsCrossed);
    refused(&mut [0, 1, 0, 1, 0, 4_097], 0, Refusal::VariableTooWide);
    refused(&mut [0, 1, 0, 1, 0, 1], 0, Refusal::BudgetOutOfRange);
    let mut table = [0; 36];
    let mut probe =
        |variable, budget| prepared.probe(&mut [0, 1, 0, 0, 0, 1], &mut table, variable, budget);
    assert_eq!(probe(3, 0), Err(Refusal::NoSuchVariable));
    assert_eq!(probe(1, 0), Err(Refusal::VariableNotFree));
    assert_eq!(probe(0, 0), Err(Refusal::BudgetOutOfRange));
}

/// A dive and its way back in the largest models, each call against the plain one of the library.
#[test]
fn dives_in_the_largest_models() {
    for density in [3, 25, 100] {
        let mut rng = Rng::for_case(SEED, density as u64);
        for equal in [0, 20] {
            let lent = models::sized(&mut rng, MAX_VARIABLES, MAX_ROWS, density, equal);
            let kinds = lent.kinds.iter().map(|&kind| match kind {
                0 => RowKind::AtMost,
                _ => RowKind::Equal,
            });
            let kinds = kinds.collect();
            let mut plain = Model::with_kinds(lent.bounds, lent.coefs, lent.rhs, kinds).unwrap();
            let mut prepared = Prepared::new(&plain).unwrap();
            let mut path = vec![plain.bounds().to_vec()];
            for step in 0..40 {
                let mut bounds = path.last().unwrap().clone();
                let j = rng.index(MAX_VARIABLES);
                if rng.chance(50) {
                    bounds[2 * j] = bounds[2 * j + 1];
                } else {
                    bounds[2 * j + 1] = bounds[2 * j];
                }
                plain.bounds_mut().copy_from_slice(&bounds);
                let told = prepared.propagate(&mut bounds, 1_000).unwrap().propagation;
                assert_eq!(told, plain.propagate(1_000).unwrap(), "step {step}");
                assert_eq!(bounds, plain.bounds(), "step {step}");
                match told {
                    Propagation::Infeasible { .. } if path.len() > 1 => drop(path.pop()),
                    Propagation::Infeasible { .. } => {}
                    _ => path.push(bounds),
                }
            }
        }
    }
}
