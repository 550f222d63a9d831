//! The proved library against the plain Rust reference, call by call: the returned number, the answer
//! and every buffer.
//!
//! The cases are generated: `ASTROLABE_SEED` gives another seed, `ASTROLABE_CASES` another number of
//! them, `ASTROLABE_CASE` one alone. What to set to repeat a difference is printed with it.

mod native;

use std::thread;

use compare::lent::{Lent, Operation, Reference};
use compare::models::{self, MAX_BOUND, MAX_BUDGET, MAX_ROWS, MAX_VARIABLES, MAX_WIDTH, Ring};
use compare::rng::Rng;
use compare::suite::{self, Plan, SEED};
use native::Native;

/// How many cases are made where nothing else is asked: about ten seconds.
const CASES: u64 = 150_000;

/// Enough cases to meet every check of every call and every case of every answer.
const ENOUGH: u64 = 20_000;

#[test]
fn generated_cases() {
    let plan = Plan::from_env(CASES);
    println!("ASTROLABE_SEED={} ASTROLABE_CASES={}", plan.seed, plan.cases);
    let coverage = suite::run(plan, &mut Reference, &mut Native).unwrap_or_else(|difference| {
        panic!("the library differs from the reference: {difference}")
    });
    println!("{coverage}");
    if plan.cases >= ENOUGH {
        assert_eq!(coverage.missing(), Vec::<String>::new());
    }
}

/// Makes the calls on a model, one after another; the last one's answer.
fn agree(mut lent: Lent, operations: &[Operation]) -> Vec<u64> {
    for &operation in operations {
        lent.answer.fill(u64::MAX);
        let said = suite::compare(operation, &mut lent, &mut Reference, &mut Native);
        assert_eq!(said.unwrap_or_else(|difference| panic!("{difference}")), 0, "{operation:?}");
    }
    lent.answer
}

#[test]
fn the_largest_models_in_whole_rounds() {
    for density in [3, 25, 100] {
        let mut rng = Rng::for_case(SEED, density as u64);
        for equal in [0, 20] {
            let lent =
                models::sized(&mut rng, MAX_VARIABLES, MAX_ROWS, density, equal).with_table();
            agree(lent, &[Operation::Rounds { limit: 2 }, Operation::IsProbingFixpoint]);
        }
    }
}

#[test]
fn a_crawl_of_hundreds_of_thousands_of_passes() {
    let passes = |variables, bounds, ends_at_zero, equal| {
        let ring =
            Ring { variables, bounds, ends_at_zero, switched: false, reversed: false, equal };
        let lent = ring.model().with_table();
        agree(lent, &[Operation::Propagate { budget: MAX_BUDGET }])[1]
    };
    // Upper bounds go down to 0, each step in as many passes as there are rows but one.
    assert!(passes(60, [0, MAX_WIDTH], true, false) > 59 * 4_096);
    // The same with = rows, whose lower bounds have nowhere to go.
    assert!(passes(20, [0, MAX_WIDTH], true, true) > 19 * 4_096);
    // Lower bounds go up by one in each pass until they meet the upper ones.
    assert!(passes(12, [MAX_BOUND - MAX_WIDTH, MAX_BOUND], false, false) > 3_500);
}

#[test]
fn threads_on_their_own_buffers() {
    // No shared state: each thread plays cases of its own while the others do.
    thread::scope(|scope| {
        for number in 0..4 {
            let plan = Plan { seed: SEED + 1 + number, first: 0, cases: 5_000 };
            scope.spawn(move || {
                if let Err(difference) = suite::run(plan, &mut Reference, &mut Native) {
                    panic!("{difference}");
                }
            });
        }
    });
}

#[test]
fn clique_rows_of_the_largest_tables() {
    let literals = 2 * MAX_VARIABLES;
    let lend = |table: Vec<u8>| {
        let mut lent = models::sized(&mut Rng::new(SEED), MAX_VARIABLES, 1, 10, 0).with_table();
        lent.table = table;
        lent.clique_coefs = vec![7; literals * MAX_VARIABLES];
        lent.clique_rhs = vec![7; literals];
        agree(lent, &[Operation::Cliques])[0]
    };
    // All joined: the literals of value 0 together, and each literal of value 1 with those of the others.
    assert_eq!(lend(vec![1; literals * literals]), 1 + MAX_VARIABLES as u64);
    for percent in [1, 50, 90, 99] {
        let mut rng = Rng::for_case(SEED, percent);
        let mut table = vec![0; literals * literals];
        for p in 0..literals {
            for q in (0..p).filter(|_| rng.chance(percent as i64)) {
                table[p * literals + (q ^ 1)] = 1;
                table[q * literals + (p ^ 1)] = 1;
            }
        }
        lend(table);
    }
}
