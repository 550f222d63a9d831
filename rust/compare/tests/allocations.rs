//! The comparison of the call on proposed allocations, tried on the reference and on deliberately broken
//! copies of it. No library is needed here.

use compare::allocations::{self, Judge, Lent, Reference};
use compare::suite::{Plan, SEED};

const PLAN: Plan = Plan { seed: SEED, first: 0, cases: 6_000 };

#[test]
fn the_reference_agrees_with_itself_and_everything_is_met() {
    let coverage = allocations::run(PLAN, &mut Reference, &mut Reference).unwrap();
    assert_eq!(coverage.missing(), Vec::<String>::new());
}

/// The reference, with something done to what the call leaves: `spoil` has what it was lent, the number that
/// the reference returned, and the buffers to spoil. It returns the number to return.
struct Broken<F>(F);

impl<F: FnMut(&Lent, u32, &mut Lent) -> u32> Judge for Broken<F> {
    fn check_allocations(&mut self, lent: &mut Lent) -> u32 {
        let before = lent.clone();
        let said = Reference.check_allocations(lent);
        (self.0)(&before, said, lent)
    }
}

fn is_caught(spoil: impl FnMut(&Lent, u32, &mut Lent) -> u32) {
    let difference = allocations::run(PLAN, &mut Reference, &mut Broken(spoil))
        .expect_err("the broken copy was not caught");
    assert!(difference.contains("again: ASTROLABE_SEED="));
}

#[test]
fn catches_each_check_left_out() {
    for left_out in allocations::CHECKS {
        is_caught(|_, said, _| if said == left_out { 0 } else { said });
    }
}

#[test]
fn catches_22_in_another_place() {
    let lengths_fail = |lent: &Lent| {
        let count = lent.count as usize;
        lent.proposals.len() != count * lent.model.n || lent.verdicts.len() != 2 * count
    };
    // After 5, before 3; 65 accepted.
    is_caught(|before, said, _| if said == 22 && lengths_fail(before) { 5 } else { said });
    is_caught(|before, said, _| if said == 3 && before.count == 0 { 22 } else { said });
    is_caught(|before, said, _| if said == 22 && before.count == 65 { 0 } else { said });
}

#[test]
fn catches_wrong_verdicts() {
    // The highest row; a row before the box; the kind ignored; a number left from before.
    let sum = |lent: &Lent, c: usize, i: usize| -> i128 {
        let n = lent.model.n;
        let terms = lent.model.coefs[i * n..].iter().zip(&lent.proposals[c * n..][..n]);
        terms.map(|(&a, &x)| i128::from(a) * i128::from(x)).sum()
    };
    // The proposals of an accepted call that have a verdict of this case.
    let with = |said: u32, lent: &Lent, case: u32| -> Vec<usize> {
        (0..lent.verdicts.len() / 2).filter(|c| said == 0 && lent.verdicts[2 * c] == case).collect()
    };
    let breaks = |lent: &Lent, c: usize, i: usize| match lent.model.kinds[i] {
        0 => sum(lent, c, i) > lent.model.rhs[i].into(),
        _ => sum(lent, c, i) != lent.model.rhs[i].into(),
    };
    is_caught(|before, said, lent| {
        for c in with(said, lent, 2) {
            let highest = (0..before.model.m).rev().find(|&i| breaks(before, c, i));
            lent.verdicts[2 * c + 1] = highest.expect("a row is broken") as u32;
        }
        said
    });
    is_caught(|before, said, lent| {
        for c in with(said, lent, 1) {
            if let Some(i) = (0..before.model.m).find(|&i| breaks(before, c, i)) {
                lent.verdicts[2 * c..2 * c + 2].copy_from_slice(&[2, i as u32]);
            }
        }
        said
    });
    is_caught(|before, said, lent| {
        for c in with(said, lent, 2) {
            let broken =
                (0..before.model.m).find(|&i| sum(before, c, i) > before.model.rhs[i].into());
            let told = broken.map_or([0, 0], |i| [2, i as u32]);
            lent.verdicts[2 * c..2 * c + 2].copy_from_slice(&told);
        }
        said
    });
    is_caught(|before, said, lent| {
        for c in with(said, lent, 0) {
            lent.verdicts[2 * c + 1] = before.verdicts[2 * c + 1];
        }
        said
    });
}

#[test]
fn catches_a_refusal_that_writes() {
    is_caught(|_, said, lent| {
        if said > 6
            && let Some(first) = lent.verdicts.first_mut()
        {
            *first = 0;
        }
        said
    });
}
