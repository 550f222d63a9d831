//! The comparison itself, tried on the reference and on deliberately broken copies of it. No library
//! is needed here.

use std::collections::BTreeSet;

use compare::lent::{Backend, Loan, Operation, Reference};
use compare::suite::{self, Plan, SEED};
use reference::cliques;
use reference::row::{AT_MOST, EQUAL, Outcome, Row, RowPropagation};

const PLAN: Plan = Plan { seed: SEED, first: 0, cases: 20_000 };

#[test]
fn the_reference_agrees_with_itself_and_everything_is_met() {
    let coverage = suite::run(PLAN, &mut Reference, &mut Reference).unwrap();
    println!("{coverage}");
    assert_eq!(coverage.missing(), Vec::<String>::new());
    assert!(coverage.most_passes > 10_000, "no long crawl: {}", coverage.most_passes);
}

/// The reference, with something done to what a call leaves: `spoil` has the call, what it was lent,
/// the number that the reference returned, and the buffers to spoil. It returns the number to return.
struct Broken<F>(F);

/// What the call was lent, before it.
struct Before {
    bounds: Vec<i32>,
    coefs: Vec<i32>,
    rhs: Vec<i32>,
    kinds: Vec<u8>,
    table: Vec<u8>,
    ties: Vec<u16>,
}

impl<F: FnMut(Operation, &Before, u32, &mut Loan) -> u32> Backend for Broken<F> {
    fn call(&mut self, operation: Operation, mut loan: Loan) -> u32 {
        let before = Before {
            bounds: loan.bounds.to_vec(),
            coefs: loan.coefs.to_vec(),
            rhs: loan.rhs.to_vec(),
            kinds: loan.kinds.to_vec(),
            table: loan.table.to_vec(),
            ties: loan.ties.to_vec(),
        };
        let said = Reference.call(operation, reborrow(&mut loan));
        (self.0)(operation, &before, said, &mut loan)
    }
}

fn reborrow<'a>(loan: &'a mut Loan) -> Loan<'a> {
    Loan {
        n: loan.n,
        m: loan.m,
        bounds: loan.bounds,
        coefs: loan.coefs,
        rhs: loan.rhs,
        kinds: loan.kinds,
        table: loan.table,
        ties: loan.ties,
        calls: loan.calls,
        classes: loan.classes,
        book: loan.book,
        clique_coefs: loan.clique_coefs,
        clique_rhs: loan.clique_rhs,
        to: loan.to,
        answer: loan.answer,
    }
}

/// The comparison must find the fault, and say how to repeat it.
fn is_caught(spoil: impl FnMut(Operation, &Before, u32, &mut Loan) -> u32) {
    let difference = suite::run(PLAN, &mut Reference, &mut Broken(spoil))
        .expect_err("the broken copy was not caught");
    let (seed, case) = difference.case.expect("a difference of the suite has its case");
    assert!(
        difference.to_string().contains(&format!("ASTROLABE_SEED={seed} ASTROLABE_CASE={case}"))
    );
}

#[test]
fn catches_an_idle_propagation() {
    is_caught(|operation, before, said, loan| {
        if matches!(operation, Operation::PropagateRow { .. }) && said == 0 {
            loan.bounds.copy_from_slice(&before.bounds);
            loan.answer[0] = 2;
        }
        said
    });
}

#[test]
fn catches_a_box_left_half_narrowed_at_none() {
    is_caught(|operation, before, said, loan| {
        if matches!(operation, Operation::Propagate { .. }) && said == 0 && loan.answer[0] == 0 {
            loan.bounds.copy_from_slice(&before.bounds);
        }
        said
    });
}

#[test]
fn catches_invented_passes() {
    is_caught(|operation, _, said, loan| {
        if matches!(operation, Operation::Propagate { .. }) && said == 0 && loan.answer[1] > 9 {
            loan.answer[1] += 1;
        }
        said
    });
}

#[test]
fn catches_spent_told_as_settled() {
    is_caught(|operation, _, said, loan| {
        if matches!(operation, Operation::Propagate { .. }) && said == 0 && loan.answer[0] == 2 {
            loan.answer[0] = 1;
        }
        said
    });
}

#[test]
fn catches_the_spent_flag_of_one_side() {
    is_caught(|operation, _, said, loan| {
        if matches!(operation, Operation::Probe { .. }) && said == 0 {
            loan.answer[6] = 0;
        }
        said
    });
}

#[test]
fn catches_moved_bounds_counted_otherwise() {
    // A row's: one for every row that moved.
    is_caught(|operation, _, said, loan| {
        if matches!(operation, Operation::PropagateRow { .. }) && said == 0 && loan.answer[0] == 1 {
            loan.answer[1] = 1;
        }
        said
    });
    // A propagation's: none where it ended infeasible.
    is_caught(|operation, _, said, loan| {
        if matches!(operation, Operation::Propagate { .. }) && said == 0 && loan.answer[0] == 0 {
            loan.answer[2] = 0;
        }
        said
    });
    // A propagation's: the bounds that differ in the end, each once.
    is_caught(|operation, before, said, loan| {
        if matches!(operation, Operation::Propagate { .. }) && said == 0 && loan.answer[0] != 0 {
            let pairs = before.bounds.iter().zip(&*loan.bounds);
            loan.answer[2] = pairs.filter(|(old, new)| old != new).count() as u64;
        }
        said
    });
    // The sides' exchanged; the probed variable's own bound counted.
    is_caught(|operation, _, said, loan| {
        if matches!(operation, Operation::Probe { .. }) && said == 0 {
            loan.answer.swap(4, 7);
        }
        said
    });
    is_caught(|operation, _, said, loan| {
        if matches!(operation, Operation::Probe { .. }) && said == 0 && loan.answer[2] > 0 {
            loan.answer[4] += 1;
        }
        said
    });
}

#[test]
#[should_panic(expected = "PropagateRow")]
fn moved_bounds_that_both_sides_invent_are_seen_too() {
    // Both say one for every row that moved: they agree, and differ from the bounds.
    let invent = |operation: Operation, _: &Before, said: u32, loan: &mut Loan| {
        if matches!(operation, Operation::PropagateRow { .. }) && said == 0 && loan.answer[0] == 1 {
            loan.answer[1] = 1;
        }
        said
    };
    suite::run(PLAN, &mut Broken(invent), &mut Broken(invent)).expect("the two agree");
}

#[test]
fn catches_division_that_truncates() {
    // Visible where a quotient is negative and not whole: the bound is one too high.
    is_caught(|operation, before, said, loan| {
        let Operation::PropagateRow { row } = operation else { return said };
        if said != 0 || loan.answer[0] != 1 {
            return said;
        }
        let (n, r) = (loan.n, row as usize);
        let coefs = &loan.coefs[r * n..][..n];
        let room = i64::from(loan.rhs[r]) - reference::row::min_activity(&before.bounds, coefs);
        for (j, &a) in coefs.iter().enumerate().filter(|(_, a)| **a > 0) {
            let (l, u) = reference::bounds::pair(&before.bounds, j);
            let limit = (room + i64::from(a) * i64::from(l)) / i64::from(a);
            loan.bounds[2 * j + 1] = limit.min(u.into()) as i32;
        }
        said
    });
}

#[test]
fn catches_a_right_side_lowered_with_a_negative_coefficient() {
    // The mistake that cut off lawful allocations.
    is_caught(|operation, before, said, loan| {
        let Operation::TightenCoefficient { row, variable } = operation else { return said };
        let at = row as usize * loan.n + variable as usize;
        if said == 0 && loan.answer[0] == 1 && before.coefs[at] < 0 {
            loan.rhs[row as usize] -= 1;
        }
        said
    });
}

#[test]
fn catches_a_redundant_row_that_stays() {
    is_caught(|operation, before, said, loan| {
        if matches!(operation, Operation::RemoveRedundantRow { .. }) && said == 0 {
            loan.rhs.copy_from_slice(&before.rhs);
        }
        said
    });
}

/// The number of the row of an accepted call that changed a bound or a row, where it is an = row.
fn equality(operation: Operation, before: &Before, said: u32) -> Option<usize> {
    match operation {
        Operation::PropagateRow { row }
        | Operation::TightenCoefficient { row, .. }
        | Operation::RemoveRedundantRow { row }
            if said == 0 && before.kinds[row as usize] == EQUAL =>
        {
            Some(row as usize)
        }
        _ => None,
    }
}

/// The reference's propagation of row r as it was lent, as a ≤ row with this sign, over the box given: case
/// and bounds moved.
fn at_most(before: &Before, r: usize, sign: i32, bounds: &mut [i32]) -> [u64; 2] {
    let n = bounds.len() / 2;
    let coefs: Vec<i32> = before.coefs[r * n..][..n].iter().map(|a| sign * a).collect();
    let row = Row { coefs: &coefs, rhs: sign * before.rhs[r], kind: AT_MOST };
    match reference::row::propagate_row(bounds, row) {
        RowPropagation::Infeasible => [0, 0],
        RowPropagation::Tightened(moved) => [1, moved.into()],
        RowPropagation::Unchanged => [2, 0],
    }
}

#[test]
fn catches_an_equality_row_propagated_as_at_most_only() {
    is_caught(|operation, before, said, loan| {
        if let (Operation::PropagateRow { .. }, Some(r)) =
            (operation, equality(operation, before, said))
            && !reference::bounds::is_empty(&before.bounds)
        {
            loan.bounds.copy_from_slice(&before.bounds);
            let said = at_most(before, r, 1, loan.bounds);
            loan.answer[..2].copy_from_slice(&said);
        }
        said
    });
}

#[test]
fn catches_the_negated_form_on_the_old_box() {
    is_caught(|operation, before, said, loan| {
        if let (Operation::PropagateRow { .. }, Some(r)) =
            (operation, equality(operation, before, said))
            && loan.answer[0] != 0
        {
            // Both forms over the box as it was lent, and what they leave in common.
            let [mut left, mut right] = [before.bounds.clone(), before.bounds.clone()];
            at_most(before, r, 1, &mut left);
            at_most(before, r, -1, &mut right);
            for (at, bound) in loan.bounds.iter_mut().enumerate() {
                let both = [left[at], right[at]];
                *bound = if at % 2 == 0 { both[0].max(both[1]) } else { both[0].min(both[1]) };
            }
        }
        said
    });
}

#[test]
fn catches_bounds_counted_before_an_infeasible_second_form() {
    is_caught(|operation, before, said, loan| {
        if let (Operation::PropagateRow { .. }, Some(r)) =
            (operation, equality(operation, before, said))
            && loan.answer[0] == 0
            && !reference::bounds::is_empty(&before.bounds)
        {
            loan.answer[1] = at_most(before, r, 1, &mut before.bounds.clone())[1];
        }
        said
    });
}

#[test]
fn catches_an_equality_row_removed_as_at_most() {
    is_caught(|operation, before, said, loan| {
        if let (Operation::RemoveRedundantRow { .. }, Some(r)) =
            (operation, equality(operation, before, said))
            && loan.answer[0] == 2
        {
            let coefs = &mut loan.coefs[r * loan.n..][..loan.n];
            let (rhs, kind) = (&mut loan.rhs[r], &mut loan.kinds[r]);
            *kind = AT_MOST;
            match reference::row::remove_redundant_row(loan.bounds, coefs, rhs, kind) {
                Outcome::Changed => loan.answer[0] = 1,
                _ => *kind = EQUAL,
            }
        }
        said
    });
}

#[test]
fn catches_a_kind_kept_at_removal() {
    // By a call of its own and in the rounds.
    for kept in ["remove_redundant_row", "rounds"] {
        is_caught(|operation, before, said, loan| {
            if operation.name() == kept && said == 0 {
                loan.kinds.copy_from_slice(&before.kinds);
            }
            said
        });
    }
    // A row 0 = 0 whose kind changes, and which is called unchanged.
    is_caught(|operation, before, said, loan| {
        if let (Operation::RemoveRedundantRow { .. }, Some(r)) =
            (operation, equality(operation, before, said))
            && before.coefs[r * loan.n..][..loan.n].iter().all(|&a| a == 0)
            && before.rhs[r] == 0
            && loan.answer[0] == 1
        {
            loan.answer[0] = 2;
        }
        said
    });
}

#[test]
fn catches_an_equality_row_tightened() {
    is_caught(|operation, before, said, loan| {
        if let (Operation::TightenCoefficient { variable, .. }, Some(r)) =
            (operation, equality(operation, before, said))
        {
            let coefs = &mut loan.coefs[r * loan.n..][..loan.n];
            let (rhs, k) = (&mut loan.rhs[r], variable as usize);
            let outcome = reference::row::tighten_coefficient(loan.bounds, coefs, rhs, AT_MOST, k);
            if outcome == Outcome::Changed {
                loan.answer[0] = 1;
            }
        }
        said
    });
}

#[test]
fn catches_kinds_that_a_read_book_leaves() {
    is_caught(|operation, before, said, loan| {
        if operation == Operation::BookRead && said == 0 {
            loan.kinds.copy_from_slice(&before.kinds);
        }
        said
    });
}

#[test]
fn catches_kinds_in_another_place() {
    let above_1 = |bytes: &[u8]| bytes.iter().any(|&byte| byte > 1);
    // 16 before 9, 10 before 16, 17 before 16.
    is_caught(|_, before, said, _| if said == 9 && above_1(&before.kinds) { 16 } else { said });
    is_caught(|operation, before, said, _| match operation {
        Operation::Probe { .. } | Operation::Run | Operation::Rounds { .. }
            if said == 16 && above_1(&before.table) =>
        {
            10
        }
        _ => said,
    });
    is_caught(|operation, before, said, _| {
        let equal = before.kinds.contains(&EQUAL);
        if operation == Operation::BookWrite && said == 16 && equal { 17 } else { said }
    });
    // A kind of 2 alone accepted; 17 said of a length that is wrong, too.
    is_caught(|_, before, said, _| {
        let most = before.kinds.iter().max();
        if said == 16 && most == Some(&2) { 0 } else { said }
    });
    is_caught(|operation, before, said, _| {
        let equal = before.kinds.contains(&EQUAL);
        if operation == Operation::BookWrite && said == 5 && equal { 17 } else { said }
    });
}

#[test]
fn catches_a_count_of_all_bytes_instead_of_new_ones() {
    is_caught(|operation, _, said, loan| {
        if matches!(operation, Operation::Probe { .. }) && said == 0 && loan.answer[0] == 2 {
            loan.answer[1] = loan.table.iter().map(|&byte| u64::from(byte)).sum();
        }
        said
    });
}

#[test]
fn catches_implications_without_their_contrapositives() {
    is_caught(|operation, before, said, loan| {
        let Operation::Probe { variable, .. } = operation else { return said };
        if said == 0 {
            let literals = 2 * loan.n;
            for at in 0..loan.table.len() {
                if at / literals / 2 != variable as usize {
                    loan.table[at] = before.table[at];
                }
            }
        }
        said
    });
}

#[test]
fn catches_a_refusal_that_writes_the_answer() {
    is_caught(|_, _, said, loan| {
        if said == 12 {
            loan.answer[0] = 0;
        }
        said
    });
}

#[test]
fn catches_checks_in_another_order() {
    // 9 before 8.
    is_caught(|_, before, said, _| match said {
        8 if before.rhs.iter().any(|b| b.unsigned_abs() > 1_000_000_000) => 9,
        _ => said,
    });
}

#[test]
fn catches_a_width_one_off() {
    let widest =
        |before: &Before| before.bounds.chunks(2).map(|pair| pair[1].saturating_sub(pair[0])).max();
    // 4,096 refused.
    is_caught(|_, before, said, _| match said {
        0 if widest(before) == Some(4_096) => 23,
        _ => said,
    });
    // 4,097 accepted.
    is_caught(|_, before, said, _| match said {
        23 if widest(before) == Some(4_097) => 0,
        _ => said,
    });
}

#[test]
fn catches_the_width_in_another_place() {
    let too_wide =
        |bounds: &[i32]| bounds.chunks(2).any(|pair| pair[1].saturating_sub(pair[0]) > 4_096);
    // Before 6, before 7, after 8.
    for earlier in [6, 7] {
        is_caught(
            |_, before, said, _| {
                if said == earlier && too_wide(&before.bounds) { 23 } else { said }
            },
        );
    }
    is_caught(|_, before, said, _| match said {
        23 if before.coefs.iter().any(|a| a.unsigned_abs() > 1_000_000) => 8,
        _ => said,
    });
}

#[test]
fn catches_each_check_left_out() {
    for left_out in (1..=17).chain([19, 20, 21, 23]) {
        // Check 11 refuses records only: it is seen in the counts.
        if left_out == 11 {
            continue;
        }
        is_caught(|_, _, said, _| if said == left_out { 0 } else { said });
    }
}

#[test]
fn catches_refused_records_counted_otherwise() {
    is_caught(|operation, _, said, loan| {
        if operation == Operation::Run && said == 0 && loan.answer[0] > 0 {
            loan.answer[0] -= 1;
            loan.answer[3] += 1;
        }
        said
    });
}

#[test]
fn catches_classes_told_otherwise() {
    let told = |operation, said| operation == Operation::RunClasses && said == 0;
    // Unchanged told as changed; the class of the record before.
    is_caught(|operation, _, said, loan| {
        let unchanged = loan.classes.iter_mut().filter(|class| **class == 3);
        if told(operation, said) {
            unchanged.for_each(|class| *class = 2);
        }
        said
    });
    is_caught(|operation, _, said, loan| {
        if told(operation, said) && !loan.classes.is_empty() {
            loan.classes.rotate_right(1);
        }
        said
    });
    // Bytes that are not as many as the records accepted; a refusal that writes them.
    is_caught(|operation, _, said, loan| {
        let wrong = 4 * loan.classes.len() != loan.calls.len();
        if operation == Operation::RunClasses && said == 5 && wrong { 0 } else { said }
    });
    is_caught(|operation, _, said, loan| {
        if operation == Operation::RunClasses && said != 0 {
            loan.classes.fill(0);
        }
        said
    });
}

#[test]
fn catches_retired_kinds_in_lists() {
    // A record of kind 4 or 5 counted as unchanged; one on the empty box counted as None, as 01 had it.
    let retired = |loan: &Loan, kind| loan.calls.chunks(4).any(|call| call[0] == kind);
    for kind in [4, 5] {
        is_caught(|operation, _, said, loan| {
            if operation == Operation::Run && said == 0 && retired(loan, kind) {
                loan.answer[0] -= 1;
                loan.answer[3] += 1;
            }
            said
        });
        is_caught(|operation, before, said, loan| {
            let empty = reference::bounds::is_empty(&before.bounds);
            if operation == Operation::Run && said == 0 && empty && retired(loan, kind) {
                loan.answer[0] -= 1;
                loan.answer[1] += 1;
            }
            said
        });
    }
    // A row that a list drops.
    is_caught(|operation, _, said, loan| {
        if operation == Operation::Run && said == 0 && retired(loan, 5) && loan.m > 0 {
            loan.coefs[..loan.n].fill(0);
        }
        said
    });
}

#[test]
fn catches_a_limit_on_passes_counted_otherwise() {
    let limit = |loan: &Loan, times: u64, more: u64| -> u64 {
        let enough = reference::plan::width(loan.bounds) + more;
        let counts = |record: &[u32]| match record[0] {
            2 => enough.min(record[3].into()),
            3 => times * enough.min(record[3].into()),
            _ => 0,
        };
        loan.calls.chunks(4).map(counts).sum()
    };
    // Probes once; the lesser of the budget and the width.
    for (times, more) in [(1, 1), (2, 0)] {
        is_caught(|operation, _, said, loan| {
            if operation == Operation::PlanRun && said == 0 {
                loan.answer[2] = limit(loan, times, more);
            }
            said
        });
    }
}

#[test]
#[should_panic(expected = "told at most")]
fn a_limit_that_both_sides_tell_too_low_is_seen_too() {
    let low = |operation: Operation, _: &Before, said: u32, loan: &mut Loan| {
        if operation == Operation::PlanRun && said == 0 {
            loan.answer[2] /= 2;
        }
        said
    };
    suite::run(PLAN, &mut Broken(low), &mut Broken(low)).expect("the two agree");
}

#[test]
fn catches_a_width_of_the_empty_box() {
    is_caught(|operation, before, said, loan| {
        let empty = reference::bounds::is_empty(&before.bounds);
        if operation == Operation::PlanWidth && said == 0 && empty {
            loan.answer[0] = loan.n as u64;
        }
        said
    });
}

#[test]
fn catches_each_length_told_wrong() {
    for place in 0..11 {
        is_caught(|operation, _, said, loan| {
            if operation == Operation::PlanLengths && said == 0 {
                loan.answer[place] += 1;
            }
            said
        });
    }
}

/// Spoils the clique rows that the reference wrote: of n variables and so many rows, their coefficients and
/// right sides.
fn clique_rows_are_caught(spoil: impl Fn(usize, usize, &mut [i32], &mut [i32])) {
    is_caught(|operation, _, said, loan| {
        if operation == Operation::Cliques && said == 0 {
            let number = loan.answer[0] as usize;
            spoil(loan.n, number, loan.clique_coefs, loan.clique_rhs);
        }
        said
    });
}

#[test]
fn catches_clique_rows_written_otherwise() {
    // Right side 1 always; the rest of the list not zeroed; variables meant at 0 with +1; the first row last.
    clique_rows_are_caught(|_, number, _, rhs| rhs[..number].fill(1));
    clique_rows_are_caught(|_, number, _, rhs| rhs[number..].fill(7));
    clique_rows_are_caught(|n, number, coefs, _| coefs[number * n..].fill(7));
    clique_rows_are_caught(|_, _, coefs, _| coefs.iter_mut().for_each(|a| *a = a.abs()));
    clique_rows_are_caught(|n, number, coefs, rhs| {
        if number > 1 {
            coefs[..number * n].rotate_left(n);
            rhs[..number].rotate_left(1);
        }
    });
    // One row fewer.
    is_caught(|operation, _, said, loan| {
        if operation == Operation::Cliques && said == 0 {
            loan.answer[0] = loan.answer[0].saturating_sub(1);
        }
        said
    });
}

/// Grows otherwise: `tried` says of a start and a literal whether it is tried at all, `least` is the size
/// from which on a clique is written.
fn growth_is_caught(tried: impl Fn(usize, usize) -> bool, least: usize, once: bool) {
    is_caught(|operation, _, said, loan| {
        if operation == Operation::Cliques && said == 0 {
            let n = loan.n;
            let mut found = Vec::new();
            for start in 0..2 * n {
                let mut taken = BTreeSet::from([start]);
                for q in (0..2 * n).filter(|&q| tried(start, q)) {
                    if taken.iter().all(|&p| cliques::joined(n, loan.table, p, q)) {
                        taken.insert(q);
                    }
                }
                let room = found.len() < 2 * n;
                if taken.len() >= least && room && !(once && found.contains(&taken)) {
                    found.push(taken);
                }
            }
            loan.answer[0] = found.len() as u64;
            for (i, clique) in found.iter().enumerate() {
                let (coefs, rhs) = cliques::row(n, clique);
                loan.clique_coefs[i * n..][..n].copy_from_slice(&coefs);
                loan.clique_rhs[i] = rhs;
            }
        }
        said
    });
}

#[test]
fn catches_cliques_grown_otherwise() {
    // Literals below the start not tried; pairs written; a set written twice.
    growth_is_caught(|start, q| q > start, 3, true);
    growth_is_caught(|_, _| true, 2, true);
    growth_is_caught(|_, _| true, 3, false);
}

#[test]
#[should_panic(expected = "cuts off")]
fn a_clique_row_that_both_sides_write_too_strong_is_seen_too() {
    let strong = |operation: Operation, _: &Before, said: u32, loan: &mut Loan| {
        if operation == Operation::Cliques && said == 0 {
            loan.clique_rhs[..loan.answer[0] as usize].iter_mut().for_each(|b| *b -= 1);
        }
        said
    };
    suite::run(PLAN, &mut Broken(strong), &mut Broken(strong)).expect("the two agree");
}

#[test]
fn catches_rounds_without_the_last() {
    is_caught(|operation, _, said, loan| {
        if matches!(operation, Operation::Rounds { .. }) && said == 0 && loan.answer[0] == 1 {
            loan.answer[1] -= 1;
        }
        said
    });
}

#[test]
fn catches_a_spent_side_that_is_forgotten() {
    is_caught(|operation, _, said, loan| {
        if matches!(operation, Operation::Rounds { .. }) && said == 0 {
            loan.answer[2] = 0;
        }
        said
    });
}

#[test]
fn catches_a_fixpoint_that_is_always_claimed() {
    is_caught(|operation, _, said, loan| {
        if operation == Operation::IsProbingFixpoint && said == 0 {
            loan.answer[0] = 1;
        }
        said
    });
}

#[test]
fn catches_a_no_by_row_0_always() {
    is_caught(|operation, _, said, loan| {
        if operation == Operation::IsProbingFixpoint && said == 0 && loan.answer[..2] == [0, 0] {
            loan.answer[2] = 0;
        }
        said
    });
}

#[test]
fn catches_a_variable_told_as_a_row() {
    is_caught(|operation, _, said, loan| {
        if operation == Operation::IsProbingFixpoint && said == 0 {
            loan.answer[1] = 0;
        }
        said
    });
}

#[test]
fn catches_a_budget_spent_though_the_box_is_quiet() {
    is_caught(|operation, _, said, loan| {
        if let Operation::Propagate { budget } = operation
            && said == 0
            && loan.answer[..2] == [1, budget.into()]
            && loan.answer[2] > 0
        {
            loan.answer[0] = 2;
        }
        said
    });
}

#[test]
fn catches_a_pending_row_called_converged() {
    is_caught(|operation, _, said, loan| {
        if matches!(operation, Operation::Propagate { .. }) && said == 0 && loan.answer[0] == 2 {
            loan.answer[0] = 1;
        }
        said
    });
}

/// Whether the call is a tie that was made.
fn is_tied(operation: Operation, said: u32, loan: &Loan) -> bool {
    matches!(operation, Operation::Tie { .. }) && said == 0 && loan.answer[0] == 1
}

#[test]
fn catches_a_tie_that_is_not_put_into_the_rows() {
    // The rows kept; j's column kept; the right side kept where j is 1 − k.
    is_caught(|operation, before, said, loan| {
        if is_tied(operation, said, loan) {
            loan.coefs.copy_from_slice(&before.coefs);
            loan.rhs.copy_from_slice(&before.rhs);
        }
        said
    });
    is_caught(|operation, before, said, loan| {
        if let Operation::Tie { j, .. } = operation
            && is_tied(operation, said, loan)
        {
            for at in (0..loan.m).map(|r| r * loan.n + j as usize) {
                loan.coefs[at] = before.coefs[at];
            }
        }
        said
    });
    is_caught(|operation, before, said, loan| {
        if is_tied(operation, said, loan) {
            loan.rhs.copy_from_slice(&before.rhs);
        }
        said
    });
}

#[test]
fn catches_another_place_of_the_list() {
    // Not set; the other literal; that of k.
    is_caught(|operation, before, said, loan| {
        if is_tied(operation, said, loan) {
            loan.ties.copy_from_slice(&before.ties);
        }
        said
    });
    is_caught(|operation, _, said, loan| {
        if let Operation::Tie { j, .. } = operation
            && is_tied(operation, said, loan)
        {
            let place = &mut loan.ties[j as usize];
            *place = 1 + ((*place - 1) ^ 1);
        }
        said
    });
    is_caught(|operation, _, said, loan| {
        if let Operation::Tie { k, j } = operation
            && is_tied(operation, said, loan)
        {
            loan.ties.swap(k as usize, j as usize);
        }
        said
    });
}

/// The tie that the reference makes where one of its tests is made to pass: Same becomes Tied.
fn tied_all_the_same(
    operation: Operation,
    said: u32,
    loan: &mut Loan,
    allow: impl FnOnce(&mut Loan, usize, usize),
) {
    let Operation::Tie { k, j } = operation else { return };
    if said != 0 || loan.answer[0] != 2 {
        return;
    }
    let (bounds, table) = (loan.bounds.to_vec(), loan.table.to_vec());
    let ties = loan.ties.to_vec();
    allow(loan, k as usize, j as usize);
    Reference.call(operation, reborrow(loan));
    loan.bounds.copy_from_slice(&bounds);
    loan.table.copy_from_slice(&table);
    let tied = loan.answer[0] == 1;
    for (at, place) in ties.into_iter().enumerate() {
        if !(tied && at == j as usize) {
            loan.ties[at] = place;
        }
    }
}

#[test]
fn catches_a_tie_that_must_not_be_made() {
    // A variable that is not free; one that is replaced already; half of what the table must say.
    is_caught(|operation, _, said, loan| {
        tied_all_the_same(operation, said, loan, |loan, k, j| {
            for at in [k, j] {
                loan.bounds[2 * at..][..2].copy_from_slice(&[0, 1]);
            }
        });
        said
    });
    is_caught(|operation, _, said, loan| {
        tied_all_the_same(operation, said, loan, |loan, k, j| {
            for at in [k, j] {
                loan.ties[at] = 0;
            }
        });
        said
    });
    is_caught(|operation, _, said, loan| {
        tied_all_the_same(operation, said, loan, |loan, k, j| {
            let at = 2 * k * 2 * loan.n + 2 * j;
            loan.table[at] = 1;
        });
        said
    });
}

#[test]
fn catches_w_1_taken_where_the_table_says_both() {
    is_caught(|operation, before, said, loan| {
        if let Operation::Tie { k, j } = operation
            && is_tied(operation, said, loan)
        {
            let (k, j) = (k as usize, j as usize);
            let at = |v, w| (2 * k + v) * 2 * loan.n + 2 * j + w;
            if before.table[at(0, 1)] == 1 && before.table[at(1, 0)] == 1 {
                loan.coefs.copy_from_slice(&before.coefs);
                loan.rhs.copy_from_slice(&before.rhs);
                loan.ties.copy_from_slice(&before.ties);
                let lent = at(0, 0);
                loan.table[lent] = 0;
                Reference.call(operation, reborrow(loan));
                loan.table[lent] = before.table[lent];
            }
        }
        said
    });
}

#[test]
fn catches_the_tie_list_in_another_place() {
    // 21 before 10, after 13; a place of 2n refused.
    let above = |before: &Before| {
        before.ties.iter().any(|&place| usize::from(place) > 2 * before.ties.len())
    };
    let is_tie = |operation| matches!(operation, Operation::Tie { .. });
    is_caught(
        |operation, before, said, _| {
            if is_tie(operation) && said == 10 && above(before) { 21 } else { said }
        },
    );
    is_caught(|operation, before, said, _| match operation {
        Operation::Tie { k, j } if said == 21 && k.max(j) as usize >= before.ties.len() => 13,
        _ => said,
    });
    is_caught(|operation, before, said, _| {
        let most = 2 * before.ties.len();
        let reached = before.ties.iter().any(|&place| usize::from(place) == most);
        if is_tie(operation) && said == 0 && reached { 21 } else { said }
    });
}

#[test]
#[should_panic(expected = "a point was added")]
fn a_tie_list_that_both_sides_leave_is_seen_too() {
    // Both put the tie into the rows and leave the list: the replaced variable takes any value.
    let forget = |operation: Operation, before: &Before, said: u32, loan: &mut Loan| {
        if is_tied(operation, said, loan) {
            loan.ties.copy_from_slice(&before.ties);
        }
        said
    };
    suite::run(PLAN, &mut Broken(forget), &mut Broken(forget)).expect("the two agree");
}

#[test]
fn catches_a_byte_of_a_book() {
    is_caught(|operation, _, said, loan| {
        if operation == Operation::BookWrite && said == 0 && loan.m > 0 {
            loan.book[8 * loan.n + 3] = 0;
        }
        said
    });
}

#[test]
fn catches_a_buffer_that_the_call_does_not_own() {
    is_caught(|operation, _, said, loan| {
        if matches!(operation, Operation::RemoveRedundantRow { .. }) && said == 0 {
            loan.bounds[0] = loan.bounds[0].wrapping_add(1);
        }
        said
    });
}

#[test]
fn catches_a_column_called_a_zero() {
    is_caught(
        |operation, _, said, _| {
            if operation.reads_sparse() && said == 19 { 20 } else { said }
        },
    );
}

#[test]
fn catches_kinds_lost_in_a_sparse_book() {
    is_caught(|operation, _, said, loan| {
        if operation == Operation::SparseRead && said == 0 {
            loan.kinds.fill(0);
        }
        said
    });
}

#[test]
fn catches_a_conversion_that_writes_before_it_refuses() {
    is_caught(|operation, _, said, loan| {
        if operation == Operation::SparseToBook && said == 17 {
            loan.to.fill(0);
        }
        said
    });
}

#[test]
fn catches_pages_written_otherwise() {
    // The last page not filled.
    is_caught(|operation, _, said, loan| {
        if operation == Operation::WritePages && said == 0 {
            let last = loan.book.len() - 81;
            loan.book[last..].fill(0);
        }
        said
    });
    // The page numbers from 0.
    is_caught(|operation, _, said, loan| {
        if operation == Operation::WritePages && said == 0 {
            loan.book[79] -= 1;
        }
        said
    });
    // A literal's sign.
    is_caught(|operation, _, said, loan| {
        if operation == Operation::WritePages && said == 0 {
            loan.book.iter_mut().filter(|byte| **byte == b'+').for_each(|byte| *byte = b'-');
        }
        said
    });
    // A page too many, and one that is counted by a byte that is not 1.
    is_caught(|operation, _, said, loan| {
        if operation == Operation::PageCount && said == 0 {
            loan.answer[0] += 1;
        }
        said
    });
}
