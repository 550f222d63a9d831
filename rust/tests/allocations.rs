//! Proposed allocations (02, C-21): the proved library against the plain Rust reference on generated cases, and
//! the safe wrapper.

mod native_judge;

use astrolabe::{Model, Refusal, RowKind, Verdict};
use compare::allocations::{self, Reference};
use compare::suite::Plan;
use native_judge::Native;

/// Enough cases to meet every check and every verdict.
const ENOUGH: u64 = 6_000;

#[test]
fn generated_cases() {
    let plan = Plan::from_env(30_000);
    let coverage =
        allocations::run(plan, &mut Reference, &mut Native).unwrap_or_else(|difference| {
            panic!("the library differs from the reference: {difference}")
        });
    if plan.cases >= ENOUGH {
        assert_eq!(coverage.missing(), Vec::<String>::new());
    }
}

#[test]
fn the_wrapper_says_what_the_call_says() {
    // x = y and x + 2y <= 4, both from 0 to 3.
    let mut model = Model::new(vec![0, 3, 0, 3], vec![1, -1, 1, 2], vec![0, 4]).unwrap();
    model.set_kind(0, RowKind::Equal);
    let proposals = [[1, 1], [4, 4], [0, -1], [0, 1], [2, 2], [i32::MIN, i32::MAX]];
    let expected = [
        Verdict::Inside,
        Verdict::Outside { variable: 0 },
        Verdict::Outside { variable: 1 },
        Verdict::Breaks { row: 0 },
        Verdict::Breaks { row: 1 },
        Verdict::Outside { variable: 0 },
    ];
    assert_eq!(model.check_allocations(&proposals).unwrap(), expected);
    // Each alone, and as vectors.
    for (proposal, verdict) in proposals.iter().zip(expected) {
        assert_eq!(model.check_allocations(&[proposal.to_vec()]).unwrap(), [verdict]);
    }
}

#[test]
fn the_wrapper_refuses_counts_and_lengths() {
    let model = Model::new(vec![0, 3, 0, 3], vec![], vec![]).unwrap();
    assert_eq!(model.check_allocations(&[[0; 2]; 0]), Err(Refusal::ProposalCount));
    assert_eq!(model.check_allocations(&[[0, 0]; 64]).unwrap(), [Verdict::Inside; 64]);
    assert_eq!(model.check_allocations(&[[0, 0]; 65]), Err(Refusal::ProposalCount));
    assert_eq!(model.check_allocations(&[[0, 0, 0]; 65]), Err(Refusal::ProposalCount));
    // Two of the wrong length do not make up for each other.
    let uneven: [&[i32]; 2] = [&[0], &[0, 0, 0]];
    assert_eq!(model.check_allocations(&uneven), Err(Refusal::BufferLength));
}

/// Every point around the box of small models, 64 at a time, against the raw model and against what the rounds made of
/// it: inside exactly at the points that meet box and rows.
#[test]
fn every_point_of_small_models_raw_and_reduced() {
    let points: Vec<[i32; 3]> =
        (0..4 * 5 * 4).map(|i| [i % 4 - 1, i / 4 % 5 - 2, i / 20 - 1]).collect();
    let small = -2..=2;
    for (a, b) in small.clone().flat_map(|a| small.clone().map(move |b| (a, b))) {
        for (c, kind) in small.clone().flat_map(|c| [(c, RowKind::AtMost), (c, RowKind::Equal)]) {
            // a x + b y + c z ≤ b and c x + 2y + a z ≤ or = a, x 0..1, y −1..1, z 0..1.
            let (bounds, coefs) = (vec![0, 1, -1, 1, 0, 1], vec![a, b, c, c, 2, a]);
            let kinds = vec![RowKind::AtMost, kind];
            let raw = Model::with_kinds(bounds, coefs, vec![b, a], kinds).unwrap();
            let mut reduced = raw.clone();
            reduced.rounds(8).unwrap();
            let lawful = |&[x, y, z]: &[i32; 3]| {
                let second = c * x + 2 * y + a * z;
                let in_box = (0..=1).contains(&x) && (-1..=1).contains(&y) && (0..=1).contains(&z);
                in_box
                    && a * x + b * y + c * z <= b
                    && if kind == RowKind::Equal { second == a } else { second <= a }
            };
            for some in points.chunks(64) {
                let expected: Vec<bool> = some.iter().map(lawful).collect();
                for model in [&raw, &reduced] {
                    let verdicts = model.check_allocations(some).unwrap();
                    let inside: Vec<bool> = verdicts.into_iter().map(Verdict::is_inside).collect();
                    assert_eq!(inside, expected, "{model:?}");
                }
            }
        }
    }
}
