//! The call on proposed allocations (02, C-21), compared on generated cases. It is lent buffers that no
//! other call has, so its cases, damage and coverage stand here.

use std::collections::{BTreeMap, BTreeSet};

use reference::allocations::{self, MAX_PROPOSALS};
use reference::{State, rounds};

use crate::damage;
use crate::lent;
use crate::models::{self, Family};
use crate::rng::Rng;
use crate::suite::Plan;

/// What the call is lent, owned: a model, the proposals and the room for their verdicts.
#[derive(Clone, Debug)]
pub struct Lent {
    pub model: lent::Lent,
    pub proposals: Vec<i32>,
    pub count: u32,
    pub verdicts: Vec<u32>,
}

/// An implementation of the call: 0, or the number of the failed check. Everything is lent mutably, so that
/// a write into what the call takes as const is seen.
pub trait Judge {
    fn check_allocations(&mut self, lent: &mut Lent) -> u32;
}

/// The plain Rust implementation.
pub struct Reference;

impl Judge for Reference {
    fn check_allocations(&mut self, lent: &mut Lent) -> u32 {
        let lent::Lent { n, m, bounds, coefs, rhs, kinds, .. } = &lent.model;
        allocations::check_allocations(
            *n,
            *m,
            bounds,
            coefs,
            rhs,
            kinds,
            &lent.proposals,
            lent.count,
            &mut lent.verdicts,
        )
    }
}

/// The checks, in the order in which they are made.
pub const CHECKS: [u32; 9] = [3, 22, 5, 6, 7, 23, 8, 9, 16];

/// A call, and what it must return where it was made for it.
#[derive(Debug)]
pub struct Case {
    pub lent: Lent,
    pub returns: Option<u32>,
}

/// Case `number` of a seed: every third is one that fails a check.
pub fn case(seed: u64, number: u64) -> Case {
    let mut rng = Rng::for_case(seed, number);
    if number % 3 == 2 { damaged(&mut rng) } else { accepted(&mut rng) }
}

fn accepted(rng: &mut Rng) -> Case {
    let family = match rng.between(0, 99) {
        0..40 => Family::Tiny,
        40..65 => Family::Binary,
        65..85 => Family::Mixed,
        85..87 => Family::Largest,
        87..92 => Family::Limits,
        92..96 => Family::Crawling,
        _ => Family::Empty,
    };
    let model = models::model(rng, family);
    Case { lent: proposed(rng, model), returns: Some(0) }
}

/// The model with proposals: mostly in the box, of them many at its corners; others just outside it, or any
/// numbers of 32 bits.
fn proposed(rng: &mut Rng, model: lent::Lent) -> Lent {
    let count = rng.pick(&[1, 1, 2, 3, 7, 63, 64]);
    let mut proposals = Vec::new();
    for _ in 0..count {
        let (mood, odd) = (rng.between(0, 9), rng.index(model.n));
        for (j, pair) in model.bounds.chunks(2).enumerate() {
            let (l, u) = (i64::from(pair[0]), i64::from(pair[1].max(pair[0])));
            let within = rng.between(l, u) as i32;
            let corner = rng.pick(&[pair[0], pair[1]]);
            proposals.push(match mood {
                0..4 => within,
                4..7 => corner,
                7 if j == odd => rng.pick(&[pair[0] - 1, pair[1] + 1]),
                7 => corner,
                8 if j >= odd => rng.pick(&[i32::MIN, i32::MAX, pair[0] - 1, pair[1] + 1]),
                8 => within,
                _ => rng.pick(&[i32::MIN, i32::MAX, 0, within]),
            });
        }
    }
    Lent { model, proposals, count, verdicts: vec![0x5a5a_5a5a; 2 * count as usize] }
}

/// One call that fails a check, each check as often as the others.
fn damaged(rng: &mut Rng) -> Case {
    let model = loop {
        let model = models::model(rng, Family::Tiny);
        if model.m > 0 && !reference::bounds::is_empty(&model.bounds) {
            break model;
        }
    };
    let mut lent = proposed(rng, model);
    let place = rng.index(CHECKS.len());
    // From the last check to the chosen one: what is damaged later never repairs an earlier check.
    for &later in CHECKS[place + 1..].iter().rev() {
        if rng.chance(30) {
            damage_one(rng, &mut lent, later);
        }
    }
    damage_one(rng, &mut lent, CHECKS[place]);
    Case { lent, returns: Some(CHECKS[place]) }
}

fn damage_one(rng: &mut Rng, lent: &mut Lent, check: u32) {
    match check {
        3 if rng.chance(50) => lent.model.n = rng.pick(&[0, 129, 1 << 63, usize::MAX]),
        3 => lent.model.m = rng.pick(&[121, 1 << 32, usize::MAX]),
        22 => {
            lent.count = rng.pick(&[0, MAX_PROPOSALS + 1, MAX_PROPOSALS + 1, 1 << 31, u32::MAX]);
            if lent.count <= MAX_PROPOSALS + 1 && rng.chance(50) {
                // The lengths are right for the wrong count.
                lent.proposals.resize(lent.count as usize * lent.model.n, 0);
                lent.verdicts.resize(2 * lent.count as usize, 7);
            }
        }
        5 => match rng.between(0, 5) {
            0 => resize(rng, &mut lent.proposals),
            1 => resize(rng, &mut lent.verdicts),
            2 => resize(rng, &mut lent.model.bounds),
            3 => resize(rng, &mut lent.model.coefs),
            4 => resize(rng, &mut lent.model.rhs),
            _ => resize(rng, &mut lent.model.kinds),
        },
        16 => {
            let at = rng.index(lent.model.m);
            lent.model.kinds[at] = rng.pick(&[2, 3, 128, 255]);
        }
        _ => damage::wrong_number(rng, &mut lent.model, check),
    }
}

/// An element too many, too few, or none at all; the buffer has some.
fn resize<T: Copy + Default>(rng: &mut Rng, buffer: &mut Vec<T>) {
    match rng.between(0, 2) {
        0 => buffer.push(T::default()),
        1 => drop(buffer.pop()),
        _ => buffer.clear(),
    }
}

/// What the cases of a run met.
#[derive(Debug, Default)]
pub struct Coverage {
    /// How often a check refused.
    pub refused: BTreeMap<u32, u64>,
    met: BTreeSet<&'static str>,
}

/// What the accepted cases of a long enough run must have met.
const MET: [&str; 9] = [
    "one proposal",
    "64 proposals",
    "inside",
    "outside at variable 0",
    "outside at a later variable",
    "row 0 broken",
    "a later row broken",
    "an = row broken from below",
    "the empty box",
];

impl Coverage {
    fn note(&mut self, lent: &Lent) {
        let [one, many, inside, first, later, row, rows, below, empty] = MET;
        self.met.extend((lent.count == 1).then_some(one));
        self.met.extend((lent.count == MAX_PROPOSALS).then_some(many));
        self.met.extend(reference::bounds::is_empty(&lent.model.bounds).then_some(empty));
        for (c, told) in lent.verdicts.chunks(2).enumerate() {
            self.met.insert(match told {
                [0, _] => inside,
                [1, 0] => first,
                [1, _] => later,
                [_, 0] => row,
                _ => rows,
            });
            if let &[2, i] = told {
                let (n, i) = (lent.model.n, i as usize);
                let terms = lent.model.coefs[i * n..].iter().zip(&lent.proposals[c * n..][..n]);
                let sum: i64 = terms.map(|(&a, &x)| i64::from(a) * i64::from(x)).sum();
                self.met.extend((sum < lent.model.rhs[i].into()).then_some(below));
            }
        }
    }

    /// What a long enough run must have met and has not.
    pub fn missing(&self) -> Vec<String> {
        let checks = CHECKS.iter().filter(|check| !self.refused.contains_key(check));
        let met = MET.iter().filter(|what| !self.met.contains(*what));
        checks
            .map(|check| format!("refused by {check}"))
            .chain(met.map(|s| s.to_string()))
            .collect()
    }
}

/// Makes the plan's cases on both sides; the first difference ends it.
pub fn run(
    plan: Plan,
    expected: &mut impl Judge,
    actual: &mut impl Judge,
) -> Result<Coverage, String> {
    let mut coverage = Coverage::default();
    for number in plan.first..plan.first + plan.cases {
        let case = case(plan.seed, number);
        play(&case, &mut coverage, expected, actual).map_err(|difference| {
            format!("{difference}\nagain: ASTROLABE_SEED={} ASTROLABE_CASE={number}", plan.seed)
        })?;
    }
    Ok(coverage)
}

fn play(
    case: &Case,
    coverage: &mut Coverage,
    expected: &mut impl Judge,
    actual: &mut impl Judge,
) -> Result<(), String> {
    let (said, told) = compare(&case.lent, expected, actual)?;
    if let Some(number) = case.returns {
        assert_eq!(said, number, "the case was made to return {number}: {:?}", case.lent);
    }
    if said != 0 {
        *coverage.refused.entry(said).or_default() += 1;
        return Ok(());
    }
    coverage.note(&told);
    alone(&told, actual)?;
    reduced(&told, actual)
}

/// Makes the call on both sides and compares the number and every buffer.
fn compare(
    lent: &Lent,
    expected: &mut impl Judge,
    actual: &mut impl Judge,
) -> Result<(u32, Lent), String> {
    let (mut left, mut right) = (lent.clone(), lent.clone());
    let said = [expected.check_allocations(&mut left), actual.check_allocations(&mut right)];
    let same = left.verdicts == right.verdicts
        && right.model == lent.model
        && right.proposals == lent.proposals;
    if said[0] == said[1] && same {
        return Ok((said[0], left));
    }
    let [left, right] = [left.verdicts, right.verdicts];
    Err(format!("{lent:?}\nreturned {said:?}, verdicts {left:?} and {right:?}"))
}

/// "It equals what each proposal alone would get."
fn alone(told: &Lent, judge: &mut impl Judge) -> Result<(), String> {
    for (proposal, verdict) in told.proposals.chunks(told.model.n).zip(told.verdicts.chunks(2)) {
        let model = told.model.clone();
        let mut one =
            Lent { model, proposals: proposal.to_vec(), count: 1, verdicts: vec![0x5a5a_5a5a; 2] };
        judge.check_allocations(&mut one);
        if one.verdicts != verdict {
            return Err(format!("{told:?}\n{proposal:?} alone: {:?}", one.verdicts));
        }
    }
    Ok(())
}

/// "A proposal held against the raw book and against the book reduced from it without ties gets the same yes
/// or no.": after two rounds of the reference, on models of which those are quick.
fn reduced(told: &Lent, judge: &mut impl Judge) -> Result<(), String> {
    let mut after = told.clone();
    let lent::Lent { n, bounds, coefs, rhs, kinds, .. } = &mut after.model;
    if bounds.len() > 24 || bounds.chunks(2).any(|pair| pair[1] - pair[0] > 8) {
        return Ok(());
    }
    let table = &mut vec![0; 4 * *n * *n];
    rounds::rounds(&mut State { n: *n, bounds, coefs, rhs, kinds, table }, 2);
    judge.check_allocations(&mut after);
    for (raw, reduced) in told.verdicts.chunks(2).zip(after.verdicts.chunks(2)) {
        if (raw[0] == 0) != (reduced[0] == 0) {
            return Err(format!("{told:?}\nreduced: {:?}", after.verdicts));
        }
    }
    Ok(())
}
