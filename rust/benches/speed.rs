//! The proved library against the plain Rust reference: the same calls on the same inputs, in one run.
//!
//! A repetition resets all buffers (not timed), then makes the calls of one side (timed); then the same
//! for the other side. The sides take turns in going first. The ratio is taken within each repetition,
//! so that a slow moment of the machine meets both.

#[path = "../tests/native/mod.rs"]
mod native;

mod clock;

use std::env;
use std::hint::black_box;
use std::time::{Duration, Instant};

use compare::lent::{Backend, Lent, Operation, Reference};
use compare::models::{self, MAX_BUDGET, Ring};
use compare::rng::Rng;
use native::Native;

const SEED: u64 = 1;

/// The rounds that the program `reduce` makes at most.
const LIMIT: u64 = 8;

/// How many copies of a model are used between two resets at most: enough to bury the clock's own time.
const COPIES: usize = 64;

/// How many bytes all copies have at most, about: they stay in the cache, as a solver's model does.
const COPIES_BYTES: usize = 256 << 10;

/// How long the timed part of a repetition takes at least, on the plain side.
const AT_LEAST: Duration = Duration::from_millis(5);

/// How long the repetitions of one line take in all, about; there are never fewer than three.
const LINE: Duration = Duration::from_secs(5);

/// The calls of the table.
#[derive(Clone, Copy, PartialEq)]
enum Kind {
    PropagateRow,
    Propagate,
    Probe,
    Rounds,
    BookRead,
    BookWrite,
    SparseRead,
    SparseWrite,
}

use Kind::*;

/// Calls on one model, to be timed together; each starts from the model as it is here.
struct Work {
    kind: Kind,
    model: String,
    lent: Lent,
    operations: Vec<Operation>,
}

/// Nanoseconds a call of each side, repetition by repetition.
#[derive(Default)]
struct Times {
    plain: Vec<f64>,
    proved: Vec<f64>,
}

fn main() {
    println!("| call | model | plain Rust, a call | proved, a call | ratio: median (min to max) |");
    println!("|---|---|---:|---:|---:|");
    for work in works() {
        check_agreement(&work);
        println!("{}", line(&work, measure(&work)));
    }
}

/// All lines of the table, call by call.
fn works() -> Vec<Work> {
    let mut works = vec![];
    let kinds =
        [PropagateRow, Propagate, Probe, Rounds, BookRead, BookWrite, SparseRead, SparseWrite];
    for kind in kinds {
        for (model, lent) in random_models().into_iter().chain(crawling(kind)) {
            let operations = kind.operations(&lent);
            works.push(Work { kind, model, lent: with_book(kind, lent), operations });
        }
    }
    works
}

/// The same for every call.
fn random_models() -> Vec<(String, Lent)> {
    let mut models = vec![];
    for (n, m) in [(10, 10), (40, 40), (128, 120)] {
        for density in [3, 25, 100] {
            let mut rng = Rng::for_case(SEED, ((n as u64) << 8) + density as u64);
            let lent = models::sized(&mut rng, n, m, density, 0).with_table();
            models.push((format!("{n} × {m}, {density} %"), lent));
        }
    }
    models
}

/// Eight variables that go down from 1,000 to 0 one by one; for a probe, on one side only.
fn crawling(kind: Kind) -> Option<(String, Lent)> {
    let ring = Ring {
        variables: 8,
        bounds: [0, 1_000],
        ends_at_zero: true,
        switched: kind != Propagate,
        reversed: false,
        equal: false,
    };
    let lent = ring.model().with_table();
    matches!(kind, Propagate | Probe | Rounds)
        .then(|| (format!("crawling, {} × {}", lent.n, lent.m), lent))
}

impl Kind {
    fn name(self) -> &'static str {
        match self {
            PropagateRow => "propagate a row",
            Propagate => "propagate to the fixpoint",
            Probe => "probe",
            Rounds => "rounds",
            BookRead => "read a book",
            BookWrite => "write a book",
            SparseRead => "read a sparse book",
            SparseWrite => "write a sparse book",
        }
    }

    /// One call for each row or each free binary variable, where the call has one.
    fn operations(self, lent: &Lent) -> Vec<Operation> {
        let budget = MAX_BUDGET;
        match self {
            PropagateRow => (0..lent.m as u32).map(|row| Operation::PropagateRow { row }).collect(),
            Propagate => vec![Operation::Propagate { budget }],
            Probe => (0..lent.n as u32)
                .filter(|&k| reference::bounds::is_free(&lent.bounds, k as usize))
                .map(|variable| Operation::Probe { variable, budget })
                .collect(),
            Rounds => vec![Operation::Rounds { limit: LIMIT }],
            BookRead => vec![Operation::BookRead],
            BookWrite => vec![Operation::BookWrite],
            SparseRead => vec![Operation::SparseRead],
            SparseWrite => vec![Operation::SparseWrite],
        }
    }
}

/// The model with its book beside it, of the edition that the call is of.
fn with_book(kind: Kind, lent: Lent) -> Lent {
    let Lent { n, m, bounds, coefs, rhs, kinds, .. } = &lent;
    let book = match kind {
        SparseRead | SparseWrite => reference::sparse::write(*n, bounds, coefs, rhs, kinds),
        _ => reference::book::write(*n, *m, bounds, coefs, rhs),
    };
    Lent { book, ..lent }
}

/// Both sides do the same work, or there is nothing to compare.
fn check_agreement(work: &Work) {
    for &operation in &work.operations {
        let (mut left, mut right) = (work.lent.clone(), work.lent.clone());
        let plain = Reference.call(operation, left.lend());
        let proved = Native.call(operation, right.lend());
        assert_eq!((plain, proved), (0, 0), "{operation:?} is refused");
        assert!(left == right, "{operation:?}: the sides differ");
    }
}

fn measure(work: &Work) -> Times {
    // A few calls first, to see how many make a repetition.
    let sample = work.operations.len().min(8);
    let once = time(&mut Reference, work, 1, sample).as_secs_f64() / sample as f64;
    let calls = (AT_LEAST.as_secs_f64() / once).ceil() as usize;
    let copies = (COPIES_BYTES / bytes(&work.lent)).clamp(1, COPIES).min(calls);
    let turns = calls.div_ceil(copies);
    let each = |time: Duration| time.as_nanos() as f64 / (copies * turns) as f64;

    let mut times = Times::default();
    let start = Instant::now();
    for repetition in 0..repetitions() {
        if repetition % 2 == 0 {
            times.plain.push(each(time(&mut Reference, work, copies, turns)));
            times.proved.push(each(time(&mut Native, work, copies, turns)));
        } else {
            times.proved.push(each(time(&mut Native, work, copies, turns)));
            times.plain.push(each(time(&mut Reference, work, copies, turns)));
        }
        if repetition >= 2 && start.elapsed() > LINE {
            break;
        }
    }
    times
}

/// The memory of one copy.
fn bytes(lent: &Lent) -> usize {
    4 * (lent.bounds.len() + lent.coefs.len() + lent.rhs.len())
        + lent.kinds.len()
        + lent.table.len()
        + lent.book.len()
}

/// How many repetitions a line has at most; `ASTROLABE_REPETITIONS` overrules.
fn repetitions() -> usize {
    env::var("ASTROLABE_REPETITIONS").ok().and_then(|text| text.parse().ok()).unwrap_or(15)
}

/// The time of the calls alone; all copies are reset before each turn.
fn time(side: &mut impl Backend, work: &Work, copies: usize, turns: usize) -> Duration {
    let mut copies = vec![work.lent.clone(); copies];
    let mut operations = work.operations.iter().cycle();
    let mut total = Duration::ZERO;
    for _ in 0..turns {
        for copy in &mut copies {
            copy.reset(&work.lent);
        }
        let start = clock::thread_time();
        for (copy, operation) in copies.iter_mut().zip(&mut operations) {
            black_box(side.call(black_box(*operation), copy.lend()));
        }
        total += clock::thread_time() - start;
    }
    total
}

fn line(work: &Work, times: Times) -> String {
    let ratios = times.plain.iter().zip(&times.proved).map(|(plain, proved)| proved / plain);
    let [min, median, max] = spread(ratios.collect());
    let [_, plain, _] = spread(times.plain);
    let [_, proved, _] = spread(times.proved);
    format!(
        "| {} | {} | {} | {} | {median:.2} ({min:.2} to {max:.2}) |",
        work.kind.name(),
        work.model,
        human(plain),
        human(proved)
    )
}

/// The least, the middle and the greatest.
fn spread(mut values: Vec<f64>) -> [f64; 3] {
    values.sort_by(f64::total_cmp);
    [values[0], values[values.len() / 2], values[values.len() - 1]]
}

fn human(nanoseconds: f64) -> String {
    match nanoseconds {
        ns if ns < 1e3 => format!("{ns:.0} ns"),
        ns if ns < 1e6 => format!("{:.1} µs", ns / 1e3),
        ns => format!("{:.1} ms", ns / 1e6),
    }
}
