//! 64 proposed allocations for `bench/run` to count: held against a model at once, and one by one (02, C-21), by the proved
//! library and by the plain Rust reference.
//!
//! ```sh
//! allocations FOLDER                    compares the two sides and the two ways on each model, and lists the models
//! allocations FOLDER NAME SIDE WAY      one side (plain, proved) in one way (together, alone), inside the function `measured`
//! ```

#[path = "../tests/native_judge/mod.rs"]
mod native_judge;

use std::env;
use std::fs;
use std::hint::black_box;
use std::path::Path;

use compare::allocations::{Judge, Lent, Reference};
use compare::lent::{self, Backend, Operation};
use compare::rng::Rng;
use compare::suite::SEED;
use native_judge::Native;
use reference::calls::ANSWER;

const COUNT: usize = 64;

/// The books in the folder, without their ending.
const BOOKS: [&str; 6] = ["dense", "big", "sparse", "lseu", "p0033", "knapsack"];

fn main() {
    let arguments: Vec<String> = env::args().skip(1).collect();
    match &arguments.iter().map(String::as_str).collect::<Vec<_>>()[..] {
        [folder] => BOOKS.iter().for_each(|name| println!("{}", described(folder, name))),
        [folder, name, side, way] => {
            let together = lent(folder, name);
            let mut calls = if *way == "alone" { one_by_one(&together) } else { vec![together] };
            match *side {
                "plain" => measured(&mut Reference, &mut calls),
                "proved" => measured(&mut Native, &mut calls),
                _ => panic!("the side is plain or proved"),
            }
            println!("{:?}", verdicts(&calls));
        }
        _ => panic!("allocations FOLDER [NAME SIDE WAY]"),
    }
}

#[inline(never)]
fn measured(side: &mut impl Judge, calls: &mut [Lent]) {
    for lent in calls {
        assert_eq!(black_box(side.check_allocations(black_box(lent))), 0);
    }
}

fn verdicts(calls: &[Lent]) -> Vec<u32> {
    calls.iter().flat_map(|lent| lent.verdicts.iter().copied()).collect()
}

fn one_by_one(together: &Lent) -> Vec<Lent> {
    let proposals = together.proposals.chunks(together.model.n);
    let alone = |proposal: &[i32]| Lent {
        model: together.model.clone(),
        proposals: proposal.to_vec(),
        count: 1,
        verdicts: vec![9; 2],
    };
    proposals.map(alone).collect()
}

/// Both sides say the same in both ways; then the line's parts, divided by tabs.
fn described(folder: &str, name: &str) -> String {
    let together = lent(folder, name);
    let told = |side: &mut dyn FnMut(&mut [Lent])| {
        let (mut whole, mut parts) = ([together.clone()], one_by_one(&together));
        side(&mut whole);
        side(&mut parts);
        assert_eq!(verdicts(&whole), verdicts(&parts), "{name}");
        verdicts(&whole)
    };
    let plain = told(&mut |calls| measured(&mut Reference, calls));
    assert_eq!(plain, told(&mut |calls| measured(&mut Native, calls)), "{name}: the sides differ");
    let inside = plain.chunks(2).filter(|verdict| verdict[0] == 0).count();
    let lent::Lent { n, m, coefs, .. } = &together.model;
    let percent =
        (100.0 * coefs.iter().filter(|&&a| a != 0).count() as f64 / (n * m) as f64).round();
    format!("{name}\t{n} × {m}, {percent} %, {inside} of {COUNT} inside")
}

/// The model of a book, and proposals at corners of its box, many of which meet every row.
fn lent(folder: &str, name: &str) -> Lent {
    let path = Path::new(folder).join(name).with_extension("book");
    let book = fs::read(&path).unwrap_or_else(|error| panic!("{}: {error}", path.display()));
    let trailer = &book[book.len() - 16..];
    let (n, m) = (
        u16::from_le_bytes([trailer[8], trailer[9]]) as usize,
        u16::from_le_bytes([trailer[10], trailer[11]]) as usize,
    );
    let mut model = lent::Lent {
        n,
        m,
        bounds: vec![0; 2 * n],
        coefs: vec![0; m * n],
        rhs: vec![0; m],
        kinds: vec![0; m],
        book,
        answer: vec![0; ANSWER],
        ..lent::Lent::default()
    };
    assert_eq!(lent::Reference.call(Operation::BookRead, model.lend()), 0, "{name}");
    let mut rng = Rng::for_case(SEED, 64);
    let proposals = (0..COUNT).flat_map(|_| corner(&mut rng, &model)).collect();
    Lent { model, proposals, count: COUNT as u32, verdicts: vec![9; 2 * COUNT] }
}

/// A bound of each variable, and then, as long as a row is broken and for a while, bounds that the row is nearer to.
fn corner(rng: &mut Rng, model: &lent::Lent) -> Vec<i32> {
    let n = model.n;
    let mut x: Vec<i32> = (0..n).map(|j| model.bounds[2 * j + rng.index(2)]).collect();
    for _ in 0..400 {
        let row = |i: usize| &model.coefs[i * n..][..n];
        let excess = |i: usize, x: &[i32]| -> i64 {
            let terms = row(i).iter().zip(x).map(|(&a, &x)| i64::from(a) * i64::from(x));
            terms.sum::<i64>() - i64::from(model.rhs[i])
        };
        let Some(i) = (0..model.m).find(|&i| excess(i, &x) > 0) else { break };
        let start = rng.index(n);
        for j in (start..n).chain(0..start).filter(|&j| row(i)[j] != 0) {
            x[j] = model.bounds[2 * j + usize::from(row(i)[j] < 0)];
            if excess(i, &x) <= 0 {
                break;
            }
        }
    }
    x
}
