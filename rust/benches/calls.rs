//! Single calls for `bench/run` to count: the proved library and the plain Rust reference on the same models.
//!
//! ```sh
//! calls FOLDER                makes every call on both sides, compares the answers and lists the calls
//! calls FOLDER NAME SIDE      makes one call of one side (plain, proved), inside the function `measured`, and prints the box
//! ```
//!
//! The folder is one that `bench/make` wrote. callgrind counts from entry to return of `measured`: the call alone, without the
//! start of the program and the reading of the book.

#[path = "../tests/native/mod.rs"]
mod native;

use std::env;
use std::fs;
use std::hint::black_box;
use std::path::Path;

use compare::lent::{Backend, Lent, Operation, Reference};
use compare::models::MAX_BUDGET;
use native::Native;
use reference::calls::ANSWER;

/// `astrolabe_run`'s kind of a probe.
const KIND_PROBE: u32 = 3;

/// A line of the table.
struct Line {
    name: &'static str,
    call: &'static str,
    /// The book in the folder, without its ending.
    book: &'static str,
    operation: Operation,
    /// The number of the check that refuses the call, or 0.
    refusal: u32,
}

const PROPAGATE: Operation = Operation::Propagate { budget: MAX_BUDGET };
const REST: Operation = Operation::IsProbingFixpoint;

#[rustfmt::skip]
const LINES: &[Line] = &[
    line("quiet_dense", "propagate, quiet box", "dense", PROPAGATE),
    line("quiet_sparse", "propagate, quiet box", "sparse", PROPAGATE),
    line("node_dense", "propagate, one bound changed", "dense_node", PROPAGATE),
    line("node_sparse", "propagate, one bound changed", "sparse_node", PROPAGATE),
    line("node_lseu", "propagate, one bound changed", "lseu_node", PROPAGATE),
    line("node_small", "propagate, one bound changed", "small_node", PROPAGATE),
    line("row_dense", "propagate a row", "dense", Operation::PropagateRow { row: 7 }),
    line("probe_dense", "probe", "dense", Operation::Probe { variable: 0, budget: MAX_BUDGET }),
    line("probe_sparse", "probe", "sparse", Operation::Probe { variable: 6, budget: MAX_BUDGET }),
    line("list_dense", "a call list that probes each variable", "dense", Operation::Run),
    line("list_sparse", "a call list that probes each variable", "sparse", Operation::Run),
    line("list_lseu", "a call list that probes each variable", "lseu", Operation::Run),
    line("list_big3", "a call list that probes each variable", "big3", Operation::Run),
    line("list_p0033", "a call list that probes each variable", "p0033", Operation::Run),
    line("rest_first_dense", "rest, a box that the first row narrows", "dense_first", REST),
    line("rest_first_sparse", "rest, a box that the first row narrows", "sparse_first", REST),
    line("rest_quiet_dense", "rest, quiet box", "dense", REST),
    line("rest_quiet_sparse", "rest, quiet box", "sparse", REST),
    line("tie_dense", "tie two variables", "dense", Operation::Tie { k: 0, j: 1 }),
    line("tie_sparse", "tie two variables", "sparse", Operation::Tie { k: 0, j: 1 }),
    line("cliques_full", "clique rows of a full table", "dense", Operation::Cliques),
    line("read_first", "read a book", "sparse", Operation::BookRead),
    line("read_sparse", "read a sparse book", "sparse", Operation::SparseRead),
    line("write_first", "write a book", "sparse", Operation::BookWrite),
    line("write_sparse", "write a sparse book", "sparse", Operation::SparseWrite),
    line("to_sparse", "turn a book into a sparse one", "sparse", Operation::BookToSparse),
    line("to_first", "turn a sparse book into a first-edition one", "sparse", Operation::SparseToBook),
    Line { refusal: 15, ..line("refused_propagate", "propagate, refused by 15", "dense", Operation::Propagate { budget: 0 }) },
    Line { refusal: 15, ..line("refused_probe", "probe, refused by 15", "dense", Operation::Probe { variable: 0, budget: 0 }) },
];

const fn line(
    name: &'static str,
    call: &'static str,
    book: &'static str,
    operation: Operation,
) -> Line {
    Line { name, call, book, operation, refusal: 0 }
}

fn main() {
    let arguments: Vec<String> = env::args().skip(1).collect();
    match &arguments.iter().map(String::as_str).collect::<Vec<_>>()[..] {
        [folder] => LINES.iter().for_each(|line| println!("{}", described(line, folder))),
        [folder, name, side] => {
            let line = LINES.iter().find(|line| line.name == *name).expect("a call of the list");
            let mut lent = lent(folder, line);
            match *side {
                "plain" => measured(&mut Reference, line.operation, &mut lent),
                "proved" => measured(&mut Native, line.operation, &mut lent),
                _ => panic!("the side is plain or proved"),
            };
            println!("{:?}", lent.bounds);
        }
        _ => panic!("calls FOLDER [NAME SIDE]"),
    }
}

#[inline(never)]
fn measured(side: &mut impl Backend, operation: Operation, lent: &mut Lent) -> u32 {
    black_box(side.call(black_box(operation), lent.lend()))
}

/// Both sides do the same work, or there is nothing to compare; then the line's parts, divided by tabs.
fn described(line: &Line, folder: &str) -> String {
    let (mut left, mut right) = (lent(folder, line), lent(folder, line));
    let (n, m) = (left.n, left.m);
    let nonzeros = left.coefs.iter().filter(|&&a| a != 0).count();
    let plain = Reference.call(line.operation, left.lend());
    let proved = Native.call(line.operation, right.lend());
    assert_eq!((plain, proved), (line.refusal, line.refusal), "{}", line.name);
    assert!(left == right, "{}: the sides differ", line.name);
    let percent = (100.0 * nonzeros as f64 / (n * m) as f64).round();
    let remark = remark(line.operation, &left, line.refusal);
    let model = match line.book.split('_').next() {
        Some(name @ ("big3" | "lseu" | "p0033")) => name.to_string(),
        _ => format!("{n} × {m}, {percent} %"),
    };
    format!("{}\t{}{remark}\t{model}", line.name, line.call)
}

/// What the answer says of the work; of a book how long it is.
fn remark(operation: Operation, after: &Lent, refusal: u32) -> String {
    let answer = &after.answer;
    let passes = |count: u64| {
        if count == 1 { "1 pass".into() } else { format!("{count} passes") }
    };
    match operation {
        Operation::Propagate { .. } if refusal == 0 => format!(", {}", passes(answer[1])),
        Operation::Probe { .. } if refusal == 0 => {
            format!(", {} and {}", passes(answer[2]), passes(answer[5]))
        }
        Operation::Cliques => format!(", {} rows", answer[0]),
        Operation::IsProbingFixpoint => format!(": {}", ["no", "yes"][answer[0] as usize]),
        _ if operation.reads_book()
            || operation.reads_sparse()
            || matches!(operation, Operation::BookWrite | Operation::SparseWrite) =>
        {
            let bytes = after.book.len();
            format!(", {},{:03} bytes", bytes / 1000, bytes % 1000)
        }
        _ => String::new(),
    }
}

/// The model of a line's book with a call list that probes each variable, and a table that is empty; for a tie it
/// says that j is k, for the clique rows it is full, so that every two literals of different variables are joined.
/// The book is that of the edition that the call is of.
fn lent(folder: &str, line: &Line) -> Lent {
    let name = line.book;
    let path = Path::new(folder).join(name).with_extension("book");
    let book = fs::read(&path).unwrap_or_else(|error| panic!("{}: {error}", path.display()));
    let trailer = &book[book.len() - 16..];
    let (n, m) = (
        u16::from_le_bytes([trailer[8], trailer[9]]) as usize,
        u16::from_le_bytes([trailer[10], trailer[11]]) as usize,
    );
    let mut lent = Lent {
        n,
        m,
        bounds: vec![0; 2 * n],
        coefs: vec![0; m * n],
        rhs: vec![0; m],
        kinds: vec![0; m],
        table: vec![0; 4 * n * n],
        ties: vec![0; n],
        calls: (0..n as u32).flat_map(|k| [KIND_PROBE, 0, k, MAX_BUDGET]).collect(),
        classes: vec![0; n],
        book,
        clique_coefs: vec![0; 2 * n * n],
        clique_rhs: vec![0; 2 * n],
        to: vec![],
        answer: vec![0; ANSWER],
    };
    assert_eq!(Reference.call(Operation::BookRead, lent.lend()), 0, "{name}");
    if let Operation::Tie { k, j } = line.operation {
        let (k, j) = (k as usize, j as usize);
        [0, 1].iter().for_each(|v| lent.table[(2 * k + v) * 2 * n + 2 * j + v] = 1);
    }
    if line.operation == Operation::Cliques {
        lent.table.fill(1);
    }
    let sparse = reference::sparse::write(n, &lent.bounds, &lent.coefs, &lent.rhs, &lent.kinds);
    match line.operation {
        Operation::BookToSparse => lent.to = vec![0; sparse.len()],
        Operation::SparseToBook => {
            lent.to = vec![0; lent.book.len()];
            lent.book = sparse;
        }
        Operation::SparseRead | Operation::SparseWrite => lent.book = sparse,
        _ => {}
    }
    lent
}
