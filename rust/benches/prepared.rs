//! Calls on prepared models for `bench/run` to count, beside the plain call on the same box.
//!
//! ```sh
//! prepared FOLDER               makes the calls of every line in all ways, compares the answers and lists the lines
//! prepared FOLDER NAME SIDE     makes the calls of one line in one way, inside the function `measured`, and prints the last box
//! ```
//!
//! The sides: `plain` is `astrolabe_propagate` with the rows, `prepared` the prepared call without a list for the reasons,
//! `reasons` the same with one. Before `measured` the model is prepared and the box of the line's root is propagated, so
//! that the workspace knows it, as at the node above. The folder is one that `bench/make` wrote.

use std::env;
use std::fs;
use std::hint::black_box;
use std::path::Path;

use astrolabe::ffi;
use reference::prepared::NO_ROW;

const BUDGET: u32 = 8_388_481;

/// The nodes of a search that a line looks at, at most.
const NODES: usize = 1_000;

/// A line of the table: the books of its root and, where it is not a search, of its node.
struct Line {
    name: &'static str,
    call: &'static str,
    root: &'static str,
    node: Option<&'static str>,
}

#[rustfmt::skip]
const LINES: &[Line] = &[
    Line { name: "quiet_dense", call: "quiet box, unchanged", root: "dense", node: Some("dense") },
    Line { name: "quiet_sparse", call: "quiet box, unchanged", root: "sparse", node: Some("sparse") },
    Line { name: "node_dense", call: "one bound changed", root: "dense", node: Some("dense_node") },
    Line { name: "node_sparse", call: "one bound changed", root: "sparse", node: Some("sparse_node") },
    Line { name: "node_lseu", call: "one bound changed", root: "lseu", node: Some("lseu_node") },
    Line { name: "node_small", call: "one bound changed", root: "small", node: Some("small_node") },
    Line { name: "tree_sparse", call: "the nodes of a search", root: "sparse", node: None },
    Line { name: "tree_lseu", call: "the nodes of a search", root: "lseu", node: None },
    Line { name: "tree_p0033", call: "the nodes of a search", root: "p0033", node: None },
];

/// A model's rows, and a workspace that knows its box.
struct Work {
    n: usize,
    m: usize,
    coefs: Vec<i32>,
    rhs: Vec<i32>,
    kinds: Vec<u8>,
    workspace: Vec<u32>,
    /// The boxes to propagate, in turn; the bounds of each are a copy.
    boxes: Vec<Vec<i32>>,
    bounds: Vec<i32>,
    reasons: Vec<u32>,
    answer: [u64; ffi::ANSWER_LEN],
}

#[derive(Clone, Copy, PartialEq)]
enum Side {
    Plain,
    Prepared,
    Reasons,
}

fn main() {
    let arguments: Vec<String> = env::args().skip(1).collect();
    match &arguments.iter().map(String::as_str).collect::<Vec<_>>()[..] {
        [folder] => LINES.iter().for_each(|line| println!("{}", described(line, folder))),
        [folder, name, side] => {
            let line = LINES.iter().find(|line| line.name == *name).expect("a line of the list");
            let side = match *side {
                "plain" => Side::Plain,
                "prepared" => Side::Prepared,
                "reasons" => Side::Reasons,
                _ => panic!("the side is plain, prepared or reasons"),
            };
            let mut work = work(folder, line);
            work.bounds.copy_from_slice(&work.boxes[0]);
            measured(&mut work, side);
            println!("{:?}", work.bounds);
        }
        _ => panic!("prepared FOLDER [NAME SIDE]"),
    }
}

/// Every box of the line, in turn; the first is in the bounds already.
#[inline(never)]
fn measured(work: &mut Work, side: Side) {
    black_box(call(work, side));
    for at in 1..work.boxes.len() {
        work.bounds.copy_from_slice(&work.boxes[at]);
        black_box(call(work, side));
    }
}

/// One call on the bounds.
fn call(work: &mut Work, side: Side) -> u32 {
    let Work { n, m, coefs, rhs, kinds, workspace, bounds, reasons, answer, .. } = work;
    let told = if side == Side::Reasons { reasons.len() } else { 0 };
    // SAFETY: the pointers and counts are those of slices, no two of which overlap.
    unsafe {
        match side {
            Side::Plain => ffi::astrolabe_propagate(
                *n,
                *m,
                bounds.as_mut_ptr(),
                bounds.len(),
                coefs.as_ptr(),
                coefs.len(),
                rhs.as_ptr(),
                rhs.len(),
                kinds.as_ptr(),
                kinds.len(),
                BUDGET,
                answer.as_mut_ptr(),
                answer.len(),
            ),
            Side::Prepared | Side::Reasons => ffi::astrolabe_prepared_propagate(
                workspace.as_mut_ptr(),
                workspace.len(),
                bounds.as_mut_ptr(),
                bounds.len(),
                BUDGET,
                reasons.as_mut_ptr(),
                told,
                answer.as_mut_ptr(),
                answer.len(),
            ),
        }
    }
}

/// n, m, bounds, coefficients and right sides of a book.
fn read(folder: &str, name: &str) -> (usize, usize, Vec<i32>, Vec<i32>, Vec<i32>) {
    let path = Path::new(folder).join(name).with_extension("book");
    let book = fs::read(&path).unwrap_or_else(|error| panic!("{}: {error}", path.display()));
    let trailer = &book[book.len() - 16..];
    let (n, m) = (
        u16::from_le_bytes([trailer[8], trailer[9]]) as usize,
        u16::from_le_bytes([trailer[10], trailer[11]]) as usize,
    );
    let mut numbers = book.chunks_exact(4).map(|b| i32::from_le_bytes([b[0], b[1], b[2], b[3]]));
    let bounds = numbers.by_ref().take(2 * n).collect();
    let (mut coefs, mut rhs) = (vec![], vec![]);
    for _ in 0..m {
        rhs.extend(numbers.next());
        coefs.extend(numbers.by_ref().take(n));
    }
    (n, m, bounds, coefs, rhs)
}

/// The line's model, prepared, with the box of its root known.
fn work(folder: &str, line: &Line) -> Work {
    let (n, m, bounds, coefs, rhs) = read(folder, line.root);
    let mut work = Work {
        n,
        m,
        coefs,
        rhs,
        kinds: vec![0; m],
        workspace: vec![0; ffi::WORKSPACE_LEN],
        boxes: vec![],
        bounds,
        reasons: vec![NO_ROW; 2 * n],
        answer: [0; ffi::ANSWER_LEN],
    };
    // SAFETY: the pointers and counts are those of slices, no two of which overlap.
    let refused = unsafe {
        ffi::astrolabe_prepare(
            n,
            m,
            work.bounds.as_ptr(),
            work.bounds.len(),
            work.coefs.as_ptr(),
            work.coefs.len(),
            work.rhs.as_ptr(),
            work.rhs.len(),
            work.kinds.as_ptr(),
            work.kinds.len(),
            work.workspace.as_mut_ptr(),
            work.workspace.len(),
        )
    };
    assert_eq!(refused, 0, "{}", line.name);
    assert_eq!(call(&mut work, Side::Prepared), 0, "{}", line.name);
    work.boxes = match line.node {
        Some(node) => vec![read(folder, node).2],
        None => searched(&mut work),
    };
    work
}

/// The boxes of a depth-first search below the bounds, each before it is propagated: the first variable that is not
/// fixed at its upper bound, then at its lower; found by plain calls.
fn searched(work: &mut Work) -> Vec<Vec<i32>> {
    let root = work.bounds.clone();
    let (mut boxes, mut open) = (vec![], vec![root.clone()]);
    while let Some(bounds) = open.pop() {
        if boxes.len() == NODES {
            break;
        }
        work.bounds.copy_from_slice(&bounds);
        boxes.push(bounds);
        assert_eq!(call(work, Side::Plain), 0);
        let after = work.bounds.clone();
        let unfixed = (0..work.n).find(|j| after[2 * j] < after[2 * j + 1]);
        if let (1.., Some(j)) = (work.answer[0], unfixed) {
            let branch = |bound: i32| {
                let mut branch = after.clone();
                branch[2 * j..][..2].fill(bound);
                branch
            };
            open.extend([branch(after[2 * j]), branch(after[2 * j + 1])]);
        }
    }
    work.bounds = root;
    boxes
}

/// All ways do the same work, or there is nothing to compare; then the line's parts and its number of calls, divided by
/// tabs.
fn described(line: &Line, folder: &str) -> String {
    let [mut plain, mut prepared, mut reasons] = [0; 3].map(|_| work(folder, line));
    let mut passes = 0;
    for at in 0..plain.boxes.len() {
        let ways = [
            (&mut plain, Side::Plain),
            (&mut prepared, Side::Prepared),
            (&mut reasons, Side::Reasons),
        ];
        for (work, side) in ways {
            work.bounds.copy_from_slice(&work.boxes[at]);
            assert_eq!(call(work, side), 0, "{}", line.name);
        }
        for other in [&prepared, &reasons] {
            assert_eq!(plain.bounds, other.bounds, "{}, box {at}", line.name);
            assert_eq!(plain.answer[..3], other.answer[..3], "{}, box {at}", line.name);
        }
        passes = plain.answer[1];
    }
    let (n, m, calls) = (plain.n, plain.m, plain.boxes.len());
    let nonzeros = plain.coefs.iter().filter(|&&a| a != 0).count();
    let percent = (100.0 * nonzeros as f64 / (n * m) as f64).round();
    let model = match line.root {
        name @ ("lseu" | "p0033") => name.to_string(),
        _ => format!("{n} × {m}, {percent} %"),
    };
    let remark = match (line.node, passes) {
        (None, _) => format!(", {calls} of them, a call on average"),
        (_, 1) => ", 1 pass".to_string(),
        (_, passes) => format!(", {passes} passes"),
    };
    format!("{}\t{}{remark}\t{model}\t{calls}", line.name, line.call)
}
