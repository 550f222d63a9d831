//! GLPK's branch and cut, plain or with the library's propagation at every node.

use super::{Problem, complaint, ffi, listen, place};
use crate::failure::Failure;
use astrolabe::{Prepared, Propagation, Refusal};
use std::ffi::{c_int, c_void};
use std::time::{Duration, Instant};

/// How a search ended.
#[derive(Clone, Debug)]
pub struct Search {
    /// The value of the linear relaxation at the root; none where it has no point.
    pub relaxation: Option<f64>,
    /// The point of the best value; none where there is no integer point.
    pub point: Option<Vec<f64>>,
    pub nodes: c_int,
    /// Nodes at which the library propagated, and those that it found to be infeasible.
    pub propagated: u64,
    pub infeasible: u64,
    pub time: Duration,
}

/// What the callback needs at a node.
struct AtNode {
    prepared: Option<Prepared>,
    bounds: Vec<i32>,
    /// An empty row, `0 ≥ 0`; made `0 ≥ 1` it ends a node whose box has no integer point.
    last_row: c_int,
    nodes: c_int,
    propagated: u64,
    infeasible: u64,
    refused: Option<Refusal>,
}

/// As many passes at a node as `reduce` makes at the root.
const BUDGET: u32 = 1_000;

impl Problem {
    /// Searches a copy of the problem; with a prepared model, whose columns are the problem's, propagates at every node.
    pub fn search(&self, prepared: Option<Prepared>) -> Result<Search, Failure> {
        let mut problem = self.clone();
        let n = self.linear().columns.len();
        let last_row = place(problem.add_row("astrolabe_node"));
        let mut state = AtNode {
            prepared,
            bounds: vec![0; 2 * n],
            last_row,
            nodes: 0,
            propagated: 0,
            infeasible: 0,
            refused: None,
        };
        let start = Instant::now();
        let (failed, relaxation) = problem.branch_and_cut(&mut state);
        let time = start.elapsed();
        if let Some(refusal) = state.refused {
            return Err(crate::explain::refused(refusal));
        }
        if failed != 0 {
            return Err(Failure::Unreadable(format!("GLPK gave up ({failed}): {}", complaint())));
        }
        let point = relaxation.and_then(|_| problem.best_point(n));
        let AtNode { nodes, propagated, infeasible, .. } = state;
        Ok(Search { relaxation, point, nodes, propagated, infeasible, time })
    }

    /// The linear relaxation, then the search: the number that GLPK fails with, 0 where it does not, and the relaxation's value.
    fn branch_and_cut(&mut self, state: &mut AtNode) -> (c_int, Option<f64>) {
        let _guard = listen();
        // SAFETY: the problem is ours and has the row; the callback gets the state, which outlives the call, and GLPK
        // is this thread's until then.
        unsafe {
            ffi::glp_set_row_bnds(self.prob, state.last_row, ffi::LO, 0.0, 0.0);
            let failed = ffi::astrolabe_cli_simplex(self.prob);
            if failed != 0 || ffi::glp_get_status(self.prob) != ffi::OPT {
                return (failed, None);
            }
            let relaxation = ffi::glp_get_obj_val(self.prob);
            let info: *mut AtNode = state;
            (ffi::astrolabe_cli_intopt(self.prob, at_node, info.cast()), Some(relaxation))
        }
    }

    fn best_point(&self, n: usize) -> Option<Vec<f64>> {
        let _guard = listen();
        // SAFETY: the problem is ours and has n columns.
        unsafe {
            let found = ffi::glp_mip_status(self.prob) == ffi::OPT;
            found.then(|| {
                (0..n).map(|j| ffi::glp_mip_col_val(self.prob, place(j)).round()).collect()
            })
        }
    }
}

/// GLPK calls this at every step of the search; what it asks for first at each node is preprocessing.
extern "C" fn at_node(tree: *mut ffi::Tree, info: *mut c_void) {
    // SAFETY: `search` hands over its state, which nothing else uses meanwhile, and the tree is GLPK's own.
    unsafe {
        let state = &mut *info.cast::<AtNode>();
        ffi::glp_ios_tree_size(tree, std::ptr::null_mut(), std::ptr::null_mut(), &mut state.nodes);
        if ffi::glp_ios_reason(tree) == ffi::IPREPRO && state.prepared.is_some() {
            state.propagate(ffi::glp_ios_get_prob(tree));
        }
    }
}

/// All that the library does at a node: it narrows the box. The rows were prepared once, at the root; GLPK goes through its
/// nodes in an order of its own, and the boxes may come in any.
fn narrow(prepared: &mut Prepared, bounds: &mut [i32]) -> Result<Propagation, Refusal> {
    Ok(prepared.propagate(bounds, BUDGET)?.propagation)
}

impl AtNode {
    /// Propagates the node's box and hands the narrower bounds back.
    ///
    /// # Safety
    /// The problem is the node's, and has the columns of the box and the last row.
    unsafe fn propagate(&mut self, prob: *mut ffi::Prob) {
        let Some(prepared) = &mut self.prepared else { return };
        for (j, pair) in self.bounds.chunks_exact_mut(2).enumerate() {
            // Whole: the root's bounds are, and GLPK branches between whole numbers.
            pair.copy_from_slice(&unsafe {
                [
                    ffi::glp_get_col_lb(prob, place(j)) as i32,
                    ffi::glp_get_col_ub(prob, place(j)) as i32,
                ]
            });
        }
        let before = self.bounds.clone();
        self.propagated += 1;
        match narrow(prepared, &mut self.bounds) {
            Err(refusal) => self.refused = Some(refusal),
            Ok(Propagation::Infeasible { .. }) => {
                self.infeasible += 1;
                unsafe { ffi::glp_set_row_bnds(prob, self.last_row, ffi::LO, 1.0, 0.0) };
            }
            Ok(_) => unsafe { self.hand_back(prob, &before) },
        }
    }

    /// # Safety
    /// As of `propagate`.
    unsafe fn hand_back(&self, prob: *mut ffi::Prob, before: &[i32]) {
        let pairs = before.chunks_exact(2).zip(self.bounds.chunks_exact(2));
        for (j, (_, now)) in pairs.enumerate().filter(|(_, (before, now))| before != now) {
            let kind = if now[0] == now[1] { ffi::FX } else { ffi::DB };
            unsafe { ffi::glp_set_col_bnds(prob, place(j), kind, now[0].into(), now[1].into()) };
        }
    }
}
