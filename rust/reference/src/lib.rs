//! The reducer once more, in plain Rust.
//!
//! Written from the specification (document 01, and 02 where it changes 01) alone, without a look at the
//! proved code, so that a misreading would have to be made twice to stay unseen. Nothing here is clever:
//! every call checks what it is lent, in the papers' order, and then follows the text. Sums are `i64`: an activity is at most
//! 128 · 1,000,000 · 32,768 < 2⁴³.
//!
//! | module | 01's section |
//! |---|---|
//! | [`bounds`] | The model: the box, the empty ("void") box, free binary ("free 0-1") variables |
//! | [`row`] | Row sums; visit; sharpen and drop; each by the row's kind (02, C-14) |
//! | [`propagation`] | Settle |
//! | [`probing`] | Probe, rest |
//! | [`list`] | Run sheet |
//! | [`rounds`] | the rounds of the program `reduce` |
//! | [`book`] | Book |
//! | [`sparse`] | the sparse book (02, C-18) |
//! | [`checks`] | Checks in their order; 02's new numbers in their places |
//! | [`plan`] | size and passes told beforehand (02, C-17) |
//! | [`ties`] | tied variables (02, C-19) |
//! | [`cliques`] | clique rows (02, C-12; 000, 2.2.2) |
//! | [`allocations`] | many proposed allocations, one reading (02, C-21) |
//! | [`pages`] | the pages for the floor (02, C-23) |
//! | [`prepared`] | prepared models: which row moved which bound, and which was infeasible |
//! | [`calls`] | the calls as the C interface has them: a refusal number and twelve places of answer |
//! | [`report`] | what `reduce` prints |
//! | [`convert`] | what `convert` writes (02, C-18) |
//! | [`allocations_input`] | what `allocations` prints (02, C-21) |

pub mod allocations;
pub mod allocations_input;
pub mod book;
pub mod bounds;
pub mod calls;
pub mod checks;
pub mod cliques;
pub mod convert;
pub mod list;
pub mod pages;
pub mod plan;
pub mod prepared;
pub mod probing;
pub mod propagation;
pub mod report;
pub mod rounds;
pub mod row;
pub mod sparse;
pub mod ties;

/// A model and its implication table in lent memory: what a call list and the rounds work on.
pub struct State<'a> {
    pub n: usize,
    pub bounds: &'a mut [i32],
    pub coefs: &'a mut [i32],
    pub rhs: &'a mut [i32],
    /// A byte for each row: 0 for ≤, 1 for = (02, C-14).
    pub kinds: &'a mut [u8],
    pub table: &'a mut [u8],
}

/// A copy of every number of a [`State`], to tell later whether one changed.
#[derive(PartialEq)]
pub struct Snapshot {
    bounds: Vec<i32>,
    coefs: Vec<i32>,
    rhs: Vec<i32>,
    kinds: Vec<u8>,
    table: Vec<u8>,
}

impl State<'_> {
    pub fn rows(&self) -> row::Rows<'_> {
        row::Rows::new(self.n, self.coefs, self.rhs, self.kinds)
    }

    pub fn snapshot(&self) -> Snapshot {
        Snapshot {
            bounds: self.bounds.to_vec(),
            coefs: self.coefs.to_vec(),
            rhs: self.rhs.to_vec(),
            kinds: self.kinds.to_vec(),
            table: self.table.to_vec(),
        }
    }

    /// Tightens the coefficient of variable `k` in row `r` (01's sharpen).
    pub fn tighten_coefficient(&mut self, r: usize, k: usize) -> row::Outcome {
        let coefs = &mut self.coefs[r * self.n..][..self.n];
        row::tighten_coefficient(self.bounds, coefs, &mut self.rhs[r], self.kinds[r], k)
    }

    /// Removes row `r` where it is redundant (01's drop).
    pub fn remove_redundant_row(&mut self, r: usize) -> row::Outcome {
        let coefs = &mut self.coefs[r * self.n..][..self.n];
        row::remove_redundant_row(self.bounds, coefs, &mut self.rhs[r], &mut self.kinds[r])
    }

    /// Propagates the rows over the box (01's settle).
    pub fn propagate(&mut self, budget: u32) -> propagation::Propagation {
        let rows = row::Rows::new(self.n, self.coefs, self.rhs, self.kinds);
        propagation::propagate(self.bounds, rows, budget)
    }

    /// Probes variable `k`.
    pub fn probe(&mut self, k: usize, budget: u32) -> probing::Probe {
        let rows = row::Rows::new(self.n, self.coefs, self.rhs, self.kinds);
        probing::probe(self.bounds, rows, self.table, k, budget)
    }
}
