//! What a book and a list of calls will take, told before they are loaded (02, C-17). No row is read.
//!
//! ```
//! use astrolabe::{Call, Model, Propagation, plan};
//!
//! let mut model = Model::new(vec![0, 5, 0, 5], vec![2, 0, -1, 1], vec![5, 0])?; // 2x ≤ 5, y ≤ x
//! let book = model.to_book()?;
//!
//! // From the trailer, the last 16 bytes: what to reserve.
//! let lengths = plan::lengths(&book[book.len() - 16..])?;
//! assert_eq!((lengths.bounds, lengths.coefs, lengths.table, lengths.book), (4, 4, 16, book.len()));
//!
//! // From the bounds: a budget that no model with these bounds spends.
//! let plan::Width { width, budget } = plan::width(model.bounds())?;
//! assert_eq!((width, budget), (10, 11));
//! assert_eq!(model.clone().propagate(budget)?, Propagation::Converged { passes: 2, moved: 2 });
//!
//! // From a list as well: how many passes it makes at most.
//! let calls = [Call::propagate(8), Call::probe(0, 1_000), Call::propagate_row(0)];
//! assert_eq!(plan::passes(model.bounds(), &calls)?.passes, 8 + 2 * 11);
//! # Ok::<(), astrolabe::Refusal>(())
//! ```

use crate::answer::Places;
use crate::ffi;
use crate::model::{Call, answered};
use crate::refusal::Refusal;

/// The most records of a list for [`passes`]; [`Model::run`](crate::Model::run) takes any number.
pub const MAX_RECORDS: usize = 1_000_000;

/// n and m of a book, and the length in elements of each buffer that they fix.
#[derive(Clone, Copy, Debug, PartialEq, Eq, Hash)]
pub struct Lengths {
    pub n: usize,
    pub m: usize,
    pub bounds: usize,
    pub coefs: usize,
    pub rhs: usize,
    pub kinds: usize,
    /// The implication table's bytes.
    pub table: usize,
    /// A place of 16 bits for each variable.
    pub ties: usize,
    /// The coefficients of as many clique rows as there can be.
    pub clique_coefs: usize,
    /// Their right-hand sides.
    pub clique_rhs: usize,
    /// The bytes of a first-edition book.
    pub book: usize,
}

/// What the bounds tell.
#[derive(Clone, Copy, Debug, PartialEq, Eq, Hash)]
pub struct Width {
    /// The total width: the sum of upper − lower, 0 for the empty box.
    pub width: u32,
    /// A budget that is never spent by a propagation from these bounds, whatever the rows are: the width
    /// plus 1.
    pub budget: u32,
}

/// What the bounds and a list of calls tell.
#[derive(Clone, Copy, Debug, PartialEq, Eq, Hash)]
pub struct Passes {
    pub width: Width,
    /// The most passes that the list makes on any model with these bounds, both sides of each probe among
    /// them.
    pub passes: u64,
}

impl From<Places> for Lengths {
    fn from(places: Places) -> Self {
        // Each is far below 2³² by the library's contract.
        let [n, m, bounds, coefs, rhs, kinds, table, ties, clique_coefs, clique_rhs, book, _] =
            places.map(|place| place as usize);
        Lengths { n, m, bounds, coefs, rhs, kinds, table, ties, clique_coefs, clique_rhs, book }
    }
}

impl From<Places> for Width {
    fn from([width, budget, ..]: Places) -> Self {
        // At most 524,288 and one more by the library's contract.
        Width { width: width as u32, budget: budget as u32 }
    }
}

impl From<Places> for Passes {
    fn from(places: Places) -> Self {
        Passes { width: Width::from(places), passes: places[2] }
    }
}

/// The lengths, from the 16 bytes of a book's trailer.
pub fn lengths(trailer: &[u8]) -> Result<Lengths, Refusal> {
    answered(|answer, answer_len| {
        // SAFETY: the pointers and counts are those of a slice and an array.
        unsafe { ffi::astrolabe_plan_lengths(trailer.as_ptr(), trailer.len(), answer, answer_len) }
    })
}

/// The total width of the bounds `l0 u0 l1 u1 …`, and a budget that is never spent.
pub fn width(bounds: &[i32]) -> Result<Width, Refusal> {
    answered(|answer, answer_len| {
        // SAFETY: the pointers and counts are those of a slice and an array.
        unsafe {
            ffi::astrolabe_plan_width(
                bounds.len() / 2,
                bounds.as_ptr(),
                bounds.len(),
                answer,
                answer_len,
            )
        }
    })
}

/// The same, and an upper limit on the passes that a list makes. A list of more than [`MAX_RECORDS`] is
/// refused.
pub fn passes(bounds: &[i32], calls: &[Call]) -> Result<Passes, Refusal> {
    answered(|answer, answer_len| {
        // SAFETY: the pointers and counts are those of slices and an array. A Call is four u32 in a row, so k
        // of them are 4k numbers.
        unsafe {
            ffi::astrolabe_plan_run(
                bounds.len() / 2,
                bounds.as_ptr(),
                bounds.len(),
                calls.as_ptr().cast(),
                4 * calls.len(),
                answer,
                answer_len,
            )
        }
    })
}
