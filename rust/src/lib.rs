//! A presolve library for 0-1 and small-integer linear models whose every function is proved.
//!
//! A [`Model`] has n variables (1 to 128) with whole bounds at most 4,096 apart and m rows (0 to 120),
//! each row saying `sum of coefficient · variable ≤ right-hand side`, or `=` where its [`RowKind`] is
//! [`Equal`](RowKind::Equal). Its methods make the model smaller:
//! after each of them the integer points are exactly those before, no fractional point is added, and
//! "infeasible" is said only where there is no integer point. That is proved of the library behind this
//! wrapper, for every input.
//!
//! ```
//! use astrolabe::{Model, Propagation};
//!
//! # fn main() -> Result<(), astrolabe::Refusal> {
//! // 2x ≤ 5 and y ≤ x, both variables from 0 to 5.
//! let mut model = Model::new(vec![0, 5, 0, 5], vec![2, 0, -1, 1], vec![5, 0])?;
//! assert_eq!(model.propagate(1_000)?, Propagation::Converged { passes: 2, moved: 2 });
//! assert_eq!(model.bounds(), [0, 2, 0, 2]);
//! # Ok(())
//! # }
//! ```
//!
//! At each branch of a search, narrow the bounds and propagate. A [`Prepared`] model is checked once and looks only at rows
//! that a changed bound concerns; it tells which row moved which bound. The library keeps no state of its own, so
//! models, prepared or not, can be cloned, sent to threads and thrown away at will:
//!
//! ```
//! # use astrolabe::{Model, Prepared, Propagation};
//! # fn main() -> Result<(), astrolabe::Refusal> {
//! let root = Model::new(vec![0, 1, 0, 1, 0, 1], vec![2, 3, 4], vec![5])?;
//! let mut prepared = Prepared::new(&root)?;
//! let mut branch = root.bounds().to_vec();
//! branch[4] = 1; // variable 2 is 1: then 2x + 3y ≤ 1
//! let told = prepared.propagate(&mut branch, 1_000)?;
//! assert_eq!(told.propagation, Propagation::Converged { passes: 2, moved: 2 });
//! assert_eq!(branch, [0, 0, 0, 0, 1, 1]);
//! # Ok(())
//! # }
//! ```
//!
//! [`ffi`] has the C interface as it is.

mod allocations;
mod answer;
mod clique;
pub mod ffi;
mod model;
pub mod pages;
pub mod plan;
mod prepared;
mod refusal;
mod shared;
mod ties;

pub use allocations::{MAX_PROPOSALS, Verdict};
pub use answer::{Class, Counts, Outcome, Probe, Propagation, Rest, Rounds, RowPropagation, Side};
pub use clique::Clique;
pub use model::{
    Call, Model, Row, RowKind, book_size, book_to_sparse, sparse_size, sparse_to_book,
};
pub use prepared::{Bound, Moved, Prepared, Probed, Propagated};
pub use refusal::Refusal;
pub use shared::Rows;
pub use ties::{CircularTies, Tie, Ties};

/// The version of this wrapper, which is that of the C header and of the library: `"0.1.0"`.
pub const VERSION: &str = env!("CARGO_PKG_VERSION");
/// The most variables that a model has.
pub const MAX_VARIABLES: usize = 128;
/// The most rows that a model has.
pub const MAX_ROWS: usize = 120;
/// The most that a variable's upper bound lies above its lower.
pub const MAX_WIDTH: i32 = 4_096;
/// The largest budget. It is never spent: the widest box, 128 variables of 4,096, takes at most 524,289
/// passes.
pub const MAX_BUDGET: u32 = 8_388_481;
/// The limit of [`Model::rounds`] that is none: the rounds of every model end below it.
pub const NO_LIMIT: u64 = u64::MAX;
