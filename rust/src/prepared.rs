//! A model checked once and kept in a workspace, for a call at every branch.

use std::fmt;

use crate::answer::{Places, Probe, Propagation};
use crate::ffi;
use crate::model::{Model, answered};
use crate::refusal::Refusal;

/// A model's rows, prepared for a call at every branch.
///
/// A call is lent bounds, any box, and does what [`Model::propagate`] and [`Model::probe`] do on the model that was
/// prepared, with these bounds. What it saves is work: the bounds are compared with the last box that was quiet, and
/// only rows are looked at that a bound which differs could make move another one.
///
/// It borrows nothing and can be cloned, one for each thread; a clone goes on from where the original stood. The rows
/// are those of the model when it was prepared: to change one, prepare again.
///
/// ```
/// use astrolabe::{Bound, Model, Moved, Prepared, Propagation};
///
/// // 2x + 3y + 4z ≤ 5 and y ≤ x, all binary.
/// let coefs = vec![2, 3, 4, -1, 1, 0];
/// let model = Model::new(vec![0, 1, 0, 1, 0, 1], coefs, vec![5, 0])?;
/// let mut prepared = Prepared::new(&model)?;
///
/// // The root, then one branch, then the other; in any order, and any box.
/// let mut root = model.bounds().to_vec();
/// prepared.propagate(&mut root, 1_000)?;
/// let mut branch = root.clone();
/// branch[4] = 1; // z is 1: then 2x + 3y ≤ 1
/// let told = prepared.propagate(&mut branch, 1_000)?;
/// assert_eq!(told.propagation, Propagation::Converged { passes: 2, moved: 2 });
/// let moved = |variable| Moved { variable, bound: Bound::Upper, row: 0 };
/// assert!(told.moved().eq([moved(0), moved(1)]));
/// assert_eq!(branch, [0, 0, 0, 0, 1, 1]);
///
/// let mut other = root;
/// (other[1], other[2]) = (0, 1); // x is 0 and y is 1: against y ≤ x
/// let told = prepared.propagate(&mut other, 1_000)?;
/// assert_eq!(told.infeasible_row, Some(1));
/// # Ok::<(), astrolabe::Refusal>(())
/// ```
#[derive(Clone)]
pub struct Prepared {
    workspace: Vec<u32>,
    /// Of the last call that told them: 2n of a propagation, and as many of each side of a probe.
    reasons: Vec<u32>,
}

/// Which of a variable's bounds.
#[derive(Clone, Copy, Debug, PartialEq, Eq, Hash)]
pub enum Bound {
    Lower,
    Upper,
}

/// A bound that a propagation moved, or that of a probe's side.
#[derive(Clone, Copy, Debug, PartialEq, Eq, Hash)]
pub struct Moved {
    pub variable: usize,
    pub bound: Bound,
    /// The row that moved it last.
    pub row: usize,
}

/// What a propagation of a prepared model tells.
#[derive(Clone, Copy, Debug, PartialEq, Eq, Hash)]
pub struct Propagated<'a> {
    pub propagation: Propagation,
    /// The row that was infeasible; none where the propagation ended otherwise, or where the lent box was the empty
    /// one.
    pub infeasible_row: Option<usize>,
    reasons: &'a [u32],
}

/// The bounds that have a row among 2n reasons.
fn moved(reasons: &[u32]) -> impl Iterator<Item = Moved> {
    reasons.iter().enumerate().filter(|(_, row)| **row != ffi::NO_ROW).map(|(i, &row)| {
        let bound = if i % 2 == 0 { Bound::Lower } else { Bound::Upper };
        Moved { variable: i / 2, bound, row: row as usize }
    })
}

impl Propagated<'_> {
    /// The bounds that moved, each with the row that moved it last; those of a variable together, upwards. Where the
    /// propagation ended infeasible they are those that had moved before the box was made empty.
    pub fn moved(&self) -> impl Iterator<Item = Moved> {
        moved(self.reasons)
    }
}

/// What a probe of a prepared model tells where it is asked which row did what.
///
/// A bound of the new box, but for the probed variable's, moved exactly if it moved in each side that is feasible.
#[derive(Clone, Copy, Debug, PartialEq, Eq, Hash)]
pub struct Probed<'a> {
    pub probe: Probe,
    /// Of each side the row that was infeasible; none where the side is feasible, or where the lent box was the empty
    /// one, of which no side is tried.
    pub infeasible_rows: [Option<usize>; 2],
    reasons: &'a [u32],
}

impl Probed<'_> {
    /// The bounds that moved in the side where the variable is `value`, each with the row that moved it last there, as
    /// in [`Propagated::moved`]. That the side sets the variable is no move.
    ///
    /// # Panics
    ///
    /// Where `value` is neither 0 nor 1.
    pub fn moved(&self, value: u8) -> impl Iterator<Item = Moved> {
        assert!(value < 2, "a side is 0 or 1, not {value}");
        let (zero, one) = self.reasons.split_at(self.reasons.len() / 2);
        moved(if value == 0 { zero } else { one })
    }
}

fn row(place: u64) -> Option<usize> {
    (place != u64::from(ffi::NO_ROW)).then_some(place as usize)
}

/// A propagation, and the row in place 3.
struct WithRow(Propagation, Option<usize>);

impl From<Places> for WithRow {
    fn from(places: Places) -> Self {
        WithRow(Propagation::from(places), row(places[3]))
    }
}

/// A probe, and the rows in places 8 and 9.
struct WithRows(Probe, [Option<usize>; 2]);

impl From<Places> for WithRows {
    fn from(places: Places) -> Self {
        WithRows(Probe::from(places), [row(places[8]), row(places[9])])
    }
}

impl Prepared {
    /// Prepares the rows of a model. Its bounds are checked as the rest is, and not kept: each call is lent its own.
    pub fn new(model: &Model) -> Result<Self, Refusal> {
        let mut workspace = vec![0; ffi::WORKSPACE_LEN];
        model.prepare_into(&mut workspace)?;
        Ok(Prepared { workspace, reasons: vec![ffi::NO_ROW; 4 * model.n()] })
    }

    /// The number of variables.
    pub fn n(&self) -> usize {
        self.reasons.len() / 4
    }

    /// Propagates all rows, as [`Model::propagate`] does, over the bounds `l0 u0 l1 u1 …`; and tells which row moved
    /// which bound, and which was infeasible.
    pub fn propagate(
        &mut self,
        bounds: &mut [i32],
        budget: u32,
    ) -> Result<Propagated<'_>, Refusal> {
        let half = self.reasons.len() / 2;
        let (workspace, reasons) = (&mut self.workspace, &mut self.reasons[..half]);
        let WithRow(propagation, infeasible_row) = answered(|answer, answer_len| {
            // SAFETY: the pointers and counts are those of slices and an array, no two of which overlap.
            unsafe {
                ffi::astrolabe_prepared_propagate(
                    workspace.as_mut_ptr(),
                    workspace.len(),
                    bounds.as_mut_ptr(),
                    bounds.len(),
                    budget,
                    reasons.as_mut_ptr(),
                    reasons.len(),
                    answer,
                    answer_len,
                )
            }
        })?;
        Ok(Propagated { propagation, infeasible_row, reasons: &self.reasons[..half] })
    }

    /// Probes a free binary variable, as [`Model::probe`] does, over the bounds. The implications go into `table`, 4n²
    /// bytes: byte p · 2n + q is 1 where literal p implies literal q, and the literal "variable k is v" has the number
    /// 2k + v. Which row moved what is told by [`Prepared::probe_with_reasons`].
    ///
    /// ```
    /// use astrolabe::{Model, Prepared, Probe};
    ///
    /// // x ≤ y and x + y ≤ 1: probing x fixes it at 0.
    /// let model = Model::new(vec![0, 1, 0, 1], vec![1, -1, 1, 1], vec![0, 1])?;
    /// let mut prepared = Prepared::new(&model)?;
    /// let (mut bounds, mut table) = ([0, 1, 0, 1], [0; 16]);
    /// let probe = prepared.probe(&mut bounds, &mut table, 0, 1_000)?;
    /// assert!(matches!(probe, Probe::Fixed { value: 0, .. }));
    /// assert_eq!(bounds, [0, 0, 0, 1]);
    /// # Ok::<(), astrolabe::Refusal>(())
    /// ```
    pub fn probe(
        &mut self,
        bounds: &mut [i32],
        table: &mut [u8],
        variable: u32,
        budget: u32,
    ) -> Result<Probe, Refusal> {
        let WithRows(probe, _) =
            lent_probe(&mut self.workspace, bounds, table, variable, budget, &mut [])?;
        Ok(probe)
    }

    /// Probes as [`Prepared::probe`] does, and tells of each side which row moved which bound, and which was infeasible.
    ///
    /// ```
    /// use astrolabe::{Bound, Model, Moved, Prepared};
    ///
    /// // x ≤ y and x + y ≤ 1: x at 1 raises y to 1, and then the second row is infeasible.
    /// let model = Model::new(vec![0, 1, 0, 1], vec![1, -1, 1, 1], vec![0, 1])?;
    /// let mut prepared = Prepared::new(&model)?;
    /// let (mut bounds, mut table) = ([0, 1, 0, 1], [0; 16]);
    /// let told = prepared.probe_with_reasons(&mut bounds, &mut table, 0, 1_000)?;
    /// assert_eq!(told.infeasible_rows, [None, Some(1)]);
    /// assert_eq!(told.moved(0).count(), 0);
    /// assert!(told.moved(1).eq([Moved { variable: 1, bound: Bound::Lower, row: 0 }]));
    /// # Ok::<(), astrolabe::Refusal>(())
    /// ```
    pub fn probe_with_reasons(
        &mut self,
        bounds: &mut [i32],
        table: &mut [u8],
        variable: u32,
        budget: u32,
    ) -> Result<Probed<'_>, Refusal> {
        let (workspace, reasons) = (&mut self.workspace, &mut self.reasons);
        let WithRows(probe, infeasible_rows) =
            lent_probe(workspace, bounds, table, variable, budget, reasons)?;
        Ok(Probed { probe, infeasible_rows, reasons: &self.reasons })
    }
}

/// The call, with what it is lent.
fn lent_probe(
    workspace: &mut [u32],
    bounds: &mut [i32],
    table: &mut [u8],
    variable: u32,
    budget: u32,
    reasons: &mut [u32],
) -> Result<WithRows, Refusal> {
    answered(|answer, answer_len| {
        // SAFETY: the pointers and counts are those of slices and an array, no two of which overlap.
        unsafe {
            ffi::astrolabe_prepared_probe(
                workspace.as_mut_ptr(),
                workspace.len(),
                bounds.as_mut_ptr(),
                bounds.len(),
                table.as_mut_ptr(),
                table.len(),
                variable,
                budget,
                reasons.as_mut_ptr(),
                reasons.len(),
                answer,
                answer_len,
            )
        }
    })
}

impl fmt::Debug for Prepared {
    /// Not the workspace's numbers: there are many, and they are the library's own.
    fn fmt(&self, f: &mut fmt::Formatter) -> fmt::Result {
        f.debug_struct("Prepared").field("n", &self.n()).finish_non_exhaustive()
    }
}
