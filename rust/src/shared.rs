//! Rows that many boxes share: a search keeps one copy of the rows and a box for each node.

use crate::answer::{Class, Counts, Probe, Propagation, Rest, RowPropagation};
use crate::ffi;
use crate::model::{Call, Model, RowKind, answered, call};
use crate::refusal::Refusal;

/// The rows of a [`Model`], lent to boxes and tables that stand on their own. It is three slices and can be copied;
/// threads may share it. The calls that it has are those that change no row.
///
/// A box is `l0 u0 l1 u1 …` of 2n numbers, a table 4n² bytes that start with all 0; each is checked at every call, as
/// the rows are.
///
/// ```
/// use astrolabe::{Model, Propagation};
///
/// let model = Model::new(vec![0, 1, 0, 1, 0, 1], vec![2, 3, 4], vec![5])?; // 2x + 3y + 4z ≤ 5
/// let rows = model.shared_rows();
/// let (mut left, mut right) = ([0, 1, 0, 1, 0, 0], [0, 1, 0, 1, 1, 1]); // z is 0, z is 1
/// std::thread::scope(|threads| {
///     threads.spawn(|| rows.propagate(&mut left, 1_000));
///     threads.spawn(|| rows.propagate(&mut right, 1_000));
/// });
/// assert_eq!((left, right), ([0, 1, 0, 1, 0, 0], [0, 0, 0, 0, 1, 1]));
///
/// let mut table = vec![0; model.table().len()]; // one of its own, which another box can go on with
/// let mut root = model.bounds().to_vec();
/// rows.probe(&mut root, &mut table, 2, 1_000)?;
/// assert_eq!(table.iter().filter(|&&byte| byte == 1).count(), 4); // z is 1: x and y are 0; x or y is 1: z is 0
/// # Ok::<(), astrolabe::Refusal>(())
/// ```
#[derive(Clone, Copy, Debug, PartialEq, Eq, Hash)]
pub struct Rows<'a> {
    n: usize,
    m: usize,
    coefs: &'a [i32],
    rhs: &'a [i32],
    kinds: &'a [RowKind],
}

/// The rows with a box, in the form that `call!` reads.
struct Lent<'a, B> {
    n: usize,
    m: usize,
    bounds: B,
    coefs: &'a [i32],
    rhs: &'a [i32],
    kinds: &'a [RowKind],
}

impl Model {
    /// The rows, to be shared by many boxes without a clone.
    pub fn shared_rows(&self) -> Rows<'_> {
        let (coefs, rhs, kinds) = (self.coefs(), self.rhs(), self.kinds());
        Rows { n: self.n(), m: self.m(), coefs, rhs, kinds }
    }
}

impl<'a> Rows<'a> {
    fn with<B>(self, bounds: B) -> Lent<'a, B> {
        let Rows { n, m, coefs, rhs, kinds } = self;
        Lent { n, m, bounds, coefs, rhs, kinds }
    }

    /// As [`Model::propagate_row`], on this box.
    pub fn propagate_row(self, bounds: &mut [i32], row: u32) -> Result<RowPropagation, Refusal> {
        let model = self.with(bounds);
        call!(model.astrolabe_propagate_row, as_mut_ptr, as_ptr, as_ptr, row)
    }

    /// As [`Model::propagate`], on this box.
    pub fn propagate(self, bounds: &mut [i32], budget: u32) -> Result<Propagation, Refusal> {
        let model = self.with(bounds);
        call!(model.astrolabe_propagate, as_mut_ptr, as_ptr, as_ptr, budget)
    }

    /// As [`Model::probe`], on this box and this table.
    pub fn probe(
        self,
        bounds: &mut [i32],
        table: &mut [u8],
        variable: u32,
        budget: u32,
    ) -> Result<Probe, Refusal> {
        let model = self.with(bounds);
        call!(
            model.astrolabe_probe,
            as_mut_ptr,
            as_ptr,
            as_ptr,
            table.as_mut_ptr(),
            table.len(),
            variable,
            budget
        )
    }

    /// As [`Model::is_probing_fixpoint`], of this box.
    pub fn is_probing_fixpoint(self, bounds: &[i32]) -> Result<Rest, Refusal> {
        let model = self.with(bounds);
        call!(model.astrolabe_is_probing_fixpoint, as_ptr, as_ptr, as_ptr)
    }

    /// As [`Model::run_classes`], on this box and this table.
    pub fn run_classes(
        self,
        bounds: &mut [i32],
        table: &mut [u8],
        calls: &[Call],
    ) -> Result<(Counts, Vec<Class>), Refusal> {
        let model = self.with(bounds);
        let mut classes = vec![Class::Refused; calls.len()];
        // A Class is a byte, and the call writes bytes from 0 to 3 only, by the library's contract.
        let counts = call!(
            model.astrolabe_run_classes,
            as_mut_ptr,
            as_ptr,
            as_ptr,
            table.as_mut_ptr(),
            table.len(),
            calls.as_ptr().cast(),
            4 * calls.len(),
            classes.as_mut_ptr().cast(),
            classes.len()
        )?;
        Ok((counts, classes))
    }

    /// As [`Model::run`], on this box and this table.
    pub fn run(
        self,
        bounds: &mut [i32],
        table: &mut [u8],
        calls: &[Call],
    ) -> Result<Counts, Refusal> {
        let model = self.with(bounds);
        // A Call is four u32 in a row, so k of them are 4k numbers.
        call!(
            model.astrolabe_run,
            as_mut_ptr,
            as_ptr,
            as_ptr,
            table.as_mut_ptr(),
            table.len(),
            calls.as_ptr().cast(),
            4 * calls.len()
        )
    }
}
