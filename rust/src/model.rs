//! The model, in owned buffers, with a method for each call.

use crate::answer::{
    Class, Counts, Outcome, Places, Probe, Propagation, Rest, Rounds, RowPropagation,
};
use crate::ffi;
use crate::refusal::Refusal;
use crate::ties::{Tie, Ties};

/// The trailer's length in bytes.
const TRAILER: usize = 16;

/// What a row says (02, C-14).
#[derive(Clone, Copy, Debug, Default, PartialEq, Eq, Hash)]
#[repr(u8)] // the library reads and writes a list of them as one of kind bytes
pub enum RowKind {
    /// Sum of coefficient · variable ≤ right-hand side.
    #[default]
    AtMost = 0,
    /// Sum of coefficient · variable = right-hand side.
    Equal = 1,
}

/// One row of a model, for [`Model::rows`].
#[derive(Clone, Copy, Debug, PartialEq, Eq, Hash)]
pub struct Row<'a> {
    /// A coefficient for each variable.
    pub coefs: &'a [i32],
    pub rhs: i32,
    pub kind: RowKind,
}

/// A model and its implication table.
///
/// The library checks all numbers at every call, so the bounds may be changed freely between calls; a
/// number out of range is refused then. The lengths are right by construction.
#[derive(Clone, Debug, PartialEq, Eq, Hash)]
pub struct Model {
    n: usize,
    m: usize,
    bounds: Vec<i32>,
    coefs: Vec<i32>,
    rhs: Vec<i32>,
    kinds: Vec<RowKind>,
    table: Vec<u8>,
}

/// One call of a list, for [`Model::run`]. A field that its kind lacks may hold anything.
#[derive(Clone, Copy, Debug, PartialEq, Eq, Hash)]
#[repr(C)] // four numbers of 32 bits in this order: the library reads a list of them as one of numbers
pub struct Call {
    /// 1 to 5, as in the constructors; any other is refused.
    pub kind: u32,
    pub row: u32,
    pub variable: u32,
    pub budget: u32,
}

impl Call {
    const NOTHING: Call = Call { kind: 0, row: 0, variable: 0, budget: 0 };

    /// Kind 1, [`Model::propagate_row`] (01's visit).
    pub const fn propagate_row(row: u32) -> Self {
        Call { kind: 1, row, ..Call::NOTHING }
    }

    /// Kind 2, [`Model::propagate`] (01's settle).
    pub const fn propagate(budget: u32) -> Self {
        Call { kind: 2, budget, ..Call::NOTHING }
    }

    /// Kind 3, [`Model::probe`].
    pub const fn probe(variable: u32, budget: u32) -> Self {
        Call { kind: 3, variable, budget, ..Call::NOTHING }
    }

    /// Kind 4, [`Model::tighten_coefficient`] (01's sharpen).
    pub const fn tighten_coefficient(row: u32, variable: u32) -> Self {
        Call { kind: 4, row, variable, ..Call::NOTHING }
    }

    /// Kind 5, [`Model::remove_redundant_row`] (01's drop).
    pub const fn remove_redundant_row(row: u32) -> Self {
        Call { kind: 5, row, ..Call::NOTHING }
    }
}

/// Makes a call with a full answer.
pub(crate) fn answered<T: From<Places>>(
    call: impl FnOnce(*mut u64, usize) -> u32,
) -> Result<T, Refusal> {
    let mut answer = Places::default();
    let returned = call(answer.as_mut_ptr(), answer.len());
    Refusal::from_returned(returned)?;
    Ok(T::from(answer))
}

/// Makes a call on a model with a full answer: n, m, its bounds, coefficients and right-hand sides, and
/// kinds, each as a pointer (`as_ptr`, or `as_mut_ptr` where the call writes) and a count, then what else it
/// takes.
macro_rules! call {
    ($model:ident.$function:ident, $bounds:ident, $rows:ident, $kinds:ident $(, $more:expr)*) => {
        answered(|answer, answer_len| {
            // SAFETY: the pointers and counts are those of slices, no two of which overlap. A RowKind is a
            // byte, and a call leaves each kind byte as it was or makes it 0 by the library's contract.
            unsafe {
                ffi::$function(
                    $model.n,
                    $model.m,
                    $model.bounds.$bounds(),
                    $model.bounds.len(),
                    $model.coefs.$rows(),
                    $model.coefs.len(),
                    $model.rhs.$rows(),
                    $model.rhs.len(),
                    $model.kinds.$kinds().cast(),
                    $model.kinds.len(),
                    $($more,)*
                    answer,
                    answer_len,
                )
            }
        })
    };
}
pub(crate) use call;

/// n and m of a book, from the 16 bytes of its trailer: what a reader of files needs first.
///
/// ```
/// let book = astrolabe::Model::new(vec![0, 1, 0, 1], vec![3, 2], vec![4])?.to_book()?;
/// assert_eq!(astrolabe::book_size(&book[book.len() - 16..]), Ok((2, 1)));
/// assert_eq!(astrolabe::book_size(&book[..15]), Err(astrolabe::Refusal::BookTooShort));
/// # Ok::<(), astrolabe::Refusal>(())
/// ```
pub fn book_size(trailer: &[u8]) -> Result<(usize, usize), Refusal> {
    let [n, m, ..]: Places = answered(|answer, answer_len| {
        // SAFETY: the pointers and counts are those of a slice and an array.
        unsafe { ffi::astrolabe_book_trailer(trailer.as_ptr(), trailer.len(), answer, answer_len) }
    })?;
    // At most 128 and 120 by the library's contract.
    Ok((n as usize, m as usize))
}

/// The bytes of a book's trailer, or fewer where there are not so many.
fn last_bytes(book: &[u8]) -> &[u8] {
    &book[book.len().saturating_sub(TRAILER)..]
}

/// n and m of a sparse book, from the 16 bytes of its trailer.
pub fn sparse_size(trailer: &[u8]) -> Result<(usize, usize), Refusal> {
    let [n, m, ..]: Places = answered(|answer, answer_len| {
        // SAFETY: the pointers and counts are those of a slice and an array.
        unsafe {
            ffi::astrolabe_sparse_trailer(trailer.as_ptr(), trailer.len(), answer, answer_len)
        }
    })?;
    // At most 128 and 120 by the library's contract.
    Ok((n as usize, m as usize))
}

/// Turns a book of the first edition into a sparse one; [`sparse_to_book`] gives back the same bytes.
///
/// ```
/// let book = astrolabe::Model::new(vec![0, 1, 0, 1], vec![3, 0], vec![4])?.to_book()?;
/// let sparse = astrolabe::book_to_sparse(&book)?;
/// assert_eq!((book.len(), sparse.len()), (44, 45));
/// assert_eq!(astrolabe::sparse_to_book(&sparse)?, book);
/// # Ok::<(), astrolabe::Refusal>(())
/// ```
pub fn book_to_sparse(book: &[u8]) -> Result<Vec<u8>, Refusal> {
    let [len, ..]: Places = answered(|answer, answer_len| {
        // SAFETY: the pointers and counts are those of a slice and an array.
        unsafe {
            ffi::astrolabe_book_to_sparse_length(book.as_ptr(), book.len(), answer, answer_len)
        }
    })?;
    let mut sparse = vec![0; len as usize]; // at most 94,040 by the library's contract
    // SAFETY: the pointers and counts are those of two slices that do not overlap.
    let returned = unsafe {
        ffi::astrolabe_book_to_sparse(book.as_ptr(), book.len(), sparse.as_mut_ptr(), sparse.len())
    };
    Refusal::from_returned(returned)?;
    Ok(sparse)
}

/// Turns a sparse book whose rows are all ≤ rows into one of the first edition; [`book_to_sparse`] gives back
/// the same bytes. An = row is refused: [`Refusal::EqualityRow`].
pub fn sparse_to_book(sparse: &[u8]) -> Result<Vec<u8>, Refusal> {
    // Where the trailer is bad, no length is right, and the book's own checks come before the lengths.
    let (n, m) = sparse_size(last_bytes(sparse)).unwrap_or((0, 0));
    let mut book = vec![0; 8 * n + m * (4 + 4 * n) + TRAILER];
    // SAFETY: the pointers and counts are those of two slices that do not overlap.
    let returned = unsafe {
        ffi::astrolabe_sparse_to_book(sparse.as_ptr(), sparse.len(), book.as_mut_ptr(), book.len())
    };
    Refusal::from_returned(returned)?;
    Ok(book)
}

impl Model {
    /// A model from its flat buffers: `l0 u0 l1 u1 …` for n variables, the coefficients row after row,
    /// and m right-hand sides. All rows are ≤ rows. The implication table starts with all 0.
    ///
    /// ```
    /// use astrolabe::{Model, Refusal};
    ///
    /// let model = Model::new(vec![0, 1, 0, 1], vec![3, 2], vec![4])?;
    /// assert_eq!((model.n(), model.m()), (2, 1));
    /// assert_eq!(Model::new(vec![0, 1, 0, 1], vec![3], vec![4]), Err(Refusal::BufferLength));
    /// # Ok::<(), Refusal>(())
    /// ```
    pub fn new(bounds: Vec<i32>, coefs: Vec<i32>, rhs: Vec<i32>) -> Result<Self, Refusal> {
        let kinds = vec![RowKind::AtMost; rhs.len()];
        Model::with_kinds(bounds, coefs, rhs, kinds)
    }

    /// The same with a kind for each row. What must be met exactly is one row and not two, so that nobody
    /// can edit the one and forget the other:
    ///
    /// ```
    /// use astrolabe::{Model, Probe, Refusal, RowKind};
    ///
    /// // Receipts of 30, 25 and 20 tons for a notice of exactly 45.
    /// let (receipts, tons) = (vec![0, 1, 0, 1, 0, 1], vec![30, 25, 20]);
    /// let mut model = Model::with_kinds(receipts, tons, vec![45], vec![RowKind::Equal])?;
    /// assert!(matches!(model.probe(0, 1_000)?, Probe::Fixed { value: 0, .. }));
    /// assert_eq!(model.bounds(), [0, 0, 1, 1, 1, 1]);
    /// // A book of the first edition has no place for the kind.
    /// assert_eq!(model.to_book(), Err(Refusal::EqualityRow));
    /// # Ok::<(), Refusal>(())
    /// ```
    pub fn with_kinds(
        bounds: Vec<i32>,
        coefs: Vec<i32>,
        rhs: Vec<i32>,
        kinds: Vec<RowKind>,
    ) -> Result<Self, Refusal> {
        let (n, m) = (bounds.len() / 2, rhs.len());
        let mut model = Model { n, m, bounds, coefs, rhs, kinds, table: vec![] };
        // Row u32::MAX does not exist, and check 12 is the last of this call: it is the answer exactly
        // where the model passes all its own checks.
        match model.propagate_row(u32::MAX) {
            Err(Refusal::NoSuchRow) => {
                model.table = vec![0; 4 * n * n];
                Ok(model)
            }
            Err(refusal) => Err(refusal),
            Ok(_) => unreachable!("no model has row u32::MAX"),
        }
    }

    /// Reads a book. All its rows are ≤ rows, since a book of the first edition holds no kinds. The implication
    /// table starts with all 0: a book does not hold it.
    ///
    /// ```
    /// use astrolabe::{Model, Refusal};
    ///
    /// let model = Model::new(vec![0, 1, 0, 1], vec![3, 2], vec![4])?;
    /// let book = model.to_book()?;
    /// assert_eq!(book.len(), 44);
    /// assert_eq!(Model::from_book(&book)?, model);
    /// assert_eq!(Model::from_book(&book[1..]), Err(Refusal::BookLengthMismatch));
    /// # Ok::<(), Refusal>(())
    /// ```
    pub fn from_book(book: &[u8]) -> Result<Self, Refusal> {
        // Where the trailer is bad, reading into empty buffers says by which check of the book's own
        // order: 1 to 4 come before the lengths.
        let (n, m) = book_size(last_bytes(book)).unwrap_or((0, 0));
        let (mut bounds, mut coefs, mut rhs) = (vec![0; 2 * n], vec![0; m * n], vec![0; m]);
        let mut kinds = vec![RowKind::AtMost; m];
        let _: Places = answered(|answer, answer_len| {
            // SAFETY: the pointers and counts are those of slices, no two of which overlap. A RowKind is a
            // byte, and the call makes each kind byte 0 or leaves it by the library's contract.
            unsafe {
                ffi::astrolabe_book_read(
                    book.as_ptr(),
                    book.len(),
                    bounds.as_mut_ptr(),
                    bounds.len(),
                    coefs.as_mut_ptr(),
                    coefs.len(),
                    rhs.as_mut_ptr(),
                    rhs.len(),
                    kinds.as_mut_ptr().cast(),
                    kinds.len(),
                    answer,
                    answer_len,
                )
            }
        })?;
        Ok(Model { n, m, bounds, coefs, rhs, kinds, table: vec![0; 4 * n * n] })
    }

    /// Writes the model into a book. Reading it gives back the model, but for the table. A model with an = row
    /// has no book of this edition: [`Refusal::EqualityRow`].
    pub fn to_book(&self) -> Result<Vec<u8>, Refusal> {
        let (n, m) = (self.n, self.m);
        let mut book = vec![0; 8 * n + m * (4 + 4 * n) + TRAILER];
        // SAFETY: the pointers and counts are those of slices, no two of which overlap.
        let returned = unsafe {
            ffi::astrolabe_book_write(
                n,
                m,
                self.bounds.as_ptr(),
                self.bounds.len(),
                self.coefs.as_ptr(),
                self.coefs.len(),
                self.rhs.as_ptr(),
                self.rhs.len(),
                self.kinds.as_ptr().cast(),
                self.kinds.len(),
                book.as_mut_ptr(),
                book.len(),
            )
        };
        Refusal::from_returned(returned)?;
        Ok(book)
    }

    /// Reads a sparse book, = rows too. The implication table starts with all 0: a book does not hold it.
    ///
    /// ```
    /// use astrolabe::{Model, Refusal, RowKind};
    ///
    /// // x + 2y = 2 over three variables.
    /// let (bounds, coefs) = (vec![0, 1, 0, 1, 0, 1], vec![1, 2, 0]);
    /// let model = Model::with_kinds(bounds, coefs, vec![2], vec![RowKind::Equal])?;
    /// let book = model.to_sparse_book()?;
    /// assert_eq!(book.len(), 8 * 3 + 7 + 2 * 6 + 16);
    /// assert_eq!(Model::from_sparse_book(&book)?, model);
    /// assert_eq!(astrolabe::sparse_to_book(&book), Err(Refusal::EqualityRow));
    /// # Ok::<(), Refusal>(())
    /// ```
    pub fn from_sparse_book(book: &[u8]) -> Result<Self, Refusal> {
        let (n, m) = sparse_size(last_bytes(book)).unwrap_or((0, 0));
        let (mut bounds, mut coefs, mut rhs) = (vec![0; 2 * n], vec![0; m * n], vec![0; m]);
        let mut kinds = vec![RowKind::AtMost; m];
        let _: Places = answered(|answer, answer_len| {
            // SAFETY: the pointers and counts are those of slices, no two of which overlap. A RowKind is a
            // byte, and the call makes each kind byte 0 or 1 or leaves it by the library's contract.
            unsafe {
                ffi::astrolabe_sparse_read(
                    book.as_ptr(),
                    book.len(),
                    bounds.as_mut_ptr(),
                    bounds.len(),
                    coefs.as_mut_ptr(),
                    coefs.len(),
                    rhs.as_mut_ptr(),
                    rhs.len(),
                    kinds.as_mut_ptr().cast(),
                    kinds.len(),
                    answer,
                    answer_len,
                )
            }
        })?;
        Ok(Model { n, m, bounds, coefs, rhs, kinds, table: vec![0; 4 * n * n] })
    }

    /// Writes the model into a sparse book. Reading it gives back the model, but for the table.
    pub fn to_sparse_book(&self) -> Result<Vec<u8>, Refusal> {
        let [len, ..]: Places = call!(self.astrolabe_sparse_length, as_ptr, as_ptr, as_ptr)?;
        let mut book = vec![0; len as usize]; // at most 94,040 by the library's contract
        // SAFETY: the pointers and counts are those of slices, no two of which overlap.
        let returned = unsafe {
            ffi::astrolabe_sparse_write(
                self.n,
                self.m,
                self.bounds.as_ptr(),
                self.bounds.len(),
                self.coefs.as_ptr(),
                self.coefs.len(),
                self.rhs.as_ptr(),
                self.rhs.len(),
                self.kinds.as_ptr().cast(),
                self.kinds.len(),
                book.as_mut_ptr(),
                book.len(),
            )
        };
        Refusal::from_returned(returned)?;
        Ok(book)
    }

    /// The number of variables.
    pub fn n(&self) -> usize {
        self.n
    }

    /// The number of rows. A removed row keeps its place.
    pub fn m(&self) -> usize {
        self.m
    }

    /// The bounds: `l0 u0 l1 u1 …`.
    pub fn bounds(&self) -> &[i32] {
        &self.bounds
    }

    /// The bounds, to be changed: at a branch, or back to those of the node above.
    pub fn bounds_mut(&mut self) -> &mut [i32] {
        &mut self.bounds
    }

    /// Sets the bounds of one variable. Panics where there is no such variable.
    pub fn set_bounds(&mut self, variable: usize, lower: i32, upper: i32) {
        self.bounds[2 * variable..][..2].copy_from_slice(&[lower, upper]);
    }

    /// The coefficients, row after row.
    pub fn coefs(&self) -> &[i32] {
        &self.coefs
    }

    /// The right-hand sides.
    pub fn rhs(&self) -> &[i32] {
        &self.rhs
    }

    /// Sets the right-hand side of one row, as a search does with the best value found so far. Panics where there is no
    /// such row. What was tightened, removed or recorded before holds for the old row: where the new side is larger, start
    /// from the raw model.
    ///
    /// ```
    /// let mut model = astrolabe::Model::new(vec![0, 9], vec![2], vec![15])?; // 2x ≤ 15
    /// model.set_rhs(0, 5);
    /// model.propagate(1_000)?;
    /// assert_eq!(model.bounds(), [0, 2]);
    /// # Ok::<(), astrolabe::Refusal>(())
    /// ```
    pub fn set_rhs(&mut self, row: usize, rhs: i32) {
        self.rhs[row] = rhs;
    }

    /// The kinds.
    pub fn kinds(&self) -> &[RowKind] {
        &self.kinds
    }

    /// Makes a row a ≤ or an = row. Panics where there is no such row.
    ///
    /// ```
    /// use astrolabe::{Model, RowKind, RowPropagation};
    ///
    /// let mut model = Model::new(vec![0, 5], vec![2], vec![5])?; // 2x ≤ 5
    /// model.set_kind(0, RowKind::Equal); // 2x = 5: no whole number meets it
    /// assert_eq!(model.propagate_row(0)?, RowPropagation::Infeasible);
    /// # Ok::<(), astrolabe::Refusal>(())
    /// ```
    pub fn set_kind(&mut self, row: usize, kind: RowKind) {
        self.kinds[row] = kind;
    }

    /// The coefficients, the right-hand side and the kind of each row.
    ///
    /// ```
    /// use astrolabe::{Model, RowKind};
    ///
    /// let mut model = Model::new(vec![0, 5, 0, 5], vec![2, 0, -1, 1], vec![5, 0])?;
    /// model.set_kind(1, RowKind::Equal); // 2x ≤ 5, y − x = 0
    /// for row in model.rows() {
    ///     let sum: i32 = row.coefs.iter().zip([2, 2]).map(|(a, x)| a * x).sum();
    ///     assert!(match row.kind {
    ///         RowKind::AtMost => sum <= row.rhs,
    ///         RowKind::Equal => sum == row.rhs,
    ///     });
    /// }
    /// # Ok::<(), astrolabe::Refusal>(())
    /// ```
    pub fn rows(&self) -> impl Iterator<Item = Row<'_>> {
        let rows = self.coefs.chunks_exact(self.n).zip(&self.rhs).zip(&self.kinds);
        rows.map(|((coefs, &rhs), &kind)| Row { coefs, rhs, kind })
    }

    /// The implication table: byte `p · 2n + q` is 1 when literal p implies literal q.
    pub fn table(&self) -> &[u8] {
        &self.table
    }

    /// The table, to be changed: one that was stored, or that of another box around this one.
    pub fn table_mut(&mut self) -> &mut [u8] {
        &mut self.table
    }

    /// Makes every byte of the table 0, as it was at the start.
    pub fn reset_table(&mut self) {
        self.table.fill(0);
    }

    /// Whether "variable k is v" is recorded to imply "variable j is w". Panics where there is no such
    /// variable.
    pub fn implies(&self, k: usize, v: bool, j: usize, w: bool) -> bool {
        let literal = |k: usize, v: bool| 2 * k + usize::from(v);
        self.table[literal(k, v) * 2 * self.n..][..2 * self.n][literal(j, w)] == 1
    }

    /// Whether the box is the empty one (01's void box): every lower bound 1, every upper bound 0.
    pub fn is_empty_box(&self) -> bool {
        self.bounds.chunks_exact(2).all(|pair| pair == [1, 0])
    }

    /// Propagates one row over the box once (01's visit), and tells how many bounds it moved. An = row is
    /// propagated as its ≤ form and then as its negated form; propagated again it can move more.
    ///
    /// ```
    /// use astrolabe::{Model, RowPropagation};
    ///
    /// let mut model = Model::new(vec![-5, 5], vec![2], vec![-3])?; // 2x ≤ −3
    /// assert_eq!(model.propagate_row(0)?, RowPropagation::Tightened { moved: 1 });
    /// assert_eq!(model.bounds(), [-5, -2]);
    /// assert_eq!(model.propagate_row(0)?, RowPropagation::Unchanged);
    ///
    /// let mut model = Model::new(vec![0, 9, 0, 9], vec![2, 3], vec![11])?;
    /// model.set_kind(0, astrolabe::RowKind::Equal); // 2x + 3y = 11
    /// assert_eq!(model.propagate_row(0)?, RowPropagation::Tightened { moved: 4 });
    /// assert_eq!(model.bounds(), [1, 5, 1, 3]);
    /// # Ok::<(), astrolabe::Refusal>(())
    /// ```
    pub fn propagate_row(&mut self, row: u32) -> Result<RowPropagation, Refusal> {
        call!(self.astrolabe_propagate_row, as_mut_ptr, as_ptr, as_ptr, row)
    }

    /// Propagates all rows, pass after pass, until nothing moves or the budget's passes are made (01's
    /// settle). Converged exactly where no row would change the box; a budget is spent only where some row
    /// would still move a bound or be infeasible, so that a larger one gets further.
    ///
    /// ```
    /// use astrolabe::{Model, Propagation};
    ///
    /// // x + y ≥ 2 moves both lower bounds, then x + y ≤ 1 is infeasible.
    /// let mut model = Model::new(vec![0, 1, 0, 1], vec![-1, -1, 1, 1], vec![-2, 1])?;
    /// assert_eq!(model.propagate(1_000)?, Propagation::Infeasible { passes: 1, moved: 2 });
    /// assert!(model.is_empty_box());
    /// # Ok::<(), astrolabe::Refusal>(())
    /// ```
    pub fn propagate(&mut self, budget: u32) -> Result<Propagation, Refusal> {
        call!(self.astrolabe_propagate, as_mut_ptr, as_ptr, as_ptr, budget)
    }

    /// Probes a free binary variable: sets it to 0 and to 1, propagates each side, keeps what both have
    /// in common and records what each implies.
    ///
    /// ```
    /// use astrolabe::{Model, Probe};
    ///
    /// // x ≤ y and x + y ≤ 1: x cannot be 1.
    /// let mut model = Model::new(vec![0, 1, 0, 1], vec![1, -1, 1, 1], vec![0, 1])?;
    /// assert!(matches!(model.probe(0, 1_000)?, Probe::Fixed { value: 0, .. }));
    /// assert_eq!(model.bounds(), [0, 0, 0, 1]);
    ///
    /// // x + y ≤ 1: x = 1 implies y = 0, and y = 1 implies x = 0.
    /// let mut model = Model::new(vec![0, 1, 0, 1], vec![1, 1], vec![1])?;
    /// assert!(matches!(model.probe(0, 1_000)?, Probe::BothFeasible { new_implications: 2, .. }));
    /// assert!(model.implies(0, true, 1, false) && model.implies(1, true, 0, false));
    /// # Ok::<(), astrolabe::Refusal>(())
    /// ```
    pub fn probe(&mut self, variable: u32, budget: u32) -> Result<Probe, Refusal> {
        call!(
            self.astrolabe_probe,
            as_mut_ptr,
            as_ptr,
            as_ptr,
            self.table.as_mut_ptr(),
            self.table.len(),
            variable,
            budget
        )
    }

    /// Tightens the coefficient of a free binary variable in a row (01's sharpen). The row then holds
    /// for this box and those inside it only: do not carry it over to another branch. An = row stays as it
    /// is.
    ///
    /// ```
    /// use astrolabe::{Model, Outcome};
    ///
    /// let mut model = Model::new(vec![0, 1, 0, 1], vec![3, 2], vec![4])?; // 3x + 2y ≤ 4
    /// assert_eq!(model.tighten_coefficient(0, 0)?, Outcome::Changed);
    /// assert_eq!((model.coefs(), model.rhs()), (&[1, 2][..], &[2][..])); // x + 2y ≤ 2
    /// # Ok::<(), astrolabe::Refusal>(())
    /// ```
    pub fn tighten_coefficient(&mut self, row: u32, variable: u32) -> Result<Outcome, Refusal> {
        call!(self.astrolabe_tighten_coefficient, as_ptr, as_mut_ptr, as_ptr, row, variable)
    }

    /// Zeroes a row that the box alone implies (01's drop), and makes it a ≤ row. It is gone for this box and
    /// those inside it only: do not carry that over to another branch. An = row is implied only where its sum
    /// is its right-hand side at every point of the box.
    ///
    /// ```
    /// use astrolabe::{Model, Outcome};
    ///
    /// let mut model = Model::new(vec![0, 1, 0, 1], vec![3, 2], vec![5])?; // 3x + 2y ≤ 5
    /// assert_eq!(model.remove_redundant_row(0)?, Outcome::Changed);
    /// assert_eq!((model.coefs(), model.rhs()), (&[0, 0][..], &[0][..]));
    /// # Ok::<(), astrolabe::Refusal>(())
    /// ```
    pub fn remove_redundant_row(&mut self, row: u32) -> Result<Outcome, Refusal> {
        call!(self.astrolabe_remove_redundant_row, as_ptr, as_mut_ptr, as_mut_ptr, row)
    }

    /// Whether the box is a probing fixpoint (01's at rest): it is empty, or no row and no probe carried
    /// to its end narrows or fixes anything. Two searches that end in a probing fixpoint of the same
    /// model end in the same box, whatever their orders and budgets. A no carries the lowest row that
    /// changes the box or, if none does, the lowest variable that a probe would narrow or fix something by.
    ///
    /// ```
    /// use astrolabe::{Model, Rest};
    ///
    /// // x ≤ y and x + y ≤ 1: no row moves a bound, but probing x would fix it.
    /// let model = Model::new(vec![0, 1, 0, 1], vec![1, -1, 1, 1], vec![0, 1])?;
    /// assert_eq!(model.is_probing_fixpoint()?, Rest::NoByVariable(0));
    /// # Ok::<(), astrolabe::Refusal>(())
    /// ```
    pub fn is_probing_fixpoint(&self) -> Result<Rest, Refusal> {
        call!(self.astrolabe_is_probing_fixpoint, as_ptr, as_ptr, as_ptr)
    }

    /// Makes the calls of a list one after another (01's run sheet). A refused one changes nothing, and
    /// the run goes on. A list changes bounds and implications only: a call of kind 4 or 5 is refused
    /// ([`Refusal::RetiredKind`]), so tighten and remove by direct calls before two branches part.
    ///
    /// ```
    /// use astrolabe::{Call, Counts, Model};
    ///
    /// let mut model = Model::new(vec![0, 5, 0, 5], vec![2, 0, -1, 1], vec![5, 0])?;
    /// let calls = [Call::propagate_row(1), Call::propagate_row(0), Call::propagate_row(7)];
    /// let counts = Counts { refused: 1, infeasible: 0, changed: 1, unchanged: 1 };
    /// assert_eq!(model.run(&calls)?, counts);
    /// # Ok::<(), astrolabe::Refusal>(())
    /// ```
    pub fn run(&mut self, calls: &[Call]) -> Result<Counts, Refusal> {
        // A Call is four u32 in a row, so k of them are 4k numbers.
        call!(
            self.astrolabe_run,
            as_mut_ptr,
            as_ptr,
            as_ptr,
            self.table.as_mut_ptr(),
            self.table.len(),
            calls.as_ptr().cast(),
            4 * calls.len()
        )
    }

    /// As [`run`](Model::run), and what each call did, in the list's order: the counts are the counts of these
    /// classes.
    ///
    /// ```
    /// use astrolabe::{Call, Class, Model};
    ///
    /// let mut model = Model::new(vec![0, 5, 0, 5], vec![2, 0, -1, 1], vec![5, 0])?;
    /// let calls = [Call::propagate_row(1), Call::propagate_row(0), Call::propagate_row(7)];
    /// let (counts, classes) = model.run_classes(&calls)?;
    /// assert_eq!(classes, [Class::Unchanged, Class::Changed, Class::Refused]);
    /// assert_eq!((counts.unchanged, counts.changed, counts.refused), (1, 1, 1));
    /// # Ok::<(), astrolabe::Refusal>(())
    /// ```
    pub fn run_classes(&mut self, calls: &[Call]) -> Result<(Counts, Vec<Class>), Refusal> {
        let mut classes = vec![Class::Refused; calls.len()];
        // A Class is a byte, and the call writes bytes from 0 to 3 only, by the library's contract.
        let counts = call!(
            self.astrolabe_run_classes,
            as_mut_ptr,
            as_ptr,
            as_ptr,
            self.table.as_mut_ptr(),
            self.table.len(),
            calls.as_ptr().cast(),
            4 * calls.len(),
            classes.as_mut_ptr().cast(),
            classes.len()
        )?;
        Ok((counts, classes))
    }

    /// Makes the rounds of the program `reduce`: propagate, remove redundant rows, tighten, probe; until
    /// a round changes nothing, `limit` rounds are made, or the model is infeasible. [`NO_LIMIT`](crate::NO_LIMIT)
    /// is never reached: the rounds of every model end below it.
    ///
    /// ```
    /// use astrolabe::{Model, Rounds};
    ///
    /// let mut model = Model::new(vec![0, 1, 0, 1], vec![3, 2], vec![4])?; // 3x + 2y ≤ 4
    /// assert_eq!(model.rounds(8)?, Rounds::Unchanged { rounds: 2, spent: false });
    /// assert_eq!((model.coefs(), model.rhs()), (&[1, 1][..], &[1][..])); // x + y ≤ 1
    /// # Ok::<(), astrolabe::Refusal>(())
    /// ```
    pub fn rounds(&mut self, limit: u64) -> Result<Rounds, Refusal> {
        call!(
            self.astrolabe_rounds,
            as_mut_ptr,
            as_mut_ptr,
            as_mut_ptr,
            self.table.as_mut_ptr(),
            self.table.len(),
            limit
        )
    }

    /// Checks the model and writes it into a workspace, for [`Prepared`](crate::Prepared).
    pub(crate) fn prepare_into(&self, workspace: &mut [u32]) -> Result<(), Refusal> {
        // SAFETY: the pointers and counts are those of slices, no two of which overlap.
        let returned = unsafe {
            ffi::astrolabe_prepare(
                self.n,
                self.m,
                self.bounds.as_ptr(),
                self.bounds.len(),
                self.coefs.as_ptr(),
                self.coefs.len(),
                self.rhs.as_ptr(),
                self.rhs.len(),
                self.kinds.as_ptr().cast(),
                self.kinds.len(),
                workspace.as_mut_ptr(),
                workspace.len(),
            )
        };
        Refusal::from_returned(returned)
    }

    /// Ties variable j to variable k where the implications say that j always equals k, or always 1 − k: puts that
    /// into every row, so that no row has j any more, and records it in the list. From a table that calls on this
    /// model filled, and the list as they left it, the integer points that meet the ties too stay exactly what they
    /// were. The bounds of j stay 0 and 1: [`Ties::expand`] writes its value.
    ///
    /// Where they say both, j is taken as k. Unchanged where they say neither, where k is j, where either is not free
    /// binary or is replaced already, and where a coefficient or right-hand side would leave its limits. Make ties
    /// before two branches part, and give each branch its copy of the list.
    ///
    /// ```
    /// use astrolabe::{Model, Tie, Ties};
    ///
    /// // x + y ≤ 1 and x + y ≥ 1: y is 1 − x. And 2x + 3y + z ≤ 4.
    /// let coefs = vec![1, 1, 0, -1, -1, 0, 2, 3, 1];
    /// let mut model = Model::new(vec![0, 1, 0, 1, 0, 1], coefs, vec![1, -1, 4])?;
    /// let mut ties = Ties::new(3);
    /// assert_eq!(model.tie(&mut ties, 0, 1)?, Tie::Unchanged); // nothing is said yet
    /// model.probe(0, 1_000)?;
    /// assert_eq!(model.tie(&mut ties, 0, 1)?, Tie::Tied);
    /// assert_eq!((&model.coefs()[6..], model.rhs()), (&[-1, 0, 1][..], &[0, 0, 1][..])); // −x + z ≤ 1
    /// assert_eq!(ties.literal(1), Some((0, false)));
    /// # Ok::<(), astrolabe::Refusal>(())
    /// ```
    pub fn tie(&mut self, ties: &mut Ties, k: u32, j: u32) -> Result<Tie, Refusal> {
        call!(
            self.astrolabe_tie,
            as_ptr,
            as_mut_ptr,
            as_ptr,
            self.table.as_ptr(),
            self.table.len(),
            ties.places.as_mut_ptr(),
            ties.places.len(),
            k,
            j
        )
    }
}
