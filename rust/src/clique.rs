//! Clique rows (02, C-12): rows over literals of which at most one can be true.

use crate::ffi;
use crate::model::answered;
use crate::{Model, Refusal};

/// A row that says that at most one of some literals is true: the sum of the variables meant at 1, less the
/// sum of those meant at 0, is at most 1 less the number of the latter.
#[derive(Clone, Debug, PartialEq, Eq, Hash)]
pub struct Clique {
    /// A coefficient for each variable: 1 where it is meant at 1, −1 where at 0, else 0.
    pub coefs: Vec<i32>,
    pub rhs: i32,
}

impl Clique {
    /// The literals: each variable of the clique with the value that it is meant at.
    pub fn literals(&self) -> impl Iterator<Item = (usize, bool)> {
        let value = |(j, &a): (usize, &i32)| (a != 0).then_some((j, a > 0));
        self.coefs.iter().enumerate().filter_map(value)
    }
}

/// How many rows were written.
struct Number(usize);

impl From<[u64; ffi::ANSWER_LEN]> for Number {
    fn from([number, ..]: [u64; ffi::ANSWER_LEN]) -> Self {
        Number(number as usize) // at most 2n by the library's contract
    }
}

impl Model {
    /// The clique rows of the implication table, in the order in which they are grown from the literals; no
    /// literal could be added to one.
    ///
    /// They can be added to the model: every integer point meets them, and a relaxation is often cut by them.
    /// That holds of the points of the model in whose bounds the table was filled: after bounds were narrowed
    /// for a branch and variables were probed there, the rows hold in that branch.
    ///
    /// ```
    /// use astrolabe::{Clique, Model};
    ///
    /// // x + y ≤ 1, x + z ≤ 1 and y + z ≤ 1 together say x + y + z ≤ 1.
    /// let pairs = vec![1, 1, 0, 1, 0, 1, 0, 1, 1];
    /// let mut model = Model::new([0, 1].repeat(3), pairs, vec![1, 1, 1])?;
    /// assert_eq!(model.cliques()?, []);
    /// for variable in 0..3 {
    ///     model.probe(variable, 1_000)?;
    /// }
    /// assert_eq!(model.cliques()?, [Clique { coefs: vec![1, 1, 1], rhs: 1 }]);
    /// # Ok::<(), astrolabe::Refusal>(())
    /// ```
    pub fn cliques(&self) -> Result<Vec<Clique>, Refusal> {
        let (n, table) = (self.n(), self.table());
        let (mut coefs, mut rhs) = (vec![0; 2 * n * n], vec![0; 2 * n]);
        let Number(number) = answered(|answer, answer_len| {
            // SAFETY: the pointers and counts are those of slices and an array, no two of which overlap.
            unsafe {
                ffi::astrolabe_cliques(
                    n,
                    table.as_ptr(),
                    table.len(),
                    coefs.as_mut_ptr(),
                    coefs.len(),
                    rhs.as_mut_ptr(),
                    rhs.len(),
                    answer,
                    answer_len,
                )
            }
        })?;
        let row = |(coefs, rhs): (&[i32], i32)| Clique { coefs: coefs.to_vec(), rhs };
        Ok(coefs.chunks(n).zip(rhs).take(number).map(row).collect())
    }
}
