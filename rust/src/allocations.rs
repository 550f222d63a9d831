//! Proposed allocations held against a model (02, C-21).

use crate::ffi;
use crate::model::Model;
use crate::refusal::Refusal;

/// The most proposals of one call.
pub const MAX_PROPOSALS: usize = 64;

/// What a proposal gets.
#[derive(Clone, Copy, Debug, PartialEq, Eq, Hash)]
pub enum Verdict {
    /// It is an integer point of the model.
    Inside,
    /// It is outside the box; this is the lowest variable that is not between its bounds.
    Outside { variable: usize },
    /// It is inside the box; this is the lowest row that does not hold.
    Breaks { row: usize },
}

impl Verdict {
    pub fn is_inside(self) -> bool {
        self == Verdict::Inside
    }

    fn from_told(told: &[u32]) -> Self {
        match told {
            [0, _] => Verdict::Inside,
            &[1, variable] => Verdict::Outside { variable: variable as usize },
            &[_, row] => Verdict::Breaks { row: row as usize },
            _ => unreachable!("two numbers a verdict"),
        }
    }
}

impl Model {
    /// Holds up to 64 proposals, each a number for each variable, against the model: box and rows, by the
    /// rows' kinds. Each gets what it alone would get; the rows are read once for all of them.
    ///
    /// A proposal is inside exactly if it is an integer point, so it gets the same yes or no against a model
    /// and against what its other methods made of it:
    ///
    /// ```
    /// use astrolabe::{Model, Refusal, Verdict};
    ///
    /// let raw = Model::new(vec![0, 1, 0, 1], vec![3, 2], vec![4])?; // 3x + 2y ≤ 4
    /// let mut reduced = raw.clone();
    /// reduced.rounds(8)?; // x + y ≤ 1
    /// let receipts = [[1, 0], [0, 2], [1, 1]];
    /// let verdicts = raw.check_allocations(&receipts)?;
    /// let expected =
    ///     [Verdict::Inside, Verdict::Outside { variable: 1 }, Verdict::Breaks { row: 0 }];
    /// assert_eq!(verdicts, expected);
    /// assert_eq!(reduced.check_allocations(&receipts)?, expected);
    /// assert_eq!(raw.check_allocations(&[[0, 0]; 65]), Err(Refusal::ProposalCount));
    /// # Ok::<(), Refusal>(())
    /// ```
    pub fn check_allocations(
        &self,
        proposals: &[impl AsRef<[i32]>],
    ) -> Result<Vec<Verdict>, Refusal> {
        let fits = proposals.iter().all(|proposal| proposal.as_ref().len() == self.n());
        // One of another length is refused by the length of the whole: the library sees no numbers at all.
        let flat: Vec<i32> = match fits {
            true => proposals.iter().flat_map(AsRef::as_ref).copied().collect(),
            false => Vec::new(),
        };
        let mut told = vec![0; 2 * proposals.len()];
        // SAFETY: the pointers and counts are those of slices, and the one that is written overlaps no
        // other. A RowKind is a byte.
        let returned = unsafe {
            ffi::astrolabe_check_allocations(
                self.n(),
                self.m(),
                self.bounds().as_ptr(),
                self.bounds().len(),
                self.coefs().as_ptr(),
                self.coefs().len(),
                self.rhs().as_ptr(),
                self.rhs().len(),
                self.kinds().as_ptr().cast(),
                self.kinds().len(),
                flat.as_ptr(),
                flat.len(),
                u32::try_from(proposals.len()).unwrap_or(u32::MAX),
                told.as_mut_ptr(),
                told.len(),
            )
        };
        Refusal::from_returned(returned)?;
        Ok(told.chunks_exact(2).map(Verdict::from_told).collect())
    }
}
