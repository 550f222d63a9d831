//! Why a call was refused.

use std::error::Error;
use std::fmt;

/// The first check that failed. A refused call changes nothing.
///
/// The discriminants are the check numbers of the specification and of its requests. The checks are made
/// in the order of the numbers but for [`Refusal::ProposalCount`], 22, which comes straight before 5,
/// [`Refusal::VariableTooWide`], 23, which comes straight after 7,
/// [`Refusal::RowKind`] and [`Refusal::EqualityRow`], 16 and 17, which come after 9 and before 10,
/// [`Refusal::TiePlace`], 21, which comes straight after 10, [`Refusal::RetiredKind`], 18, which comes
/// straight after 11, and [`Refusal::SparseColumn`] and [`Refusal::SparseZero`], 19 and 20, which come after 4
/// and before 5, the entry read first deciding:
///
/// ```
/// use astrolabe::{Model, Refusal};
///
/// let refusal = Model::new(vec![0, 40_000], vec![], vec![]).unwrap_err();
/// assert_eq!(refusal, Refusal::BoundOutOfRange);
/// assert_eq!(refusal.check(), 6);
/// assert_eq!(refusal.to_string(), "refused by check 6: a bound is outside -32768 to 32767");
/// ```
#[derive(Clone, Copy, Debug, PartialEq, Eq, Hash, PartialOrd, Ord)]
#[repr(u32)]
pub enum Refusal {
    /// The book has under 16 bytes.
    BookTooShort = 1,
    /// The trailer's length is not the book's.
    BookLengthMismatch = 2,
    /// n is not 1 to 128, or m is over 120.
    SizeOutOfRange = 3,
    /// An offset or the length in the trailer is not what n and m give.
    BookLayout = 4,
    /// A buffer has not exactly the length needed.
    BufferLength = 5,
    /// A bound is outside −32,768 to 32,767.
    BoundOutOfRange = 6,
    /// A lower bound is above its upper in a box that is not the empty one.
    BoundsCrossed = 7,
    /// A coefficient is outside −1,000,000 to 1,000,000.
    CoefficientOutOfRange = 8,
    /// A right-hand side is outside −1,000,000,000 to 1,000,000,000.
    RightHandSideOutOfRange = 9,
    /// A table byte is neither 0 nor 1.
    TableByte = 10,
    /// The kind of a call is not 1 to 5.
    UnknownKind = 11,
    /// The row is not below m.
    NoSuchRow = 12,
    /// The variable is not below n.
    NoSuchVariable = 13,
    /// The variable is not free binary (its bounds are not 0 and 1).
    VariableNotFree = 14,
    /// The budget is not 1 to 8,388,481.
    BudgetOutOfRange = 15,
    /// A kind byte is above 1. A [`Model`](crate::Model) cannot have one; lent to [`ffi`](crate::ffi) it is
    /// refused.
    RowKind = 16,
    /// An = row was to be written into a book of the first edition, which has no place for its kind.
    EqualityRow = 17,
    /// A call of a list has kind 4 or 5, which change a row. It counts as refused; make such calls directly,
    /// by [`Model::tighten_coefficient`](crate::Model::tighten_coefficient) and
    /// [`Model::remove_redundant_row`](crate::Model::remove_redundant_row).
    RetiredKind = 18,
    /// Of a sparse book: a column is not below n, or not above the one before.
    SparseColumn = 19,
    /// Of a sparse book: the coefficient of an entry is 0.
    SparseZero = 20,
    /// A place of a tie list is above 2n: it names no literal.
    TiePlace = 21,
    /// The count of proposals is not 1 to 64.
    ProposalCount = 22,
    /// A variable's upper bound is more than 4,096 above its lower. A stored book that is refused by it
    /// has to be retyped: see `docs/INTEGRATION.md`.
    VariableTooWide = 23,
}

impl Refusal {
    const ALL: [Refusal; 23] = [
        Refusal::BookTooShort,
        Refusal::BookLengthMismatch,
        Refusal::SizeOutOfRange,
        Refusal::BookLayout,
        Refusal::BufferLength,
        Refusal::BoundOutOfRange,
        Refusal::BoundsCrossed,
        Refusal::CoefficientOutOfRange,
        Refusal::RightHandSideOutOfRange,
        Refusal::TableByte,
        Refusal::UnknownKind,
        Refusal::NoSuchRow,
        Refusal::NoSuchVariable,
        Refusal::VariableNotFree,
        Refusal::BudgetOutOfRange,
        Refusal::RowKind,
        Refusal::EqualityRow,
        Refusal::RetiredKind,
        Refusal::SparseColumn,
        Refusal::SparseZero,
        Refusal::TiePlace,
        Refusal::ProposalCount,
        Refusal::VariableTooWide,
    ];

    /// The number of the check.
    pub fn check(self) -> u32 {
        self as u32
    }

    /// What a call of the library returned: 0 is accepted, else a check's number.
    pub(crate) fn from_returned(number: u32) -> Result<(), Refusal> {
        if number == 0 {
            return Ok(());
        }
        match Refusal::ALL.into_iter().find(|refusal| refusal.check() == number) {
            Some(refusal) => Err(refusal),
            None => unreachable!("the library returned {number}, which its contract rules out"),
        }
    }

    fn reason(self) -> &'static str {
        match self {
            Refusal::BookTooShort => "the book has under 16 bytes",
            Refusal::BookLengthMismatch => "the trailer's length is not the book's",
            Refusal::SizeOutOfRange => "n is not 1 to 128, or m is over 120",
            Refusal::BookLayout => "an offset or the length is not what n and m give",
            Refusal::BufferLength => "a buffer has not exactly the length needed",
            Refusal::BoundOutOfRange => "a bound is outside -32768 to 32767",
            Refusal::BoundsCrossed => "a lower bound is above its upper in a box that is not empty",
            Refusal::CoefficientOutOfRange => "a coefficient is outside -1000000 to 1000000",
            Refusal::RightHandSideOutOfRange => {
                "a right-hand side is outside -1000000000 to 1000000000"
            }
            Refusal::TableByte => "a table byte is neither 0 nor 1",
            Refusal::UnknownKind => "the kind is not 1 to 5",
            Refusal::NoSuchRow => "the row is not below m",
            Refusal::NoSuchVariable => "the variable is not below n",
            Refusal::VariableNotFree => "the variable is not free binary",
            Refusal::BudgetOutOfRange => "the budget is not 1 to 8388481",
            Refusal::RowKind => "a kind byte is above 1",
            Refusal::EqualityRow => "a book of the first edition holds no = row",
            Refusal::RetiredKind => "the kind is retired from call lists",
            Refusal::SparseColumn => "a column is not below n or not above the one before",
            Refusal::SparseZero => "an entry of a sparse book has the coefficient 0",
            Refusal::TiePlace => "a place of the tie list is above 2n",
            Refusal::ProposalCount => "the count of proposals is not 1 to 64",
            Refusal::VariableTooWide => "a variable is over 4096 wide",
        }
    }
}

impl fmt::Display for Refusal {
    fn fmt(&self, f: &mut fmt::Formatter) -> fmt::Result {
        write!(f, "refused by check {}: {}", self.check(), self.reason())
    }
}

impl Error for Refusal {}

#[cfg(test)]
mod tests {
    use super::Refusal;

    #[test]
    fn each_number_gives_its_own_refusal() {
        assert_eq!(Refusal::from_returned(0), Ok(()));
        for number in 1..=23 {
            assert_eq!(Refusal::from_returned(number).unwrap_err().check(), number);
        }
    }
}
