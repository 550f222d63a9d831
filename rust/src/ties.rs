//! Tied variables: the list that says which variable stands for which, and how a solution is read back.

use std::error::Error;
use std::fmt;

use crate::refusal::Refusal;

/// What [`Model::tie`](crate::Model::tie) did.
#[derive(Clone, Copy, Debug, PartialEq, Eq, Hash)]
pub enum Tie {
    /// The variable was put away: it is in no row now, and the list says what it is.
    Tied,
    /// Nothing changed (02's Same).
    Unchanged,
}

/// The tie list of a model: for each variable a place of 16 bits, 0 where it is not replaced, else 1 plus the
/// number of the literal that holds just when it is 1.
///
/// It stands beside the [`Model`](crate::Model): after a tie the model's integer points are those of its box and
/// rows that meet the ties too. No book holds it, so whoever stores the book of a tied model stores
/// [`places`](Ties::places) with it, and takes it up again by [`from_places`](Ties::from_places).
///
/// ```
/// use astrolabe::{Model, RowKind, Tie, Ties};
///
/// // Two receipts of one car, x = y, and a third: 2x + 3y + z ≤ 5.
/// let (bounds, coefs) = (vec![0, 1, 0, 1, 0, 1], vec![1, -1, 0, 2, 3, 1]);
/// let mut model = Model::with_kinds(bounds, coefs, vec![0, 5], vec![RowKind::Equal, RowKind::AtMost])?;
/// let mut ties = Ties::new(model.n());
/// model.probe(0, 1_000)?;
/// assert_eq!(model.tie(&mut ties, 0, 1)?, Tie::Tied);
/// assert_eq!(model.coefs(), [0, 0, 0, 5, 0, 1]); // 5x + z ≤ 5: y is in no row
/// assert_eq!(ties.literal(1), Some((0, true))); // y is 1 just when x is 1
///
/// let mut solution = [1, 0, 0]; // the solver's, in which y means nothing
/// ties.expand(&mut solution)?;
/// assert_eq!(solution, [1, 1, 0]);
/// # Ok::<(), Box<dyn std::error::Error>>(())
/// ```
#[derive(Clone, Debug, PartialEq, Eq, Hash)]
pub struct Ties {
    pub(crate) places: Vec<u16>,
}

/// A tie list from elsewhere in which variables are tied in a circle, so that none of them has a value to take.
/// Calls of [`Model::tie`](crate::Model::tie) on a list without ties never make such a list.
#[derive(Clone, Copy, Debug, PartialEq, Eq, Hash)]
pub struct CircularTies {
    /// The lowest variable whose ties lead into a circle.
    pub variable: usize,
}

impl fmt::Display for CircularTies {
    fn fmt(&self, f: &mut fmt::Formatter) -> fmt::Result {
        write!(f, "the ties of variable {} lead into a circle", self.variable)
    }
}

impl Error for CircularTies {}

impl Ties {
    /// The list of a model of n variables in which none is tied.
    pub fn new(n: usize) -> Self {
        Ties { places: vec![0; n] }
    }

    /// A stored list. Refused by check 21 where a place is above 2n; that no two variables are tied in a circle is
    /// not looked at.
    ///
    /// ```
    /// use astrolabe::{Refusal, Ties};
    ///
    /// let ties = Ties::from_places(vec![0, 1, 4])?; // variable 1 is 1 − variable 0, variable 2 is variable 1
    /// assert_eq!((ties.literal(1), ties.literal(2)), (Some((0, false)), Some((1, true))));
    /// assert_eq!(Ties::from_places(vec![0, 5]), Err(Refusal::TiePlace));
    /// # Ok::<(), Refusal>(())
    /// ```
    pub fn from_places(places: Vec<u16>) -> Result<Self, Refusal> {
        let most = 2 * places.len();
        if places.iter().any(|&place| usize::from(place) > most) {
            return Err(Refusal::TiePlace);
        }
        Ok(Ties { places })
    }

    /// The places, to be stored beside the model's book.
    pub fn places(&self) -> &[u16] {
        &self.places
    }

    /// The variable k and the value v for which variable j is 1 just when k is v: j equals k where v is 1 (true),
    /// and 1 − k where v is 0. `None` where j is not replaced. Panics where there is no such variable.
    pub fn literal(&self, j: usize) -> Option<(usize, bool)> {
        let literal = usize::from(self.places[j]).checked_sub(1)?;
        Some((literal / 2, literal % 2 == 1))
    }

    /// Writes each replaced variable's value into a point: that of the variable k that it is tied to, or 1 minus it.
    /// Where k is replaced itself its own tie is followed first, to the variable that still stands in the rows.
    /// What the point has in the places of replaced variables is not read.
    ///
    /// A list from elsewhere may tie variables in a circle. Then nothing is written, and the lowest variable that
    /// leads into a circle is told. Panics where the point has not one value for each variable.
    ///
    /// ```
    /// use astrolabe::{CircularTies, Ties};
    ///
    /// // Variable 0 is variable 2, variable 1 is 1 − variable 0.
    /// let ties = Ties::from_places(vec![6, 1, 0])?;
    /// let mut point = [9, 9, 1];
    /// ties.expand(&mut point)?;
    /// assert_eq!(point, [1, 0, 1]);
    ///
    /// // Variables 1 and 2 are each the other.
    /// let circle = Ties::from_places(vec![0, 6, 4])?;
    /// assert_eq!(circle.expand(&mut point), Err(CircularTies { variable: 1 }));
    /// assert_eq!(point, [1, 0, 1]);
    /// # Ok::<(), Box<dyn std::error::Error>>(())
    /// ```
    pub fn expand(&self, point: &mut [i32]) -> Result<(), CircularTies> {
        assert_eq!(point.len(), self.places.len(), "a value for each variable");
        let values: Vec<i32> =
            (0..point.len()).map(|j| self.value(point, j)).collect::<Result<_, _>>()?;
        point.copy_from_slice(&values);
        Ok(())
    }

    /// The value of variable j by its ties. A way of more ties than there are variables is in a circle.
    fn value(&self, point: &[i32], j: usize) -> Result<i32, CircularTies> {
        let (mut at, mut opposite) = (j, false);
        for _ in 0..=self.places.len() {
            match self.literal(at) {
                Some((k, equal)) => (at, opposite) = (k, opposite == equal),
                // No bound is near the ends of an i32, so nothing wraps where the point is in a box.
                None if opposite => return Ok(1_i32.wrapping_sub(point[at])),
                None => return Ok(point[at]),
            }
        }
        Err(CircularTies { variable: j })
    }
}
