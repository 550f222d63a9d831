//! A refusal of the library as a sentence: the library says which check failed, this looks for the number that fails it.
//!
//! It only reads; what it does not find is told in the wrapper's words.

use crate::failure::Failure;
use astrolabe::{MAX_ROWS, MAX_VARIABLES, MAX_WIDTH, Model, Refusal, RowKind};

/// The names of the variables and of the model's rows.
#[derive(Clone, Debug, Default, PartialEq, Eq)]
pub struct Names {
    pub columns: Vec<String>,
    pub rows: Vec<String>,
}

impl Names {
    /// x0 x1 .. and r0 r1 .., for a book, which has none.
    pub fn numbered(n: usize, m: usize) -> Self {
        let named = |letter: char, count| (0..count).map(|i| format!("{letter}{i}")).collect();
        Names { columns: named('x', n), rows: named('r', m) }
    }
}

/// A model's numbers as they were read, of any size.
#[derive(Clone, Debug, Default, PartialEq, Eq)]
pub struct Numbers {
    pub bounds: Vec<i64>,
    pub coefs: Vec<i64>,
    pub rhs: Vec<i64>,
}

/// 5,000 for 5000.
pub fn grouped(number: i64) -> String {
    let digits = number.unsigned_abs().to_string();
    let mut text = if number < 0 { "-".to_string() } else { String::new() };
    for (index, digit) in digits.chars().enumerate() {
        if index > 0 && (digits.len() - index).is_multiple_of(3) {
            text.push(',');
        }
        text.push(digit);
    }
    text
}

/// "1 row", "5,000 rows".
pub fn counted(count: usize, noun: &str) -> String {
    let plural = if count == 1 { "" } else { "s" };
    format!("{} {noun}{plural}", grouped(count as i64))
}

/// A number as the library takes it. One that 32 bits do not hold is far outside every limit, and so is what it becomes.
fn clamped(numbers: &[i64]) -> Vec<i32> {
    let clamp = |&number: &i64| number.clamp(i32::MIN.into(), i32::MAX.into()) as i32;
    numbers.iter().map(clamp).collect()
}

impl Numbers {
    /// The numbers of a book whose layout was accepted.
    pub fn of_book(book: &[u8], n: usize, m: usize) -> Self {
        let words = book
            .chunks_exact(4)
            .map(|word| i32::from_le_bytes(word.try_into().expect("four bytes")));
        let mut words = words.map(i64::from);
        let bounds = words.by_ref().take(2 * n).collect();
        let mut numbers = Numbers { bounds, ..Numbers::default() };
        for _ in 0..m {
            numbers.rhs.extend(words.next());
            numbers.coefs.extend(words.by_ref().take(n));
        }
        numbers
    }

    /// The library's model, or its refusal as a sentence.
    pub fn model(&self, kinds: Vec<RowKind>, names: &Names) -> Result<Model, Failure> {
        let [bounds, coefs, rhs] =
            [&self.bounds, &self.coefs, &self.rhs].map(|numbers| clamped(numbers));
        Model::with_kinds(bounds, coefs, rhs, kinds).map_err(|refusal| self.explain(refusal, names))
    }

    pub fn explain(&self, refusal: Refusal, names: &Names) -> Failure {
        let found = match refusal {
            Refusal::SizeOutOfRange => Some(size(self.bounds.len() / 2, self.rhs.len())),
            Refusal::BoundOutOfRange => self.bound(names),
            Refusal::BoundsCrossed => self.crossed(names),
            Refusal::VariableTooWide => self.wide(names),
            Refusal::CoefficientOutOfRange => self.coefficient(names),
            Refusal::RightHandSideOutOfRange => self.right_hand_side(names),
            _ => None,
        };
        Failure::by_check(refusal, found.unwrap_or_else(|| reason(refusal)))
    }

    fn bound(&self, names: &Names) -> Option<String> {
        let index = self.bounds.iter().position(|bound| !(-32_768..=32_767).contains(bound))?;
        let which = ["lower", "upper"][index % 2];
        let (name, bound) = (&names.columns[index / 2], grouped(self.bounds[index]));
        Some(format!("variable {name} has the {which} bound {bound}, from -32,768 to 32,767"))
    }

    fn crossed(&self, names: &Names) -> Option<String> {
        let (index, pair) = self.pair(|l, u| l > u)?;
        let [lower, upper] = pair.map(grouped);
        Some(format!(
            "variable {} has the lower bound {lower} above the upper {upper}",
            names.columns[index]
        ))
    }

    fn wide(&self, names: &Names) -> Option<String> {
        let (index, [lower, upper]) = self.pair(|l, u| u - l > MAX_WIDTH.into())?;
        let (width, most) = (grouped(upper - lower), grouped(MAX_WIDTH.into()));
        Some(format!("variable {} is {width} wide, at most {most}", names.columns[index]))
    }

    /// The first variable whose bounds are so.
    fn pair(&self, so: impl Fn(i64, i64) -> bool) -> Option<(usize, [i64; 2])> {
        let mut pairs = self.bounds.chunks_exact(2).map(|pair| [pair[0], pair[1]]).enumerate();
        pairs.find(|(_, [lower, upper])| so(*lower, *upper))
    }

    fn coefficient(&self, names: &Names) -> Option<String> {
        let index = self.coefs.iter().position(|a| a.abs() > 1_000_000)?;
        let n = self.bounds.len() / 2;
        let (row, column) = (&names.rows[index / n], &names.columns[index % n]);
        let value = grouped(self.coefs[index]);
        Some(format!(
            "row {row} has the coefficient {value} of {column}, at most 1,000,000 up or down"
        ))
    }

    fn right_hand_side(&self, names: &Names) -> Option<String> {
        let index = self.rhs.iter().position(|b| b.abs() > 1_000_000_000)?;
        let value = grouped(self.rhs[index]);
        let row = &names.rows[index];
        Some(format!("row {row} has the right-hand side {value}, at most 1,000,000,000 up or down"))
    }
}

/// What is said of too many, or no, variables, or too many rows.
pub fn size(n: usize, m: usize) -> String {
    let (variables, rows) = (counted(n, "variable"), counted(m, "row"));
    format!("{variables} and {rows}, at most {MAX_VARIABLES} and {MAX_ROWS} (a range is two rows)")
}

/// The wrapper's own words, without the number that it puts before them.
pub fn reason(refusal: Refusal) -> String {
    let text = refusal.to_string();
    text.split_once(": ").map_or(text.clone(), |(_, reason)| reason.to_string())
}

/// A refusal of which there is no more to say.
pub fn refused(refusal: Refusal) -> Failure {
    Failure::by_check(refusal, reason(refusal))
}

#[cfg(test)]
mod tests {
    use super::*;

    #[test]
    fn numbers_are_grouped() {
        let texts = [0, 999, 1_000, -32_768, 1_234_567].map(grouped);
        assert_eq!(texts, ["0", "999", "1,000", "-32,768", "1,234,567"]);
        assert_eq!(
            [0, 1, 1_000].map(|count| counted(count, "row")),
            ["0 rows", "1 row", "1,000 rows"]
        );
    }

    #[test]
    fn the_number_at_fault_is_named() {
        let names = Names::numbered(2, 1);
        let said = |bounds: [i64; 4], coefs: [i64; 2], rhs: i64| {
            let numbers =
                Numbers { bounds: bounds.to_vec(), coefs: coefs.to_vec(), rhs: vec![rhs] };
            numbers.model(vec![RowKind::AtMost], &names).unwrap_err().to_string()
        };
        let fine = [0, 1, 0, 1];
        let bound = "refused 6: variable x1 has the lower bound -40,000, from -32,768 to 32,767";
        assert_eq!(said([0, 1, -40_000, 1], [1, 1], 1), bound);
        let crossed = "refused 7: variable x0 has the lower bound 2 above the upper 1";
        assert_eq!(said([2, 1, 0, 1], [1, 1], 1), crossed);
        let wide = "refused 23: variable x1 is 5,000 wide, at most 4,096";
        assert_eq!(said([0, 1, 0, 5_000], [1, 1], 1), wide);
        let coefficient =
            "refused 8: row r0 has the coefficient -2,000,000 of x1, at most 1,000,000 up or down";
        assert_eq!(said(fine, [1, -2_000_000], 1), coefficient);
        let beyond = "refused 9: row r0 has the right-hand side 10,000,000,000, at most 1,000,000,000 up or down";
        assert_eq!(said(fine, [1, 1], 10_000_000_000), beyond);
    }
}
