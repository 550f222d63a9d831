//! A linear model as MPS and LP files state it, and how it becomes a model of the library: row by row, in whole numbers.
//!
//! Nothing is rounded. What the library has no place for is refused with a sentence that names the row or the column.

use crate::explain::{Names, Numbers, grouped, size};
use crate::failure::Failure;
use astrolabe::{MAX_ROWS, MAX_VARIABLES, Model, Refusal, RowKind};

#[derive(Clone, Debug, PartialEq)]
pub struct Column {
    pub name: String,
    pub integer: bool,
    /// Minus infinity where there is none.
    pub lower: f64,
    /// Infinity where there is none.
    pub upper: f64,
}

/// A row of the file: lower ≤ sum of its entries ≤ upper.
#[derive(Clone, Debug, PartialEq)]
pub struct Line {
    pub name: String,
    pub lower: f64,
    pub upper: f64,
    pub entries: Vec<(usize, f64)>,
}

#[derive(Clone, Debug, Default, PartialEq)]
pub struct Linear {
    pub columns: Vec<Column>,
    pub rows: Vec<Line>,
    /// The constant term and a coefficient for each column.
    pub objective: Vec<f64>,
    pub maximize: bool,
}

/// Which side of a row of the file a row of the model is. A range is two rows of the model.
#[derive(Clone, Copy, Debug, PartialEq, Eq)]
pub enum Side {
    AtMost,
    /// Every number negated, so that it is a ≤ row.
    AtLeast,
    Equal,
}

/// Where a row of the model comes from: the row of the file, its side, and the power of ten that made it whole.
#[derive(Clone, Copy, Debug, PartialEq, Eq)]
pub struct Origin {
    pub row: usize,
    pub side: Side,
    pub power: i64,
}

impl Origin {
    /// Of the rows of a model that came from no file with sides and fractions.
    pub fn of_rows(model: &Model) -> Vec<Self> {
        let side = |kind| if kind == RowKind::Equal { Side::Equal } else { Side::AtMost };
        let rows = model.kinds().iter().enumerate();
        rows.map(|(row, &kind)| Origin { row, side: side(kind), power: 1 }).collect()
    }

    /// A number of the model's row as the row of the file has it.
    pub fn told(&self, number: i64) -> String {
        let number = if self.side == Side::AtLeast { -number } else { number };
        match self.power {
            1 => grouped(number),
            power => (number as f64 / power as f64).to_string(),
        }
    }
}

/// A model with its names, and where its rows come from.
#[derive(Clone, Debug)]
pub struct Placed {
    pub model: Model,
    pub names: Names,
    pub origins: Vec<Origin>,
}

const POWERS: [i64; 10] =
    [1, 10, 100, 1_000, 10_000, 100_000, 1_000_000, 10_000_000, 100_000_000, 1_000_000_000];

/// The numbers times the power, where each is then whole and the quotient gives the number back, so that it is the decimal
/// that the file had.
fn times(values: &[f64], power: i64) -> Result<Vec<i64>, f64> {
    let whole = |&value: &f64| {
        let product = (value * power as f64).round();
        let exact = product.abs() < 9e15 && product / power as f64 == value;
        if exact { Ok(product as i64) } else { Err(value) }
    };
    values.iter().map(whole).collect()
}

/// The least power of ten that makes all the numbers whole, and what it makes of them; else a number that stays a fraction.
fn scaled(values: &[f64]) -> Result<(i64, Vec<i64>), f64> {
    let mut last = Err(0.0);
    for power in POWERS {
        match times(values, power) {
            Ok(whole) => return Ok((power, whole)),
            Err(value) => last = Err(value),
        }
    }
    last
}

/// The sum of two decimals, as the number nearest to it; none where no power of ten makes both whole.
pub fn decimal_sum(one: f64, other: f64) -> Option<f64> {
    let (power, whole) = scaled(&[one, other]).ok()?;
    Some((whole[0] + whole[1]) as f64 / power as f64)
}

fn column_bounds(column: &Column) -> Result<[i64; 2], Failure> {
    let name = &column.name;
    if !column.integer {
        return Err(Failure::refused(format!(
            "column {name} is continuous; every column must be integer"
        )));
    }
    for (bound, which) in [(column.lower, "lower"), (column.upper, "upper")] {
        if bound.is_infinite() {
            let sentence =
                format!("column {name} has no {which} bound; a variable is at most 4,096 wide");
            return Err(Failure::refused(sentence));
        }
        if times(&[bound], 1).is_err() {
            let sentence =
                format!("column {name} has the {which} bound {bound}, which is no whole number");
            return Err(Failure::refused(sentence));
        }
    }
    Ok([column.lower as i64, column.upper as i64])
}

/// The sides that a row of the file has, each with its right-hand side.
fn sides(line: &Line) -> Vec<(Side, f64)> {
    if line.lower == line.upper {
        return vec![(Side::Equal, line.upper)];
    }
    let both = [(Side::AtMost, line.upper), (Side::AtLeast, line.lower)];
    both.into_iter().filter(|(_, bound)| bound.is_finite()).collect()
}

/// The rows so far, in the form of the model.
struct Rows {
    n: usize,
    numbers: Numbers,
    names: Names,
    kinds: Vec<RowKind>,
    origins: Vec<Origin>,
}

impl Rows {
    /// Adds the row of the model that one side of a row of the file is.
    fn add(&mut self, row: usize, line: &Line, side: Side, bound: f64) -> Result<(), Failure> {
        let mut values: Vec<f64> = line.entries.iter().map(|&(_, value)| value).collect();
        values.push(bound);
        let (power, whole) = scaled(&values).map_err(|value| {
            let name = &line.name;
            let sentence = format!(
                "row {name} has {value}, which no power of ten up to 1,000,000,000 makes whole"
            );
            Failure::refused(sentence)
        })?;
        let sign = if side == Side::AtLeast { -1 } else { 1 };
        let mut coefs = vec![0; self.n];
        for (&(column, _), value) in line.entries.iter().zip(&whole) {
            coefs[column] = sign * value;
        }
        self.numbers.coefs.extend(coefs);
        self.numbers.rhs.push(sign * whole[line.entries.len()]);
        self.kinds.push(if side == Side::Equal { RowKind::Equal } else { RowKind::AtMost });
        self.names.rows.push(match power {
            1 => line.name.clone(),
            power => format!("{} (times {} to be whole)", line.name, grouped(power)),
        });
        self.origins.push(Origin { row, side, power });
        Ok(())
    }
}

/// The model that a file states, or why it is none.
pub fn place(linear: &Linear) -> Result<Placed, Failure> {
    let n = linear.columns.len();
    // Before a buffer is made, since a file may be of any size.
    let m = linear.rows.iter().map(|line| sides(line).len()).sum();
    if n > MAX_VARIABLES || m > MAX_ROWS {
        return Err(Failure::by_check(Refusal::SizeOutOfRange, size(n, m)));
    }
    let names =
        Names { columns: linear.columns.iter().map(|c| c.name.clone()).collect(), rows: vec![] };
    let mut rows = Rows { n, numbers: Numbers::default(), names, kinds: vec![], origins: vec![] };
    for column in &linear.columns {
        rows.numbers.bounds.extend(column_bounds(column)?);
    }
    for (row, line) in linear.rows.iter().enumerate() {
        for (side, bound) in sides(line) {
            rows.add(row, line, side, bound)?;
        }
    }
    let Rows { numbers, mut names, kinds, origins, .. } = rows;
    let model = numbers.model(kinds, &names)?;
    names.rows = origins.iter().map(|origin| linear.rows[origin.row].name.clone()).collect();
    Ok(Placed { model, names, origins })
}

/// A row to be written into a file.
#[derive(Clone, Debug, PartialEq, Eq)]
pub struct Written {
    pub side: Side,
    /// In the file's direction: those of an `AtLeast` row are negated again.
    pub coefs: Vec<i32>,
    pub bound: i32,
}

/// What becomes of each row of the file: nothing where it stays as it was, else the rows that take its place (none where it
/// was removed).
pub fn rewritten(
    raw: &Model,
    reduced: &Model,
    origins: &[Origin],
    rows: usize,
) -> Vec<Option<Vec<Written>>> {
    let mut result = vec![None; rows];
    let changed = |index: usize| raw.rows().nth(index) != reduced.rows().nth(index);
    for row in origins
        .iter()
        .enumerate()
        .filter(|(index, _)| changed(*index))
        .map(|(_, origin)| origin.row)
    {
        result[row] = Some(vec![]);
    }
    for (origin, row) in origins.iter().zip(reduced.rows()) {
        let gone = row.coefs.iter().all(|&a| a == 0) && row.rhs == 0 && row.kind == RowKind::AtMost;
        if let (Some(list), false) = (&mut result[origin.row], gone) {
            let sign = if origin.side == Side::AtLeast { -1 } else { 1 };
            let coefs = row.coefs.iter().map(|a| sign * a).collect();
            list.push(Written { side: origin.side, coefs, bound: sign * row.rhs });
        }
    }
    result
}

#[cfg(test)]
mod tests {
    use super::*;

    fn column(name: &str, lower: f64, upper: f64) -> Column {
        Column { name: name.to_string(), integer: true, lower, upper }
    }

    fn line(name: &str, lower: f64, upper: f64, entries: &[(usize, f64)]) -> Line {
        Line { name: name.to_string(), lower, upper, entries: entries.to_vec() }
    }

    fn linear(rows: Vec<Line>) -> Linear {
        let columns = vec![column("x", 0.0, 1.0), column("y", 0.0, 5.0)];
        Linear { columns, rows, ..Linear::default() }
    }

    fn sentence(linear: &Linear) -> String {
        place(linear).unwrap_err().to_string()
    }

    const NO: f64 = f64::INFINITY;

    #[test]
    fn every_kind_of_row_is_placed() {
        let placed = place(&linear(vec![
            line("most", -NO, 4.0, &[(0, 3.0), (1, 2.0)]),
            line("least", 1.0, NO, &[(0, 1.0), (1, 0.5)]),
            line("free", -NO, NO, &[(0, 0.1)]),
            line("equal", 0.3, 0.3, &[(1, 0.1)]),
            line("range", 1.0, 2.0, &[(1, 1.0)]),
        ]));
        let Placed { model, names, origins } = placed.unwrap();
        assert_eq!(model.coefs(), [3, 2, -10, -5, 0, 1, 0, 1, 0, -1]);
        assert_eq!(model.rhs(), [4, -10, 3, 2, -1]);
        assert_eq!(names.rows, ["most", "least", "equal", "range", "range"]);
        assert_eq!(origins.iter().map(|origin| origin.row).collect::<Vec<_>>(), [0, 1, 3, 4, 4]);
    }

    #[test]
    fn a_number_is_told_as_the_file_has_it() {
        let told = |side, power, number| Origin { row: 0, side, power }.told(number);
        assert_eq!(told(Side::AtMost, 1, 5_000), "5,000");
        assert_eq!(told(Side::AtLeast, 10, -7), "0.7");
    }

    #[test]
    fn what_the_library_has_no_place_for_is_named() {
        let mut model = linear(vec![line("r", -NO, 1.0, &[(0, 1.0 / 3.0)])]);
        assert!(sentence(&model).starts_with("refused: row r has 0.333"));
        model.rows[0] = line("r", -NO, 1.0, &[(0, 1234.567891)]);
        let scaled = "refused 8: row r (times 1,000,000 to be whole) has the coefficient 1,234,567,891 of x, \
                      at most 1,000,000 up or down";
        assert_eq!(sentence(&model), scaled);
        model.columns[1].upper = 5000.0;
        assert_eq!(sentence(&model), "refused 23: variable y is 5,000 wide, at most 4,096");
        model.columns[1].upper = NO;
        assert!(sentence(&model).starts_with("refused: column y has no upper bound"));
        model.columns[1].upper = 2.5;
        assert!(sentence(&model).starts_with("refused: column y has the upper bound 2.5"));
        model.columns[0].integer = false;
        assert!(sentence(&model).starts_with("refused: column x is continuous"));
        let many = linear(vec![line("r", -NO, 1.0, &[]); 121]);
        assert_eq!(
            sentence(&many),
            "refused 3: 2 variables and 121 rows, at most 128 and 120 (a range is two rows)"
        );
    }

    #[test]
    fn only_what_changed_is_written_anew() {
        let raw = linear(vec![
            line("keep", -NO, 3.0, &[(1, 1.0)]),
            line("gone", -NO, 9.0, &[(1, 1.0)]),
            line("least", -4.0, NO, &[(0, -3.0), (1, -2.0)]),
        ]);
        let Placed { model, origins, .. } = place(&raw).unwrap();
        let mut reduced = model.clone();
        reduced.set_bounds(1, 0, 1);
        reduced.tighten_coefficient(2, 0).unwrap();
        reduced.remove_redundant_row(1).unwrap();
        let least = Written { side: Side::AtLeast, coefs: vec![-1, -2], bound: -2 };
        assert_eq!(
            rewritten(&model, &reduced, &origins, 3),
            [None, Some(vec![]), Some(vec![least])]
        );
    }
}
