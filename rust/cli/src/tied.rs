//! Variables tied to others (02, C-19): the rounds and the ties in turns, the costs put over, and the list beside the file.

use crate::explain::refused;
use crate::failure::Failure;
use crate::files;
use crate::linear::decimal_sum;
use astrolabe::{Model, Tie, Ties};
use std::ffi::OsString;
use std::path::{Path, PathBuf};

/// What stands beside the rows of a tied model: its list, and an objective in which a variable that is tied costs nothing.
#[derive(Clone, Debug)]
pub struct Tied {
    pub list: Ties,
    /// The constant term and a coefficient for each column.
    pub objective: Vec<f64>,
}

impl Tied {
    /// No variable is tied yet.
    pub fn new(objective: Vec<f64>) -> Self {
        Tied { list: Ties::new(objective.len() - 1), objective }
    }

    /// Ties every pair that the model's table says to be equal or opposite, where their costs can be put together; the number
    /// of them.
    pub fn tie_all(&mut self, model: &mut Model) -> Result<usize, Failure> {
        let mut tied = 0;
        for k in 0..model.n() {
            for j in (0..model.n()).filter(|&j| j != k) {
                tied += usize::from(self.tie(model, k, j)?);
            }
        }
        Ok(tied)
    }

    fn tie(&mut self, model: &mut Model, k: usize, j: usize) -> Result<bool, Failure> {
        let said =
            |equal: bool| model.implies(k, false, j, !equal) && model.implies(k, true, j, equal);
        let Some(equal) = [true, false].into_iter().find(|&equal| said(equal)) else {
            return Ok(false);
        };
        let Some(objective) = put_over(&self.objective, k, j, equal) else { return Ok(false) };
        let tie = model.tie(&mut self.list, k as u32, j as u32).map_err(refused)?;
        if tie == Tie::Tied {
            self.objective = objective;
        }
        Ok(tie == Tie::Tied)
    }
}

/// The objective with the cost of j put over to k, where j is k (equal) or 1 − k: the same value at every point that meets the
/// tie. None where no power of ten makes the two costs whole, and where a constant term would be left: LP has none, and in MPS
/// solvers do not agree on its sign.
fn put_over(objective: &[f64], k: usize, j: usize, equal: bool) -> Option<Vec<f64>> {
    let mut new = objective.to_vec();
    let cost = std::mem::take(&mut new[1 + j]);
    if !equal && cost != 0.0 {
        return None;
    }
    new[1 + k] = decimal_sum(new[1 + k], cost)?;
    Some(new)
}

/// The file of the list that belongs to a reduced file.
pub fn beside(output: &Path) -> PathBuf {
    let mut name = OsString::from(output);
    name.push(".ties");
    name.into()
}

/// A tie by names: the variable that was put away, the one that it is tied to, and whether they are equal.
#[derive(Clone, Debug, PartialEq, Eq)]
pub struct NamedTie {
    pub variable: String,
    pub to: String,
    pub equal: bool,
}

/// The ties of a list by the names of the columns.
pub fn named(list: &Ties, columns: &[String]) -> Vec<NamedTie> {
    let tie = |(j, variable): (usize, &String)| {
        let (k, equal) = list.literal(j)?;
        Some(NamedTie { variable: variable.clone(), to: columns[k].clone(), equal })
    };
    columns.iter().enumerate().filter_map(tie).collect()
}

/// A line for each tie: `y = x` or `y = 1 - x`.
pub fn text(ties: &[NamedTie]) -> Result<String, Failure> {
    let line = |tie: &NamedTie| {
        let minus = if tie.equal { "" } else { "1 - " };
        format!("{} = {minus}{}\n", tie.variable, tie.to)
    };
    let head = "# What each variable that is in no row any more stands for; `astrolabe expand` reads it.\n";
    let text = head.to_string() + &ties.iter().map(line).collect::<String>();
    match parsed(&text) {
        Ok(again) if again == ties => Ok(text),
        _ => Err(Failure::Unreadable(
            "the names of tied columns cannot be written into a list (they hold ` = ` or begin with # or `1 - `)"
                .to_string(),
        )),
    }
}

/// The ties of a text, or the number of a line that holds none.
fn parsed(text: &str) -> Result<Vec<NamedTie>, usize> {
    let says = |line: &&str| !line.trim().is_empty() && !line.starts_with('#');
    let tie = |(at, line): (usize, &str)| {
        let (variable, right) = line.split_once(" = ").ok_or(at + 1)?;
        let (to, equal) = match right.strip_prefix("1 - ") {
            Some(to) => (to, false),
            None => (right, true),
        };
        Ok(NamedTie { variable: variable.to_string(), to: to.to_string(), equal })
    };
    text.lines().enumerate().filter(|(_, line)| says(line)).map(tie).collect()
}

/// Reads a list that `reduce --ties` wrote.
pub fn read(path: &Path) -> Result<Vec<NamedTie>, Failure> {
    let bytes = files::read(path)?;
    parsed(&String::from_utf8_lossy(&bytes)).map_err(|line| {
        let place = files::shown(path);
        Failure::Unreadable(format!(
            "cannot read {place}:{line}: no tie, as `y = x` or `y = 1 - x`"
        ))
    })
}

#[cfg(test)]
mod tests {
    use super::*;

    fn tie(variable: &str, to: &str, equal: bool) -> NamedTie {
        NamedTie { variable: variable.to_string(), to: to.to_string(), equal }
    }

    #[test]
    fn a_list_is_read_back() {
        let ties = [tie("y", "x", true), tie("a b", "x - 1", false)];
        let written = text(&ties).unwrap();
        assert_eq!(written.lines().skip(1).collect::<Vec<_>>(), ["y = x", "a b = 1 - x - 1"]);
        assert_eq!(parsed(&written).unwrap(), ties);
        for ties in [tie("#y", "x", true), tie("y", "1 - x", true), tie("y = z", "x", true)] {
            assert!(text(&[ties]).is_err());
        }
        assert_eq!(parsed("y = x\n\nz x\n"), Err(3));
    }

    #[test]
    fn costs_go_where_the_variable_goes() {
        assert_eq!(put_over(&[1.0, 0.1, 0.2], 0, 1, true), Some(vec![1.0, 0.3, 0.0]));
        assert_eq!(put_over(&[1.0, 0.1, 0.2], 0, 1, false), None);
        assert_eq!(put_over(&[1.0, 0.1, 0.0], 0, 1, false), Some(vec![1.0, 0.1, 0.0]));
        assert_eq!(put_over(&[0.0, 1.0, 1.0 / 3.0], 0, 1, true), None);
    }

    #[test]
    fn a_pair_is_tied_once() {
        // x = y, z = 1 - x, and 2x + 3y + z <= 5.
        let (bounds, coefs) = (vec![0, 1, 0, 1, 0, 1], vec![1, -1, 0, 1, 0, 1, 2, 3, 1]);
        let kinds = [1, 1, 0].map(|kind| match kind {
            1 => astrolabe::RowKind::Equal,
            _ => astrolabe::RowKind::AtMost,
        });
        let mut model = Model::with_kinds(bounds, coefs, vec![0, 1, 5], kinds.to_vec()).unwrap();
        model.rounds(8).unwrap();
        let mut tied = Tied::new(vec![0.0, 5.0, 2.5, 0.0]);
        assert_eq!(tied.tie_all(&mut model).unwrap(), 2);
        assert_eq!(tied.objective, [0.0, 7.5, 0.0, 0.0]);
        let names = ["x", "y", "z"].map(str::to_string);
        assert_eq!(named(&tied.list, &names), [tie("y", "x", true), tie("z", "x", false)]);
        assert_eq!(tied.tie_all(&mut model).unwrap(), 0);
    }
}
