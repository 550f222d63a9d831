//! Files of problems: written by GLPK, read back and compared before they are put in place.

use super::{
    Problem, c_path, complaint, ffi, is_range, listen, name_or, place, says_nothing, unused_name,
};
use crate::failure::Failure;
use crate::files;
use crate::format::Format;
use crate::linear::{Column, Linear, Side, Written};
use std::collections::BTreeMap;
use std::ffi::c_int;
use std::path::Path;
use std::ptr;

impl Problem {
    /// The bytes of the file. It is read back and compared: a number or a name that the format cannot hold is an error.
    pub fn bytes(&self, format: Format) -> Result<Vec<u8>, Failure> {
        let mut problem = self.clone();
        if format == Format::Lp {
            problem.part_ranges();
            problem.have_a_row();
        } else {
            problem.name_objective();
        }
        problem.bytes_of(format)
    }

    fn bytes_of(&self, format: Format) -> Result<Vec<u8>, Failure> {
        // Every solver reads fixed MPS; free MPS is for names and numbers that fixed MPS does not hold.
        let ways: &[c_int] =
            if format == Format::Mps { &[ffi::MPS_DECK, ffi::MPS_FILE] } else { &[0] };
        let part =
            files::beside(&std::env::temp_dir().join(format!("astrolabe.{}", format.extension())));
        let mut result = Err(Failure::Unreadable("nothing was written".to_string()));
        for &way in ways {
            result = self.bytes_by(format, way, &part);
            let _ = std::fs::remove_file(&part);
            if result.is_ok() {
                break;
            }
        }
        result
    }

    fn bytes_by(&self, format: Format, way: c_int, part: &Path) -> Result<Vec<u8>, Failure> {
        let name = c_path(part)?;
        let guard = listen();
        // SAFETY: the problem is ours, the path a string that ends with 0; null asks for the usual options.
        let failed = unsafe {
            match format {
                Format::Mps => ffi::glp_write_mps(self.prob, way, ptr::null(), name.as_ptr()),
                _ => ffi::glp_write_lp(self.prob, ptr::null(), name.as_ptr()),
            }
        };
        drop(guard);
        if failed != 0 {
            return Err(Failure::Unreadable(format!(
                "GLPK cannot write {}: {}",
                format.extension(),
                complaint()
            )));
        }
        let bytes = without_notes(&files::read(part)?);
        std::fs::write(part, &bytes).map_err(|error| Failure::Unreadable(error.to_string()))?;
        let (meant, got) = (self.linear(), Problem::read(part, format)?.linear());
        match difference(&meant, &got) {
            None => Ok(bytes),
            Some(what) => Err(Failure::Unreadable(format!(
                "the format {} does not hold {what}",
                format.extension()
            ))),
        }
    }

    /// Each range as two rows, with the same numbers: LP has no ranges (GLPK would add a column for each).
    fn part_ranges(&mut self) {
        let linear = self.linear();
        for (row, line) in linear.rows.iter().enumerate().filter(|(_, line)| is_range(line)) {
            let more = self.add_row(&unused_name(&linear, &line.name));
            self.set_entries(more, line.entries.iter().copied());
            let _guard = listen();
            // SAFETY: the problem is ours and has both rows.
            unsafe {
                ffi::glp_set_row_bnds(self.prob, place(row), ffi::UP, 0.0, line.upper);
                ffi::glp_set_row_bnds(self.prob, place(more), ffi::LO, line.lower, 0.0);
            }
        }
    }

    /// An LP file has at least one row: where all were removed, 0 ≤ 0.
    fn have_a_row(&mut self) {
        if self.linear().rows.is_empty() {
            let row = self.add_row("no_row");
            self.set_row(row, &Written { side: Side::AtMost, coefs: vec![], bound: 0 });
        }
    }

    /// The objective as a row that says nothing but its name, which GLPK then writes in the place of R0000000; not where there
    /// is such a row already, nor where the objective has a constant term, which only GLPK's own row keeps.
    fn name_objective(&mut self) {
        let linear = self.linear();
        let name = self.objective_name();
        let taken = linear.rows.iter().any(|line| says_nothing(line) || line.name == name);
        if !taken && linear.objective[0] == 0.0 {
            let row = self.add_row(&name); // free, as every new row
            self.set_entries(row, linear.objective[1..].iter().copied().enumerate());
        }
    }

    fn objective_name(&self) -> String {
        let _guard = listen();
        // SAFETY: the problem is ours; the name is null or a string that ends with 0.
        unsafe { name_or(ffi::glp_get_obj_name(self.prob), "R", 0) }
    }
}

/// GLPK notes in an MPS file that a column is in no row; Cbc does not read a note in a line.
fn without_notes(bytes: &[u8]) -> Vec<u8> {
    let note = b" $ empty column";
    let said = |line: &'_ [u8]| {
        let end = line.windows(note.len()).position(|words| words == note);
        line[..end.unwrap_or(line.len())].to_vec()
    };
    bytes.split(|&byte| byte == b'\n').map(said).collect::<Vec<_>>().join(&b'\n')
}

/// The first thing that differs. Columns and rows are told by their names, since LP has its own order; a row that says nothing
/// (MPS keeps the objective as one) is passed over.
fn difference(meant: &Linear, got: &Linear) -> Option<String> {
    let (meant, got) = (by_names(meant), by_names(got));
    let sizes = |told: &Told| (told.columns.len(), told.rows.len());
    if sizes(&meant) != sizes(&got) {
        return Some("all the rows and columns".to_string());
    }
    let column = meant.columns.iter().find(|(name, column)| got.columns.get(*name) != Some(column));
    let row = meant.rows.iter().find(|(name, row)| got.rows.get(*name) != Some(row));
    if let Some((name, _)) = column {
        return Some(format!("column {name} as it is, with its coefficient in the objective"));
    }
    if let Some((name, _)) = row {
        return Some(format!("row {name} as it is"));
    }
    let objective = (meant.constant, meant.maximize) != (got.constant, got.maximize);
    objective.then(|| "the direction or the constant of the objective".to_string())
}

/// A row by its names: lower, upper, and its entries.
type ToldRow<'a> = (f64, f64, BTreeMap<&'a str, f64>);

struct Told<'a> {
    columns: BTreeMap<&'a str, (&'a Column, f64)>,
    rows: BTreeMap<&'a str, ToldRow<'a>>,
    constant: f64,
    maximize: bool,
}

fn by_names(linear: &Linear) -> Told<'_> {
    let name = |j: usize| linear.columns[j].name.as_str();
    let columns = linear.columns.iter().zip(&linear.objective[1..]);
    let rows = linear.rows.iter().filter(|row| !says_nothing(row)).map(|row| {
        let entries = row.entries.iter().map(|&(j, value)| (name(j), value)).collect();
        (row.name.as_str(), (row.lower, row.upper, entries))
    });
    Told {
        columns: columns.map(|(column, &value)| (column.name.as_str(), (column, value))).collect(),
        rows: rows.collect(),
        constant: linear.objective[0],
        maximize: linear.maximize,
    }
}
