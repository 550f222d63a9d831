//! Models in GLPK's memory: read from and written to MPS and LP files, and changed only where the reduced model differs.

mod ffi;
pub mod search;
mod write;

use crate::failure::Failure;
use crate::format::Format;
use crate::linear::{Column, Line, Linear, Origin, Side, Written, rewritten};
use astrolabe::{Clique, Model, RowKind};
use std::cell::RefCell;
use std::ffi::{CStr, CString, c_char, c_int, c_void};
use std::path::Path;
use std::ptr;
use std::sync::{Mutex, MutexGuard, PoisonError};

/// GLPK is used by one thread at a time, whether or not it was built to be used by several.
static ONE_AT_A_TIME: Mutex<()> = Mutex::new(());

thread_local! {
    /// What GLPK said in this thread since `listen`.
    static SAID: RefCell<String> = const { RefCell::new(String::new()) };
}

extern "C" fn heard(_: *mut c_void, text: *const c_char) -> c_int {
    // SAFETY: GLPK hands over a string that ends with 0.
    let text = unsafe { CStr::from_ptr(text) }.to_string_lossy();
    SAID.with_borrow_mut(|said| said.push_str(&text));
    1 // not to be printed
}

/// Takes GLPK for this thread; what it says is kept and not printed.
fn listen() -> MutexGuard<'static, ()> {
    let guard = ONE_AT_A_TIME.lock().unwrap_or_else(PoisonError::into_inner);
    SAID.take();
    // SAFETY: the hook is a function that lives as long as the program, and reads no info.
    unsafe { ffi::glp_term_hook(Some(heard), ptr::null_mut()) };
    guard
}

/// The line in which GLPK said what is wrong: the last that names a line of the file, else the last at all.
fn complaint() -> String {
    let said = SAID.take();
    let lines: Vec<&str> = said.lines().map(str::trim).filter(|line| !line.is_empty()).collect();
    let named = lines
        .iter()
        .rev()
        .find(|line| line.split(':').nth(1).is_some_and(|at| at.parse::<u32>().is_ok()));
    named.or(lines.last()).map_or("GLPK does not say why".to_string(), |line| line.to_string())
}

fn c_string(text: &str) -> CString {
    CString::new(text).expect("names and paths that were read hold no 0 byte")
}

fn c_path(path: &Path) -> Result<CString, Failure> {
    use std::os::unix::ffi::OsStrExt;
    CString::new(path.as_os_str().as_bytes())
        .map_err(|_| Failure::Unreadable(format!("{}: a 0 byte in the path", path.display())))
}

/// A number for GLPK, whose rows and columns count from 1.
fn place(index: usize) -> c_int {
    c_int::try_from(index + 1).expect("few rows and columns")
}

/// A `glp_prob` of our own.
pub struct Problem {
    prob: *mut ffi::Prob,
}

impl Drop for Problem {
    fn drop(&mut self) {
        let _guard = listen();
        // SAFETY: the problem is ours and is not used again.
        unsafe { ffi::glp_delete_prob(self.prob) }
    }
}

impl Clone for Problem {
    fn clone(&self) -> Self {
        let copy = Problem::empty();
        let _guard = listen();
        // SAFETY: both are problems of ours; 1 copies the names too.
        unsafe { ffi::glp_copy_prob(copy.prob, self.prob, 1) };
        copy
    }
}

impl Problem {
    fn empty() -> Self {
        let _guard = listen();
        // SAFETY: no argument.
        Problem { prob: unsafe { ffi::glp_create_prob() } }
    }

    /// Reads a file. MPS is tried as fixed, then as free.
    pub fn read(path: &Path, format: Format) -> Result<Self, Failure> {
        let ways: &[c_int] =
            if format == Format::Mps { &[ffi::MPS_DECK, ffi::MPS_FILE] } else { &[0] };
        let name = c_path(path)?;
        let mut said = String::new();
        for &way in ways {
            let problem = Problem::empty();
            let _guard = listen();
            // SAFETY: the problem is ours, the path a string that ends with 0; null asks for the usual options.
            let failed = unsafe {
                match format {
                    Format::Mps => ffi::glp_read_mps(problem.prob, way, ptr::null(), name.as_ptr()),
                    _ => ffi::glp_read_lp(problem.prob, ptr::null(), name.as_ptr()),
                }
            };
            drop(_guard);
            if failed == 0 {
                return Ok(problem);
            }
            said = complaint();
        }
        Err(Failure::Unreadable(format!("cannot read {}: {said}", path.display())))
    }

    /// Puts another objective, a constant and a coefficient for each column, in the place of its own.
    pub fn set_objective(&mut self, objective: &[f64]) {
        let _guard = listen();
        for (j, &value) in objective.iter().enumerate() {
            // SAFETY: the problem is ours and has the column; column 0 is the constant.
            unsafe { ffi::glp_set_obj_coef(self.prob, place(j) - 1, value) };
        }
    }

    /// Sets the coefficients of a row, by their columns; those that are 0 are left out.
    fn set_entries(&mut self, row: usize, entries: impl Iterator<Item = (usize, f64)>) {
        let (mut columns, mut values) = (vec![0], vec![0.0]); // GLPK counts from 1
        for (j, value) in entries.filter(|(_, value)| *value != 0.0) {
            columns.push(place(j));
            values.push(value);
        }
        let count = columns.len() as c_int - 1;
        let _guard = listen();
        // SAFETY: the problem is ours and has the row and the columns; the two lists have one number more than the count.
        unsafe {
            ffi::glp_set_mat_row(self.prob, place(row), count, columns.as_ptr(), values.as_ptr());
        }
    }

    /// A model that came from a book: no objective, the names numbered.
    pub fn of_model(model: &Model, columns: &[String], rows: &[String]) -> Self {
        let mut problem = Problem::empty();
        problem.add_columns(model, columns);
        for (row, name) in model.rows().zip(rows) {
            let side = if row.kind == RowKind::Equal { Side::Equal } else { Side::AtMost };
            let at = problem.add_row(name);
            problem.set_row(at, &Written { side, coefs: row.coefs.to_vec(), bound: row.rhs });
        }
        problem
    }

    fn add_columns(&mut self, model: &Model, names: &[String]) {
        let count = c_int::try_from(model.n()).expect("at most 128 columns");
        let guard = listen();
        // SAFETY: the problem is ours; the columns named after are those that are added here.
        unsafe {
            ffi::glp_set_prob_name(self.prob, c_string("book").as_ptr());
            ffi::glp_add_cols(self.prob, count);
            for (j, name) in names.iter().enumerate() {
                ffi::glp_set_col_name(self.prob, place(j), c_string(name).as_ptr());
                ffi::glp_set_col_kind(self.prob, place(j), ffi::IV);
            }
        }
        drop(guard);
        for (j, pair) in model.bounds().chunks_exact(2).enumerate() {
            self.set_bounds(j, pair[0], pair[1]);
        }
    }

    fn add_row(&mut self, name: &str) -> usize {
        let _guard = listen();
        // SAFETY: the problem is ours; the row named is the one added.
        unsafe {
            let i = ffi::glp_add_rows(self.prob, 1);
            ffi::glp_set_row_name(self.prob, i, c_string(name).as_ptr());
            i as usize - 1
        }
    }

    fn set_bounds(&mut self, column: usize, lower: i32, upper: i32) {
        let _guard = listen();
        let kind = if lower == upper { ffi::FX } else { ffi::DB };
        // SAFETY: the problem is ours and has the column.
        unsafe { ffi::glp_set_col_bnds(self.prob, place(column), kind, lower.into(), upper.into()) }
    }

    fn set_row(&mut self, row: usize, written: &Written) {
        self.set_entries(row, written.coefs.iter().map(|&a| f64::from(a)).enumerate());
        let kind = match written.side {
            Side::AtMost => ffi::UP,
            Side::AtLeast => ffi::LO,
            Side::Equal => ffi::FX,
        };
        let bound = f64::from(written.bound);
        let _guard = listen();
        // SAFETY: the problem is ours and has the row.
        unsafe { ffi::glp_set_row_bnds(self.prob, place(row), kind, bound, bound) };
    }

    /// The reduced model in the same columns, with the same objective: rows that changed are written anew, rows that were
    /// removed are left out, all others stay as the file had them.
    pub fn reduced(&self, raw: &Model, reduced: &Model, origins: &[Origin]) -> Self {
        let mut problem = self.clone();
        let pairs = raw.bounds().chunks_exact(2).zip(reduced.bounds().chunks_exact(2));
        for (j, (_, new)) in pairs.enumerate().filter(|(_, (old, new))| old != new) {
            problem.set_bounds(j, new[0], new[1]);
        }
        let linear = self.linear();
        let mut removed = vec![0]; // GLPK counts from 1
        for (row, list) in
            rewritten(raw, reduced, origins, linear.rows.len()).into_iter().enumerate()
        {
            match list.as_deref() {
                None => {}
                Some([]) => removed.push(place(row)),
                Some([first, more @ ..]) => {
                    problem.set_row(row, first);
                    for written in more {
                        let name = unused_name(&linear, &linear.rows[row].name);
                        let at = problem.add_row(&name);
                        problem.set_row(at, written);
                    }
                }
            }
        }
        if removed.len() > 1 {
            let _guard = listen();
            // SAFETY: the problem is ours and has these rows, each once.
            unsafe {
                ffi::glp_del_rows(problem.prob, removed.len() as c_int - 1, removed.as_ptr())
            };
        }
        problem
    }

    /// The problem with clique rows added, which every integer point meets.
    pub fn with_cliques(&self, cliques: &[Clique]) -> Self {
        let mut problem = self.clone();
        for (number, clique) in cliques.iter().enumerate() {
            let row = problem.add_row(&format!("clique{number}"));
            let (coefs, bound) = (clique.coefs.clone(), clique.rhs);
            problem.set_row(row, &Written { side: Side::AtMost, coefs, bound });
        }
        problem
    }

    /// What the problem says, in Rust.
    pub fn linear(&self) -> Linear {
        let _guard = listen();
        // SAFETY: the problem is ours, and each row and column asked for is there.
        unsafe {
            let (n, m) = (ffi::glp_get_num_cols(self.prob), ffi::glp_get_num_rows(self.prob));
            Linear {
                columns: (1..=n).map(|j| self.column(j)).collect(),
                rows: (1..=m).map(|i| self.line(i, n as usize)).collect(),
                objective: (0..=n).map(|j| ffi::glp_get_obj_coef(self.prob, j)).collect(),
                maximize: ffi::glp_get_obj_dir(self.prob) == ffi::MAX,
            }
        }
    }

    /// # Safety
    /// The problem has column j, and GLPK is this thread's.
    unsafe fn column(&self, j: c_int) -> Column {
        unsafe {
            Column {
                name: name_or(ffi::glp_get_col_name(self.prob, j), "C", j),
                integer: ffi::glp_get_col_kind(self.prob, j) != 1, // GLP_CV
                lower: endless(ffi::glp_get_col_lb(self.prob, j)),
                upper: endless(ffi::glp_get_col_ub(self.prob, j)),
            }
        }
    }

    /// # Safety
    /// The problem has row i and n columns, and GLPK is this thread's.
    unsafe fn line(&self, i: c_int, n: usize) -> Line {
        let (mut columns, mut values) = (vec![0; n + 1], vec![0.0; n + 1]);
        unsafe {
            let count =
                ffi::glp_get_mat_row(self.prob, i, columns.as_mut_ptr(), values.as_mut_ptr())
                    as usize;
            let entries = columns[1..=count].iter().zip(&values[1..=count]);
            let mut entries: Vec<(usize, f64)> =
                entries.map(|(&j, &value)| (j as usize - 1, value)).collect();
            entries.sort_by_key(|entry| entry.0);
            let free = ffi::glp_get_row_type(self.prob, i) == ffi::FR;
            Line {
                name: name_or(ffi::glp_get_row_name(self.prob, i), "R", i),
                lower: if free {
                    f64::NEG_INFINITY
                } else {
                    endless(ffi::glp_get_row_lb(self.prob, i))
                },
                upper: if free {
                    f64::INFINITY
                } else {
                    endless(ffi::glp_get_row_ub(self.prob, i))
                },
                entries,
            }
        }
    }
}

/// Of a row without a bound, as the objective of an MPS file is.
fn says_nothing(line: &Line) -> bool {
    line.lower.is_infinite() && line.upper.is_infinite()
}

fn is_range(line: &Line) -> bool {
    line.lower.is_finite() && line.upper.is_finite() && line.lower != line.upper
}

/// GLPK's largest number stands for no bound.
fn endless(bound: f64) -> f64 {
    if bound.abs() == f64::MAX { bound.signum() * f64::INFINITY } else { bound }
}

/// # Safety
/// A name is null or a string that ends with 0.
unsafe fn name_or(name: *const c_char, letter: &str, number: c_int) -> String {
    if name.is_null() {
        return format!("{letter}{number}");
    }
    unsafe { CStr::from_ptr(name) }.to_string_lossy().into_owned()
}

/// A name for the second row of a range that came apart.
fn unused_name(linear: &Linear, name: &str) -> String {
    let mut candidate = format!("{name}_2");
    while linear.rows.iter().any(|row| row.name == candidate) {
        candidate.push('_');
    }
    candidate
}
