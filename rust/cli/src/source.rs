//! A model with its names and the file that it came from, and the file that is written of its reduced model.

use crate::explain::{Names, Numbers};
use crate::failure::Failure;
use crate::files;
use crate::format::Format;
use crate::linear::Origin;
use crate::sparse;
use astrolabe::{Model, Refusal, RowKind, book_size, sparse_size};
use std::path::Path;

#[cfg(glpk)]
use crate::glpk::Problem;
#[cfg(glpk)]
use crate::linear::{self, Placed};

pub struct Source {
    pub model: Model,
    pub names: Names,
    /// Where the model's rows are in the file.
    pub origins: Vec<Origin>,
    /// Of MPS and LP: the problem as it was read.
    #[cfg(glpk)]
    pub problem: Option<Problem>,
}

impl Source {
    pub fn read(path: &Path, format: Format) -> Result<Self, Failure> {
        match format {
            Format::Book => Source::of_book(&files::read(path)?),
            Format::Sparse => Source::of_sparse_book(&files::read(path)?),
            Format::Mps | Format::Lp => Source::of_problem(path, format),
        }
    }

    pub fn of_book(book: &[u8]) -> Result<Self, Failure> {
        let (n, m) = book_size(last_bytes(book)).unwrap_or((0, 0));
        let names = Names::numbered(n, m);
        let model =
            Model::from_book(book).map_err(|refusal| of_book_refused(book, refusal, &names))?;
        Ok(Source::numbered(model))
    }

    fn of_sparse_book(book: &[u8]) -> Result<Self, Failure> {
        let (n, m) = sparse_size(last_bytes(book)).unwrap_or((0, 0));
        let names = Names::numbered(n, m);
        let model = Model::from_sparse_book(book).map_err(|refusal| match refusal.check() {
            1..=4 => of_any_book(book, refusal),
            _ => sparse::explain(book, refusal, &names),
        })?;
        Ok(Source::numbered(model))
    }

    /// A model from a book, which has no names.
    fn numbered(model: Model) -> Self {
        let names = Names::numbered(model.n(), model.m());
        let origins = Origin::of_rows(&model);
        Source {
            model,
            names,
            origins,
            #[cfg(glpk)]
            problem: None,
        }
    }

    #[cfg(glpk)]
    fn of_problem(path: &Path, format: Format) -> Result<Self, Failure> {
        let problem = if files::is_stream(path) {
            let part = files::beside(&std::env::temp_dir().join("astrolabe.in"));
            files::write(&part, &files::read(path)?)?;
            let problem = Problem::read(&part, format);
            let _ = std::fs::remove_file(&part);
            problem?
        } else {
            files::there(path)?;
            Problem::read(path, format)?
        };
        let Placed { model, names, origins } = linear::place(&problem.linear())?;
        Ok(Source { model, names, origins, problem: Some(problem) })
    }

    #[cfg(not(glpk))]
    fn of_problem(path: &Path, format: Format) -> Result<Self, Failure> {
        Err(without_glpk(&format!("read {}", files::shown(path)), format))
    }

    /// The objective: the constant term and a coefficient for each column, all 0 of a book.
    pub fn objective(&self) -> Vec<f64> {
        #[cfg(glpk)]
        if let Some(problem) = &self.problem {
            return problem.linear().objective;
        }
        vec![0.0; 1 + self.model.n()]
    }

    /// The file of the reduced model (or of the model itself) in a format; with an objective in the place of the file's where
    /// ties put costs over.
    pub fn bytes(
        &self,
        reduced: &Model,
        objective: Option<&[f64]>,
        format: Format,
    ) -> Result<Vec<u8>, Failure> {
        match format {
            Format::Sparse => reduced.to_sparse_book().map_err(crate::explain::refused),
            Format::Book => {
                reduced.to_book().map_err(|refusal| self.not_in_a_book(refusal, reduced))
            }
            #[cfg(glpk)]
            Format::Mps | Format::Lp => {
                let mut problem = self.problem_of(reduced);
                if let Some(objective) = objective {
                    problem.set_objective(objective);
                }
                problem.bytes(format)
            }
            #[cfg(not(glpk))]
            Format::Mps | Format::Lp => {
                let _ = objective; // books have none
                Err(without_glpk("write this format", format))
            }
        }
    }

    /// The reduced model in GLPK's memory, with the file's columns, names and objective.
    #[cfg(glpk)]
    pub fn problem_of(&self, reduced: &Model) -> Problem {
        match &self.problem {
            Some(problem) => problem.reduced(&self.model, reduced, &self.origins),
            None => Problem::of_model(reduced, &self.names.columns, &self.names.rows),
        }
    }

    fn not_in_a_book(&self, refusal: Refusal, model: &Model) -> Failure {
        let equality = model.kinds().iter().position(|kind| *kind == RowKind::Equal);
        match (refusal, equality) {
            (Refusal::EqualityRow, Some(row)) => {
                let name = &self.names.rows[row];
                Failure::by_check(
                    refusal,
                    format!(
                        "row {name} is an = row, and a book of the first edition holds none; a sparse one does"
                    ),
                )
            }
            _ => crate::explain::refused(refusal),
        }
    }
}

/// The layout was accepted where a number is at fault, so the numbers can be read.
fn of_book_refused(book: &[u8], refusal: Refusal, names: &Names) -> Failure {
    match refusal.check() {
        1..=4 => of_any_book(book, refusal),
        _ => Numbers::of_book(book, names.columns.len(), names.rows.len()).explain(refusal, names),
    }
}

/// What can be said of a book of either edition without its numbers.
fn of_any_book(book: &[u8], refusal: Refusal) -> Failure {
    let length = grouped_length(book);
    let sentence = match refusal {
        Refusal::BookTooShort => format!("{length}, and the trailer alone has 16"),
        Refusal::BookLengthMismatch => {
            format!("{length}, and its trailer says another number: is it a book, and whole?")
        }
        Refusal::SizeOutOfRange => {
            "the book's variables are not 1 to 128, or its rows over 120".to_string()
        }
        _ => return crate::explain::refused(refusal),
    };
    Failure::by_check(refusal, sentence)
}

fn last_bytes(book: &[u8]) -> &[u8] {
    &book[book.len().saturating_sub(16)..]
}

fn grouped_length(book: &[u8]) -> String {
    format!("the book has {}", crate::explain::counted(book.len(), "byte"))
}

#[cfg(not(glpk))]
fn without_glpk(what: &str, format: Format) -> Failure {
    let name = format.extension();
    Failure::Unreadable(format!(
        "cannot {what}: this astrolabe was built without GLPK, which reads and writes {name} (Debian: libglpk-dev)"
    ))
}
