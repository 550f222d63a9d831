//! What a call can be lent, the calls, and the trait of an implementation of them.

use reference::calls;

/// Every buffer that a call can be lent, owned. A call uses those that it has.
#[derive(Clone, Debug, Default, PartialEq, Eq)]
pub struct Lent {
    pub n: usize,
    pub m: usize,
    pub bounds: Vec<i32>,
    pub coefs: Vec<i32>,
    pub rhs: Vec<i32>,
    pub kinds: Vec<u8>,
    pub table: Vec<u8>,
    /// A place for each variable (02, C-19).
    pub ties: Vec<u16>,
    /// Four numbers a record.
    pub calls: Vec<u32>,
    /// A byte a record, for what it did.
    pub classes: Vec<u8>,
    /// A book, the bytes of a trailer, or pages.
    pub book: Vec<u8>,
    /// A list of 2n rows for the clique rows: their coefficients and right sides. Only that call is lent it.
    pub clique_coefs: Vec<i32>,
    pub clique_rhs: Vec<i32>,
    /// The book that a conversion writes.
    pub to: Vec<u8>,
    pub answer: Vec<u64>,
}

/// The same buffers, lent for one call.
pub struct Loan<'a> {
    pub n: usize,
    pub m: usize,
    pub bounds: &'a mut [i32],
    pub coefs: &'a mut [i32],
    pub rhs: &'a mut [i32],
    pub kinds: &'a mut [u8],
    pub table: &'a mut [u8],
    pub ties: &'a mut [u16],
    pub calls: &'a mut [u32],
    pub classes: &'a mut [u8],
    pub book: &'a mut [u8],
    pub clique_coefs: &'a mut [i32],
    pub clique_rhs: &'a mut [i32],
    pub to: &'a mut [u8],
    pub answer: &'a mut [u64],
}

impl Lent {
    /// Copies every number from another, without new memory where the lengths are the same.
    pub fn reset(&mut self, to: &Lent) {
        (self.n, self.m) = (to.n, to.m);
        self.bounds.clone_from(&to.bounds);
        self.coefs.clone_from(&to.coefs);
        self.rhs.clone_from(&to.rhs);
        self.kinds.clone_from(&to.kinds);
        self.table.clone_from(&to.table);
        self.ties.clone_from(&to.ties);
        self.calls.clone_from(&to.calls);
        self.classes.clone_from(&to.classes);
        self.book.clone_from(&to.book);
        self.clique_coefs.clone_from(&to.clique_coefs);
        self.clique_rhs.clone_from(&to.clique_rhs);
        self.to.clone_from(&to.to);
        self.answer.clone_from(&to.answer);
    }

    pub fn lend(&mut self) -> Loan<'_> {
        Loan {
            n: self.n,
            m: self.m,
            bounds: &mut self.bounds,
            coefs: &mut self.coefs,
            rhs: &mut self.rhs,
            kinds: &mut self.kinds,
            table: &mut self.table,
            ties: &mut self.ties,
            calls: &mut self.calls,
            classes: &mut self.classes,
            book: &mut self.book,
            clique_coefs: &mut self.clique_coefs,
            clique_rhs: &mut self.clique_rhs,
            to: &mut self.to,
            answer: &mut self.answer,
        }
    }
}

/// One of the calls, with its numbers.
#[derive(Clone, Copy, Debug, PartialEq, Eq)]
pub enum Operation {
    PropagateRow { row: u32 },
    Propagate { budget: u32 },
    Probe { variable: u32, budget: u32 },
    TightenCoefficient { row: u32, variable: u32 },
    RemoveRedundantRow { row: u32 },
    IsProbingFixpoint,
    Run,
    RunClasses,
    Rounds { limit: u64 },
    Tie { k: u32, j: u32 },
    PlanWidth,
    PlanRun,
    Cliques,
    PlanLengths,
    BookTrailer,
    BookRead,
    BookWrite,
    SparseTrailer,
    SparseRead,
    SparseWrite,
    SparseLength,
    BookToSparseLength,
    BookToSparse,
    SparseToBook,
    PageCount,
    WritePages,
}

impl Operation {
    /// The calls on sparse books, and from one edition to the other.
    pub const SPARSE: [Operation; 7] = [
        Operation::SparseTrailer,
        Operation::SparseRead,
        Operation::SparseWrite,
        Operation::SparseLength,
        Operation::BookToSparseLength,
        Operation::BookToSparse,
        Operation::SparseToBook,
    ];

    /// Whether the call reads a sparse book, and not only its trailer.
    pub fn reads_sparse(self) -> bool {
        matches!(self, Operation::SparseRead | Operation::SparseToBook)
    }

    /// Whether the call reads a first-edition book, and not only its trailer.
    pub fn reads_book(self) -> bool {
        let readers = [Operation::BookRead, Operation::BookToSparseLength, Operation::BookToSparse];
        readers.contains(&self)
    }

    /// Whether the call reads 16 trailer bytes alone.
    pub fn reads_trailer(self) -> bool {
        let readers = [Operation::BookTrailer, Operation::PlanLengths, Operation::SparseTrailer];
        readers.contains(&self)
    }

    /// Each of the others with these numbers, where it has them: first those on a model, then those that tell
    /// beforehand with the clique rows among them, and those on books.
    pub fn each(row: u32, variable: u32, budget: u32, limit: u64) -> [Operation; 17] {
        [
            Operation::PropagateRow { row },
            Operation::Propagate { budget },
            Operation::Probe { variable, budget },
            Operation::TightenCoefficient { row, variable },
            Operation::RemoveRedundantRow { row },
            Operation::IsProbingFixpoint,
            Operation::Run,
            Operation::RunClasses,
            Operation::Rounds { limit },
            Operation::Tie { k: variable, j: variable },
            Operation::PlanWidth,
            Operation::PlanRun,
            Operation::Cliques,
            Operation::PlanLengths,
            Operation::BookTrailer,
            Operation::BookRead,
            Operation::BookWrite,
        ]
    }

    /// The two on pages; they are lent the table, and `book` for the pages.
    pub const ON_PAGES: [Operation; 2] = [Operation::PageCount, Operation::WritePages];

    /// The call's name in the C interface, without `astrolabe_`.
    pub fn name(self) -> &'static str {
        match self {
            Operation::PropagateRow { .. } => "propagate_row",
            Operation::Propagate { .. } => "propagate",
            Operation::Probe { .. } => "probe",
            Operation::TightenCoefficient { .. } => "tighten_coefficient",
            Operation::RemoveRedundantRow { .. } => "remove_redundant_row",
            Operation::IsProbingFixpoint => "is_probing_fixpoint",
            Operation::Run => "run",
            Operation::RunClasses => "run_classes",
            Operation::Rounds { .. } => "rounds",
            Operation::Tie { .. } => "tie",
            Operation::PlanWidth => "plan_width",
            Operation::PlanRun => "plan_run",
            Operation::Cliques => "cliques",
            Operation::PlanLengths => "plan_lengths",
            Operation::BookTrailer => "book_trailer",
            Operation::BookRead => "book_read",
            Operation::BookWrite => "book_write",
            Operation::SparseTrailer => "sparse_trailer",
            Operation::SparseRead => "sparse_read",
            Operation::SparseWrite => "sparse_write",
            Operation::SparseLength => "sparse_length",
            Operation::BookToSparseLength => "book_to_sparse_length",
            Operation::BookToSparse => "book_to_sparse",
            Operation::SparseToBook => "sparse_to_book",
            Operation::PageCount => "page_count",
            Operation::WritePages => "write_pages",
        }
    }
}

/// An implementation of the calls.
pub trait Backend {
    /// Makes the call; 0, or the number of the failed check.
    fn call(&mut self, operation: Operation, loan: Loan) -> u32;
}

/// The plain Rust implementation.
pub struct Reference;

impl Backend for Reference {
    fn call(&mut self, operation: Operation, loan: Loan) -> u32 {
        let Loan { n, m, bounds, coefs, rhs, kinds, table, ties, calls, book, to, .. } = loan;
        let Loan { clique_coefs, clique_rhs, classes, answer, .. } = loan;
        match operation {
            Operation::PropagateRow { row } => {
                calls::propagate_row(n, m, bounds, coefs, rhs, kinds, row, answer)
            }
            Operation::Propagate { budget } => {
                calls::propagate(n, m, bounds, coefs, rhs, kinds, budget, answer)
            }
            Operation::Probe { variable, budget } => {
                calls::probe(n, m, bounds, coefs, rhs, kinds, table, variable, budget, answer)
            }
            Operation::TightenCoefficient { row, variable } => {
                calls::tighten_coefficient(n, m, bounds, coefs, rhs, kinds, row, variable, answer)
            }
            Operation::RemoveRedundantRow { row } => {
                calls::remove_redundant_row(n, m, bounds, coefs, rhs, kinds, row, answer)
            }
            Operation::IsProbingFixpoint => {
                calls::is_probing_fixpoint(n, m, bounds, coefs, rhs, kinds, answer)
            }
            Operation::Run => calls::run(n, m, bounds, coefs, rhs, kinds, table, calls, answer),
            Operation::RunClasses => {
                calls::run_classes(n, m, bounds, coefs, rhs, kinds, table, calls, classes, answer)
            }
            Operation::Rounds { limit } => {
                calls::rounds(n, m, bounds, coefs, rhs, kinds, table, limit, answer)
            }
            Operation::Tie { k, j } => {
                calls::tie(n, m, bounds, coefs, rhs, kinds, table, ties, k, j, answer)
            }
            Operation::PlanWidth => calls::plan_width(n, bounds, answer),
            Operation::PlanRun => calls::plan_run(n, bounds, calls, answer),
            Operation::Cliques => calls::cliques(n, table, clique_coefs, clique_rhs, answer),
            Operation::PlanLengths => calls::plan_lengths(book, answer),
            Operation::BookTrailer => calls::book_trailer(book, answer),
            Operation::BookRead => calls::book_read(book, bounds, coefs, rhs, kinds, answer),
            Operation::BookWrite => calls::book_write(n, m, bounds, coefs, rhs, kinds, book),
            Operation::SparseTrailer => calls::sparse_trailer(book, answer),
            Operation::SparseRead => calls::sparse_read(book, bounds, coefs, rhs, kinds, answer),
            Operation::SparseWrite => calls::sparse_write(n, m, bounds, coefs, rhs, kinds, book),
            Operation::SparseLength => {
                calls::sparse_length(n, m, bounds, coefs, rhs, kinds, answer)
            }
            Operation::BookToSparseLength => calls::book_to_sparse_length(book, answer),
            Operation::BookToSparse => calls::book_to_sparse(book, to),
            Operation::SparseToBook => calls::sparse_to_book(book, to),
            Operation::PageCount => calls::page_count(n, table, answer),
            Operation::WritePages => calls::write_pages(n, bounds, table, book),
        }
    }
}
