//! The proved library behind the trait that the comparison and the benchmark use.

use std::ptr;

use astrolabe::ffi;
use compare::lent::{Backend, Loan, Operation};

/// The C interface, called as C does: pointer and count, null where the count is 0.
pub struct Native;

/// The pointer and the count of a buffer.
///
/// Always from a mutable slice, also for a buffer that the call takes as const: if it were written all
/// the same, the comparison would see it.
fn raw<T>(buffer: &mut [T]) -> (*mut T, usize) {
    let pointer = if buffer.is_empty() { ptr::null_mut() } else { buffer.as_mut_ptr() };
    (pointer, buffer.len())
}

impl Backend for Native {
    fn call(&mut self, operation: Operation, loan: Loan) -> u32 {
        let (n, m) = (loan.n, loan.m);
        let (bounds, bounds_len) = raw(loan.bounds);
        let (coefs, coefs_len) = raw(loan.coefs);
        let (rhs, rhs_len) = raw(loan.rhs);
        let (kinds, kinds_len) = raw(loan.kinds);
        let (table, table_len) = raw(loan.table);
        let (ties, ties_len) = raw(loan.ties);
        let (calls, calls_len) = raw(loan.calls);
        let (classes, classes_len) = raw(loan.classes);
        let (book, book_len) = raw(loan.book);
        let (clique_coefs, clique_coefs_len) = raw(loan.clique_coefs);
        let (clique_rhs, clique_rhs_len) = raw(loan.clique_rhs);
        let (to, to_len) = raw(loan.to);
        let (answer, answer_len) = raw(loan.answer);
        // SAFETY: each pointer and count is that of a slice of its own, or null and 0.
        unsafe {
            match operation {
                Operation::PropagateRow { row } => ffi::astrolabe_propagate_row(
                    n, m, bounds, bounds_len, coefs, coefs_len, rhs, rhs_len, kinds, kinds_len,
                    row, answer, answer_len,
                ),
                Operation::Propagate { budget } => ffi::astrolabe_propagate(
                    n, m, bounds, bounds_len, coefs, coefs_len, rhs, rhs_len, kinds, kinds_len,
                    budget, answer, answer_len,
                ),
                Operation::Probe { variable, budget } => ffi::astrolabe_probe(
                    n, m, bounds, bounds_len, coefs, coefs_len, rhs, rhs_len, kinds, kinds_len,
                    table, table_len, variable, budget, answer, answer_len,
                ),
                Operation::TightenCoefficient { row, variable } => {
                    ffi::astrolabe_tighten_coefficient(
                        n, m, bounds, bounds_len, coefs, coefs_len, rhs, rhs_len, kinds, kinds_len,
                        row, variable, answer, answer_len,
                    )
                }
                Operation::RemoveRedundantRow { row } => ffi::astrolabe_remove_redundant_row(
                    n, m, bounds, bounds_len, coefs, coefs_len, rhs, rhs_len, kinds, kinds_len,
                    row, answer, answer_len,
                ),
                Operation::IsProbingFixpoint => ffi::astrolabe_is_probing_fixpoint(
                    n, m, bounds, bounds_len, coefs, coefs_len, rhs, rhs_len, kinds, kinds_len,
                    answer, answer_len,
                ),
                Operation::Run => ffi::astrolabe_run(
                    n, m, bounds, bounds_len, coefs, coefs_len, rhs, rhs_len, kinds, kinds_len,
                    table, table_len, calls, calls_len, answer, answer_len,
                ),
                Operation::RunClasses => ffi::astrolabe_run_classes(
                    n,
                    m,
                    bounds,
                    bounds_len,
                    coefs,
                    coefs_len,
                    rhs,
                    rhs_len,
                    kinds,
                    kinds_len,
                    table,
                    table_len,
                    calls,
                    calls_len,
                    classes,
                    classes_len,
                    answer,
                    answer_len,
                ),
                Operation::Rounds { limit } => ffi::astrolabe_rounds(
                    n, m, bounds, bounds_len, coefs, coefs_len, rhs, rhs_len, kinds, kinds_len,
                    table, table_len, limit, answer, answer_len,
                ),
                Operation::Tie { k, j } => ffi::astrolabe_tie(
                    n, m, bounds, bounds_len, coefs, coefs_len, rhs, rhs_len, kinds, kinds_len,
                    table, table_len, ties, ties_len, k, j, answer, answer_len,
                ),
                Operation::PlanWidth => {
                    ffi::astrolabe_plan_width(n, bounds, bounds_len, answer, answer_len)
                }
                Operation::PlanRun => ffi::astrolabe_plan_run(
                    n, bounds, bounds_len, calls, calls_len, answer, answer_len,
                ),
                Operation::Cliques => ffi::astrolabe_cliques(
                    n,
                    table,
                    table_len,
                    clique_coefs,
                    clique_coefs_len,
                    clique_rhs,
                    clique_rhs_len,
                    answer,
                    answer_len,
                ),
                Operation::PlanLengths => {
                    ffi::astrolabe_plan_lengths(book, book_len, answer, answer_len)
                }
                Operation::PageCount => {
                    ffi::astrolabe_page_count(n, table, table_len, answer, answer_len)
                }
                Operation::WritePages => ffi::astrolabe_write_pages(
                    n, bounds, bounds_len, table, table_len, book, book_len,
                ),
                Operation::BookTrailer => {
                    ffi::astrolabe_book_trailer(book, book_len, answer, answer_len)
                }
                Operation::BookRead => ffi::astrolabe_book_read(
                    book, book_len, bounds, bounds_len, coefs, coefs_len, rhs, rhs_len, kinds,
                    kinds_len, answer, answer_len,
                ),
                Operation::BookWrite => ffi::astrolabe_book_write(
                    n, m, bounds, bounds_len, coefs, coefs_len, rhs, rhs_len, kinds, kinds_len,
                    book, book_len,
                ),
                Operation::SparseTrailer => {
                    ffi::astrolabe_sparse_trailer(book, book_len, answer, answer_len)
                }
                Operation::SparseRead => ffi::astrolabe_sparse_read(
                    book, book_len, bounds, bounds_len, coefs, coefs_len, rhs, rhs_len, kinds,
                    kinds_len, answer, answer_len,
                ),
                Operation::SparseWrite => ffi::astrolabe_sparse_write(
                    n, m, bounds, bounds_len, coefs, coefs_len, rhs, rhs_len, kinds, kinds_len,
                    book, book_len,
                ),
                Operation::SparseLength => ffi::astrolabe_sparse_length(
                    n, m, bounds, bounds_len, coefs, coefs_len, rhs, rhs_len, kinds, kinds_len,
                    answer, answer_len,
                ),
                Operation::BookToSparseLength => {
                    ffi::astrolabe_book_to_sparse_length(book, book_len, answer, answer_len)
                }
                Operation::BookToSparse => {
                    ffi::astrolabe_book_to_sparse(book, book_len, to, to_len)
                }
                Operation::SparseToBook => {
                    ffi::astrolabe_sparse_to_book(book, book_len, to, to_len)
                }
            }
        }
    }
}
