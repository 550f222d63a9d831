//! The C interface as it is: `include/astrolabe.h` in Rust.
//!
//! Every slice is a pointer and a count, never a Rust slice. Each function returns 0 or the number of
//! the failed check, and checks everything that it is lent; what it cannot check is for the caller. An
//! answer has [`ANSWER_LEN`] places, and those that a function does not name are set to 0.
//!
//! # Safety
//!
//! Of every function here: a pointer points to as many elements as its count says, properly aligned,
//! initialised, and not written by others meanwhile; no two buffers overlap. With a count of 0 a
//! pointer may be null.

/// The count of every answer buffer.
pub const ANSWER_LEN: usize = 12;

/// The count of every workspace of a prepared model.
pub const WORKSPACE_LEN: usize = 16_768;

/// No row: none moved a bound, or none was infeasible.
pub const NO_ROW: u32 = u32::MAX;

unsafe extern "C" {
    /// Answer: case (0 infeasible, 1 tightened, 2 unchanged), bounds moved.
    pub fn astrolabe_propagate_row(
        n: usize,
        m: usize,
        bounds: *mut i32,
        bounds_len: usize,
        coefs: *const i32,
        coefs_len: usize,
        rhs: *const i32,
        rhs_len: usize,
        kinds: *const u8,
        kinds_len: usize,
        row: u32,
        answer: *mut u64,
        answer_len: usize,
    ) -> u32;

    /// Answer: case (0 infeasible, 1 converged, 2 budget spent), passes, bounds moved.
    pub fn astrolabe_propagate(
        n: usize,
        m: usize,
        bounds: *mut i32,
        bounds_len: usize,
        coefs: *const i32,
        coefs_len: usize,
        rhs: *const i32,
        rhs_len: usize,
        kinds: *const u8,
        kinds_len: usize,
        budget: u32,
        answer: *mut u64,
        answer_len: usize,
    ) -> u32;

    /// Answer: case (0 infeasible, 1 fixed, 2 both feasible), value or new table bytes; passes, spent and
    /// bounds moved of side 0, then those of side 1.
    pub fn astrolabe_probe(
        n: usize,
        m: usize,
        bounds: *mut i32,
        bounds_len: usize,
        coefs: *const i32,
        coefs_len: usize,
        rhs: *const i32,
        rhs_len: usize,
        kinds: *const u8,
        kinds_len: usize,
        table: *mut u8,
        table_len: usize,
        variable: u32,
        budget: u32,
        answer: *mut u64,
        answer_len: usize,
    ) -> u32;

    /// Answer: case (0 infeasible, 1 tightened, 2 unchanged).
    pub fn astrolabe_tighten_coefficient(
        n: usize,
        m: usize,
        bounds: *const i32,
        bounds_len: usize,
        coefs: *mut i32,
        coefs_len: usize,
        rhs: *mut i32,
        rhs_len: usize,
        kinds: *const u8,
        kinds_len: usize,
        row: u32,
        variable: u32,
        answer: *mut u64,
        answer_len: usize,
    ) -> u32;

    /// Answer: case (0 infeasible, 1 removed, 2 unchanged).
    pub fn astrolabe_remove_redundant_row(
        n: usize,
        m: usize,
        bounds: *const i32,
        bounds_len: usize,
        coefs: *mut i32,
        coefs_len: usize,
        rhs: *mut i32,
        rhs_len: usize,
        kinds: *mut u8,
        kinds_len: usize,
        row: u32,
        answer: *mut u64,
        answer_len: usize,
    ) -> u32;

    /// Answer: 0 no, 1 yes.
    pub fn astrolabe_is_probing_fixpoint(
        n: usize,
        m: usize,
        bounds: *const i32,
        bounds_len: usize,
        coefs: *const i32,
        coefs_len: usize,
        rhs: *const i32,
        rhs_len: usize,
        kinds: *const u8,
        kinds_len: usize,
        answer: *mut u64,
        answer_len: usize,
    ) -> u32;

    /// Answer: calls refused, infeasible, changed, unchanged. `calls_len` counts numbers, four a record.
    pub fn astrolabe_run(
        n: usize,
        m: usize,
        bounds: *mut i32,
        bounds_len: usize,
        coefs: *const i32,
        coefs_len: usize,
        rhs: *const i32,
        rhs_len: usize,
        kinds: *const u8,
        kinds_len: usize,
        table: *mut u8,
        table_len: usize,
        calls: *const u32,
        calls_len: usize,
        answer: *mut u64,
        answer_len: usize,
    ) -> u32;

    /// The same, and a byte a record: 0 refused, 1 infeasible, 2 changed, 3 unchanged.
    pub fn astrolabe_run_classes(
        n: usize,
        m: usize,
        bounds: *mut i32,
        bounds_len: usize,
        coefs: *const i32,
        coefs_len: usize,
        rhs: *const i32,
        rhs_len: usize,
        kinds: *const u8,
        kinds_len: usize,
        table: *mut u8,
        table_len: usize,
        calls: *const u32,
        calls_len: usize,
        classes: *mut u8,
        classes_len: usize,
        answer: *mut u64,
        answer_len: usize,
    ) -> u32;

    /// Answer: case (0 infeasible, 1 nothing changed, 2 limit reached), rounds.
    pub fn astrolabe_rounds(
        n: usize,
        m: usize,
        bounds: *mut i32,
        bounds_len: usize,
        coefs: *mut i32,
        coefs_len: usize,
        rhs: *mut i32,
        rhs_len: usize,
        kinds: *mut u8,
        kinds_len: usize,
        table: *mut u8,
        table_len: usize,
        limit: u64,
        answer: *mut u64,
        answer_len: usize,
    ) -> u32;

    /// Answer: case (1 tied, 2 unchanged).
    pub fn astrolabe_tie(
        n: usize,
        m: usize,
        bounds: *const i32,
        bounds_len: usize,
        coefs: *mut i32,
        coefs_len: usize,
        rhs: *mut i32,
        rhs_len: usize,
        kinds: *const u8,
        kinds_len: usize,
        table: *const u8,
        table_len: usize,
        ties: *mut u16,
        ties_len: usize,
        k: u32,
        j: u32,
        answer: *mut u64,
        answer_len: usize,
    ) -> u32;

    /// No answer: the number says all. Writes the model into `workspace`, [`WORKSPACE_LEN`] numbers.
    pub fn astrolabe_prepare(
        n: usize,
        m: usize,
        bounds: *const i32,
        bounds_len: usize,
        coefs: *const i32,
        coefs_len: usize,
        rhs: *const i32,
        rhs_len: usize,
        kinds: *const u8,
        kinds_len: usize,
        workspace: *mut u32,
        workspace_len: usize,
    ) -> u32;

    /// Answer: case (0 infeasible, 1 converged, 2 budget spent), passes, bounds moved, the infeasible row or
    /// [`NO_ROW`]. `reasons` has a number for each bound, or none.
    pub fn astrolabe_prepared_propagate(
        workspace: *mut u32,
        workspace_len: usize,
        bounds: *mut i32,
        bounds_len: usize,
        budget: u32,
        reasons: *mut u32,
        reasons_len: usize,
        answer: *mut u64,
        answer_len: usize,
    ) -> u32;

    /// Answer: that of `astrolabe_probe`, then of each side the infeasible row or [`NO_ROW`]. `reasons` has a number
    /// for each bound of side 0 and then of side 1, or none.
    pub fn astrolabe_prepared_probe(
        workspace: *mut u32,
        workspace_len: usize,
        bounds: *mut i32,
        bounds_len: usize,
        table: *mut u8,
        table_len: usize,
        variable: u32,
        budget: u32,
        reasons: *mut u32,
        reasons_len: usize,
        answer: *mut u64,
        answer_len: usize,
    ) -> u32;

    /// Answer: total width, a budget that is never spent.
    pub fn astrolabe_plan_width(
        n: usize,
        bounds: *const i32,
        bounds_len: usize,
        answer: *mut u64,
        answer_len: usize,
    ) -> u32;

    /// Answer: total width, a budget that is never spent, the passes at most. `calls_len` counts numbers, four
    /// a record.
    pub fn astrolabe_plan_run(
        n: usize,
        bounds: *const i32,
        bounds_len: usize,
        calls: *const u32,
        calls_len: usize,
        answer: *mut u64,
        answer_len: usize,
    ) -> u32;

    /// Answer: the number of clique rows written.
    pub fn astrolabe_cliques(
        n: usize,
        table: *const u8,
        table_len: usize,
        clique_coefs: *mut i32,
        clique_coefs_len: usize,
        clique_rhs: *mut i32,
        clique_rhs_len: usize,
        answer: *mut u64,
        answer_len: usize,
    ) -> u32;

    /// Answer: n, m; the elements of bounds, coefs, rhs, kinds, table, ties, clique_coefs and clique_rhs; the
    /// bytes of the book.
    pub fn astrolabe_plan_lengths(
        bytes: *const u8,
        bytes_len: usize,
        answer: *mut u64,
        answer_len: usize,
    ) -> u32;

    /// No answer: `verdicts` and the number say all. Case, and variable or row, of each proposal.
    pub fn astrolabe_check_allocations(
        n: usize,
        m: usize,
        bounds: *const i32,
        bounds_len: usize,
        coefs: *const i32,
        coefs_len: usize,
        rhs: *const i32,
        rhs_len: usize,
        kinds: *const u8,
        kinds_len: usize,
        proposals: *const i32,
        proposals_len: usize,
        count: u32,
        verdicts: *mut u32,
        verdicts_len: usize,
    ) -> u32;

    /// Answer: n, m.
    pub fn astrolabe_book_trailer(
        bytes: *const u8,
        bytes_len: usize,
        answer: *mut u64,
        answer_len: usize,
    ) -> u32;

    /// Answer: n, m.
    pub fn astrolabe_book_read(
        book: *const u8,
        book_len: usize,
        bounds: *mut i32,
        bounds_len: usize,
        coefs: *mut i32,
        coefs_len: usize,
        rhs: *mut i32,
        rhs_len: usize,
        kinds: *mut u8,
        kinds_len: usize,
        answer: *mut u64,
        answer_len: usize,
    ) -> u32;

    /// No answer: the number says all.
    pub fn astrolabe_book_write(
        n: usize,
        m: usize,
        bounds: *const i32,
        bounds_len: usize,
        coefs: *const i32,
        coefs_len: usize,
        rhs: *const i32,
        rhs_len: usize,
        kinds: *const u8,
        kinds_len: usize,
        book: *mut u8,
        book_len: usize,
    ) -> u32;

    /// Answer: n, m.
    pub fn astrolabe_sparse_trailer(
        bytes: *const u8,
        bytes_len: usize,
        answer: *mut u64,
        answer_len: usize,
    ) -> u32;

    /// Answer: n, m.
    pub fn astrolabe_sparse_read(
        book: *const u8,
        book_len: usize,
        bounds: *mut i32,
        bounds_len: usize,
        coefs: *mut i32,
        coefs_len: usize,
        rhs: *mut i32,
        rhs_len: usize,
        kinds: *mut u8,
        kinds_len: usize,
        answer: *mut u64,
        answer_len: usize,
    ) -> u32;

    /// No answer: the number says all.
    pub fn astrolabe_sparse_write(
        n: usize,
        m: usize,
        bounds: *const i32,
        bounds_len: usize,
        coefs: *const i32,
        coefs_len: usize,
        rhs: *const i32,
        rhs_len: usize,
        kinds: *const u8,
        kinds_len: usize,
        book: *mut u8,
        book_len: usize,
    ) -> u32;

    /// Answer: bytes.
    pub fn astrolabe_sparse_length(
        n: usize,
        m: usize,
        bounds: *const i32,
        bounds_len: usize,
        coefs: *const i32,
        coefs_len: usize,
        rhs: *const i32,
        rhs_len: usize,
        kinds: *const u8,
        kinds_len: usize,
        answer: *mut u64,
        answer_len: usize,
    ) -> u32;

    /// Answer: bytes.
    pub fn astrolabe_book_to_sparse_length(
        book: *const u8,
        book_len: usize,
        answer: *mut u64,
        answer_len: usize,
    ) -> u32;

    /// No answer: the number says all.
    pub fn astrolabe_book_to_sparse(
        from: *const u8,
        from_len: usize,
        to: *mut u8,
        to_len: usize,
    ) -> u32;

    /// No answer: the number says all.
    pub fn astrolabe_sparse_to_book(
        from: *const u8,
        from_len: usize,
        to: *mut u8,
        to_len: usize,
    ) -> u32;

    /// Answer: the number of pages.
    pub fn astrolabe_page_count(
        n: usize,
        table: *const u8,
        table_len: usize,
        answer: *mut u64,
        answer_len: usize,
    ) -> u32;

    /// No answer: the number says all. 4,860 bytes a page.
    pub fn astrolabe_write_pages(
        n: usize,
        bounds: *const i32,
        bounds_len: usize,
        table: *const u8,
        table_len: usize,
        pages: *mut u8,
        pages_len: usize,
    ) -> u32;
}
