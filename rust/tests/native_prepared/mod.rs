//! The proved library's calls on prepared models behind the trait that the comparison uses.

use std::ptr;

use astrolabe::ffi;
use compare::lent;
use compare::prepared::{Backend, Loan, Operation};

/// The C interface, called as C does: pointer and count, null where the count is 0.
pub struct Native;

fn raw<T>(buffer: &mut [T]) -> (*mut T, usize) {
    let pointer = if buffer.is_empty() { ptr::null_mut() } else { buffer.as_mut_ptr() };
    (pointer, buffer.len())
}

impl Backend for Native {
    fn prepare(&mut self, model: &mut lent::Lent, workspace: &mut [u32]) -> u32 {
        let (bounds, bounds_len) = raw(&mut model.bounds);
        let (coefs, coefs_len) = raw(&mut model.coefs);
        let (rhs, rhs_len) = raw(&mut model.rhs);
        let (kinds, kinds_len) = raw(&mut model.kinds);
        let (workspace, workspace_len) = raw(workspace);
        // SAFETY: each pointer and count is that of a slice of its own, or null and 0.
        unsafe {
            ffi::astrolabe_prepare(
                model.n,
                model.m,
                bounds,
                bounds_len,
                coefs,
                coefs_len,
                rhs,
                rhs_len,
                kinds,
                kinds_len,
                workspace,
                workspace_len,
            )
        }
    }

    fn call(&mut self, operation: Operation, loan: Loan) -> u32 {
        let (workspace, workspace_len) = raw(loan.workspace);
        let (bounds, bounds_len) = raw(loan.bounds);
        let (reasons, reasons_len) = raw(loan.reasons);
        let (table, table_len) = raw(loan.table);
        let (answer, answer_len) = raw(loan.answer);
        // SAFETY: each pointer and count is that of a slice of its own, or null and 0.
        unsafe {
            match operation {
                Operation::Propagate { budget } => ffi::astrolabe_prepared_propagate(
                    workspace,
                    workspace_len,
                    bounds,
                    bounds_len,
                    budget,
                    reasons,
                    reasons_len,
                    answer,
                    answer_len,
                ),
                Operation::Probe { variable, budget } => ffi::astrolabe_prepared_probe(
                    workspace,
                    workspace_len,
                    bounds,
                    bounds_len,
                    table,
                    table_len,
                    variable,
                    budget,
                    reasons,
                    reasons_len,
                    answer,
                    answer_len,
                ),
            }
        }
    }
}
