//! The proved library's call on proposed allocations behind the trait that the comparison and the benchmark use.

use std::ptr;

use astrolabe::ffi;
use compare::allocations::{Judge, Lent};

/// The C interface, called as C does: pointer and count, null where the count is 0.
pub struct Native;

fn raw<T>(buffer: &mut [T]) -> (*mut T, usize) {
    let pointer = if buffer.is_empty() { ptr::null_mut() } else { buffer.as_mut_ptr() };
    (pointer, buffer.len())
}

impl Judge for Native {
    fn check_allocations(&mut self, lent: &mut Lent) -> u32 {
        let (bounds, bounds_len) = raw(&mut lent.model.bounds);
        let (coefs, coefs_len) = raw(&mut lent.model.coefs);
        let (rhs, rhs_len) = raw(&mut lent.model.rhs);
        let (kinds, kinds_len) = raw(&mut lent.model.kinds);
        let (proposals, proposals_len) = raw(&mut lent.proposals);
        let (verdicts, verdicts_len) = raw(&mut lent.verdicts);
        // SAFETY: each pointer and count is that of a slice of its own, or null and 0.
        unsafe {
            ffi::astrolabe_check_allocations(
                lent.model.n,
                lent.model.m,
                bounds,
                bounds_len,
                coefs,
                coefs_len,
                rhs,
                rhs_len,
                kinds,
                kinds_len,
                proposals,
                proposals_len,
                lent.count,
                verdicts,
                verdicts_len,
            )
        }
    }
}
