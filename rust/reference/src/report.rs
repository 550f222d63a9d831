//! What the programs `reduce` and `reduce8` print for what they read.

use std::fmt::Write;

use crate::rounds::{Rounds, RoundsEnding, rounds};
use crate::row::{AT_MOST, Row};
use crate::{State, book, checks};

/// The limit of `reduce`: none (02, C-20).
pub const NO_LIMIT: u64 = u64::MAX;

/// The rounds that `reduce8` makes at most.
pub const EIGHT: u64 = 8;

/// The output for a book on standard input, with at most `limit` rounds.
pub fn reduce(input: &[u8], limit: u64) -> String {
    match reduced(input, limit) {
        Err(check) => format!("refused {check}\n"),
        Ok(None) => "none\n".to_string(),
        Ok(Some(text)) => text,
    }
}

/// `None` where the model is infeasible.
fn reduced(input: &[u8], limit: u64) -> Result<Option<String>, u32> {
    let (n, m) = book::size(input)?;
    let (mut bounds, mut coefs, mut rhs) = book::numbers(input, n, m);
    checks::numbers(&bounds, &coefs, &rhs)?;
    let (mut kinds, mut table) = (vec![AT_MOST; m], vec![0; 4 * n * n]);
    let mut state = State {
        n,
        bounds: &mut bounds,
        coefs: &mut coefs,
        rhs: &mut rhs,
        kinds: &mut kinds,
        table: &mut table,
    };
    let Rounds { ending, made, .. } = rounds(&mut state, limit);
    Ok((ending != RoundsEnding::Infeasible).then(|| print(&state, made)))
}

fn print(state: &State, rounds: u64) -> String {
    let (n, m) = (state.n, state.rhs.len());
    let mut out = format!("reduced {n} {m} {rounds}\n");
    for (j, pair) in state.bounds.chunks_exact(2).enumerate() {
        writeln!(out, "v {j} {} {}", pair[0], pair[1]).unwrap();
    }
    for (r, Row { coefs, rhs, .. }) in state.rows().iter().enumerate() {
        if rhs != 0 || coefs.iter().any(|&a| a != 0) {
            write!(out, "r {r} {rhs}").unwrap();
            coefs.iter().for_each(|a| write!(out, " {a}").unwrap());
            out.push('\n');
        }
    }
    for (at, _) in state.table.iter().enumerate().filter(|(_, byte)| **byte == 1) {
        let (p, q) = (at / (2 * n), at % (2 * n));
        writeln!(out, "i {} {} {} {}", p / 2, p % 2, q / 2, q % 2).unwrap();
    }
    out
}
