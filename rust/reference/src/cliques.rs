//! Clique rows (02, C-12; 000, 2.2.2): from the implication table alone, rows over literals of which at most
//! one can be true. Literal 2k + v is "variable k is v".

use std::collections::BTreeSet;

/// The literals of a clique.
pub type Clique = BTreeSet<usize>;

/// "variable k is 1 − v" of "variable k is v".
fn opposite(q: usize) -> usize {
    q ^ 1
}

/// "Two literals of different variables are joined when the table says that each implies the other's
/// opposite."
pub fn joined(n: usize, table: &[u8], p: usize, q: usize) -> bool {
    let says = |from: usize, to: usize| table[from * 2 * n + to] == 1;
    p / 2 != q / 2 && says(p, opposite(q)) && says(q, opposite(p))
}

/// "From each literal .. a clique is grown: all literals are tried upwards from 0 and taken when joined to all
/// taken so far."
pub fn grow(n: usize, table: &[u8], start: usize) -> Clique {
    let mut taken = Clique::from([start]);
    for q in 0..2 * n {
        if taken.iter().all(|&p| joined(n, table, p, q)) {
            taken.insert(q);
        }
    }
    taken
}

/// "Cliques of three or more are written in the order grown .., each set once".
pub fn cliques(n: usize, table: &[u8]) -> Vec<Clique> {
    let mut found: Vec<Clique> = Vec::new();
    for start in 0..2 * n {
        let clique = grow(n, table, start);
        if clique.len() >= 3 && !found.contains(&clique) {
            found.push(clique);
        }
    }
    found
}

/// "as: sum of the variables meant at 1, less the sum of those meant at 0, ≤ 1 − the number of the latter"
pub fn row(n: usize, clique: &Clique) -> (Vec<i32>, i32) {
    let (mut coefs, mut rhs) = (vec![0; n], 1);
    for q in clique {
        if q % 2 == 1 {
            coefs[q / 2] += 1;
        } else {
            coefs[q / 2] -= 1;
            rhs -= 1;
        }
    }
    (coefs, rhs)
}

/// "into a lent list of 2n rows, their number in the answer and the rest of the list zero"
pub fn write(n: usize, table: &[u8], coefs: &mut [i32], rhs: &mut [i32]) -> usize {
    coefs.fill(0);
    rhs.fill(0);
    let cliques = cliques(n, table);
    for (i, clique) in cliques.iter().enumerate() {
        let (row_coefs, row_rhs) = row(n, clique);
        coefs[i * n..][..n].copy_from_slice(&row_coefs);
        rhs[i] = row_rhs;
    }
    cliques.len()
}
