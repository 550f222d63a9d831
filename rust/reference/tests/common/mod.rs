//! A model in owned buffers, so that a test reads like a line of 01.
#![allow(dead_code)] // each test file uses its own part

use reference::calls::{self, ANSWER};

/// A refusal's number, or the places of the answer.
pub type Said = Result<[u64; ANSWER], u32>;

#[derive(Clone, Debug, PartialEq)]
pub struct Model {
    pub n: usize,
    pub m: usize,
    pub bounds: Vec<i32>,
    pub coefs: Vec<i32>,
    pub rhs: Vec<i32>,
    pub kinds: Vec<u8>,
    pub table: Vec<u8>,
    pub ties: Vec<u16>,
}

/// The answer of an accepted call, its unused places filled with 0.
pub fn ok(values: &[u64]) -> Said {
    let mut all = [0; ANSWER];
    all[..values.len()].copy_from_slice(values);
    Ok(all)
}

impl Model {
    /// A model from the bounds of each variable and the rows, each with its right side. All are ≤ rows.
    pub fn new(bounds: &[(i32, i32)], rows: &[(&[i32], i32)]) -> Self {
        Model {
            n: bounds.len(),
            m: rows.len(),
            bounds: bounds.iter().flat_map(|&(l, u)| [l, u]).collect(),
            coefs: rows.iter().flat_map(|(coefs, _)| coefs.iter().copied()).collect(),
            rhs: rows.iter().map(|&(_, b)| b).collect(),
            kinds: vec![0; rows.len()],
            table: vec![0; 4 * bounds.len() * bounds.len()],
            ties: vec![0; bounds.len()],
        }
    }

    /// A model in free binary variables.
    pub fn binary(n: usize, rows: &[(&[i32], i32)]) -> Self {
        Model::new(&vec![(0, 1); n], rows)
    }

    /// The same model with these rows as = rows.
    pub fn with_equal(mut self, rows: &[usize]) -> Self {
        rows.iter().for_each(|&r| self.kinds[r] = 1);
        self
    }

    /// The same model with each = row as two: its ≤ form, and in the next place its negated form.
    pub fn in_two_rows(&self) -> Self {
        let rows: Vec<(Vec<i32>, i32)> = (0..self.m)
            .flat_map(|r| {
                let (coefs, b) = self.row(r);
                let negated =
                    (self.kinds[r] == 1).then(|| (coefs.iter().map(|a| -a).collect(), -b));
                [(coefs.to_vec(), b)].into_iter().chain(negated)
            })
            .collect();
        let bounds: Vec<(i32, i32)> =
            self.bounds.chunks(2).map(|pair| (pair[0], pair[1])).collect();
        let rows: Vec<(&[i32], i32)> = rows.iter().map(|(coefs, b)| (&coefs[..], *b)).collect();
        let (table, ties) = (self.table.clone(), self.ties.clone());
        Model { table, ties, ..Model::new(&bounds, &rows) }
    }

    pub fn row(&self, r: usize) -> (&[i32], i32) {
        (&self.coefs[r * self.n..(r + 1) * self.n], self.rhs[r])
    }

    pub fn is_empty(&self) -> bool {
        self.bounds.chunks(2).all(|pair| pair == [1, 0])
    }

    /// Makes a call with a full answer, and sees that a refusal changes nothing.
    fn call(&mut self, call: impl FnOnce(&mut Model, &mut [u64]) -> u32) -> Said {
        let before = self.clone();
        let mut answer = [77; ANSWER];
        match call(self, &mut answer) {
            0 => Ok(answer),
            check => {
                assert_eq!((&*self, answer), (&before, [77; ANSWER]), "a refusal writes nothing");
                Err(check)
            }
        }
    }

    pub fn propagate_row(&mut self, row: u32) -> Said {
        self.call(|s, answer| {
            calls::propagate_row(s.n, s.m, &mut s.bounds, &s.coefs, &s.rhs, &s.kinds, row, answer)
        })
    }

    pub fn propagate(&mut self, budget: u32) -> Said {
        self.call(|s, answer| {
            calls::propagate(s.n, s.m, &mut s.bounds, &s.coefs, &s.rhs, &s.kinds, budget, answer)
        })
    }

    pub fn probe(&mut self, variable: u32, budget: u32) -> Said {
        self.call(|s, answer| {
            let (bounds, table) = (&mut s.bounds, &mut s.table);
            calls::probe(
                s.n, s.m, bounds, &s.coefs, &s.rhs, &s.kinds, table, variable, budget, answer,
            )
        })
    }

    pub fn tighten(&mut self, row: u32, variable: u32) -> Said {
        self.call(|s, answer| {
            let (coefs, rhs) = (&mut s.coefs, &mut s.rhs);
            calls::tighten_coefficient(
                s.n, s.m, &s.bounds, coefs, rhs, &s.kinds, row, variable, answer,
            )
        })
    }

    pub fn remove(&mut self, row: u32) -> Said {
        self.call(|s, answer| {
            let (coefs, rhs) = (&mut s.coefs, &mut s.rhs);
            calls::remove_redundant_row(s.n, s.m, &s.bounds, coefs, rhs, &mut s.kinds, row, answer)
        })
    }

    pub fn at_rest(&mut self) -> Said {
        self.call(|s, answer| {
            calls::is_probing_fixpoint(s.n, s.m, &s.bounds, &s.coefs, &s.rhs, &s.kinds, answer)
        })
    }

    pub fn run(&mut self, calls: &[u32]) -> Said {
        self.call(|s, answer| {
            let (bounds, coefs, rhs) = (&mut s.bounds, &mut s.coefs, &mut s.rhs);
            calls::run(s.n, s.m, bounds, coefs, rhs, &mut s.kinds, &mut s.table, calls, answer)
        })
    }

    pub fn rounds(&mut self, limit: u64) -> Said {
        self.call(|s, answer| {
            let (bounds, coefs, rhs) = (&mut s.bounds, &mut s.coefs, &mut s.rhs);
            calls::rounds(s.n, s.m, bounds, coefs, rhs, &mut s.kinds, &mut s.table, limit, answer)
        })
    }

    /// Ties variable j to variable k.
    pub fn tie(&mut self, k: u32, j: u32) -> Said {
        self.call(|s, answer| {
            let (coefs, rhs, ties) = (&mut s.coefs, &mut s.rhs, &mut s.ties);
            calls::tie(s.n, s.m, &s.bounds, coefs, rhs, &s.kinds, &s.table, ties, k, j, answer)
        })
    }

    /// The model's book, or the refusal's number.
    pub fn write(&self) -> Result<Vec<u8>, u32> {
        let (n, m) = (self.n, self.m);
        let mut book = vec![77; 8 * n + m * (4 + 4 * n) + 16];
        match calls::book_write(n, m, &self.bounds, &self.coefs, &self.rhs, &self.kinds, &mut book)
        {
            0 => Ok(book),
            check => {
                assert!(book.iter().all(|&byte| byte == 77), "a refusal writes nothing");
                Err(check)
            }
        }
    }

    /// The book of a model that has one.
    pub fn book(&self) -> Vec<u8> {
        self.write().expect("an accepted model without = rows")
    }
}
