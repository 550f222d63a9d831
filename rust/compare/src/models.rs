//! Families of accepted models; each has models with = rows.

use reference::calls::ANSWER;
use reference::row::{AT_MOST, EQUAL};

use crate::lent::Lent;
use crate::rng::Rng;

pub const MAX_VARIABLES: usize = 128;
pub const MAX_ROWS: usize = 120;
pub const MIN_BOUND: i32 = -32_768;
pub const MAX_BOUND: i32 = 32_767;
pub const MAX_WIDTH: i32 = 4_096;
pub const MAX_COEF: i32 = 1_000_000;
pub const MAX_RHS: i32 = 1_000_000_000;
pub const MAX_BUDGET: u32 = 8_388_481;

#[derive(Clone, Copy, Debug, PartialEq, Eq)]
pub enum Family {
    /// One to four variables, few rows: every corner of a rule is near.
    Tiny,
    /// Free binary variables and small coefficients: probing, implications, tightening.
    Binary,
    /// Binary and wider variables mixed, any density.
    Mixed,
    /// n = 128 and m = 120.
    Largest,
    /// Bounds, coefficients and right sides at the ends of their ranges.
    Limits,
    /// A tightening whose new right side is the least that there is, one less or one more.
    LeastRhs,
    /// Propagation that moves bounds by one, pass after pass.
    Crawling,
    /// The empty box.
    Empty,
}

/// A model of the family, with an answer buffer and a table. No calls, no book.
pub fn model(rng: &mut Rng, family: Family) -> Lent {
    let mut lent = match family {
        Family::Tiny => {
            let (n, m) = (rng.between(1, 4) as usize, rng.between(0, 4) as usize);
            let density = rng.pick(&[50, 75, 100]);
            let bounds = mixed_box(rng, n, 40);
            rows(rng, bounds, m, density, 4)
        }
        Family::Binary => {
            let (n, m) = (rng.between(2, 16) as usize, rng.between(1, 14) as usize);
            let density = rng.pick(&[15, 30, 60, 100]);
            let coef = rng.pick(&[1, 3, 9]);
            let bounds = mixed_box(rng, n, 100);
            rows(rng, bounds, m, density, coef)
        }
        Family::Mixed => {
            let (n, m) = (rng.between(1, 40) as usize, rng.between(0, 40) as usize);
            let (binary, density) = (rng.pick(&[30, 70, 95]), rng.pick(&[3, 25, 100]));
            let coef = rng.pick(&[1, 5, 1_000, MAX_COEF]);
            let bounds = mixed_box(rng, n, binary);
            rows(rng, bounds, m, density, coef)
        }
        Family::Largest => {
            let (density, coef) = (rng.pick(&[3, 25, 100]), rng.pick(&[5, MAX_COEF]));
            let bounds = mixed_box(rng, MAX_VARIABLES, 70);
            rows(rng, bounds, MAX_ROWS, density, coef)
        }
        Family::Limits => limits(rng),
        Family::LeastRhs => least_rhs(rng),
        Family::Crawling => crawling(rng),
        Family::Empty => {
            let (n, m) = (rng.between(1, 6) as usize, rng.between(0, 5) as usize);
            let bounds = mixed_box(rng, n, 70);
            let mut lent = rows(rng, bounds, m, 70, 9);
            lent.bounds = [1, 0].repeat(n);
            lent
        }
    };
    lent.table = table(rng, lent.n);
    lent.ties = vec![0; lent.n];
    lent.answer = vec![0; ANSWER];
    lent
}

/// A table as a caller may lend it: mostly all 0, else with some bytes 1.
fn table(rng: &mut Rng, n: usize) -> Vec<u8> {
    let percent = rng.pick(&[0, 0, 0, 10, 100]);
    (0..4 * n * n).map(|_| u8::from(percent > 0 && rng.chance(percent))).collect()
}

/// Bounds of n variables, `binary` per cent of them 0 and 1, some fixed, the others of any width.
fn mixed_box(rng: &mut Rng, n: usize, binary: i64) -> Vec<i32> {
    let width = rng.pick(&[2, 5, 60, 1_000, MAX_WIDTH.into()]);
    (0..n)
        .flat_map(|_| {
            if rng.chance(binary) {
                rng.pick(&[[0, 1], [0, 1], [0, 1], [0, 1], [0, 1], [0, 0], [1, 1]])
            } else {
                pair_of_width(rng, width)
            }
        })
        .collect()
}

/// Bounds at most `width` apart: around 0 where they are narrow, else anywhere.
fn pair_of_width(rng: &mut Rng, width: i64) -> [i32; 2] {
    let (low, high) = (i64::from(MIN_BOUND), i64::from(MAX_BOUND));
    let reach = if width < 1_000 { width } else { 16 * width };
    let l = rng.between(-reach, reach).clamp(low, high);
    let u = (l + rng.between(0, width)).min(high);
    [l as i32, u as i32]
}

/// Few variables, the first free binary and one or more of the others 4,095 to 4,098 wide, with a row at
/// least: accepted where none is wider than 4,096, else refused.
pub fn around_the_widest(rng: &mut Rng) -> Lent {
    let (n, m) = (rng.between(2, 4) as usize, rng.between(1, 4) as usize);
    let mut bounds = [vec![0, 1], mixed_box(rng, n - 1, 40)].concat();
    let sure = 1 + rng.index(n - 1);
    for j in 1..n {
        if j == sure || rng.chance(30) {
            bounds[2 * j..][..2].copy_from_slice(&pair_around_the_widest(rng));
        }
    }
    let mut lent = rows(rng, bounds, m, 75, 4);
    lent.table = table(rng, n);
    lent.ties = vec![0; n];
    lent.answer = vec![0; ANSWER];
    lent
}

/// Bounds 4,095 to 4,098 apart, at an end of their range, at 0 or anywhere.
fn pair_around_the_widest(rng: &mut Rng) -> [i32; 2] {
    let width = MAX_WIDTH + rng.between(-1, 2) as i32;
    let highest = MAX_BOUND - width;
    let anywhere = rng.between(MIN_BOUND.into(), highest.into()) as i32;
    let l = rng.pick(&[MIN_BOUND, highest, 0, -width / 2, anywhere, anywhere]);
    [l, l + width]
}

/// The model of a box and m generated rows of `density` per cent nonzero coefficients up to `coef`. In some
/// models there are = rows among them, in some there is no other.
fn rows(rng: &mut Rng, bounds: Vec<i32>, m: usize, density: i64, coef: i32) -> Lent {
    let n = bounds.len() / 2;
    // Most right sides hold at this point: a model of unrelated rows is nearly always infeasible.
    let witness = witness(rng, &bounds);
    // How many rows only just bind: those are the ones that tightening and removal look for.
    let loose = rng.pick(&[0, 20, 90]);
    let equal = equal_share(rng);
    let mut lent = Lent { n, m, bounds, ..Lent::default() };
    for _ in 0..m {
        let row: Vec<i32> = (0..n).map(|_| coefficient(rng, density, coef)).collect();
        let at = activity_at(&witness, &row);
        let kind = kind(rng, equal);
        // An = row nearly always goes through the witness: else hardly a model would have a point.
        lent.rhs.push(if kind == EQUAL && rng.chance(90) {
            at.clamp((-MAX_RHS).into(), MAX_RHS.into()) as i32
        } else {
            right_side(rng, &lent.bounds, &row, at, loose)
        });
        lent.kinds.push(kind);
        lent.coefs.extend(row);
    }
    lent
}

/// How many rows of a model are = rows, in per cent.
fn equal_share(rng: &mut Rng) -> i64 {
    rng.pick(&[0, 0, 15, 50, 100])
}

/// An = row in `equal` of 100 cases; without a number from the generator where there is to be none.
fn kind(rng: &mut Rng, equal: i64) -> u8 {
    if equal > 0 && rng.chance(equal) { EQUAL } else { AT_MOST }
}

/// A point of the box.
fn witness(rng: &mut Rng, bounds: &[i32]) -> Vec<i64> {
    bounds.chunks(2).map(|pair| rng.between(pair[0].into(), pair[1].into())).collect()
}

fn activity_at(point: &[i64], row: &[i32]) -> i64 {
    row.iter().zip(point).map(|(&a, x)| i64::from(a) * x).sum()
}

fn coefficient(rng: &mut Rng, density: i64, coef: i32) -> i32 {
    if rng.chance(density) { rng.between(-i64::from(coef), coef.into()) as i32 } else { 0 }
}

/// A right side near the greatest activity (`loose` per cent), else near the activity at the witness,
/// rarely near the least.
fn right_side(rng: &mut Rng, bounds: &[i32], row: &[i32], at_witness: i64, loose: i64) -> i32 {
    let largest = row.iter().map(|a| i64::from(a.abs())).max().unwrap_or(0);
    let b = if rng.chance(loose) {
        reference::row::max_activity(bounds, row) - rng.between(-1, largest + 1)
    } else if rng.chance(95) {
        at_witness + rng.between(0, largest)
    } else {
        reference::row::min_activity(bounds, row) + rng.between(-1, largest + 1)
    };
    b.clamp((-MAX_RHS).into(), MAX_RHS.into()) as i32
}

/// Numbers at the ends of their ranges, or next to them.
fn limits(rng: &mut Rng) -> Lent {
    let n = rng.pick(&[1, 2, 3, 8, MAX_VARIABLES]);
    let m = rng.pick(&[1, 2, 5]);
    let pairs = [
        [MIN_BOUND, MIN_BOUND + MAX_WIDTH],
        [MAX_BOUND - MAX_WIDTH, MAX_BOUND],
        [MIN_BOUND, MIN_BOUND],
        [MAX_BOUND, MAX_BOUND],
        [MAX_BOUND - 1, MAX_BOUND],
        [MIN_BOUND, MIN_BOUND + 1],
        [0, MAX_WIDTH],
        [-MAX_WIDTH, 0],
        [0, 1],
        [0, 1],
    ];
    let coefs = [-MAX_COEF, 1 - MAX_COEF, -1, 0, 1, MAX_COEF - 1, MAX_COEF];
    let ends = [-MAX_RHS, 1 - MAX_RHS, -1, 0, 1, MAX_RHS - 1, MAX_RHS];
    let bounds: Vec<i32> = (0..n).flat_map(|_| rng.pick(&pairs)).collect();
    let equal = equal_share(rng);
    let mut lent = Lent { n, m, bounds, ..Lent::default() };
    for _ in 0..m {
        let row: Vec<i32> = (0..n).map(|_| rng.pick(&coefs)).collect();
        let near = reference::row::min_activity(&lent.bounds, &row) + rng.between(-1, 3_000_000);
        let near = near.clamp((-MAX_RHS).into(), MAX_RHS.into()) as i32;
        let end = rng.pick(&ends);
        lent.rhs.push(if rng.chance(60) { near } else { end });
        lent.kinds.push(kind(rng, equal));
        lent.coefs.extend(row);
    }
    lent
}

/// One row `a x + 1,000,000 y + z` over a free binary x, with y at most −1,000 and z fixed at −1, 0 or 1:
/// the greatest activity is −1,000,000,000 + a + z, so tightening at x makes the right side
/// −1,000,000,000 + z, which is written unless z is −1; now and then it is an = row, and stays.
fn least_rhs(rng: &mut Rng) -> Lent {
    let a = rng.between(2, MAX_COEF.into()) as i32;
    let z = rng.between(-1, 1) as i32;
    let lowest_y = rng.pick(&[-1_000, -1_001, -1_000 - MAX_WIDTH]);
    Lent {
        n: 3,
        m: 1,
        bounds: vec![0, 1, lowest_y, -1_000, z, z],
        coefs: vec![a, MAX_COEF, 1],
        rhs: vec![-MAX_RHS + rng.between(0, i64::from(a) - 1) as i32],
        kinds: vec![kind(rng, 20)],
        ..Lent::default()
    }
}

/// Two to six variables, most of them free binary, some pairs of which are equal or opposite (02, C-19). With a
/// table all 0, for probes to fill, or one from elsewhere that says ties; now and then with a tie list from
/// elsewhere. The pairs stand beside it.
pub fn tied(rng: &mut Rng) -> (Lent, Vec<[u32; 2]>) {
    let (n, m) = (rng.between(2, 6) as usize, rng.between(0, 3) as usize);
    let coef = rng.pick(&[1, 4, MAX_COEF]);
    let bounds = mixed_box(rng, n, 97);
    let mut lent = rows(rng, bounds, m, 75, coef);
    if m > 0 && rng.chance(20) {
        lent.rhs[rng.index(m)] = rng.pick(&[-MAX_RHS, MAX_RHS, MAX_RHS, MAX_RHS]);
    }
    lent = lent.with_table();
    let foreign = rng.chance(50);
    let mut pairs = vec![];
    for _ in 0..rng.between(1, 4) {
        let (k, j, w) = (rng.index(n), rng.index(n), rng.index(2));
        pairs.extend([[k, j], [j, k]].map(|pair| pair.map(|variable| variable as u32)));
        if foreign {
            say(rng, &mut lent, k, j, w);
        } else {
            link(rng, &mut lent, k, j, w as i32);
        }
    }
    if rng.chance(15) {
        let most = 2 * n as i64;
        lent.ties.fill_with(|| if rng.chance(25) { rng.between(0, most) as u16 } else { 0 });
    }
    (lent, pairs)
}

/// Records that j is k (w = 0) or 1 − k (w = 1): both, or at times a half of it or the other value too.
fn say(rng: &mut Rng, lent: &mut Lent, k: usize, j: usize, w: usize) {
    let half = rng.chance(20).then(|| rng.index(2));
    let values = if rng.chance(20) { vec![0, 1] } else { vec![w] };
    for w in values {
        for v in (0..2).filter(|&v| half != Some(v)) {
            lent.table[(2 * k + v) * 2 * lent.n + 2 * j + (v ^ w)] = 1;
        }
    }
}

/// Rows by which j is k (w = 0) or 1 − k (w = 1): one = row or two ≤ rows.
fn link(rng: &mut Rng, lent: &mut Lent, k: usize, j: usize, w: i32) {
    let mut row = vec![0; lent.n];
    row[k] = 1;
    row[j] += 2 * w - 1;
    let negated = row.iter().map(|a| -a).collect();
    let equal = rng.chance(50);
    for (row, b) in [(row, w), (negated, -w)].into_iter().take(if equal { 1 } else { 2 }) {
        lent.coefs.extend(row);
        lent.rhs.push(b);
        lent.kinds.push(if equal { EQUAL } else { AT_MOST });
        lent.m += 1;
    }
}

/// How far most crawls go, in passes: more would only repeat the same step.
const CRAWL: i64 = 1_500;

/// A crawling model of a few variables; sometimes as wide as a variable may be.
fn crawling(rng: &mut Rng) -> Lent {
    let width = if rng.chance(30) { MAX_WIDTH.into() } else { rng.between(1, CRAWL) };
    let ends_at_zero = rng.chance(40);
    let low = if ends_at_zero { 0 } else { rng.between(-32_768, 32_767 - width) };
    Ring {
        variables: rng.between(2, 6) as usize,
        bounds: [low as i32, (low + width) as i32],
        ends_at_zero,
        switched: rng.chance(50),
        reversed: rng.chance(50),
        equal: rng.chance(40),
    }
    .model()
}

/// A ring of variables, each at most the next, closed by a row that takes one step less: the bounds
/// move by one in each turn, for as long as they are apart.
pub struct Ring {
    pub variables: usize,
    /// l and u of each variable.
    pub bounds: [i32; 2],
    /// The last row says `1,000,000 x ≤ 999,999 y`, so that upper bounds go down to 0 and stay there;
    /// else it says `x ≤ y − 1`, and the bounds close in until the box is empty.
    pub ends_at_zero: bool,
    /// A free binary variable loosens the last row when it is 1: only one side of its probe crawls.
    pub switched: bool,
    /// The rows stand in reverse: a pass carries an upper bound all the way round and a lower bound one
    /// row further. Else it is the other way about.
    pub reversed: bool,
    /// The rows but the closing one are = rows: each bound of a variable is carried to the next one.
    pub equal: bool,
}

impl Ring {
    /// The model without table and answer.
    pub fn model(&self) -> Lent {
        let ring = self.variables;
        let n = ring + usize::from(self.switched);
        let mut bounds = self.bounds.repeat(ring);
        let mut rows: Vec<(Vec<i32>, i32, u8)> = (0..ring)
            .map(|j| {
                let mut row = vec![0; n];
                row[j] = 1;
                row[(j + 1) % ring] = -1;
                (row, 0, if self.equal { EQUAL } else { AT_MOST })
            })
            .collect();
        let (closing, rhs, kind) = rows.last_mut().expect("a ring has variables");
        *kind = AT_MOST;
        if self.ends_at_zero {
            closing[ring - 1] = MAX_COEF;
            closing[0] = 1 - MAX_COEF;
        } else {
            *rhs = -1;
        }
        if self.switched {
            bounds.extend([0, 1]);
            // As loose as the row can be: by its own greatest activity.
            let loose = reference::row::max_activity(&bounds, closing) - i64::from(*rhs);
            closing[ring] = -loose.min(MAX_COEF.into()) as i32;
        }
        if self.reversed {
            rows.reverse();
        }
        let m = rows.len();
        let mut lent = Lent { n, m, bounds, ..Lent::default() };
        for (row, rhs, kind) in rows {
            lent.coefs.extend(row);
            lent.rhs.push(rhs);
            lent.kinds.push(kind);
        }
        lent
    }
}

/// A feasible model of a given size and density, four in five variables binary, `equal` per cent of its rows
/// = rows: what a benchmark measures.
pub fn sized(rng: &mut Rng, n: usize, m: usize, density: i64, equal: i64) -> Lent {
    let bounds: Vec<i32> =
        (0..n).flat_map(|_| if rng.chance(80) { [0, 1] } else { pair_of_width(rng, 30) }).collect();
    let mut lent = Lent { n, m, bounds, ..Lent::default() };
    let witness = witness(rng, &lent.bounds);
    for _ in 0..m {
        let row: Vec<i32> = (0..n).map(|_| coefficient(rng, density, 20)).collect();
        let kind = kind(rng, equal);
        let slack = if kind == EQUAL { 0 } else { rng.between(0, 20) as i32 };
        lent.rhs.push(activity_at(&witness, &row) as i32 + slack);
        lent.kinds.push(kind);
        lent.coefs.extend(row);
    }
    lent
}

impl Lent {
    /// The same model with a table all 0, no tie, and room for an answer.
    pub fn with_table(mut self) -> Self {
        self.table = vec![0; 4 * self.n * self.n];
        self.ties = vec![0; self.n];
        self.answer = vec![0; ANSWER];
        self
    }
}

/// Binary variables, the last one wider now and then, and rows that say that at most one of some literals is
/// true, with a row of other numbers among them. The table is all 0.
pub fn at_most_one(rng: &mut Rng, n: usize) -> Lent {
    let m = rng.between(1, 8) as usize;
    let mut bounds = [0, 1].repeat(n);
    if rng.chance(20) {
        bounds[2 * n - 1] = 2;
    }
    let mut lent = rows(rng, bounds, m, 50, 3);
    for i in 0..m {
        if rng.chance(80) {
            let row = &mut lent.coefs[i * n..][..n];
            row.fill_with(|| rng.pick(&[0, 0, 1, 1, 1, -1]));
            lent.rhs[i] = 1 - row.iter().filter(|&&a| a < 0).count() as i32;
        }
    }
    lent.kinds.fill(0);
    lent.answer = vec![0; ANSWER];
    lent.with_table()
}

/// Joins the literals of a few random sets in the table; some bytes are 1 one way only.
pub fn join_literals(rng: &mut Rng, lent: &mut Lent) {
    let literals = 2 * lent.n;
    for _ in 0..rng.between(1, 6) {
        let set: Vec<usize> = (0..literals).filter(|_| rng.chance(40)).collect();
        for &p in &set {
            for &q in &set {
                if p / 2 != q / 2 && !rng.chance(2) {
                    lent.table[p * literals + (q ^ 1)] = 1;
                }
            }
        }
    }
}
