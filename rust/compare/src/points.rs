//! The integer points of a small model, one by one: what a tie must keep (02, C-19).

use reference::row::EQUAL;
use reference::ties;

use crate::lent::Lent;

/// The most points of a box that is looked at.
const MOST: i64 = 5_000;

/// Every list of whole numbers in the box that meets the rows and the ties; `None` where the box is too large.
pub fn points(lent: &Lent) -> Option<Vec<Vec<i32>>> {
    let widths = lent.bounds.chunks(2).map(|pair| i64::from((pair[1] - pair[0] + 1).max(0)));
    if widths.fold(1, |size: i64, width| size.saturating_mul(width)) > MOST {
        return None;
    }
    let mut points = lent.bounds.chunks(2).fold(vec![vec![]], |points: Vec<Vec<i32>>, pair| {
        let longer = |point: &Vec<i32>, x| [&point[..], &[x]].concat();
        points.iter().flat_map(|p| (pair[0]..=pair[1]).map(move |x| longer(p, x))).collect()
    });
    points.retain(|point| meets_rows(lent, point) && ties::hold(&lent.ties, point));
    Some(points)
}

fn meets_rows(lent: &Lent, point: &[i32]) -> bool {
    (0..lent.m).all(|r| {
        let left = sum(&lent.coefs[r * lent.n..][..lent.n], point);
        let b = lent.rhs[r].into();
        if lent.kinds[r] == EQUAL { left == b } else { left <= b }
    })
}

/// The sum of coefficient · variable.
pub fn sum(coefs: &[i32], point: &[i32]) -> i64 {
    coefs.iter().zip(point).map(|(&a, &x)| i64::from(a) * i64::from(x)).sum()
}

/// Whether every recorded implication holds at the point.
pub fn implications_hold(lent: &Lent, point: &[i32]) -> bool {
    let literals = 2 * lent.n;
    let holds = |literal: usize| point[literal / 2] == (literal % 2) as i32;
    let recorded = (0..literals * literals).filter(|&at| lent.table[at] == 1);
    recorded.into_iter().all(|at| !holds(at / literals) || holds(at % literals))
}
