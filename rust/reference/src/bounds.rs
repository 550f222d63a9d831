//! The box: l and u of each variable in turn, `l0 u0 l1 u1 …`.

/// l and u of variable `j`.
pub fn pair(bounds: &[i32], j: usize) -> (i32, i32) {
    (bounds[2 * j], bounds[2 * j + 1])
}

/// Whether every l is 1 and every u is 0: the empty box (01's void box).
pub fn is_empty(bounds: &[i32]) -> bool {
    bounds.chunks_exact(2).all(|pair| pair == [1, 0])
}

/// Makes the box empty.
pub fn make_empty(bounds: &mut [i32]) {
    for pair in bounds.chunks_exact_mut(2) {
        pair.copy_from_slice(&[1, 0]);
    }
}

/// Whether variable `j` is a free binary variable (01's free 0-1): its bounds are now 0 and 1.
pub fn is_free(bounds: &[i32], j: usize) -> bool {
    pair(bounds, j) == (0, 1)
}

/// The value of variable `j` where its bounds leave only one.
pub fn fixed_at(bounds: &[i32], j: usize) -> Option<i32> {
    let (l, u) = pair(bounds, j);
    (l == u).then_some(l)
}

/// The smallest box that contains both.
pub fn hull(left: &[i32], right: &[i32]) -> Vec<i32> {
    left.chunks_exact(2)
        .zip(right.chunks_exact(2))
        .flat_map(|(p, q)| [p[0].min(q[0]), p[1].max(q[1])])
        .collect()
}
