//! Clique rows (02, C-12).

use reference::calls::{self, ANSWER};
use reference::cliques;

/// A table of n variables in which each pair of these literals is joined.
fn joining(n: usize, groups: &[&[usize]]) -> Vec<u8> {
    let mut table = vec![0; 4 * n * n];
    for group in groups {
        for &p in *group {
            for &q in group.iter().filter(|&&q| q / 2 != p / 2) {
                table[p * 2 * n + (q ^ 1)] = 1;
            }
        }
    }
    table
}

/// The rows of the call, coefficients and right side; what it does not use of the list is 0.
fn rows(n: usize, table: &[u8]) -> Vec<(Vec<i32>, i32)> {
    let (mut coefs, mut rhs, mut answer) = (vec![7; 2 * n * n], vec![7; 2 * n], [7; ANSWER]);
    assert_eq!(calls::cliques(n, table, &mut coefs, &mut rhs, &mut answer), 0);
    assert_eq!(answer[1..], [0; ANSWER - 1]);
    let number = answer[0] as usize;
    assert!(coefs[number * n..].iter().chain(&rhs[number..]).all(|&x| x == 0));
    (0..number).map(|i| (coefs[i * n..][..n].to_vec(), rhs[i])).collect()
}

#[test]
fn the_papers_example_gives_the_one_row_over_its_first_three_variables() {
    // 000, 2.2.2: 4 x0 + x1 − 3 x3 ≤ 2, 2 x0 + 3 x1 + 3 x3 ≤ 7, x0 + 4 x1 + 2 x2 ≤ 5, 3 x0 + x1 + 5 x2 ≤ 6
    let mut bounds = [0, 1].repeat(4);
    let coefs = [4, 1, 0, -3, 2, 3, 0, 3, 1, 4, 2, 0, 3, 1, 5, 0];
    let (rhs, kinds) = ([2, 7, 5, 6], [0; 4]);
    let (mut table, mut answer) = (vec![0; 64], [0; ANSWER]);
    for k in 0..4 {
        let said = calls::probe(
            4,
            4,
            &mut bounds,
            &coefs,
            &rhs,
            &kinds,
            &mut table,
            k,
            1_000,
            &mut answer,
        );
        assert_eq!(said, 0);
    }
    assert_eq!(rows(4, &table), [(vec![1, 1, 1, 0], 1)]);
}

#[test]
fn sets_of_three_or_more_each_once_in_the_order_grown() {
    // Joins 1-3-5 and 3-5-7: from 3 and 5 the first is grown again.
    let two = rows(4, &joining(4, &[&[1, 3, 5], &[3, 5, 7]]));
    assert_eq!(two, [(vec![1, 1, 1, 0], 1), (vec![0, 1, 1, 1], 1)]);
    // Four literals joined to each other: one. Were those below the start not tried, 3-5-7 would be another.
    assert_eq!(rows(4, &joining(4, &[&[1, 3, 5, 7]])), [(vec![1; 4], 1)]);
    assert_eq!(rows(4, &joining(4, &[&[1, 3]])), []);
    assert_eq!(rows(1, &[0; 4]), []);
}

#[test]
fn variables_meant_at_0() {
    assert_eq!(rows(3, &joining(3, &[&[0, 2, 5]])), [(vec![-1, -1, 1], -1)]);
    assert_eq!(rows(3, &joining(3, &[&[0, 2, 4]])), [(vec![-1, -1, -1], -2)]);
}

#[test]
fn one_way_is_not_joined() {
    let mut table = joining(3, &[&[1, 3, 5]]);
    table[3 * 6 + 4] = 0; // 3 no longer implies the opposite of 5
    assert_eq!(rows(3, &table), []);
}

#[test]
fn a_table_that_says_everything() {
    let mut table = vec![1; 36];
    let all = rows(3, &table);
    assert_eq!(
        all,
        [
            (vec![-1, -1, -1], -2),
            (vec![1, -1, -1], -1),
            (vec![-1, 1, -1], -1),
            (vec![-1, -1, 1], -1),
        ]
    );
    table.fill(0);
    assert_eq!(rows(3, &table), []);
}

#[test]
fn no_literal_could_be_added() {
    let table = joining(6, &[&[1, 3, 5, 7], &[1, 4, 9], &[0, 4, 8, 11], &[3, 9, 11]]);
    for clique in cliques::cliques(6, &table) {
        for q in 0..12 {
            assert!(!clique.iter().all(|&p| cliques::joined(6, &table, p, q)), "{clique:?} {q}");
        }
    }
}

#[test]
fn refusals_in_their_order() {
    let call = |n: usize, table: &[u8], coefs: usize, rhs: usize, places: usize| {
        let (mut coefs, mut rhs) = (vec![7; coefs], vec![7; rhs]);
        let mut answer = vec![7; places];
        let said = calls::cliques(n, table, &mut coefs, &mut rhs, &mut answer);
        assert!(said == 0 || answer.iter().all(|&place| place == 7), "a refusal writes nothing");
        assert!(said == 0 || coefs.iter().chain(&rhs).all(|&x| x == 7), "a refusal writes nothing");
        said
    };
    assert_eq!(call(1, &[0; 4], 2, 2, ANSWER), 0);
    assert_eq!(call(0, &[2], 9, 9, 0), 3);
    assert_eq!(call(129, &[0; 4], 2, 2, ANSWER), 3);
    assert_eq!(call(1, &[2; 3], 2, 2, ANSWER), 5);
    assert_eq!(call(1, &[2; 4], 1, 2, ANSWER), 5);
    assert_eq!(call(1, &[2; 4], 2, 3, ANSWER), 5);
    assert_eq!(call(1, &[2; 4], 2, 2, ANSWER - 1), 5);
    assert_eq!(call(1, &[0, 0, 0, 2], 2, 2, ANSWER), 10);
}
