//! The pages for the floor (02, C-23).

use reference::calls::{self, ANSWER};
use reference::pages::{self, PAGE};

/// A table of n variables with these bytes 1: "variable k is v implies variable j is w".
fn table(n: usize, implications: &[[usize; 4]]) -> Vec<u8> {
    let mut table = vec![0; 4 * n * n];
    for [k, v, j, w] in implications {
        table[(2 * k + v) * 2 * n + 2 * j + w] = 1;
    }
    table
}

fn count(n: usize, table: &[u8]) -> Result<u64, u32> {
    let mut answer = [7; ANSWER];
    match calls::page_count(n, table, &mut answer) {
        0 => {
            assert_eq!(answer[1..], [0; ANSWER - 1]);
            Ok(answer[0])
        }
        check => {
            assert_eq!(answer, [7; ANSWER], "a refusal writes nothing");
            Err(check)
        }
    }
}

fn write(n: usize, bounds: &[i32], table: &[u8], lent: usize) -> Result<Vec<u8>, u32> {
    let mut bytes = vec![0x55; lent];
    match calls::write_pages(n, bounds, table, &mut bytes) {
        0 => Ok(bytes),
        check => {
            assert!(bytes.iter().all(|&byte| byte == 0x55), "a refusal writes nothing");
            Err(check)
        }
    }
}

/// The lines of the pages, each checked to have 80 columns.
fn lines(pages: &[u8]) -> Vec<String> {
    assert_eq!(pages.len() % PAGE, 0);
    let lines: Vec<String> = pages
        .chunks(81)
        .map(|line| {
            assert_eq!(line[80], b'\n');
            assert!(line[..80].iter().all(|&byte| byte == b' ' || byte.is_ascii_graphic()));
            String::from_utf8(line[..80].to_vec()).unwrap()
        })
        .collect();
    assert_eq!(lines.len() % 60, 0);
    lines
}

/// What a person reads from the pages: of each variable its number, l, u, and the literals.
fn read(pages: &[u8]) -> Vec<(usize, i32, i32, Vec<String>)> {
    let mut variables = Vec::new();
    for (place, line) in lines(pages).iter().enumerate() {
        if place % 60 == 0 {
            assert_eq!(line[..74].trim(), "");
            assert_eq!(line[74..].trim_start().parse(), Ok(place / 60 + 1));
            continue;
        }
        if !line[..23].trim().is_empty() {
            let number = |columns: &str| columns.trim_start().parse().unwrap();
            variables.push((
                number(&line[..6]) as usize,
                number(&line[7..14]),
                number(&line[15..22]),
                Vec::new(),
            ));
        }
        let literals = (23..71).step_by(6).map(|at| line[at..at + 6].trim_end().to_string());
        variables.iter_mut().last().into_iter().for_each(|variable| {
            variable.3.extend(literals.clone().filter(|literal| !literal.is_empty()));
        });
        assert_eq!(line[71..].trim(), "");
    }
    variables
}

#[test]
fn the_example_of_01_on_paper() {
    let table = table(2, &[[0, 1, 1, 0], [1, 1, 0, 0]]);
    let pages = pages::write(2, &[0, 1, 0, 1], &table);
    let page = lines(&pages);
    assert_eq!(page.len(), 60);
    assert_eq!(page[0], format!("{:>80}", 1));
    assert_eq!(page[1], format!("{:80}", "     0       0       1 -1"));
    assert_eq!(page[2], format!("{:80}", "     1       0       1 -0"));
    assert!(page[3..].iter().all(|line| *line == " ".repeat(80)));
}

#[test]
fn columns() {
    let bounds = [-32_768, -28_672, 28_671, 32_767, 1, 0];
    let pages = pages::write(3, &bounds, &table(3, &[[0, 1, 2, 1], [0, 1, 0, 1], [0, 0, 1, 1]]));
    let page = lines(&pages);
    assert_eq!(page[1].trim_end(), "     0  -32768  -28672 +0    +2");
    assert_eq!(page[2].trim_end(), "     1   28671   32767");
    assert_eq!(page[3].trim_end(), "     2       1       0");
}

#[test]
fn the_empty_box_prints_1_and_0() {
    let page = lines(&write(2, &[1, 0, 1, 0], &table(2, &[]), PAGE).unwrap());
    assert_eq!(page[1].trim_end(), "     0       1       0");
    assert_eq!(page[2].trim_end(), "     1       1       0");
}

#[test]
fn eight_literals_a_line() {
    let n = 128;
    let bounds = [0, 1].repeat(n);
    for some in [1, 8, 9, 16, 17, 254, 256] {
        let all: Vec<[usize; 4]> = (0..some).map(|q| [127, 1, q / 2, q % 2]).collect();
        let table = table(n, &all);
        let lines_of_127 = usize::div_ceil(some, 8);
        assert_eq!(count(n, &table), Ok((127 + lines_of_127).div_ceil(59) as u64));
        let pages = pages::write(n, &bounds, &table);
        let read = read(&pages);
        assert_eq!(read.len(), n);
        let literals: Vec<String> =
            (0..some).map(|q| format!("{}{}", ["-", "+"][q % 2], q / 2)).collect();
        assert_eq!(read[127], (127, 0, 1, literals));
        assert!(read[..127].iter().all(|variable| variable.3.is_empty()));
    }
}

#[test]
fn the_largest_table_has_70_pages() {
    let (n, bounds) = (128, [0, 1].repeat(128));
    let table = vec![1; 4 * n * n];
    assert_eq!(count(n, &table), Ok(70));
    let pages = write(n, &bounds, &table, 70 * PAGE).unwrap();
    let read = read(&pages);
    assert!((0..n).all(|k| read[k].0 == k && read[k].3.len() == 256));
    // 4,096 lines: the last page has 25 of them, and 34 empty ones.
    let last = &lines(&pages)[69 * 60..];
    assert_ne!(last[25].trim(), "");
    assert!(last[26..].iter().all(|line| line.trim().is_empty()));
    assert_eq!(last[0].trim(), "70");
}

#[test]
fn a_page_is_full_at_59_lines() {
    let bounds = |n: usize| [0, 1].repeat(n);
    for (n, pages) in [(1, 1), (58, 1), (59, 1), (60, 2), (118, 2), (119, 3)] {
        assert_eq!(count(n, &table(n, &[])), Ok(pages));
        assert_eq!(pages::write(n, &bounds(n), &table(n, &[])).len() as u64, pages * 4_860);
    }
}

#[test]
fn what_is_refused() {
    let (bounds, none) = ([0, 1, 0, 1], table(2, &[]));
    let with = |byte| [&none[..15], &[byte]].concat();
    // 3, of n alone; 5; 10
    assert_eq!([0, 129, usize::MAX].map(|n| count(n, &none)), [Err(3); 3]);
    assert_eq!(count(2, &none[..15]), Err(5));
    assert_eq!(calls::page_count(2, &none, &mut [0; 11]), 5);
    assert_eq!(count(2, &with(2)), Err(10));
    assert_eq!([0, 129].map(|n| write(n, &bounds, &none, 0)), [Err(3), Err(3)]);
    assert_eq!(write(2, &bounds[..3], &none, PAGE), Err(5));
    assert_eq!(write(2, &bounds, &none[..15], PAGE), Err(5));
    assert_eq!(
        [0, PAGE - 1, PAGE + 1, 2 * PAGE].map(|n| write(2, &bounds, &none, n)),
        [Err(5), Err(5), Err(5), Err(5)]
    );
    assert_eq!(write(2, &[0, 40_000, 0, 1], &none, PAGE), Err(6));
    assert_eq!(write(2, &[0, 1, 1, 0], &none, PAGE), Err(7));
    assert_eq!(write(2, &[0, 4_097, 0, 1], &none, PAGE), Err(23));
    assert_eq!(write(2, &bounds, &with(2), PAGE), Err(10));
    // the first that applies
    assert_eq!(write(2, &[0, 4_097, 0, 1], &with(2), PAGE), Err(23));
    assert_eq!(write(2, &[0, 4_097, 0, 1], &with(2), PAGE - 1), Err(5));
}

#[test]
fn other_bytes_are_not_counted_and_are_left_to_10() {
    // Nine bytes for variable 0, one of them 2: eight literals, one line, and 59 variables in all.
    let n = 59;
    let mut table = table(n, &[]);
    table[2 * n..2 * n + 9].fill(1);
    assert_eq!(count(n, &table), Ok(2));
    table[2 * n] = 2;
    assert_eq!(count(n, &table), Err(10));
    assert_eq!(write(n, &[0, 1].repeat(n), &table, PAGE), Err(10));
    assert_eq!(write(n, &[0, 1].repeat(n), &table, 2 * PAGE), Err(5));
}
