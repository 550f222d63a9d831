//! The command as a user runs it: files in a folder of their own, exit statuses, what is printed, what is left behind.

use astrolabe::Model;
use std::fs;
use std::io::Write;
use std::path::{Path, PathBuf};
use std::process::{Command, Stdio};

/// A folder of its own, removed at the end.
struct Folder(PathBuf);

impl Folder {
    fn new(name: &str) -> Self {
        let path =
            std::env::temp_dir().join(format!("astrolabe-test-{}-{name}", std::process::id()));
        let _ = fs::remove_dir_all(&path);
        fs::create_dir_all(&path).unwrap();
        Folder(path)
    }

    fn put(&self, name: &str, bytes: &[u8]) {
        fs::write(self.0.join(name), bytes).unwrap();
    }

    fn get(&self, name: &str) -> Vec<u8> {
        fs::read(self.0.join(name)).unwrap()
    }

    fn names(&self, folder: &str) -> Vec<String> {
        let entries = fs::read_dir(self.0.join(folder)).unwrap();
        let mut names: Vec<String> =
            entries.map(|entry| entry.unwrap().file_name().into_string().unwrap()).collect();
        names.sort();
        names
    }

    /// Exit status, standard output, standard error.
    fn run(&self, words: &str) -> (i32, String, String) {
        self.run_with(words, &[])
    }

    fn run_with(&self, words: &str, input: &[u8]) -> (i32, String, String) {
        let mut child = Command::new(env!("CARGO_BIN_EXE_astrolabe"))
            .args(words.split_whitespace())
            .current_dir(&self.0)
            .stdin(Stdio::piped())
            .stdout(Stdio::piped())
            .stderr(Stdio::piped())
            .spawn()
            .unwrap();
        let _ = child.stdin.take().unwrap().write_all(input);
        let output = child.wait_with_output().unwrap();
        let text = |bytes| String::from_utf8_lossy(bytes).into_owned();
        (output.status.code().unwrap(), text(&output.stdout), text(&output.stderr))
    }
}

impl Drop for Folder {
    fn drop(&mut self) {
        let _ = fs::remove_dir_all(&self.0);
    }
}

/// 3x + 2y ≤ 4.
fn small() -> Vec<u8> {
    Model::new(vec![0, 1, 0, 1], vec![3, 2], vec![4]).unwrap().to_book().unwrap()
}

/// x + y ≤ 1.
fn small_reduced() -> Vec<u8> {
    Model::new(vec![0, 1, 0, 1], vec![1, 1], vec![1]).unwrap().to_book().unwrap()
}

/// 2x ≤ -1, x 0 or 1.
fn none() -> Vec<u8> {
    Model::new(vec![0, 1], vec![2], vec![-1]).unwrap().to_book().unwrap()
}

/// A variable that is 5,000 wide.
fn wide() -> Vec<u8> {
    let mut book = small();
    book[12..16].copy_from_slice(&5_000_i32.to_le_bytes());
    book
}

#[test]
fn a_book_is_reduced_and_the_raw_one_stays() {
    let folder = Folder::new("reduce");
    folder.put("a.book", &small());
    let (status, told, _) = folder.run("reduce a.book -o b.book");
    let line = "a.book: 2 variables, 1 row; 2 rounds: 0 bounds and 2 coefficients changed, 0 rows removed, \
                2 implications -> b.book\n";
    assert_eq!((status, told.as_str()), (0, line));
    assert_eq!((folder.get("a.book"), folder.get("b.book")), (small(), small_reduced()));
    assert_eq!(folder.run("reduce a.book").0, 0);
    assert_eq!(folder.get("a.reduced.book"), small_reduced());
    assert_eq!(folder.names("."), ["a.book", "a.reduced.book", "b.book"]);
}

#[test]
fn streams_are_read_and_written() {
    let folder = Folder::new("streams");
    let mut child = Command::new(env!("CARGO_BIN_EXE_astrolabe"))
        .args(["reduce", "-", "-o", "-"])
        .current_dir(&folder.0)
        .stdin(Stdio::piped())
        .stdout(Stdio::piped())
        .stderr(Stdio::piped())
        .spawn()
        .unwrap();
    child.stdin.take().unwrap().write_all(&small()).unwrap();
    let output = child.wait_with_output().unwrap();
    assert_eq!((output.status.code(), output.stdout), (Some(0), small_reduced()));
    assert!(String::from_utf8(output.stderr).unwrap().starts_with("standard input: 2 variables"));
}

#[test]
fn a_device_stays_a_device_and_a_folder_gets_the_file() {
    let folder = Folder::new("device");
    folder.put("a.book", &small());
    let (status, _, error) = folder.run("reduce a.book -o /dev/null --to book");
    assert_eq!((status, error.as_str()), (0, ""));
    assert!(!fs::metadata("/dev/null").unwrap().is_file());
    fs::create_dir(folder.0.join("out")).unwrap();
    assert_eq!(folder.run("reduce a.book -o out").0, 0);
    assert_eq!(folder.names("out"), ["a.book", "a.reduced.book"]);
    let (status, _, error) = folder.run("reduce /dev/zero --from book -o b.book");
    assert!(status == 3 && error.contains("over 64 MiB"), "{error}");
}

#[test]
fn a_book_becomes_sparse_and_is_itself_again() {
    let folder = Folder::new("sparse");
    folder.put("a.book", &small());
    for words in
        ["convert a.book -o a.sparse", "convert a.sparse -o b.book", "reduce a.sparse -o c.book"]
    {
        let (status, _, error) = folder.run(words);
        assert_eq!(status, 0, "{words}: {error}");
    }
    assert_eq!((folder.get("b.book"), folder.get("c.book")), (small(), small_reduced()));
    assert_eq!(folder.get("a.sparse"), astrolabe::book_to_sparse(&small()).unwrap());
    let (status, _, error) = folder.run("reduce a.book --from sparse -o d.book");
    assert!(status == 2 && error.contains("refused "), "{error}");
}

#[test]
fn proposals_are_held_against_the_model() {
    let folder = Folder::new("check");
    folder.put("a.book", &small()); // 3 x0 + 2 x1 ≤ 4
    folder.put("a.csv", b"1,0\n0, 2\n\n1,1\n");
    let (status, told, _) = folder.run("check a.book a.csv");
    let lines = "a.csv:1: inside\na.csv:2: outside: x1 is 2, from 0 to 1\n\
                 a.csv:4: breaks row r0: its sum is 5, at most 4\n";
    assert_eq!((status, told.as_str()), (1, lines));
    folder.put("b.csv", b"x1,x0\n0,1\n".as_slice());
    assert_eq!(
        folder.run("check a.book b.csv"),
        (0, "b.csv:2: inside\n".to_string(), String::new())
    );
    let many = "1,0\n".repeat(200);
    folder.put("m.csv", many.as_bytes());
    assert_eq!(folder.run("check a.book m.csv --json").1.matches("\"inside\"").count(), 200);
    for (text, sentence) in [
        ("x0,y\n1,1\n", "the model has no variable y"),
        ("x0,x0\n1,1\n", "the variable x0 has two columns"),
        ("x0\n1\n", "there is no column for the variable x1"),
        ("1\n", "1 numbers, and the model has 2 variables"),
        ("1,0\n1,99999999999\n", "a.csv:2: 99999999999 is no whole number of 32 bits"),
    ] {
        folder.put("a.csv", text.as_bytes());
        let (status, _, error) = folder.run("check a.book a.csv");
        assert!(status == 3 && error.contains(sentence), "{text}: {error}");
    }
}

#[test]
fn pages_for_the_floor() {
    let folder = Folder::new("floor");
    folder.put("a.book", &small());
    let (status, pages, told) = folder.run("floor a.book");
    assert_eq!((status, told.as_str()), (0, "a.book: 1 page -> standard output\n"));
    let lines: Vec<&str> = pages.lines().map(str::trim_end).collect();
    assert_eq!((lines.len(), lines[1]), (60, "     0       0       1 -1")); // x0 is 1: x1 is 0
    assert_eq!(folder.run("floor a.book -o a.pages").0, 0);
    assert_eq!(folder.get("a.pages"), pages.as_bytes());
    assert_eq!(folder.run("floor a.book -o a.book").0, 3);
    folder.put("n.book", &none());
    assert_eq!(folder.run("floor n.book -o n.pages").0, 1);
    assert_eq!(folder.names("."), ["a.book", "a.pages", "n.book"]);
}

#[test]
fn none_writes_nothing_and_is_status_1() {
    let folder = Folder::new("none");
    folder.put("a.book", &none());
    let (status, told, _) = folder.run("reduce a.book -o b.book");
    assert_eq!(
        (status, told.as_str()),
        (1, "a.book: none: no integer point, found in round 1; nothing is written\n")
    );
    assert_eq!(folder.names("."), ["a.book"]);
}

#[test]
fn a_refusal_is_a_sentence_with_its_number() {
    let folder = Folder::new("refused");
    let length = small().len() as u32;
    let mut trailing = small();
    trailing.extend([0; 4]);
    let mut layout = small();
    layout[(length - 12) as usize] = 99;
    let cases: [(&[u8], &str); 6] = [
        (&wide(), "refused 23: variable x1 is 5,000 wide, at most 4,096"),
        (b"short", "refused 1: the book has 5 bytes, and the trailer alone has 16"),
        (b"", "refused 1: the book has 0 bytes, and the trailer alone has 16"),
        (
            &trailing,
            "refused 2: the book has 48 bytes, and its trailer says another number: is it a book, and whole?",
        ),
        (
            &small()[4..],
            "refused 2: the book has 40 bytes, and its trailer says another number: is it a book, and whole?",
        ),
        (&layout, "refused 4: an offset or the length is not what n and m give"),
    ];
    for (book, sentence) in cases {
        folder.put("a.book", book);
        let (status, _, told) = folder.run("reduce a.book -o b.book");
        assert_eq!((status, told), (2, format!("a.book: {sentence}\n")));
        assert_eq!(
            (folder.names("."), folder.get("a.book")),
            (vec!["a.book".to_string()], book.to_vec())
        );
    }
    folder.put("a.book", &wide());
    let (status, json, _) = folder.run("reduce a.book --json");
    let object = r#"{"file": "a.book", "status": 2, "result": "refused", "check": 23, "sentence": "variable x1 is 5,000 wide, at most 4,096"}"#;
    assert_eq!((status, json.trim_end()), (2, object));
}

#[test]
fn what_cannot_be_read_or_written_is_status_3() {
    let folder = Folder::new("unreadable");
    folder.put("a.book", &small());
    folder.put("a.txt", b"");
    fs::create_dir(folder.0.join("empty")).unwrap();
    let cases = [
        ("reduce", "no file is named"),
        ("reduce empty -o out", "no file in empty has the extension of a format"),
        ("reduce b.book", "cannot read b.book: No such file"),
        ("reduce a.txt", "its extension says no format"),
        ("reduce a.book -o a.book", "a.book is read, and would be written over"),
        ("reduce a.book -o ./a.book", "is read, and would be written over"),
        ("reduce a.book -o no/such/b.book", "cannot write no/such/b.book"),
        ("reduce a.book --rounds few", "--rounds wants a number"),
        ("reduce a.book --from xls", "xls is no format"),
        ("plan a.book --rounds 3", "no option --rounds here"),
        ("plan a.book --calls a.book", "is not kind, row, variable, budget"),
        ("convert a.book", "convert takes one file and -o OUT"),
        ("lessen a.book", "no subcommand lessen"),
        ("", "no subcommand"),
    ];
    for (words, sentence) in cases {
        let (status, _, told) = folder.run(words);
        assert!(status == 3 && told.contains(sentence), "{words}: {status} {told}");
    }
    assert_eq!(folder.names("."), ["a.book", "a.txt", "empty"]);
    assert_eq!(folder.get("a.book"), small());
}

#[test]
fn a_folder_is_done_with_jobs_and_the_worst_status_is_told() {
    let folder = Folder::new("many");
    fs::create_dir(folder.0.join("in")).unwrap();
    for number in 0..20 {
        folder.put(&format!("in/{number:02}.book"), &small());
    }
    let (status, told, error) = folder.run("reduce in -o out --jobs 3");
    assert_eq!((status, told.lines().count(), error.as_str()), (0, 20, ""));
    assert!(
        told.lines()
            .enumerate()
            .all(|(number, line)| line.starts_with(&format!("in/{number:02}.book: ")))
    );
    assert_eq!(folder.names("out").len(), 40);
    assert_eq!(
        (folder.get("out/07.book"), folder.get("out/07.reduced.book")),
        (small(), small_reduced())
    );

    folder.put("in/03.book", &none());
    assert_eq!(folder.run("reduce in --jobs 2").0, 1);
    folder.put("in/05.book", &wide());
    assert_eq!(folder.run("reduce in --jobs 2").0, 2);
    // The copy of the raw file that was kept is not written over by another file of its name.
    let (status, _, error) =
        folder.run("reduce in/05.book in/03.book in/07.book in/08.book -o out");
    assert_eq!(status, 2);
    assert!(error.contains("in/05.book: refused 23"));
    folder.put("in/07.book", &small_reduced());
    let (status, _, error) = folder.run("reduce in/07.book in/08.book -o out");
    assert_eq!(status, 3);
    assert!(
        error.contains("out/07.book is there already with other contents; it was left"),
        "{error}"
    );
    assert_eq!(
        (folder.get("out/07.book"), folder.get("out/07.reduced.book")),
        (small(), small_reduced())
    );
    // Two files of one name cannot go to one place.
    let (status, _, error) = folder.run("reduce in/08.book out/08.book -o elsewhere");
    assert!(
        status == 3 && error.contains("two files would be written to elsewhere/08.reduced.book"),
        "{error}"
    );
}

#[test]
fn a_crash_leaves_nothing_half_written() {
    let folder = Folder::new("crash");
    fs::create_dir(folder.0.join("in")).unwrap();
    for number in 0..100 {
        folder.put(&format!("in/{number:03}.book"), &small());
    }
    let mut child = Command::new(env!("CARGO_BIN_EXE_astrolabe"))
        .args(["reduce", "in", "-o", "out", "--jobs", "2"])
        .current_dir(&folder.0)
        .stdout(Stdio::null())
        .spawn()
        .unwrap();
    while !folder.0.join("out/010.reduced.book").exists() {
        std::thread::sleep(std::time::Duration::from_millis(1));
    }
    child.kill().unwrap(); // SIGKILL: nothing can be tidied up
    child.wait().unwrap();
    for name in folder.names("out").iter().filter(|name| !name.starts_with('.')) {
        let whole = if name.ends_with(".reduced.book") { small_reduced() } else { small() };
        assert_eq!(folder.get(&format!("out/{name}")), whole, "{name}");
    }
    // Done again, it ends as if nothing had happened.
    assert_eq!(folder.run("reduce in -o out --jobs 2").0, 0);
    assert_eq!(folder.names("in").len(), 100);
    assert_eq!(folder.names("out").iter().filter(|name| !name.starts_with('.')).count(), 200);
}

#[test]
fn a_plan_tells_lengths_and_passes() {
    let folder = Folder::new("plan");
    folder.put("a.book", &small());
    folder.put("calls", b"2 0 0 8 # propagate\n3,0,1,1000\n\n1 0 0 0\n");
    let (status, told, _) = folder.run("plan a.book --calls calls");
    let line = "a.book: 2 variables, 1 row; total width 2, budget never spent 3; elements: bounds 4, coefs 2, rhs 1, \
                kinds 1, table 16, ties 2, clique_coefs 8, clique_rhs 4, book 44; 3 calls make at most 9 passes\n";
    assert_eq!((status, told.as_str()), (0, line));
}

#[test]
fn help_and_version_are_told() {
    let folder = Folder::new("help");
    for words in ["--help", "reduce --help", "solve -h", "--version"] {
        let (status, told, _) = folder.run(words);
        assert!(
            status == 0 && told.starts_with(if words == "--version" { "astrolabe 0" } else { "" })
        );
    }
    assert!(folder.run("--help").1.contains("outside the proofs"));
}

#[test]
fn ties_of_a_book_are_written_beside_it_and_read_back() {
    let folder = Folder::new("tied");
    // x = y as two rows, and 2x + 3y + z ≤ 5.
    let coefs = vec![1, -1, 0, -1, 1, 0, 2, 3, 1];
    let model = Model::new(vec![0, 1, 0, 1, 0, 1], coefs, vec![0, 0, 5]).unwrap();
    folder.put("a.book", &model.to_book().unwrap());
    let (status, told, _) = folder.run("reduce a.book -o b.book --ties");
    assert!(status == 0 && told.ends_with("1 variable tied -> b.book\n"), "{told}");
    let list = String::from_utf8(folder.get("b.book.ties")).unwrap();
    assert_eq!(list.lines().skip(1).collect::<Vec<_>>(), ["x1 = x0"]);
    let reduced = Model::from_book(&folder.get("b.book")).unwrap();
    assert_eq!(reduced.rows().last().unwrap().coefs, [1, 0, 1]); // 5x + z ≤ 5, tightened
    folder.put("points.csv", b"x0,x1,x2\n1,0,0\n0,1,1\n");
    assert_eq!(folder.run("expand b.book.ties points.csv -o raw.csv").0, 0);
    assert_eq!(folder.get("raw.csv"), b"x0,x1,x2\n1,1,0\n0,0,1\n");
    assert_eq!(folder.run("check a.book raw.csv").0, 0);
    let (status, out, told) = folder.run("expand b.book.ties points.csv");
    assert_eq!((status, out.lines().count()), (0, 3));
    assert_eq!(told, "points.csv: 2 solutions, 1 variable put back -> standard output\n");
    for (words, sentence) in [
        ("reduce a.book -o - --ties", "standard output has no place beside it"),
        ("reduce a.book -o b.book", "b.book.ties is there, of an earlier file"),
        ("expand b.book.ties", "expand takes a list of ties and a solution"),
        ("expand a.book points.csv", "cannot read a.book:1: no tie"),
        ("expand b.book.ties points.csv -o points.csv", "would be written over"),
    ] {
        let (status, _, told) = folder.run(words);
        assert!(status == 3 && told.contains(sentence), "{words}: {told}");
    }
}

fn example(name: &str) -> Vec<u8> {
    fs::read(Path::new(env!("CARGO_MANIFEST_DIR")).join("../../examples").join(name)).unwrap()
}

#[cfg(not(glpk))]
#[test]
fn without_glpk_it_is_said() {
    let folder = Folder::new("without");
    folder.put("a.lp", &example("notice.lp"));
    folder.put("a.book", &small());
    for words in ["reduce a.lp", "solve a.book", "convert a.book -o b.mps"] {
        let (status, _, told) = folder.run(words);
        assert!(status == 3 && told.contains("built without GLPK"), "{words}: {told}");
    }
    assert_eq!(folder.names("."), ["a.book", "a.lp"]);
    assert!(folder.run("--version").1.contains("without GLPK"));
}

#[cfg(glpk)]
mod with_glpk {
    use super::*;

    #[test]
    fn an_lp_keeps_its_columns_names_and_objective() {
        let folder = Folder::new("lp");
        folder.put("a.lp", &example("notice.lp"));
        let (status, told, error) = folder.run("reduce a.lp -o b.lp");
        assert_eq!(status, 0, "{told} {error}");
        let text = String::from_utf8(folder.get("b.lp")).unwrap();
        for word in ["24.5 r25", "tons:", "receipts:", "<= 2", "Generals"] {
            assert!(text.contains(word), "{word} in {text}");
        }
        assert_eq!(folder.get("a.lp"), example("notice.lp"));
    }

    #[test]
    fn the_optimum_is_the_same_in_every_format() {
        let folder = Folder::new("formats");
        folder.put("a.lp", &example("notice.lp"));
        folder.put("r.mps", &example("ranges.mps"));
        for (words, optimum) in [
            ("solve a.lp", "minimum 56.5"),
            ("solve r.mps", "minimum -8,"),
            ("reduce a.lp -o b.mps", ""),
            ("solve b.mps", "minimum 56.5"),
            ("convert b.mps -o c.lp", ""),
            ("solve c.lp", "minimum 56.5"),
            ("reduce r.mps -o r2.lp", ""),
            ("solve r2.lp", "minimum -8,"),
            ("convert r.mps -o r3.lp", ""),
            ("solve r3.lp", "minimum -8,"),
        ] {
            let (status, told, error) = folder.run(words);
            assert!(status == 0 && told.contains(optimum), "{words}: {status} {told} {error}");
        }
        let text = String::from_utf8(folder.get("b.mps")).unwrap();
        assert!(["r30", "lots", "24.5", "cost"].iter().all(|word| text.contains(word)), "{text}");
    }

    #[test]
    fn a_book_becomes_a_file_of_the_field_and_back() {
        let folder = Folder::new("book");
        folder.put("a.book", &small());
        for words in [
            "convert a.book -o b.mps",
            "convert b.mps -o c.book",
            "convert a.book -o d.lp",
            "convert d.lp -o e.book",
        ] {
            let (status, _, error) = folder.run(words);
            assert_eq!(status, 0, "{words}: {error}");
        }
        assert_eq!((folder.get("c.book"), folder.get("e.book")), (small(), small()));
        folder.put("n.lp", &example("notice.lp"));
        let (status, _, error) = folder.run("convert n.lp -o n.book");
        let sentence = "refused 17: row tons is an = row, and a book of the first edition holds none; a sparse one does";
        assert!(status == 2 && error.contains(sentence), "{error}");
        assert_eq!(folder.run("convert n.lp -o n.sparse").0, 0);
        assert!(folder.run("solve n.sparse").1.contains("the same four times"));
    }

    #[test]
    fn streams_take_their_format_by_name() {
        let folder = Folder::new("lpstream");
        let (status, told, _) =
            folder.run_with("reduce - --from lp --to mps -o -", &example("notice.lp"));
        assert!(status == 0 && told.contains("ROWS"), "{told}");
    }

    #[test]
    fn what_01_leaves_out_is_named() {
        let folder = Folder::new("leftout");
        let model = |objective: &str, row: &str, bounds: &str, integers: &str| {
            format!(
                "Minimize\n {objective}\nSubject To\n r1: {row}\nBounds\n {bounds}\nGenerals\n {integers}\nEnd\n"
            )
        };
        let long = (0..3_000).map(|j| format!("x{j}")).collect::<Vec<_>>().join(" +\n");
        let cases = [
            (
                model("x0", &format!("{long} <= 4"), "x0 <= 3", "x0"),
                2,
                "refused 3: 3,000 variables and 1 row, at most 128 and 120",
            ),
            (model("x", "x + y <= 4", "x <= 3", "x"), 2, "refused: column y is continuous"),
            (model("x", "x + y <= 4", "x <= 3", "x y"), 2, "refused: column y has no upper bound"),
            (
                model("x", "x + y <= 4", "x <= 3\n y <= 5000", "x y"),
                2,
                "refused 23: variable y is 5,000 wide",
            ),
            (
                model("x", "x + y <= 4", "x <= 2.5\n y <= 3", "x y"),
                2,
                "refused: column x has the upper bound 2.5",
            ),
            (
                model("x", "0.12345678901 x + y <= 4", "x <= 3\n y <= 3", "x y"),
                2,
                "refused: row r1 has 0.12345678901",
            ),
            (
                model("x", "2000000 x + y <= 4", "x <= 3\n y <= 3", "x y"),
                2,
                "refused 8: row r1 has the coefficient 2,000,000 of x",
            ),
            (
                model("x", "x + y <= 2e9", "x <= 3\n y <= 3", "x y"),
                2,
                "refused 9: row r1 has the right-hand side 2,000,000,000",
            ),
            (model("x", "x + + y <= 4", "x <= 3", "x"), 3, "cannot read a.lp: a.lp:4: "),
            ("nonsense".to_string(), 3, "cannot read a.lp: "),
        ];
        for (text, status, sentence) in cases {
            folder.put("a.lp", text.as_bytes());
            let (got, _, told) = folder.run("reduce a.lp -o b.lp");
            assert!(got == status && told.contains(sentence), "{sentence}: {got} {told}");
            assert_eq!(folder.names("."), ["a.lp"]);
        }
    }

    #[test]
    fn ties_leave_the_optimum_and_are_read_back() {
        let folder = Folder::new("ties");
        folder.put("a.lp", &example("one_car.lp"));
        for file in ["b.mps", "b.lp"] {
            let (status, told, error) = folder.run(&format!("reduce a.lp -o {file} --ties"));
            assert!(status == 0 && told.contains("2 variables tied -> "), "{told} {error}");
            let list = String::from_utf8(folder.get(&format!("{file}.ties"))).unwrap();
            assert_eq!(list.lines().skip(1).collect::<Vec<_>>(), ["b = a", "d = 1 - c"]);
            let (status, told, error) = folder.run(&format!("solve {file} -o b.sol"));
            assert!(status == 0 && told.contains("minimum 7.5,"), "{told} {error}");
            let (status, told, error) = folder.run(&format!("expand {file}.ties b.sol -o raw.sol"));
            assert!(status == 0 && told.contains("put back -> raw.sol"), "{told} {error}");
            assert_eq!(folder.run("check a.lp raw.sol").1, "raw.sol:1: inside\n");
        }
        assert!(folder.run("solve a.lp").1.contains("minimum 7.5,"));
        // A list of an earlier run is not left beside a file that it does not belong to.
        let (status, _, error) = folder.run("reduce a.lp -o b.lp");
        assert!(status == 3 && error.contains("b.lp.ties is there, of an earlier file"), "{error}");
    }

    /// Numbers that are the same in every run.
    struct Numbers(u64);

    impl Numbers {
        fn below(&mut self, limit: u64) -> u64 {
            self.0 = self.0.wrapping_mul(6_364_136_223_846_793_005).wrapping_add(1);
            (self.0 >> 33) % limit
        }
    }

    /// Six 0-1 variables, of which some are equal or opposite, costs in decimals, and rows.
    fn tied_lp(numbers: &mut Numbers) -> String {
        let mut text = "Minimize\n cost:".to_string();
        for k in 0..6 {
            let cost = [-2.5, -1.0, 0.0, 0.0, 0.1, 0.2, 1.0, 3.75][numbers.below(8) as usize];
            text += &format!(" {cost:+} x{k}");
        }
        text += "\nSubject To\n";
        for _ in 0..2 {
            let k = numbers.below(5);
            let pair = ["- x0 = 0", "+ x0 = 1"][numbers.below(2) as usize];
            text += &format!(
                " x{} {}\n",
                k + 1,
                pair.replace("x0", &format!("x{}", numbers.below(k + 1)))
            );
        }
        for _ in 0..2 {
            let term = |k| format!(" {:+} x{k}", numbers.below(11) as i64 - 3);
            let sum: String = (0..6).map(term).collect();
            text += &format!("{sum} >= {}\n", numbers.below(8));
        }
        text + "Binaries\n x0 x1 x2 x3 x4 x5\nEnd\n"
    }

    #[test]
    fn ties_of_generated_models_leave_the_optimum() {
        let folder = Folder::new("generated");
        let (mut numbers, mut tied, mut solved) = (Numbers(31), 0, 0);
        let optimum =
            |told: &str| told.split(',').next().unwrap().split_once(": ").unwrap().1.to_string();
        for _ in 0..60 {
            folder.put("a.lp", tied_lp(&mut numbers).as_bytes());
            let (status, raw, _) = folder.run("solve a.lp");
            let reduced = folder.run("reduce a.lp -o b.mps --ties");
            if (status, reduced.0) == (0, 0) {
                tied += usize::from(!reduced.1.contains(" 0 variables tied"));
                solved += 1;
                assert_eq!(optimum(&folder.run("solve b.mps -o b.sol").1), optimum(&raw));
                assert_eq!(folder.run("expand b.mps.ties b.sol -o raw.sol").0, 0);
                assert_eq!(folder.run("check a.lp raw.sol").1, "raw.sol:1: inside\n");
            } else {
                assert_eq!((status, reduced.0), (1, 1), "{raw} {reduced:?}");
            }
        }
        assert!(tied > 20 && solved < 60, "{tied} of {solved}");
    }

    #[test]
    fn a_broken_row_is_told_as_the_file_has_it() {
        let folder = Folder::new("broken");
        let rows = "least: 0.6 x + 0.5 y >= 0.7\n span: x + y <= 1\n exact: x - z = 0";
        let text = format!("Minimize\n cost: x\nSubject To\n {rows}\nBinaries\n x y z\nEnd\n");
        folder.put("a.lp", text.as_bytes());
        folder.put("p.csv", b"x,y,z\n1,0,0\n0,1,0\n1,1,1\n");
        let (status, told, _) = folder.run("check a.lp p.csv");
        let lines = [
            "p.csv:2: breaks row least: its sum is 0.6, at least 0.7",
            "p.csv:3: breaks row least: its sum is 0.5, at least 0.7",
            "p.csv:4: breaks row span: its sum is 2, at most 1",
        ];
        assert_eq!((status, told.lines().collect::<Vec<_>>()), (1, lines.to_vec()));
    }

    #[test]
    fn a_model_whose_rows_all_go_is_written() {
        let folder = Folder::new("norows");
        let text = "Minimize\n cost: - x + 2 y\nSubject To\n r: x - y = 0\n s: x + y <= 7\nBinaries\n x y\nEnd\n";
        folder.put("a.lp", text.as_bytes());
        for file in ["b.lp", "b.mps", "b.sparse", "b.book"] {
            let (status, told, error) = folder.run(&format!("reduce a.lp -o {file} --ties"));
            assert!(status == 0 && told.contains("2 rows removed"), "{file}: {told} {error}");
            let (status, told, error) = folder.run(&format!("solve {file}"));
            assert!(status == 0 && told.contains("minimum 0,"), "{file}: {told} {error}");
        }
    }

    #[test]
    fn a_constant_in_the_objective_is_carried_along() {
        let folder = Folder::new("constant");
        let text = String::from_utf8(example("ranges.mps")).unwrap();
        folder.put(
            "r.mps",
            text.replace("RHS\n    RHS ", "RHS\n    RHS       COST 5\n    RHS ").as_bytes(),
        );
        for (words, told) in [
            ("solve r.mps", "minimum -3,"),
            ("reduce r.mps --ties", " tied "),
            ("solve r.reduced.mps", "minimum -3,"),
        ] {
            let (status, out, error) = folder.run(words);
            assert!(status == 0 && out.contains(told), "{words}: {out} {error}");
        }
        let (status, _, error) = folder.run("convert r.mps -o r.lp");
        assert!(status == 3 && error.contains("the format lp does not hold"), "{error}");
    }

    #[test]
    fn ties_of_an_mps_file_put_its_objective_over() {
        let folder = Folder::new("tiesmps");
        folder.put("r.mps", &example("ranges.mps"));
        let (status, told, error) = folder.run("reduce r.mps --ties");
        assert!(status == 0 && told.contains("1 variable tied"), "{told} {error}");
        let list = String::from_utf8(folder.get("r.reduced.mps.ties")).unwrap();
        assert_eq!(list.lines().last(), Some("Z = Y"));
        let (status, told, error) = folder.run("solve r.reduced.mps");
        assert!(status == 0 && told.contains("minimum -8,"), "{told} {error}");
    }

    /// A model of bench/books as an LP file: its text has the objective, which the book has no place for.
    fn lp_of_the_benchmark(name: &str) -> String {
        let path = format!("{}/../../bench/books/{name}.txt", env!("CARGO_MANIFEST_DIR"));
        let text = fs::read_to_string(path).unwrap();
        let sum = |words: &[&str]| {
            let terms = words.iter().map(|word| word.split_once(':').unwrap());
            terms.map(|(k, a)| format!(" + {a} x{k}\n")).collect::<String>().replace("+ -", "- ")
        };
        let (mut objective, mut rows, mut n) = (String::new(), String::new(), 0);
        for words in text.lines().map(|line| line.split_whitespace().collect::<Vec<_>>()) {
            match words[..] {
                ["v", "0", "1", count] => n = count.parse().unwrap(),
                ["o", ref costs @ ..] => objective = sum(costs),
                ["r", rhs, ref terms @ ..] => rows += &format!("{} <= {rhs}\n", sum(terms)),
                _ => {}
            }
        }
        let names: String = (0..n).map(|k: usize| format!(" x{k}\n")).collect();
        format!("Minimize\n{objective}Subject To\n{rows}Binaries\n{names}End\n")
    }

    #[test]
    fn models_of_miplib_have_their_optimum_and_relaxations() {
        let folder = Folder::new("relaxations");
        let known = [
            ("p0033", "3089", ["2520.57", "2819.36", "2829.06", "2819.36"]),
            ("lseu", "1120", ["834.68", "944.75", "944.75", "944.75"]),
        ];
        for (name, optimum, relaxations) in known {
            folder.put("a.lp", lp_of_the_benchmark(name).as_bytes());
            let (status, told, error) = folder.run("solve a.lp");
            assert!(
                status == 0 && told.contains(&format!("minimum {optimum}, the same four times")),
                "{told} {error}"
            );
            for (line, value) in told.lines().skip(2).zip(relaxations) {
                assert!(line.contains(value), "{value}: {line}");
            }
        }
    }

    /// MIPLIB's p0033 and lseu, where the folder `ASTROLABE_MPS` has them (`.ci/mps` fetches them).
    #[test]
    fn miplib_models_have_their_optimum() {
        let Some(mps) = std::env::var_os("ASTROLABE_MPS").map(PathBuf::from) else {
            println!("left out: p0033 and lseu as MPS; ASTROLABE_MPS names no folder");
            return;
        };
        let folder = Folder::new("miplib");
        let known = [("p0033", "3089", "2520.57", "2819.36"), ("lseu", "1120", "834.68", "944.75")];
        for (name, optimum, raw, reduced) in known {
            folder.put("a.mps", &fs::read(mps.join(format!("{name}.mps"))).unwrap());
            let (status, told, error) = folder.run("solve a.mps -o a.sol");
            println!("{name}: {told}");
            let words = [&format!("minimum {optimum}, the same four times"), raw, reduced];
            assert!(status == 0 && words.iter().all(|word| told.contains(*word)), "{told} {error}");
            assert!(!folder.get("a.sol").is_empty());
        }
    }
}
