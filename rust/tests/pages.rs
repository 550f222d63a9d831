//! The pages of every book of `books/`, as the library writes them, against those stored beside it.

use std::fs;
use std::path::Path;

use astrolabe::Model;

/// What `floor` prints for a book that is accepted.
fn floor(book: &[u8]) -> Vec<u8> {
    let Ok(mut model) = Model::from_book(book) else { return Vec::new() };
    model.rounds(u32::MAX as _).expect("an accepted model");
    if model.is_empty_box() { b"none\n".to_vec() } else { model.pages().expect("pages") }
}

#[test]
fn books_on_paper() {
    let books = Path::new(env!("CARGO_MANIFEST_DIR")).join("../books");
    let mut compared = 0;
    for entry in fs::read_dir(books).expect("books") {
        let path = entry.expect("a file").path();
        if path.extension().is_some_and(|ending| ending == "floor") {
            let stored = fs::read(&path).expect("stored pages");
            let book = fs::read(path.with_extension("book")).expect("its book");
            assert!(floor(&book) == stored, "{}", path.display());
            compared += 1;
        }
    }
    assert!(compared >= 5, "{compared} books");
}
