//! `include/astrolabe.h` and `src/ffi.rs` declare the same functions, and the header has the wrapper's version and limits: nothing else
//! compares the two.

use astrolabe::{Class, Refusal, RowKind};

const HEADER: &str = include_str!("../../include/astrolabe.h");
const FFI: &str = include_str!("../src/ffi.rs");

/// A function's name, and the name and type of each parameter as Rust writes them.
type Declaration = (String, Vec<String>);

/// The text before the first `close`.
fn until<'a>(text: &'a str, close: &str) -> &'a str {
    &text[..text.find(close).expect("a declaration ends")]
}

/// `const int32_t *coefs` as `coefs: *const i32`.
fn parameter_from_c(text: &str) -> String {
    let name_at = text.rfind([' ', '*']).expect("a parameter has a type") + 1;
    let (spelled, name) = text.split_at(name_at);
    let rust = match spelled.trim() {
        "size_t" => "usize",
        "uint32_t" => "u32",
        "int32_t *" => "*mut i32",
        "const int32_t *" => "*const i32",
        "uint32_t *" => "*mut u32",
        "const uint32_t *" => "*const u32",
        "uint8_t *" => "*mut u8",
        "const uint8_t *" => "*const u8",
        "uint16_t *" => "*mut u16",
        "uint64_t *" => "*mut u64",
        "uint64_t" => "u64",
        other => panic!("{other} is no type of the interface"),
    };
    format!("{name}: {rust}")
}

fn declarations(
    text: &str,
    start: &str,
    close: &str,
    parameter: impl Fn(&str) -> String,
) -> Vec<Declaration> {
    text.split(start)
        .skip(1)
        .map(|rest| {
            let (name, parameters) = until(rest, close).split_once('(').expect("parameters");
            let parameters = parameters.split(',').map(str::trim).filter(|text| !text.is_empty());
            (name.to_string(), parameters.map(&parameter).collect())
        })
        .collect()
}

#[test]
fn the_header_and_the_rust_declarations_agree() {
    let mut c = declarations(HEADER, "\nuint32_t astrolabe_", ");", parameter_from_c);
    let mut rust = declarations(FFI, "pub fn astrolabe_", ") -> u32;", str::to_string);
    c.sort();
    rust.sort();
    assert_eq!(c.len(), 30);
    assert_eq!(c, rust);
}

#[test]
fn every_pointer_is_followed_by_its_count() {
    for (function, parameters) in
        declarations(FFI, "pub fn astrolabe_", ") -> u32;", str::to_string)
    {
        for pair in parameters.windows(2).filter(|pair| pair[0].contains('*')) {
            let name = until(&pair[0], ":");
            assert_eq!(pair[1], format!("{name}_len: usize"), "{function}");
        }
    }
}

/// The number that the header defines by this name, without `ASTROLABE_`.
fn defined(name: &str) -> &'static str {
    let define = format!("#define ASTROLABE_{name} ");
    let rest = HEADER.lines().find_map(|line| line.strip_prefix(&define)).expect("a definition");
    rest.split_whitespace().next().expect("a number")
}

#[test]
fn the_header_has_the_version_of_the_wrapper() {
    let parts = ["VERSION_MAJOR", "VERSION_MINOR", "VERSION_PATCH"].map(defined);
    assert_eq!(parts.join("."), astrolabe::VERSION);
}

#[test]
fn the_header_has_the_limits_and_numbers_of_the_wrapper() {
    assert_eq!(defined("MAX_VARIABLES"), astrolabe::MAX_VARIABLES.to_string());
    assert_eq!(defined("MAX_ROWS"), astrolabe::MAX_ROWS.to_string());
    assert_eq!(defined("MAX_WIDTH"), astrolabe::MAX_WIDTH.to_string());
    assert_eq!(defined("ANSWER_LEN"), astrolabe::ffi::ANSWER_LEN.to_string());
    assert_eq!(defined("WORKSPACE_LEN"), astrolabe::ffi::WORKSPACE_LEN.to_string());
    assert_eq!(defined("NO_ROW"), format!("{}u", astrolabe::ffi::NO_ROW));
    assert_eq!(defined("MAX_PLANNED_RECORDS"), astrolabe::plan::MAX_RECORDS.to_string());
    assert_eq!(defined("MAX_BUDGET"), astrolabe::MAX_BUDGET.to_string());
    assert_eq!((defined("NO_LIMIT"), astrolabe::NO_LIMIT), ("UINT64_MAX", u64::MAX));
    assert_eq!(defined("PAGE_LEN"), astrolabe::pages::PAGE.to_string());
    assert_eq!(defined("REFUSED_BUDGET"), Refusal::BudgetOutOfRange.check().to_string());
    assert_eq!(defined("REFUSED_ROW_KIND"), Refusal::RowKind.check().to_string());
    assert_eq!(defined("REFUSED_EQUALITY_ROW"), Refusal::EqualityRow.check().to_string());
    assert_eq!(defined("REFUSED_TIE_PLACE"), Refusal::TiePlace.check().to_string());
    assert_eq!(defined("REFUSED_COLUMN"), Refusal::SparseColumn.check().to_string());
    assert_eq!(defined("REFUSED_ZERO_COEFFICIENT"), Refusal::SparseZero.check().to_string());
    assert_eq!(defined("MAX_PROPOSALS"), astrolabe::MAX_PROPOSALS.to_string());
    assert_eq!(defined("REFUSED_PROPOSAL_COUNT"), Refusal::ProposalCount.check().to_string());
    assert_eq!(defined("REFUSED_VARIABLE_TOO_WIDE"), Refusal::VariableTooWide.check().to_string());
    assert_eq!(defined("ROW_KIND_AT_MOST"), (RowKind::AtMost as u8).to_string());
    assert_eq!(defined("ROW_KIND_EQUAL"), (RowKind::Equal as u8).to_string());
    assert_eq!(defined("CLASS_REFUSED"), (Class::Refused as u8).to_string());
    assert_eq!(defined("CLASS_INFEASIBLE"), (Class::Infeasible as u8).to_string());
    assert_eq!(defined("CLASS_CHANGED"), (Class::Changed as u8).to_string());
    assert_eq!(defined("CLASS_UNCHANGED"), (Class::Unchanged as u8).to_string());
}
