//! The declarations of this crate against the C header: names, numbers, types and the version, which no compiler compares.

use std::collections::BTreeMap;

use mwelitunga::sys::NOT_PLACED;
use mwelitunga::{Kind, FILE_MOST, OPERATIONS_MOST, SEARCH_ROWS};

const HEADER: &str = include_str!("../../../include/mwelitunga.h");
const SYS: &str = include_str!("../src/sys.rs");

/// Each function's name, with the types of its parameters and of its result.
type Functions = BTreeMap<String, Vec<String>>;

/// The constants of the header.
fn constants() -> BTreeMap<&'static str, usize> {
    let defines = HEADER
        .lines()
        .filter_map(|line| line.strip_prefix("#define "));
    defines
        .filter_map(|define| {
            let mut words = define.split_whitespace();
            Some((words.next()?, words.next()?.parse().ok()?))
        })
        .collect()
}

/// The texts that the header defines a name as: one, where it is defined once.
fn texts_of(name: &str) -> Vec<&'static str> {
    HEADER
        .lines()
        .filter_map(|line| line.strip_prefix("#define ")?.strip_prefix(name))
        .filter_map(|rest| rest.strip_prefix(" \"")?.strip_suffix('"'))
        .collect()
}

/// A text without its comments, on one line.
fn code(text: &str) -> String {
    let mut code = String::new();
    let mut rest = text;
    while let Some((before, comment)) = rest.split_once("/*") {
        code += before;
        rest = comment.split_once("*/").expect("a comment ends").1;
    }
    code += rest;
    let lines = code
        .lines()
        .map(|line| line.split("//").next().unwrap_or(""));
    lines.collect::<Vec<_>>().join(" ")
}

/// The declarations of a text: what stands from the word before each name in `mw_` up to the semicolon.
fn declarations(text: &str, before: &str) -> Vec<String> {
    let code = code(text);
    let starts = code.match_indices(before);
    starts
        .filter(|(at, _)| code[at + before.len()..].starts_with("mw_"))
        .map(|(at, _)| {
            let rest = &code[at + before.len()..];
            rest.split(';').next().unwrap_or(rest).trim().to_string()
        })
        .collect()
}

/// Name, parameters and what follows them.
fn parts(declaration: &str) -> (&str, Vec<&str>, &str) {
    let (name, rest) = declaration.split_once('(').expect("parameters begin");
    let (parameters, after) = rest.rsplit_once(')').expect("parameters end");
    let parameters = parameters.split(',').map(str::trim);
    let parameters = parameters
        .filter(|parameter| !parameter.is_empty())
        .collect();
    (name, parameters, after.trim())
}

/// The functions of the header, by the types that Rust has for theirs.
fn of_header() -> Functions {
    let declared = declarations(HEADER, "size_t ");
    let functions = declared.iter().map(|declaration| {
        let (name, parameters, _) = parts(declaration);
        let mut types: Vec<String> = parameters.into_iter().map(rust_type).collect();
        types.push("usize".to_string());
        (name.to_string(), types)
    });
    functions.collect()
}

/// The Rust type of a C parameter.
fn rust_type(parameter: &str) -> String {
    match parameter.rsplit_once(' ').expect("a type and a name") {
        ("size_t", _) => "usize",
        ("const uint8_t", name) if name.starts_with('*') => "*const u8",
        ("const uint16_t", name) if name.starts_with('*') => "*const u16",
        ("const uint64_t", name) if name.starts_with('*') => "*const u64",
        ("const int32_t", name) if name.starts_with('*') => "*const i32",
        ("uint8_t", name) if name.starts_with('*') => "*mut u8",
        ("uint16_t", name) if name.starts_with('*') => "*mut u16",
        ("uint64_t", name) if name.starts_with('*') => "*mut u64",
        ("uint64_t", name) if name.ends_with("[8]") => "*mut Answer",
        ("uint16_t", name) if name.ends_with("[64]") => "*mut SessionStarts",
        ("uint16_t", name) if name.ends_with("[24]") => "*mut FreeRows",
        _ => panic!("no Rust type for {parameter}"),
    }
    .to_string()
}

/// The functions of the raw layer.
fn of_sys() -> Functions {
    let declared = declarations(SYS, "pub fn ");
    let functions = declared.iter().map(|declaration| {
        let (name, parameters, after) = parts(declaration);
        let mut types: Vec<String> = parameters
            .iter()
            .map(|parameter| parameter.split_once(": ").expect("a name and a type").1)
            .map(str::to_string)
            .collect();
        types.push(after.trim_start_matches("-> ").to_string());
        (name.to_string(), types)
    });
    functions.collect()
}

#[test]
fn functions_have_the_types_of_the_header() {
    let header = of_header();
    assert_eq!(header.len(), 10, "{header:?}");
    assert_eq!(header, of_sys());
}

#[test]
fn refusals_have_the_numbers_of_the_header() {
    let prefix = "MW_REFUSED_";
    let mut number = 0;
    for (name, value) in constants() {
        let Some(name) = name.strip_prefix(prefix) else {
            continue;
        };
        let kind = Kind::of(value).unwrap_or_else(|| panic!("no kind for {name}"));
        let spelled = format!("{kind:?}").to_uppercase();
        assert_eq!(spelled, name.replace('_', ""), "refusal {value}");
        number += 1;
    }
    assert_eq!(number, 22);
}

#[test]
fn the_version_is_that_of_the_header() {
    assert_eq!(texts_of("MWELITUNGA_VERSION"), [env!("CARGO_PKG_VERSION")]);
    assert_eq!(mwelitunga::VERSION, env!("CARGO_PKG_VERSION"));
}

#[test]
fn limits_are_those_of_the_header() {
    let constants = constants();
    assert_eq!(constants["MW_FILE_MOST"], FILE_MOST);
    assert_eq!(constants["MW_OPERATIONS_MOST"], OPERATIONS_MOST);
    assert_eq!(constants["MW_SEARCH_ROWS"], SEARCH_ROWS);
    assert_eq!(constants["MW_NOT_PLACED"], usize::from(NOT_PLACED));
}

/// The constants that the kinds of session calls have in the header, by the numbers that the differential test draws.
#[test]
fn calls_have_the_numbers_of_the_header() {
    let constants = constants();
    let kinds = [
        "PLACE",
        "FORCE",
        "REMOVE",
        "CHECKPOINT",
        "RELEASE",
        "ROLLBACK",
    ];
    for (before, name) in kinds.iter().enumerate() {
        assert_eq!(
            constants[format!("MW_CALL_{name}").as_str()],
            before + 1,
            "{name}"
        );
    }
}
