//! `include/vigambul.h`: it compiles as C and as C++ without a warning, its
//! functions answer a caller from either, and the Rust declarations of the same
//! functions say the same.

mod common;

use std::collections::BTreeSet;
use std::path::{Path, PathBuf};
use std::process::Command;

use common::*;
use vigambul_compare::built;

const HEADER_TEXT: &str = include_str!("../../../include/vigambul.h");
const CALLER_TEXT: &str = include_str!("header.c");
const RUST_TEXT: &str = include_str!("../src/library.rs");

/// A file of this package.
fn in_package(path: &str) -> PathBuf {
    Path::new(env!("CARGO_MANIFEST_DIR")).join(path)
}

/// Compiles `header.c` against the header, with every warning an error, links
/// the library, and runs it.
fn call_from(compiler: &str, language: [&str; 3]) {
    let folder = Folder::new(compiler);
    let program = folder.path().join("header");
    let compiled = Command::new(compiler)
        .args(language)
        .args(["-Wall", "-Wextra", "-Wpedantic", "-Wconversion", "-Werror"])
        .arg("-I")
        .arg(in_package("../../include"))
        .arg(in_package("tests/header.c"))
        // The library is no text in that language.
        .args(["-x", "none"])
        .arg(built::library())
        .arg("-o")
        .arg(&program)
        .output()
        .expect("the compiler starts");
    let words = String::from_utf8_lossy(&compiled.stderr);
    assert!(compiled.status.success(), "{compiler}: {words}");
    let ran = command_in(program, &folder).output().expect("it starts");
    let words = String::from_utf8_lossy(&ran.stdout);
    assert!(ran.status.success(), "{compiler}, {}: {words}", ran.status);
}

#[test]
fn the_library_answers_a_caller_from_c99() {
    call_from("gcc", ["-std=c99", "-x", "c"]);
}

#[test]
fn the_library_answers_a_caller_from_cpp() {
    call_from("g++", ["-std=c++11", "-x", "c++"]);
}

/// The functions that the header declares, without comments, directives and numbers.
fn declared_in_c() -> Vec<String> {
    let mut text = String::new();
    let mut rest = HEADER_TEXT;
    while let Some((before, comment)) = rest.split_once("/*") {
        text += before;
        rest = comment.split_once("*/").expect("a comment's end").1;
    }
    text += rest;
    // A macro may go on in the next line.
    let text = text.replace("\\\n", " ");
    let outside = |line: &&str| !line.starts_with('#') && !["extern \"C\" {", "}"].contains(line);
    let lines: Vec<&str> = text.lines().filter(outside).collect();
    let declared = lines.join(" ");
    let declared = declared.split(';').map(in_one_line);
    declared
        .filter(|one| !one.is_empty() && !one.starts_with("enum "))
        .collect()
}

/// Every stretch of white space as one space.
fn in_one_line(text: &str) -> String {
    text.split_whitespace().collect::<Vec<_>>().join(" ")
}

/// The functions that the Rust side declares, as the header would have them.
fn declared_in_rust() -> Vec<String> {
    let (_, block) = RUST_TEXT.split_once("extern \"C\" {").expect("a block");
    let (block, _) = block.split_once("\n}").expect("its end");
    let functions = block.split(';').map(in_one_line);
    functions
        .filter(|function| !function.is_empty())
        .map(|function| in_c(&function))
        .collect()
}

/// `fn name(a: *const u8) -> u32` as `uint32_t name(const uint8_t *a)`.
fn in_c(function: &str) -> String {
    let (head, answer) = function.split_once(") -> ").expect("an answer");
    let (name, parameters) = head.split_once('(').expect("parameters");
    let name = name.strip_prefix("fn ").expect("a function");
    let parameters: Vec<String> = parameters
        .split(',')
        .map(str::trim)
        .filter(|parameter| !parameter.is_empty())
        .map(|parameter| {
            let (name, of) = parameter.split_once(": ").expect("a type");
            // A word of C++ that may not be a name there.
            let name = if name == "class" { "class_" } else { name };
            format!("{}{name}", type_in_c(of))
        })
        .collect();
    let answer = type_in_c(answer);
    format!("{answer}{name}({})", parameters.join(", "))
}

/// A type, with what stands between it and a name.
fn type_in_c(of: &str) -> &'static str {
    match of {
        "u8" => "uint8_t ",
        "u32" => "uint32_t ",
        "usize" => "size_t ",
        "*const u8" => "const uint8_t *",
        "*const u32" => "const uint32_t *",
        "*mut u8" => "uint8_t *",
        "*mut u32" => "uint32_t *",
        "*mut usize" => "size_t *",
        _ => panic!("a type that the header does not use: {of}"),
    }
}

/// The macros and the numbers that the header defines.
fn defined_in_c() -> BTreeSet<&'static str> {
    let words = HEADER_TEXT.split(|c: char| !(c.is_ascii_alphanumeric() || c == '_'));
    let names = words.filter(|word| word.starts_with("VIGAMBUL_") && *word != "VIGAMBUL_H");
    names.collect()
}

#[test]
fn every_macro_and_number_of_the_header_is_tried() {
    let defined = defined_in_c();
    assert_eq!(defined.len(), 34, "{defined:?}");
    for name in defined {
        assert!(CALLER_TEXT.contains(name), "{name}");
    }
}

#[test]
fn the_rust_declarations_are_the_headers() {
    let in_c = declared_in_c();
    assert_eq!(in_c.len(), 8, "{in_c:?}");
    assert_eq!(declared_in_rust(), in_c);
}

#[test]
fn the_library_has_the_functions_of_the_header_and_no_others() {
    let listed = Command::new("nm")
        .args(["--extern-only", "--defined-only", "--format=posix"])
        .arg(built::library())
        .output()
        .expect("nm starts");
    assert!(listed.status.success());
    let listed = String::from_utf8_lossy(&listed.stdout);
    // `name T place size`
    let code = listed.lines().filter(|line| line.contains(" T "));
    let exported: BTreeSet<&str> = code.filter_map(|line| line.split(' ').next()).collect();
    let declared = declared_in_c();
    let declared: BTreeSet<&str> = declared
        .iter()
        .filter_map(|function| function.split_once('(')?.0.split(' ').next_back())
        .collect();
    assert_eq!(exported, declared);
}
