//! The model gives every vector byte for byte.

use reference::bench::{explain, run_console, run_vectors};
use std::fs;
use std::path::{Path, PathBuf};

fn folder() -> PathBuf {
    Path::new(env!("CARGO_MANIFEST_DIR")).join("../../vectors")
}

fn read(name: &str) -> Vec<u8> {
    fs::read(folder().join(name)).unwrap_or_else(|error| panic!("{name}: {error}"))
}

/// The vectors whose names begin so, without their endings.
fn names(start: &str) -> Vec<String> {
    let within = &start[..start.rfind('/').map_or(0, |end| end + 1)];
    let files = fs::read_dir(folder().join(within)).expect("the folder of the vectors");
    let names = files.map(|file| within.to_owned() + file.expect("a file").file_name().to_str().expect("a plain name"));
    names.filter_map(|name| name.strip_suffix(".in").filter(|name| name.starts_with(start)).map(String::from)).collect()
}

fn compare(start: &str, expected: usize, run: impl Fn(&[u8]) -> String) {
    let names = names(start);
    assert_eq!(names.len(), expected, "vectors that begin with {start}");
    for name in names {
        let given = run(&read(&format!("{name}.in")));
        let wanted = String::from_utf8(read(&format!("{name}.out"))).expect("plain text");
        for ((given, wanted), line) in given.lines().zip(wanted.lines()).zip(1..) {
            assert_eq!(given, wanted, "{name}, line {line} of its output");
        }
        assert!(given == wanted, "{name}: as many lines, and their ends");
    }
}

fn vectors(input: &[u8]) -> String {
    run_vectors(input).expect("every line a command")
}

#[test]
fn small_mixed_runs() {
    compare("random-", 24, vectors);
}

#[test]
fn trees_of_three_levels() {
    compare("deep-", 4, vectors);
}

#[test]
fn each_refusal() {
    compare("refusals", 1, vectors);
}

#[test]
fn damaged_images() {
    compare("damage-", 6, vectors);
}

#[test]
fn keys_of_unread_barcodes() {
    compare("u01-", 7, vectors);
}

#[test]
fn marks_and_returns() {
    compare("u02-", 7, vectors);
}

#[test]
fn loaded_registers() {
    compare("u03-", 8, vectors);
}

#[test]
fn places_in_a_page() {
    compare("u04-", 6, vectors);
}

#[test]
fn steps_backwards() {
    compare("u05-", 7, vectors);
}

#[test]
fn images_from_the_field() {
    compare("field/", 5, vectors);
}

#[test]
fn leaves_out_of_order() {
    compare("unsorted", 1, vectors);
}

#[test]
fn the_worked_sessions() {
    compare("worked", 1, vectors);
}

#[test]
fn the_worked_sessions_explained() {
    let given = explain(&read("worked.in")).expect("every line a command");
    let wanted = String::from_utf8(read("worked.txt")).expect("plain text");
    for ((given, wanted), line) in given.lines().zip(wanted.lines()).zip(1..) {
        assert_eq!(given, wanted, "line {line}");
    }
    assert_eq!(given.len(), wanted.len());
}

#[test]
fn the_console_program() {
    compare("console-", 12, run_console);
}
