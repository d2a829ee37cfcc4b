//! What the proved sources export, and what the C header and the Rust crates declare: the same
//! functions, with the same parameters by order, name and type, the same results, and the same
//! record. The linker compares names alone.

use std::fs;
use std::path::Path;

use compare::repository;
use compare::signatures::{
    Declaration, c_functions, c_record, differences, exported_functions, record, rust_functions,
};

fn read(file: impl AsRef<Path>) -> String {
    let file = repository().join(file);
    fs::read_to_string(&file).unwrap_or_else(|error| panic!("{}: {error}", file.display()))
}

/// What all sources of a crate export.
fn exported_by(name: &str) -> Vec<Declaration> {
    let folder = repository().join("crates").join(name).join("src");
    let files = fs::read_dir(folder).expect("the crate has sources");
    let sources = files.map(|file| read(file.expect("a source").path()));
    let functions: Vec<_> = sources
        .flat_map(|source| exported_functions(&source))
        .collect();
    assert!(!functions.is_empty(), "{name} exports nothing");
    functions
}

/// All entries, and the record of a run.
fn exported() -> Vec<Declaration> {
    let run = record(&read("crates/calls/src/record.rt"), "Run");
    let functions = exported_by("export").into_iter();
    functions
        .chain([run.expect("the record of a run")])
        .collect()
}

#[test]
fn the_header() {
    let header = read("rust/wrapper/gyodaebeun.h");
    let run = c_record(&header, "gyodaebeun_run");
    let declared: Vec<_> = c_functions(&header).into_iter().chain(run).collect();
    assert_eq!(differences(&exported(), &declared), [""; 0]);
}

#[test]
fn the_wrapper() {
    let functions = rust_functions(&read("rust/wrapper/src/raw.rs"));
    let run = record(&read("rust/wrapper/src/run.rs"), "Run");
    let declared: Vec<_> = functions.into_iter().chain(run).collect();
    assert_eq!(differences(&exported(), &declared), [""; 0]);
}

#[test]
fn the_lab() {
    let declared = rust_functions(&read("rust/lab/src/raw.rs"));
    assert_eq!(differences(&exported_by("lab"), &declared), [""; 0]);
}
