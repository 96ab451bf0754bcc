//! The program of document 01: asks the query of the files in the current folder.

use judge::program::{output, Files};
use std::fs;

fn file(name: &str) -> Vec<u8> {
    fs::read(name).unwrap_or_default()
}

fn main() {
    let files = Files {
        catalogue: file("catalogue"),
        values: file("values"),
        permits: file("permits"),
        question: file("question"),
    };
    print!("{}", output(&files));
}
