//! The program of `conformance/texts`: reads the text of the files in the current folder.

use judge::text_program::{output, Files};
use std::fs;

fn file(name: &str) -> Vec<u8> {
    fs::read(name).unwrap_or_default()
}

fn main() {
    let files = Files {
        names: file("names"),
        text: file("text"),
        room: file("room"),
    };
    print!("{}", output(&files));
}
