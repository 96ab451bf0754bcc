//! A program for a reader of texts, as a function of its files.

use crate::read_text;

/// The bytes of the three files. A missing file counts as empty.
#[derive(Clone, Default, PartialEq, Eq, Debug)]
pub struct Files {
    pub names: Vec<u8>,
    pub text: Vec<u8>,
    /// How many bytes the records buffer has, in decimal.
    pub room: Vec<u8>,
}

/// What the program prints.
pub fn output(files: &Files) -> String {
    let room = String::from_utf8_lossy(&files.room);
    let mut buffer = vec![0; room.trim().parse().unwrap_or(0)];
    let (number, length) = read_text(&files.text, &files.names, &mut buffer);
    if number != 0 {
        return format!("refused {number}\n");
    }
    let bytes = &buffer[..length as usize];
    let bytes: Vec<String> = bytes.iter().map(u8::to_string).collect();
    format!("records {length}\n{}\n", bytes.join(" "))
}
