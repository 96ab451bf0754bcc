//! The words, numbers and signs of a text, each read as far as it goes.

pub const RESERVED: [&str; 11] = [
    "RANGE", "RETRIEVE", "NOT", "SOME", "IN", "V", "COUNT", "SUM", "AVE", "MAX", "MIN",
];

/// A sign that begins another one comes after it.
pub const SIGNS: [&str; 13] = [
    "<=", ">=", "<", ">", "=", "#", "(", ")", ",", ":", ";", ".", "^",
];

#[derive(Clone, PartialEq, Eq, Debug)]
pub enum Word {
    Reserved(&'static str),
    Name(String),
    Number(i32),
    Sign(&'static str),
}

fn is_blank(byte: u8) -> bool {
    matches!(byte, 32 | 10 | 13)
}

/// How many bytes at the front are of this sort.
fn run(bytes: &[u8], is_of: fn(&u8) -> bool) -> usize {
    bytes.iter().take_while(|byte| is_of(byte)).count()
}

/// None if a byte starts none of them, or a number is outside 32 bits.
pub fn words(text: &[u8]) -> Option<Vec<Word>> {
    let mut words = Vec::new();
    let mut rest = text;
    while let Some(first) = rest.first() {
        if is_blank(*first) {
            rest = &rest[1..];
            continue;
        }
        let (word, length) = word(rest)?;
        words.push(word);
        rest = &rest[length..];
    }
    Some(words)
}

/// The one at the front, and its length.
fn word(bytes: &[u8]) -> Option<(Word, usize)> {
    let letters = run(bytes, u8::is_ascii_uppercase);
    if letters > 0 {
        let letters = std::str::from_utf8(&bytes[..letters]).ok()?;
        let reserved = RESERVED.into_iter().find(|reserved| *reserved == letters);
        let word = match reserved {
            Some(reserved) => Word::Reserved(reserved),
            None => Word::Name(letters.to_string()),
        };
        return Some((word, letters.len()));
    }
    let minus = usize::from(bytes[0] == b'-');
    let digits = run(&bytes[minus..], u8::is_ascii_digit);
    if digits > 0 {
        let number = number(minus == 1, &bytes[minus..][..digits])?;
        return Some((Word::Number(number), minus + digits));
    }
    let sign = SIGNS
        .into_iter()
        .find(|sign| bytes.starts_with(sign.as_bytes()))?;
    Some((Word::Sign(sign), sign.len()))
}

fn number(is_negative: bool, digits: &[u8]) -> Option<i32> {
    let mut size: i64 = 0;
    for digit in digits {
        size = (10 * size + i64::from(digit - b'0')).min(1 << 40);
    }
    let number = if is_negative { -size } else { size };
    i32::try_from(number).ok()
}
