//! Words of lines and prints.
use std::fmt::Write;

/// A text or bytes as one word of a line.
pub fn escape(bytes: &[u8]) -> String {
    match bytes {
        b"" => "-".to_string(),
        b"-" => "%2D".to_string(),
        _ => bytes.iter().fold(String::new(), |mut word, &b| {
            match b {
                b'%' | 0..=32 | 127..=255 => write!(word, "%{b:02X}").expect("a string takes all"),
                _ => word.push(b as char),
            }
            word
        }),
    }
}

/// The bytes that a word of a print stands for.
pub fn unescape(word: &str) -> Vec<u8> {
    if word == "-" {
        return Vec::new();
    }
    let mut parts = word.split('%');
    let mut bytes = parts.next().unwrap_or("").as_bytes().to_vec();
    for part in parts {
        match part.get(..2).and_then(|digits| u8::from_str_radix(digits, 16).ok()) {
            Some(byte) => {
                bytes.push(byte);
                bytes.extend_from_slice(&part.as_bytes()[2..]);
            }
            None => {
                bytes.push(b'%');
                bytes.extend_from_slice(part.as_bytes());
            }
        }
    }
    bytes
}

/// A word for what may be missing.
pub fn optional<X: ToString>(value: Option<X>) -> String {
    value.map_or("-".to_string(), |it| it.to_string())
}

/// Words joined, or `-` for none.
pub fn list<X: ToString>(values: &[X], between: &str) -> String {
    if values.is_empty() {
        return "-".to_string();
    }
    values.iter().map(X::to_string).collect::<Vec<_>>().join(between)
}

/// Takes the words of a line of a print one after another.
pub struct Words<'a>(std::str::Split<'a, char>);

impl<'a> Words<'a> {
    /// The words of a line.
    pub fn of(line: &'a str) -> Words<'a> {
        Words(line.split(' '))
    }

    /// The next word.
    pub fn word(&mut self) -> Option<&'a str> {
        self.0.next()
    }

    /// The next word as a number.
    pub fn number<N: std::str::FromStr>(&mut self) -> Option<N> {
        self.word()?.parse().ok()
    }

    /// The next word as a number or `-`.
    pub fn maybe<N: std::str::FromStr>(&mut self) -> Option<Option<N>> {
        match self.word()? {
            "-" => Some(None),
            word => word.parse().ok().map(Some),
        }
    }
}
