//! The text lines that a comparison is made of. A case is one line: the
//! function's name, then byte strings in lower-case hexadecimal (`-` for the
//! empty one) and decimal lengths of lent buffers, single spaces between. An
//! answer is one line: the number, each place in decimal, and the whole
//! buffer after the call where one is lent.

use crate::answers::{self, Answer};

#[derive(Clone)]
pub enum Case {
    Check(Vec<u8>),
    Run(Vec<u8>, Vec<u8>, usize),
    Read(Vec<u8>),
    Copy(Vec<u8>, usize),
    Product(Vec<u8>, Vec<u8>, usize),
    Same(Vec<u8>, Vec<u8>),
    Probability(Vec<u8>, Vec<u8>),
}

/// What a lent buffer holds before the call.
pub fn lent(length: usize) -> Vec<u8> {
    (0..length).map(|place| ((7 * place + 3) % 256) as u8).collect()
}

pub fn hex(bytes: &[u8]) -> String {
    if bytes.is_empty() {
        return "-".to_string();
    }
    let digits = b"0123456789abcdef";
    let mut word = String::new();
    for byte in bytes {
        word.push(digits[(byte / 16) as usize] as char);
        word.push(digits[(byte % 16) as usize] as char);
    }
    word
}

fn digit(byte: u8) -> Option<u8> {
    match byte {
        b'0'..=b'9' => Some(byte - b'0'),
        b'a'..=b'f' => Some(byte - b'a' + 10),
        _ => None,
    }
}

pub fn unhex(word: &str) -> Option<Vec<u8>> {
    if word == "-" {
        return Some(Vec::new());
    }
    if word.is_empty() || word.len() % 2 == 1 {
        return None;
    }
    let mut bytes = Vec::new();
    for pair in word.as_bytes().chunks(2) {
        bytes.push(digit(pair[0])? * 16 + digit(pair[1])?);
    }
    Some(bytes)
}

impl Case {
    pub fn name(&self) -> &'static str {
        match self {
            Case::Check(..) => "check",
            Case::Run(..) => "run",
            Case::Read(..) => "read",
            Case::Copy(..) => "copy",
            Case::Product(..) => "product",
            Case::Same(..) => "same",
            Case::Probability(..) => "probability",
        }
    }

    pub fn line(&self) -> String {
        let name = self.name();
        match self {
            Case::Check(one) | Case::Read(one) => format!("{name} {}", hex(one)),
            Case::Copy(one, length) => format!("{name} {} {length}", hex(one)),
            Case::Same(one, two) | Case::Probability(one, two) => {
                format!("{name} {} {}", hex(one), hex(two))
            }
            Case::Run(one, two, length) | Case::Product(one, two, length) => {
                format!("{name} {} {} {length}", hex(one), hex(two))
            }
        }
    }

    pub fn from_line(line: &str) -> Option<Case> {
        let words: Vec<&str> = line.split(' ').collect();
        let case = match words.as_slice() {
            ["check", one] => Case::Check(unhex(one)?),
            ["read", one] => Case::Read(unhex(one)?),
            ["copy", one, length] => Case::Copy(unhex(one)?, length.parse().ok()?),
            ["same", one, two] => Case::Same(unhex(one)?, unhex(two)?),
            ["probability", one, two] => Case::Probability(unhex(one)?, unhex(two)?),
            [name, one, two, length] => {
                let (one, two) = (unhex(one)?, unhex(two)?);
                let length = length.parse().ok()?;
                match *name {
                    "run" => Case::Run(one, two, length),
                    "product" => Case::Product(one, two, length),
                    _ => return None,
                }
            }
            _ => return None,
        };
        Some(case)
    }

    pub fn answer(&self) -> Answer {
        match self {
            Case::Check(circuit) => answers::check(circuit),
            Case::Run(circuit, coins, length) => answers::run(circuit, coins, lent(*length)),
            Case::Read(bytes) => answers::read(bytes),
            Case::Copy(bytes, length) => answers::copy(bytes, lent(*length)),
            Case::Product(one, two, length) => answers::product(one, two, lent(*length)),
            Case::Same(one, two) => answers::same(one, two),
            Case::Probability(circuit, stated) => answers::probability(circuit, stated),
        }
    }
}

impl Answer {
    pub fn line(&self) -> String {
        let mut line = self.number.to_string();
        for place in &self.places {
            line.push(' ');
            line.push_str(&place.to_string());
        }
        if let Some(buffer) = &self.buffer {
            line.push(' ');
            line.push_str(&hex(buffer));
        }
        line
    }
}
