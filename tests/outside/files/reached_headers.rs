//! What the H lines of a run have reached: each refusal by each of its reasons, and before those that come later; and what good ones have.

use super::counted::Counted;
use crate::reading::characters::{is_code, is_valid};
use crate::reading::refusals::{BAD_VALUE, CHARACTER, FORM, LENGTH};
use crate::reading::{Answer, Header};

/// What a run must reach.
const WANTED: [&str; 34] = [
    "17 for no bytes",
    "17 for a small h",
    "17 for another kind that is else an H line",
    "17 for another kind, and too short",
    "17 for another kind, and too long",
    "17 for a first byte that is no letter",
    "7 for 1 byte",
    "7 for 4 bytes",
    "7 for 256 bytes",
    "7 for over 300 bytes",
    "7 before 8",
    "7 before 9",
    "8 at byte 2",
    "8 at byte 3 to 5",
    "8 at byte 6",
    "8 at the last byte",
    "8 before 9",
    "8 for CR or LF",
    "9 at byte 2",
    "9 at byte 2 for a comma",
    "9 at byte 3 for the first of the code",
    "9 at byte 3 for the second",
    "9 at byte 3 for the third",
    "9 at byte 2 before 9 at byte 3",
    "F",
    "O",
    "a digit in the code",
    "no text",
    "one byte of text",
    "250 bytes of text",
    "a comma in the text",
    "a space at the end",
    "the second line of a file",
    "DTE with a text that is no date",
];

pub struct Reached(Counted);

impl Default for Reached {
    fn default() -> Self {
        Reached(Counted::of(&WANTED))
    }
}

/// Whether the bytes that are there of the source and the code would be good.
fn is_formed(line: &[u8]) -> bool {
    line.iter().enumerate().take(5).all(|(n, &c)| n == 0 || if n == 1 { b"FO".contains(&c) } else { is_code(c) })
}

impl Reached {
    pub fn told(&self) -> String {
        self.0.told()
    }

    pub fn never(&self) -> Vec<&'static str> {
        self.0.never()
    }

    /// A line, which may be the second of a file, and the answer.
    pub fn add(&mut self, line: &[u8], is_second: bool, answer: &Answer<Header>) {
        let (length, is_plain) = (line.len(), line.iter().all(|&c| is_valid(c, b'H')));
        match answer.as_ref().map_err(|r| (r.number, r.byte)) {
            Ok(header) => self.add_good(line, is_second, header),
            Err((BAD_VALUE, _)) => {
                let first = line.first().copied().unwrap_or(b'A');
                self.0.add_those([
                    ("17 for no bytes", length == 0),
                    ("17 for a small h", first == b'h'),
                    ("17 for another kind that is else an H line", (5..=255).contains(&length) && is_formed(line) && is_plain),
                    ("17 for another kind, and too short", 0 < length && length < 5),
                    ("17 for another kind, and too long", length > 255),
                    ("17 for a first byte that is no letter", !first.is_ascii_alphabetic()),
                ]);
            }
            Err((LENGTH, _)) => self.0.add_those([
                ("7 for 1 byte", length == 1),
                ("7 for 4 bytes", length == 4),
                ("7 for 256 bytes", length == 256),
                ("7 for over 300 bytes", length > 300),
                ("7 before 8", !is_plain),
                ("7 before 9", is_plain && !is_formed(line)),
            ]),
            Err((CHARACTER, byte)) => self.0.add_those([
                ("8 at byte 2", byte == 2),
                ("8 at byte 3 to 5", (3..=5).contains(&byte)),
                ("8 at byte 6", byte == 6),
                ("8 at the last byte", byte as usize == length),
                ("8 before 9", byte > 2 && !b"FO".contains(&line[1])),
                ("8 for CR or LF", b"\r\n".contains(&line[byte as usize - 1])),
            ]),
            Err((FORM, byte)) => {
                let code: [bool; 3] = [line[2], line[3], line[4]].map(is_code);
                self.0.add_those([
                    ("9 at byte 2", byte == 2),
                    ("9 at byte 2 for a comma", byte == 2 && line[1] == b','),
                    ("9 at byte 3 for the first of the code", byte == 3 && code == [false, true, true]),
                    ("9 at byte 3 for the second", byte == 3 && code == [true, false, true]),
                    ("9 at byte 3 for the third", byte == 3 && code == [true, true, false]),
                    ("9 at byte 2 before 9 at byte 3", byte == 2 && code.contains(&false)),
                ]);
            }
            other => panic!("{other:?}"),
        }
    }

    fn add_good(&mut self, line: &[u8], is_second: bool, header: &Header) {
        let text = &line[header.text.start..];
        self.0.add_those([
            ("F", header.source == b'F'),
            ("O", header.source == b'O'),
            ("a digit in the code", header.code.iter().any(u8::is_ascii_digit)),
            ("no text", text.is_empty()),
            ("one byte of text", text.len() == 1),
            ("250 bytes of text", text.len() == 250),
            ("a comma in the text", text.contains(&b',')),
            ("a space at the end", text.ends_with(b" ")),
            ("the second line of a file", is_second),
            ("DTE with a text that is no date", &header.code == b"DTE" && !is_second && !text.iter().all(u8::is_ascii_digit)),
        ]);
    }
}
