//! The characters that the files of a run have reached: which byte values the rule was asked of, in H lines, where the comma is valid, and in other lines.

use crate::reading::refusals::{CHARACTER, LINE_END};
use crate::reading::{Accepted, Answer, Refusal};

/// How often each byte value was reached behind the kind of an H line, and of another line.
pub struct Characters {
    in_h: [u64; 256],
    in_other: [u64; 256],
}

impl Default for Characters {
    fn default() -> Characters {
        Characters { in_h: [0; 256], in_other: [0; 256] }
    }
}

impl Characters {
    /// Every character of a good line was found valid, and the one that a refusal names was not. CR and LF are no character of a line: they are reached where one of them
    /// stands in a line and does not end it.
    pub fn add(&mut self, file: &[u8], answer: &Answer<Accepted>) {
        let good = match answer {
            Ok(said) => said.lines,
            Err(refused) => refused.line.saturating_sub(1),
        };
        let mut start = 0;
        for line in file.split_inclusive(|&c| c == b'\n').take(good as usize) {
            line[1..line.len() - 2].iter().for_each(|&c| self.count(line[0], c));
            start += line.len();
        }
        if let Err(refused) = answer {
            self.add_named(&file[start..], refused);
        }
    }

    /// The character that a refusal names, in the faulty line at the front of these bytes.
    fn add_named(&mut self, rest: &[u8], refused: &Refusal) {
        let named = matches!(refused.number, CHARACTER | LINE_END) && refused.byte > 1;
        if let Some(&c) = rest.get(refused.byte.saturating_sub(1) as usize).filter(|_| named && rest[0].is_ascii_uppercase()) {
            self.count(rest[0], c);
        }
    }

    fn count(&mut self, kind: u8, c: u8) {
        let counts = if kind == b'H' { &mut self.in_h } else { &mut self.in_other };
        counts[usize::from(c)] += 1;
    }

    /// How many byte values were reached.
    pub fn told(&self) -> String {
        let [h, other] = [&self.in_h, &self.in_other].map(|counts| counts.iter().filter(|&&n| n > 0).count());
        format!("{h} in H lines, {other} in other lines")
    }

    /// The byte values that were not reached.
    pub fn never(&self) -> Vec<String> {
        let missing = |counts: &[u64; 256], lines: &str| {
            let values = (0..256).filter(|&c| counts[c] == 0);
            values.map(|c| format!("hex {c:02X} in {lines}")).collect::<Vec<_>>()
        };
        [missing(&self.in_h, "an H line"), missing(&self.in_other, "another line")].concat()
    }
}
