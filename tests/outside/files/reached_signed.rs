//! What the files of a run have reached by being signed or not.

use crate::reading::refusals::ENDS_EARLY;
use crate::reading::{Accepted, Answer};
use std::collections::BTreeMap;

/// What a run must reach: where a file that is not signed ends, and both ways to end too early; and what the strict check says then.
const WANTED: [&str; 10] = [
    "signed",
    "signed, and an L line is the last",
    "not signed, and the date line is the last",
    "not signed, and another H line is the last",
    "not signed, and a layout line is the last",
    "not signed, and a point is the last",
    "not signed, and an L line is the last",
    "not signed, and a line with a time is the last",
    "ends behind its first line",
    "ends inside its declaration",
];

#[derive(Default)]
pub struct Reached {
    branches: BTreeMap<&'static str, u64>,
}

impl Reached {
    /// What a file reaches by the answers of the usual check and of the strict one. The strict answer is the usual one, or 16 where the file is not signed.
    pub fn add(&mut self, file: &[u8], usual: &Answer<Accepted>, strict: &Answer<Accepted>) -> Result<(), String> {
        let as_it_must_be = match usual {
            Ok(said) if !said.signed => strict.as_ref().err().map(|r| (r.number, r.line, r.byte)) == Some((ENDS_EARLY, said.lines + 1, 0)),
            other => strict == other,
        };
        if !as_it_must_be {
            return Err(format!("the reading itself: {usual:?} by the usual check, and {strict:?} by the strict one"));
        }
        if let Some(branch) = branch(file, usual) {
            *self.branches.entry(branch).or_default() += 1;
        }
        Ok(())
    }

    pub fn told(&self) -> String {
        let each: Vec<String> = WANTED.iter().map(|b| format!("{b}: {}", self.branches.get(b).copied().unwrap_or(0))).collect();
        each.join(", ")
    }

    /// What should have been reached and was not.
    pub fn never(&self) -> Vec<&'static str> {
        WANTED.into_iter().filter(|b| !self.branches.contains_key(b)).collect()
    }
}

fn branch(file: &[u8], usual: &Answer<Accepted>) -> Option<&'static str> {
    let last = file.split_inclusive(|&c| c == b'\n').next_back().map_or(b'?', |line| line[0]);
    match usual {
        Ok(said) if said.signed => Some(if last == b'L' { "signed, and an L line is the last" } else { "signed" }),
        Ok(said) => match last {
            b'H' if said.lines == 2 => Some("not signed, and the date line is the last"),
            b'H' => Some("not signed, and another H line is the last"),
            b'I' | b'J' | b'M' => Some("not signed, and a layout line is the last"),
            b'C' => Some("not signed, and a point is the last"),
            b'L' => Some("not signed, and an L line is the last"),
            b'B' | b'E' | b'F' | b'K' | b'N' => Some("not signed, and a line with a time is the last"),
            _ => None,
        },
        Err(r) if r.number == ENDS_EARLY => Some(if r.line == 2 { "ends behind its first line" } else { "ends inside its declaration" }),
        Err(_) => None,
    }
}
