//! What the kinds of lines in a run have reached: each letter, notes and L lines that are none, and lists.

use super::counted::Counted;
use crate::reading::{Answer, NOTE};

/// What a run must reach beside each letter.
const WANTED: [&str; 16] = [
    "refused, and a list",
    "refused, and no list",
    "18 for one byte short",
    "18 for no list",
    "18, and all but the notes have room",
    "a list just long enough",
    "a longer list",
    "no G line, and an L line is the last",
    "no G line and no L line",
    "a G line and no L line",
    "an L line just before the first G line, and no note",
    "notes, and no other L line",
    "notes, and other L lines",
    "one note",
    "several notes",
    "notes behind several G lines",
];

pub struct Reached {
    counted: Counted,
    /// Which bytes were told.
    told: [bool; 256],
}

impl Default for Reached {
    fn default() -> Self {
        Reached { counted: Counted::of(&WANTED), told: [false; 256] }
    }
}

/// The lengths of the lists to lend for so many lines, or for some of a refused file: one that is just long enough, and by its turn another.
pub fn rooms(turn: u64, answer: &Answer<Vec<u8>>) -> [usize; 2] {
    let count = answer.as_ref().map_or((turn % 5) as usize, Vec::len);
    let other = match turn % 5 {
        0 => 0,
        1 => count.saturating_sub(1),
        2 => (turn / 5 % 64) as usize * count / 64,
        3 => count.saturating_sub(2),
        _ => count + 1 + (turn / 5 % 9) as usize,
    };
    [count, other]
}

impl Reached {
    pub fn told(&self) -> String {
        format!("{} letters; {}", self.told.iter().filter(|told| **told).count(), self.counted.told())
    }

    /// What should have been reached and was not: letters too.
    pub fn never(&self) -> Vec<String> {
        let letters = (b'A'..=b'Z').chain([NOTE]).filter(|&letter| !self.told[letter as usize]);
        letters.map(|letter| format!("kind {}", letter as char)).chain(self.counted.never().into_iter().map(str::to_string)).collect()
    }

    /// The kinds of a file's lines, and the length of the list that was lent for them.
    pub fn add(&mut self, answer: &Answer<Vec<u8>>, room: usize) {
        let Ok(kinds) = answer else {
            self.counted.add_those([("refused, and a list", room > 0), ("refused, and no list", room == 0)]);
            return;
        };
        let of = |kind: u8| kinds.iter().filter(|&&k| k == kind).count();
        let (notes, others, seals) = (of(NOTE), of(b'L'), of(b'G'));
        if room < kinds.len() {
            self.counted.add_those([
                ("18 for one byte short", room + 1 == kinds.len()),
                ("18 for no list", room == 0),
                ("18, and all but the notes have room", room + notes >= kinds.len()),
            ]);
            return;
        }
        kinds.iter().for_each(|&kind| self.told[kind as usize] = true);
        self.counted.add_those([
            ("a list just long enough", room == kinds.len()),
            ("a longer list", room > kinds.len()),
            ("no G line, and an L line is the last", seals == 0 && kinds.last() == Some(&b'L')),
            ("no G line and no L line", seals == 0 && others == 0),
            ("a G line and no L line", seals > 0 && others + notes == 0),
            ("an L line just before the first G line, and no note", notes == 0 && kinds.windows(2).any(|two| two == b"LG")),
            ("notes, and no other L line", notes > 0 && others == 0),
            ("notes, and other L lines", notes > 0 && others > 0),
            ("one note", notes == 1),
            ("several notes", notes > 1),
            ("notes behind several G lines", notes > 0 && seals > 1),
        ]);
    }
}
