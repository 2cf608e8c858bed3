//! What the files of a run have reached: how many were accepted, how many were refused with each number, which fields had a number that names them, which branches of the
//! rules on layouts and on the lines by them, and which characters.

use super::branches::{self, branches};
use super::characters::Characters;
use crate::reading::{Accepted, Answer};
use std::collections::BTreeMap;

/// The refusals of a file.
const NUMBERS: [u32; 20] = [1, 2, 3, 4, 5, 6, 7, 8, 9, 10, 11, 12, 13, 14, 15, 16, 22, 23, 24, 25];

/// A field that its refusal names: the number, the kind of its line, and its first byte.
type Field = (u32, char, u64);

/// Every such field: the time of B, E, F, K and N lines and of the C head; latitude and longitude of B lines and C points; both altitudes of B lines; the date of line 2, and of
/// the C head the declared and the flight date.
const FIELDS: [Field; 15] = [
    (22, 'B', 2),
    (22, 'C', 8),
    (22, 'E', 2),
    (22, 'F', 2),
    (22, 'K', 2),
    (22, 'N', 2),
    (23, 'B', 8),
    (23, 'B', 16),
    (23, 'C', 2),
    (23, 'C', 10),
    (24, 'B', 26),
    (24, 'B', 31),
    (25, 'C', 2),
    (25, 'C', 14),
    (25, 'H', 6),
];

#[derive(Default)]
pub struct Reached {
    pub accepted: u64,
    numbers: BTreeMap<u32, u64>,
    fields: BTreeMap<Field, u64>,
    branches: BTreeMap<String, u64>,
    characters: Characters,
}

impl Reached {
    pub fn add(&mut self, file: &[u8], answer: &Answer<Accepted>) {
        for branch in branches(file, answer) {
            *self.branches.entry(branch).or_default() += 1;
        }
        self.characters.add(file, answer);
        let Err(refused) = answer else {
            self.accepted += 1;
            return;
        };
        *self.numbers.entry(refused.number).or_default() += 1;
        if (22..=25).contains(&refused.number) {
            // The lines before the faulty one are good, so that each ends with its first LF.
            let line = file.split(|&c| c == b'\n').nth(refused.line as usize - 1).unwrap();
            *self.fields.entry((refused.number, line[0].into(), refused.byte)).or_default() += 1;
        }
    }

    pub fn refused(&self) -> u64 {
        self.numbers.values().sum()
    }

    /// How often each number was reached.
    pub fn by_number(&self) -> String {
        let each: Vec<String> = self.numbers.iter().map(|(number, count)| format!("{number}: {count}")).collect();
        each.join(", ")
    }

    /// How often each field was reached that its number names.
    pub fn by_field(&self) -> String {
        let each: Vec<String> = self.fields.iter().map(|(field, count)| format!("{}: {count}", told(field))).collect();
        each.join(", ")
    }

    /// How often each branch was reached that a run must reach.
    pub fn by_branch(&self) -> String {
        let count = |branch: &String| self.branches.get(branch).copied().unwrap_or(0);
        let each: Vec<String> = branches::wanted().iter().map(|branch| format!("{branch}: {}", count(branch))).collect();
        each.join(", ")
    }

    /// How many byte values were reached as characters; a run must reach them all.
    pub fn by_character(&self) -> String {
        self.characters.told()
    }

    /// What should have been reached and was not: the numbers, the fields, the branches, and the characters. `but` are numbers that this run cannot reach.
    pub fn never(&self, but: &[u32]) -> Vec<String> {
        let numbers = NUMBERS.iter().filter(|n| !but.contains(n) && !self.numbers.contains_key(n)).map(u32::to_string);
        let fields = FIELDS.iter().filter(|f| !self.fields.contains_key(f)).map(told);
        let branches = branches::wanted().into_iter().filter(|branch| !self.branches.contains_key(branch));
        numbers.chain(fields).chain(branches).chain(self.characters.never()).collect()
    }

    /// What should never be reached and was: a number that no file has, or one that names a field where no such field stands.
    pub fn strange(&self) -> Vec<String> {
        let numbers = self.numbers.keys().filter(|n| !NUMBERS.contains(n)).map(u32::to_string);
        let fields = self.fields.keys().filter(|f| !FIELDS.contains(f)).map(told);
        numbers.chain(fields).collect()
    }
}

fn told((number, kind, byte): &Field) -> String {
    format!("{number} in {kind} at {byte}")
}
