//! The look for one column in the answer of a reading. It takes any line with any entries: neither was checked before, and the line is not checked here.

use super::layouts::{Entry, whole_number};
use super::refusals::{ABSENT, Answer, BAD_VALUE, NOT_NUMBER, Refusal};

/// "For each entry, in layout order, up to 13".
pub const MOST_ENTRIES: usize = 13;

/// "An entry not inside the line lent with it or with its last byte before its first" is none. Bytes count from 1.
fn stands_in<C>(entry: &Entry<C>, line: &[u8]) -> bool {
    1 <= entry.first && entry.first <= entry.last && entry.last <= line.len()
}

/// "A code twice".
fn has_a_code_twice<C: PartialEq>(entries: &[Entry<C>]) -> bool {
    entries.iter().enumerate().any(|(n, e)| entries[..n].iter().any(|before| before.code == e.code))
}

/// "The look gives 17 for an answer with over 13 entries, a code twice or an entry not inside the line lent with it or with its last byte before its first, then 19".
pub fn look<C: PartialEq + Copy>(line: &[u8], entries: &[Entry<C>], code: &C) -> Answer<Entry<C>> {
    if entries.len() > MOST_ENTRIES || has_a_code_twice(entries) || !entries.iter().all(|e| stands_in(e, line)) {
        return Err(Refusal::of(BAD_VALUE));
    }
    entries.iter().find(|e| e.code == *code).copied().ok_or(Refusal::of(ABSENT))
}

/// The column found, as a whole number: "then 19, 20".
pub fn look_number<C: PartialEq + Copy>(line: &[u8], entries: &[Entry<C>], code: &C) -> Answer<i64> {
    let entry = look(line, entries, code)?;
    whole_number(entry.text(line)).ok_or(Refusal::of(NOT_NUMBER))
}
