//! What each line of a file is: its letter, and a letter of its own for a note.

use super::file::check_usual_alone;
use super::places::lines_of;
use super::refusals::{Answer, NO_ROOM, Refusal};

/// What is told for a note in place of L.
pub const NOTE: u8 = b'l';

/// A byte for each line: "the line's letter, its first byte", but for a note. That is "an L line after the last G line", and a file without G lines has none.
pub fn kinds(file: &[u8]) -> Answer<Vec<u8>> {
    check_usual_alone(file)?;
    let mut kinds: Vec<u8> = lines_of(file).map(|(_, line)| line[0]).collect();
    if let Some(last) = kinds.iter().rposition(|&kind| kind == b'G') {
        kinds[last..].iter_mut().filter(|kind| **kind == b'L').for_each(|kind| *kind = NOTE);
    }
    Ok(kinds)
}

/// The same put at the start of a list; how many lines there are. "The list is unchanged where refused; bytes past the last line's stay."
pub fn kinds_into(file: &[u8], list: &mut [u8]) -> Answer<usize> {
    let kinds = kinds(file)?;
    let part = list.get_mut(..kinds.len()).ok_or(Refusal::of(NO_ROOM))?;
    part.copy_from_slice(&kinds);
    Ok(kinds.len())
}
