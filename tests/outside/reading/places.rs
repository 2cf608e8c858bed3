//! Where the lines of a file stand: a line by its number, the line at a reading place, and all lines of an accepted file.

use super::refusals::{Answer, BAD_VALUE, Refusal};

const REFUSED: Refusal = Refusal::of(BAD_VALUE);

/// Where the first CR LF pair at or after a place stands.
fn pair_from(file: &[u8], at: usize) -> Answer<usize> {
    file[at..].windows(2).position(|w| w == b"\r\n").map(|n| at + n).ok_or(REFUSED)
}

/// A line by its number: where it begins and where its CR LF stands. "A number of 0 or past the table's entries, a table entry that is neither 0 nor just past a CR LF, or
/// with no CR LF from there on, is 17."
pub fn line(file: &[u8], table: &[u32], number: u64) -> Answer<(usize, usize)> {
    if number == 0 || number > table.len() as u64 {
        return Err(REFUSED);
    }
    let at = table[number as usize - 1] as usize;
    if at > file.len() || at != 0 && !file[..at].ends_with(b"\r\n") {
        return Err(REFUSED);
    }
    Ok((at, pair_from(file, at)?))
}

/// The line at a reading place, as for `line`; none where the place is the end. "A place past the end, or one with no CR LF after it though bytes remain, is 17."
pub fn step(file: &[u8], at: usize) -> Answer<Option<(usize, usize)>> {
    if at > file.len() {
        return Err(REFUSED);
    }
    if at == file.len() {
        return Ok(None);
    }
    Ok(Some((at, pair_from(file, at)?)))
}

/// A part of a line or of a file, told by how many bytes stand before it, and how many it has.
#[derive(Clone, Copy, PartialEq, Eq, Debug)]
pub struct Part {
    pub start: usize,
    pub length: usize,
}

/// The lines of an accepted file, where LF comes at a line's end alone: how many bytes stand before each, and its text.
pub fn lines_of(file: &[u8]) -> impl Iterator<Item = (usize, &[u8])> {
    file.split_inclusive(|&c| c == b'\n').scan(0, |at, line| {
        let start = *at;
        *at += line.len();
        Some((start, &line[..line.len() - 2]))
    })
}
