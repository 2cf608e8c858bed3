//! Evening notes brought together: of two copies of a file with different notes, the one that has the notes of both.

use super::file::{LIMIT, check_strict_alone};
use super::refusals::{NO_ROOM, NOT_SAME, Refusal, TOO_LONG};
use std::collections::BTreeMap;

#[derive(Clone, Copy, PartialEq, Eq, Debug)]
pub enum Which {
    First,
    Second,
}

/// A refusal, and the copy whose own it is; none where it is of the two together or of the result.
#[derive(Clone, Copy, PartialEq, Eq, Debug)]
pub struct Unmerged {
    pub of: Option<Which>,
    pub refusal: Refusal,
}

impl Unmerged {
    /// "26 and every later new number come with line 0, byte 0", and 2 and 18 as they always do.
    pub const fn of_both(number: u32) -> Unmerged {
        Unmerged { of: None, refusal: Refusal::of(number) }
    }
}

/// An accepted file parted at "the end of the last G line", its CR LF included: what stands before, and the texts of the lines behind, which are all L lines.
fn parted(file: &[u8]) -> (&[u8], Vec<&[u8]>) {
    let lines: Vec<&[u8]> = file.split_inclusive(|&c| c == b'\n').collect();
    let sealed = lines.iter().rposition(|line| line[0] == b'G').unwrap() + 1;
    let (signed, notes) = lines.split_at(sealed);
    let length = signed.iter().map(|line| line.len()).sum();
    (&file[..length], notes.iter().map(|line| &line[..line.len() - 2]).collect())
}

/// "Each kept as often as it occurs in whichever copy has it more often, in ascending byte order, a line that begins another coming first." The order of slices is this one.
fn together<'a>(copies: [Vec<&'a [u8]>; 2]) -> Vec<&'a [u8]> {
    let mut counts: BTreeMap<&[u8], [usize; 2]> = BTreeMap::new();
    for (copy, notes) in copies.into_iter().enumerate() {
        for note in notes {
            counts.entry(note).or_default()[copy] += 1;
        }
    }
    counts.into_iter().flat_map(|(note, [first, second])| vec![note; first.max(second)]).collect()
}

/// The whole result, for an output of so many bytes. It asks for the strict check "by name". "Refusals: first file's, second file's, then 26 NOT_SAME, then 2 for the result, then 18 if the output is shorter".
pub fn merge(first: &[u8], second: &[u8], room: usize) -> Result<Vec<u8>, Unmerged> {
    for (copy, file) in [(Which::First, first), (Which::Second, second)] {
        check_strict_alone(file).map_err(|refusal| Unmerged { of: Some(copy), refusal })?;
    }
    let ((common, notes), (other, others)) = (parted(first), parted(second));
    if common != other {
        return Err(Unmerged::of_both(NOT_SAME));
    }
    let mut result = common.to_vec();
    for note in together([notes, others]) {
        result.extend(note);
        result.extend(b"\r\n");
    }
    if result.len() > LIMIT {
        return Err(Unmerged::of_both(TOO_LONG));
    }
    if room < result.len() {
        return Err(Unmerged::of_both(NO_ROOM));
    }
    Ok(result)
}

/// The result put at the start of an output, and its length. "A refusal leaves the output unchanged; bytes past a result stay."
pub fn merge_into(first: &[u8], second: &[u8], out: &mut [u8]) -> Result<usize, Unmerged> {
    let result = merge(first, second, out.len())?;
    out[..result.len()].copy_from_slice(&result);
    Ok(result.len())
}
