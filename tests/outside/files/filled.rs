//! Valid files of an exact size.

use super::generate::{Line, Sample};
use super::random::Random;
use crate::reading::Role;

/// A valid file of exactly `size` bytes, of those that `make` makes with so many body lines: L lines before its first G, or at its end, fill it up.
pub fn filled(random: &mut Random, size: usize, make: fn(&mut Random, usize) -> Sample) -> Sample {
    let mut sample = make(random, size / 90);
    let missing = size - sample.bytes().len();
    let end = sample.first(Role::Seal).unwrap_or(sample.lines.len());
    sample.lines.splice(end..end, remarks(missing));
    sample
}

/// L lines that have so many bytes with their CR LF, which are not 1 or 2.
pub fn remarks(bytes: usize) -> Vec<Line> {
    lengths(bytes).into_iter().map(|length| Line { role: Role::Remark, text: vec![b'L'; length] }).collect()
}

/// How long those lines are.
pub fn lengths(bytes: usize) -> Vec<usize> {
    let mut missing = bytes;
    let mut lengths = Vec::new();
    while missing > 0 {
        let whole = match missing {
            ..=101 => missing,
            102..=104 => 50,
            _ => 101,
        };
        lengths.push(whole - 2);
        missing -= whole;
    }
    lengths
}
