//! What the pairs of copies of a run have reached.

use super::pairs::Pair;
use crate::reading::{Unmerged, Which, check_usual_alone, merge};
use std::collections::BTreeMap;

/// What a run must reach: refusals of one copy or of both, of the two together, for want of room; and what notes of copies can be to each other.
const WANTED: [&str; 24] = [
    "refused of the first alone",
    "refused of the second",
    "refused of the first, and the second would be",
    "refused of the first for want of a G line alone",
    "refused of the second for want of a G line alone",
    "not the same, and one part begins the other",
    "not the same",
    "not the same, and no room",
    "too long",
    "too long, and no room",
    "no room for the last byte",
    "no room at all",
    "just room",
    "room to spare",
    "no notes",
    "notes in the first alone",
    "notes in the second alone",
    "the same notes in the same order",
    "the same notes in another order",
    "a note more often in the first",
    "a note more often in the second",
    "a note that is in both more than once",
    "a note that begins another",
    "L lines before G",
];

#[derive(Default)]
pub struct Reached {
    pub merged: u64,
    pub refused: u64,
    branches: BTreeMap<&'static str, u64>,
}

/// The lines behind the last G line of a file that is accepted, and how many bytes stand before them.
fn notes(file: &[u8]) -> (usize, Vec<&[u8]>) {
    let lines: Vec<&[u8]> = file.split_inclusive(|&c| c == b'\n').collect();
    let behind = lines.iter().rev().take_while(|l| l[0] == b'L').count();
    let (signed, notes) = lines.split_at(lines.len() - behind);
    (signed.iter().map(|l| l.len()).sum(), notes.iter().map(|l| &l[..l.len() - 2]).collect())
}

impl Reached {
    /// What a pair reaches by its answer; `swapped` is the answer on the two copies the other way round.
    pub fn add(&mut self, pair: &Pair, answer: &Result<Vec<u8>, Unmerged>, swapped: &Result<Vec<u8>, Unmerged>) {
        let reached = match answer {
            Ok(result) => {
                self.merged += 1;
                of_merged(pair, result)
            }
            Err(refused) => {
                self.refused += 1;
                of_refused(pair, refused, swapped)
            }
        };
        for branch in reached {
            *self.branches.entry(branch).or_default() += 1;
        }
    }

    pub fn told(&self) -> String {
        let each: Vec<String> = WANTED.iter().map(|b| format!("{b}: {}", self.branches.get(b).copied().unwrap_or(0))).collect();
        each.join(", ")
    }

    /// What should have been reached and was not. Only copies at the size limit are too long.
    pub fn never(&self, at_limit: bool) -> Vec<&'static str> {
        let all = WANTED.into_iter().filter(|b| at_limit || !b.starts_with("too long"));
        all.filter(|b| !self.branches.contains_key(b)).collect()
    }
}

fn of_refused(pair: &Pair, refused: &Unmerged, swapped: &Result<Vec<u8>, Unmerged>) -> Vec<&'static str> {
    let (first, second) = (&pair.first, &pair.second);
    let longer = first.len().max(second.len());
    let unsigned = |file: &[u8]| check_usual_alone(file).is_ok_and(|said| !said.signed);
    match (refused.of, refused.refusal.number) {
        (Some(Which::First), 16) if unsigned(first) => vec!["refused of the first for want of a G line alone"],
        (Some(Which::Second), 16) if unsigned(second) => vec!["refused of the second for want of a G line alone"],
        (Some(Which::First), _) => match swapped {
            Err(Unmerged { of: Some(Which::First), .. }) => vec!["refused of the first, and the second would be"],
            _ => vec!["refused of the first alone"],
        },
        (Some(Which::Second), _) => vec!["refused of the second"],
        (None, 26) => {
            let (ours, theirs) = (&first[..notes(first).0], &second[..notes(second).0]);
            let begins = ours.starts_with(theirs) || theirs.starts_with(ours);
            let how = if begins { "not the same, and one part begins the other" } else { "not the same" };
            if pair.room < longer { vec![how, "not the same, and no room"] } else { vec![how] }
        }
        (None, 2) if pair.room < longer => vec!["too long, and no room"],
        (None, 2) => vec!["too long"],
        _ if pair.room == 0 => vec!["no room at all"],
        _ if merge(first, second, pair.room + 1).is_ok() => vec!["no room for the last byte"],
        _ => vec![],
    }
}

fn of_merged(pair: &Pair, result: &[u8]) -> Vec<&'static str> {
    let ((signed, ours), (_, theirs)) = (notes(&pair.first), notes(&pair.second));
    let mut all: BTreeMap<&[u8], (usize, usize)> = BTreeMap::new();
    ours.iter().for_each(|note| all.entry(note).or_default().0 += 1);
    theirs.iter().for_each(|note| all.entry(note).or_default().1 += 1);
    let counts: Vec<(usize, usize)> = all.values().copied().collect();
    let same = counts.iter().all(|(a, b)| a == b);
    // In this order a text that begins others has one of them next to it.
    let texts: Vec<&[u8]> = all.keys().copied().collect();
    let begins = texts.windows(2).any(|two| two[1].starts_with(two[0]));
    let cases = [
        ("just room", pair.room == result.len()),
        ("room to spare", pair.room > result.len()),
        ("no notes", all.is_empty()),
        ("notes in the first alone", !ours.is_empty() && theirs.is_empty()),
        ("notes in the second alone", ours.is_empty() && !theirs.is_empty()),
        ("the same notes in the same order", !ours.is_empty() && ours == theirs),
        ("the same notes in another order", same && ours != theirs),
        ("a note more often in the first", counts.iter().any(|(a, b)| a > b && *b > 0)),
        ("a note more often in the second", counts.iter().any(|(a, b)| b > a && *a > 0)),
        ("a note that is in both more than once", counts.iter().any(|(a, b)| *a > 1 && *b > 1)),
        ("a note that begins another", begins),
        ("L lines before G", pair.first[..signed].windows(2).any(|two| two == b"\nL")),
    ];
    cases.into_iter().filter(|(_, reached)| *reached).map(|(branch, _)| branch).collect()
}
