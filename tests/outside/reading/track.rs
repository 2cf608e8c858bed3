//! The whole track of a file: a record for each fix, with its line and its day.

use super::fields::TIME;
use super::file::{Accepted, HALF_DAY, check_usual_alone};
use super::lines::Fix;
use super::places::lines_of;
use super::readers::read_fix;
use super::refusals::{Answer, NO_ROOM, Refusal};

/// "Line number, day number counted from 0, seconds, position, validity, both altitudes."
#[derive(Clone, Copy, PartialEq, Eq, Debug)]
pub struct Record {
    pub line: u64,
    pub day: u64,
    pub fix: Fix,
}

/// The time of a good line that is in the time order: B, and "E, F, K and N lines counted too".
fn time_of(line: &[u8]) -> Option<u32> {
    b"BEFKN".contains(&line[0]).then(|| TIME.at(line, 2).unwrap())
}

/// The records of an accepted file. "Record n is the nth B line's, its values after line and day those of the single fix reading".
fn records(file: &[u8], said: &Accepted) -> Vec<Record> {
    let mut records = Vec::new();
    let (mut day, mut before) = (0, 0);
    for ((_, text), number) in lines_of(file).zip(1..) {
        let Some(now) = time_of(text) else { continue };
        // "The day number rises at each fall over 43,200 along the time order".
        if now < before && before - now > HALF_DAY {
            day += 1;
        }
        before = now;
        if text[0] == b'B' {
            records.push(Record { line: number, day, fix: read_fix(text, &said.layouts.fixes).unwrap().said });
        }
    }
    records
}

/// The track of a file, by the usual check. "No table is lent".
pub fn track(file: &[u8]) -> Answer<Vec<Record>> {
    check_usual_alone(file).map(|said| records(file, &said))
}

/// The track put at the start of a list; the count. "Records beyond stay as lent. Refusals: the file's own, then 18 if the list is short, with no record changed."
pub fn track_into(file: &[u8], list: &mut [Record]) -> Answer<usize> {
    let track = track(file)?;
    let part = list.get_mut(..track.len()).ok_or(Refusal::of(NO_ROOM))?;
    part.copy_from_slice(&track);
    Ok(track.len())
}
