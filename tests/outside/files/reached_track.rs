//! What the tracks of a run have reached, and how long the lists are that are lent for them.

use super::random::Random;
use crate::reading::fields::LEAP;
use crate::reading::file::HALF_DAY;
use crate::reading::refusals::BACK;
use crate::reading::{Answer, Record, Refusal};
use std::collections::BTreeMap;

/// What a run must reach: refusals, lists too short and long enough, and midnights by the line that shows them.
const WANTED: [&str; 19] = [
    "refused, and a list",
    "refused, and no list",
    "refused for a fall of exactly half a day",
    "no fixes, and no list",
    "no fixes, and a list",
    "fixes, and no list",
    "a list short by one",
    "a list just long enough",
    "a longer list",
    "a midnight between two fixes with nothing timed between",
    "a midnight before the first fix",
    "a midnight that only an E line shows",
    "a midnight that only an F line shows",
    "a midnight that only a K line shows",
    "a midnight that only an N line shows",
    "two midnights between two fixes",
    "fixes on three days",
    "a fix at the leap second",
    "a fix on the day after one at the leap second",
];

/// The lengths of the lists to lend for a track: none, one short, just enough, and more.
pub fn rooms(random: &mut Random, answer: &Answer<Vec<Record>>) -> Vec<usize> {
    let count = answer.as_ref().map_or(random.below(4), Vec::len);
    let mut rooms = vec![0, count.saturating_sub(1), count, count + random.within(1, 4)];
    rooms.dedup();
    rooms
}

#[derive(Default)]
pub struct Reached {
    branches: BTreeMap<&'static str, u64>,
}

impl Reached {
    /// What a file's track reaches with a list of so many records.
    pub fn add(&mut self, file: &[u8], answer: &Answer<Vec<Record>>, room: usize) {
        let reached = match answer {
            Ok(track) => [of_list(track.len(), room), of_days(file, track)].concat(),
            Err(refused) => of_refused(file, refused, room),
        };
        for branch in reached {
            *self.branches.entry(branch).or_default() += 1;
        }
    }

    pub fn told(&self) -> String {
        let each: Vec<String> = WANTED.iter().map(|b| format!("{b}: {}", self.branches.get(b).copied().unwrap_or(0))).collect();
        each.join(", ")
    }

    /// What should have been reached and was not.
    pub fn never(&self) -> Vec<&'static str> {
        WANTED.into_iter().filter(|b| !self.branches.contains_key(b)).collect()
    }
}

/// Of these cases those that are so.
fn those<const N: usize>(cases: [(&'static str, bool); N]) -> Vec<&'static str> {
    cases.into_iter().filter(|(_, reached)| *reached).map(|(branch, _)| branch).collect()
}

/// The seconds of the HHMMSS of a good line that has a time.
fn clock(line: &[u8]) -> u32 {
    line[1..7].chunks(2).fold(0, |n, d| n * 60 + u32::from(d[0] - b'0') * 10 + u32::from(d[1] - b'0'))
}

/// The lines of the time order among the first so many of a file: number, kind and seconds.
fn timed(file: &[u8], lines: u64) -> Vec<(u64, u8, u32)> {
    let all = (1..=lines).zip(file.split(|&c| c == b'\n'));
    all.filter(|(_, line)| b"BEFKN".contains(&line[0])).map(|(number, line)| (number, line[0], clock(line))).collect()
}

fn of_refused(file: &[u8], refused: &Refusal, room: usize) -> Vec<&'static str> {
    let half_a_day =
        refused.number == BACK && matches!(timed(file, refused.line)[..], [.., (_, _, before), (_, _, now)] if before - now == HALF_DAY);
    those([
        ("refused, and a list", room > 0),
        ("refused, and no list", room == 0),
        ("refused for a fall of exactly half a day", half_a_day),
    ])
}

fn of_list(count: usize, room: usize) -> Vec<&'static str> {
    those([
        ("no fixes, and no list", count == 0 && room == 0),
        ("no fixes, and a list", count == 0 && room > 0),
        ("fixes, and no list", count > 0 && room == 0),
        ("a list short by one", count > 1 && room == count - 1),
        ("a list just long enough", count > 0 && room == count),
        ("a longer list", count > 0 && room > count),
    ])
}

/// The seconds of a fix, without the digits of a TDS column.
fn seconds(r: &Record) -> u32 {
    r.fix.time.plain() as u32
}

/// What the days of a track reach: between two fixes that are neighbours, and before the first.
fn of_days(file: &[u8], track: &[Record]) -> Vec<&'static str> {
    let Some(last) = track.last() else { return Vec::new() };
    let timed = timed(file, last.line);
    let mut reached = those([
        ("a midnight before the first fix", track[0].day > 0),
        ("fixes on three days", track.windows(3).any(|three| three[0].day < three[1].day && three[1].day < three[2].day)),
        ("a fix at the leap second", track.iter().any(|r| seconds(r) == LEAP)),
    ]);
    for two in track.windows(2) {
        let between: Vec<u8> =
            timed.iter().filter(|(number, ..)| two[0].line < *number && *number < two[1].line).map(|(_, kind, _)| *kind).collect();
        let (days, falls) = (two[1].day - two[0].day, seconds(&two[1]) < seconds(&two[0]));
        let only = |kind: u8| days == 1 && !falls && between == [kind];
        reached.extend(those([
            ("a midnight between two fixes with nothing timed between", days == 1 && between.is_empty()),
            ("a midnight that only an E line shows", only(b'E')),
            ("a midnight that only an F line shows", only(b'F')),
            ("a midnight that only a K line shows", only(b'K')),
            ("a midnight that only an N line shows", only(b'N')),
            ("two midnights between two fixes", days == 2),
            ("a fix on the day after one at the leap second", days == 1 && seconds(&two[0]) == LEAP),
        ]));
    }
    reached
}
