//! What the summaries of a run have reached: refusals, lists and old numbers; fixes whose numbers are told by one of them alone; and files that B lines were put into.

use super::flights::Grown;
use crate::reading::fields::LEAP;
use crate::reading::refusals::{BAD_VALUE, NO_ROOM};
use crate::reading::summary::{NUMBERS, RUN};
use crate::reading::{Answer, Record};
use std::collections::BTreeMap;

/// What a run must reach.
const WANTED: [&str; 56] = [
    "the file's own refusal, and a list",
    "the file's own refusal, and no list",
    "the file's own refusal, and an old number over any",
    "17 for one fix too many",
    "17 for a number of over a file's bytes",
    "17, and the list is short too",
    "18 for one number short",
    "18 for no list",
    "18, and the whole alone would have room",
    "a list just long enough",
    "a longer list",
    "no fixes",
    "1 fix",
    "255 fixes",
    "256 fixes",
    "257 fixes",
    "511 fixes",
    "512 fixes",
    "513 fixes",
    "over 768 fixes",
    "afresh",
    "an old number inside the first run",
    "an old number of 255, and more fixes",
    "an old number of 256, and more fixes",
    "an old number of 257, and more fixes",
    "an old number inside a later run, and runs behind it",
    "the old number is all, and the last run is full",
    "the old number is all, and the last run is not full",
    "no fix marked A",
    "a run without A in a flight that has some",
    "no fix marked V",
    "the highest altitude is of a fix marked V alone",
    "the lowest altitude is of a fix marked V alone",
    "the least latitude of all is of a fix marked V alone",
    "the greatest latitude of all is of a fix marked V alone",
    "the least longitude of all is of a fix marked V alone",
    "the greatest longitude of all is of a fix marked V alone",
    "all altitudes below zero",
    "all altitudes above zero",
    "all latitudes north",
    "all latitudes south",
    "all longitudes east",
    "all longitudes west",
    "the first fix of a run is on a later day than 0",
    "the last fix of a run is on a later day than its first",
    "the last seconds are fewer than the first",
    "the first or the last is at the leap second",
    "the first or the last has TDS, a corner LAD or LOD",
    "nothing put in",
    "put in before a line without a time",
    "put in between two such lines",
    "put in behind the last line, not signed",
    "put in just before G",
    "put in from no fixes",
    "put in behind a full run",
    "put in, within the last run and in new ones",
];

#[derive(Default)]
pub struct Reached {
    branches: BTreeMap<&'static str, u64>,
}

/// South and west are below zero.
fn signed(count: u64, letter: u8) -> i64 {
    if b"SW".contains(&letter) { -(count as i64) } else { count as i64 }
}

impl Reached {
    /// Of these cases those that are so.
    fn add_those<const N: usize>(&mut self, cases: [(&'static str, bool); N]) {
        for (branch, _) in cases.into_iter().filter(|(_, so)| *so) {
            assert!(WANTED.contains(&branch), "{branch}");
            *self.branches.entry(branch).or_default() += 1;
        }
    }

    pub fn told(&self) -> String {
        let each: Vec<String> = WANTED.iter().map(|b| format!("{b}: {}", self.branches.get(b).copied().unwrap_or(0))).collect();
        each.join("; ")
    }

    /// What should have been reached and was not.
    pub fn never(&self) -> Vec<&'static str> {
        WANTED.into_iter().filter(|b| !self.branches.contains_key(b)).collect()
    }

    /// A file's track, the old number and the length of the list that were lent with it, and the answer.
    pub fn add(&mut self, track: &Answer<Vec<Record>>, old: u32, room: usize, answer: &Answer<usize>) {
        let old = old as usize;
        let Ok(track) = track else {
            self.add_those([
                ("the file's own refusal, and a list", room > 0),
                ("the file's own refusal, and no list", room == 0),
                ("the file's own refusal, and an old number over any", old > 1 << 24),
            ]);
            return;
        };
        let (count, needed) = (track.len(), NUMBERS * (1 + track.len().div_ceil(RUN)));
        let number = answer.as_ref().err().map_or(0, |r| r.number);
        self.add_those([
            ("17 for one fix too many", number == BAD_VALUE && old == count + 1),
            ("17 for a number of over a file's bytes", number == BAD_VALUE && old > 1 << 24),
            ("17, and the list is short too", number == BAD_VALUE && room < needed),
            ("18 for one number short", number == NO_ROOM && room + 1 == needed),
            ("18 for no list", number == NO_ROOM && room == 0),
            ("18, and the whole alone would have room", number == NO_ROOM && room >= NUMBERS),
        ]);
        if answer.is_ok() {
            self.add_good(track, old, room, needed);
        }
    }

    fn add_good(&mut self, track: &[Record], old: usize, room: usize, needed: usize) {
        let count = track.len();
        self.add_those([
            ("a list just long enough", room == needed),
            ("a longer list", room > needed),
            ("no fixes", count == 0),
            ("1 fix", count == 1),
            ("255 fixes", count == RUN - 1),
            ("256 fixes", count == RUN),
            ("257 fixes", count == RUN + 1),
            ("511 fixes", count == 2 * RUN - 1),
            ("512 fixes", count == 2 * RUN),
            ("513 fixes", count == 2 * RUN + 1),
            ("over 768 fixes", count > 3 * RUN),
            ("afresh", old == 0 && count > 0),
            ("an old number inside the first run", 0 < old && old < RUN && old < count),
            ("an old number of 255, and more fixes", old == RUN - 1 && old < count),
            ("an old number of 256, and more fixes", old == RUN && old < count),
            ("an old number of 257, and more fixes", old == RUN + 1 && old < count),
            ("an old number inside a later run, and runs behind it", old > RUN && old % RUN > 0 && count > old.next_multiple_of(RUN)),
            ("the old number is all, and the last run is full", 0 < old && old == count && old % RUN == 0),
            ("the old number is all, and the last run is not full", old == count && old % RUN > 0),
        ]);
        for run in track.chunks(RUN) {
            self.add_run(run, track);
        }
    }

    fn add_run(&mut self, run: &[Record], track: &[Record]) {
        let is_a = |r: &&Record| r.fix.validity == b'A';
        let (first, last) = (&run[0], &run[run.len() - 1]);
        // Whether the greatest of some number of all fixes is of one marked V, and no fix marked A has it.
        let of_v = |number: &dyn Fn(&Record) -> i64| {
            let most = |marked: u8| run.iter().filter(|r| r.fix.validity == marked).map(number).max();
            most(b'A').is_some() && most(b'V') > most(b'A')
        };
        let latitude = |r: &Record| signed(r.fix.latitude.count.plain(), r.fix.latitude.letter);
        let longitude = |r: &Record| signed(r.fix.longitude.count.plain(), r.fix.longitude.letter);
        let corner = |number: &dyn Fn(&Record) -> i64, finer: &dyn Fn(&Record) -> u8| {
            let end = run.iter().filter(is_a).max_by_key(|r| number(r));
            end.is_some_and(|r| finer(r) > 0)
        };
        let time = |r: &Record| r.fix.time.plain();
        let all = |is: &dyn Fn(&Record) -> bool| run.iter().any(|r| is_a(&r)) && run.iter().filter(is_a).all(is);
        self.add_those([
            ("no fix marked A", !track.iter().any(|r| is_a(&r))),
            ("a run without A in a flight that has some", !run.iter().any(|r| is_a(&r)) && track.iter().any(|r| is_a(&r))),
            ("no fix marked V", run.iter().all(|r| is_a(&r))),
            ("the highest altitude is of a fix marked V alone", of_v(&|r| r.fix.pressure.into())),
            ("the lowest altitude is of a fix marked V alone", of_v(&|r| -i64::from(r.fix.pressure))),
            ("the least latitude of all is of a fix marked V alone", of_v(&|r| -latitude(r))),
            ("the greatest latitude of all is of a fix marked V alone", of_v(&latitude)),
            ("the least longitude of all is of a fix marked V alone", of_v(&|r| -longitude(r))),
            ("the greatest longitude of all is of a fix marked V alone", of_v(&longitude)),
            ("all altitudes below zero", run.iter().all(|r| r.fix.pressure < 0)),
            ("all altitudes above zero", run.iter().all(|r| r.fix.pressure > 0)),
            ("all latitudes north", all(&|r| latitude(r) > 0)),
            ("all latitudes south", all(&|r| latitude(r) < 0)),
            ("all longitudes east", all(&|r| longitude(r) > 0)),
            ("all longitudes west", all(&|r| longitude(r) < 0)),
            ("the first fix of a run is on a later day than 0", first.day > 0),
            ("the last fix of a run is on a later day than its first", last.day > first.day),
            ("the last seconds are fewer than the first", time(last) < time(first)),
            ("the first or the last is at the leap second", [first, last].iter().any(|r| time(r) == LEAP.into())),
            (
                "the first or the last has TDS, a corner LAD or LOD",
                first.fix.time.decimals > 0
                    || last.fix.time.decimals > 0
                    || corner(&latitude, &|r| r.fix.latitude.count.decimals)
                    || corner(&longitude, &|r| r.fix.longitude.count.decimals),
            ),
        ]);
    }

    /// A file that B lines were put into, and how many fixes it had before.
    pub fn add_grown(&mut self, grown: &Grown, before: usize) {
        let (put, now) = (&grown.put, before + grown.put.len());
        let plain = |kind: u8| b"DL".contains(&kind) || kind > b'N';
        self.add_those([
            ("nothing put in", put.is_empty()),
            ("put in before a line without a time", put.iter().any(|(_, next)| next.is_some_and(plain))),
            ("put in between two such lines", put.iter().any(|(last, next)| plain(*last) && next.is_some_and(plain))),
            ("put in behind the last line, not signed", put.iter().any(|(_, next)| next.is_none())),
            ("put in just before G", put.iter().any(|(_, next)| *next == Some(b'G'))),
            ("put in from no fixes", before == 0 && now > 0),
            ("put in behind a full run", before > 0 && before % RUN == 0 && now > before),
            ("put in, within the last run and in new ones", before % RUN > 0 && now > before.next_multiple_of(RUN)),
        ]);
    }
}
