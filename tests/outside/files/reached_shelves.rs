//! What the calls on shelves of a run have reached: every refusal of each of the four, every way in which a shelf is spoiled, and every way in which a call can be good.

use super::shelf_calls::Call;
use super::shelves::{Entry, PLACES, TABLE, at, flights, free, runs};
use super::spoiled_shelves::{OVER, WAYS};
use crate::reading::refusals::{Answer, ENTRIES, ID, NO_RUN, NOT_FOUND, SHELF};
use crate::reading::{LIMIT, check_usual_alone};
use std::collections::BTreeMap;

/// The refusals of a file that adding can give: all but 15.
const OF_A_FILE: [u32; 19] = [1, 2, 3, 4, 5, 6, 7, 8, 9, 10, 11, 12, 13, 14, 16, 22, 23, 24, 25];

/// What a run must reach beside those and the ways of spoiling.
const WANTED: [&str; 81] = [
    "add: 27, and the file is refused too",
    "add: 27, and the number is 0",
    "add: the file's own, and the number is 0",
    "add: the file's own, and the number is in use",
    "add: the file's own, and no entry is free",
    "add: the file's own, and no run is long enough",
    "add: 28 for 0",
    "add: 28 for a number in use",
    "add: 28, and no entry is free",
    "add: 28, and no run is long enough",
    "add: 29, and a run is long enough",
    "add: 29, and no run is long enough",
    "add: 30 by one byte",
    "add: 30, and all runs together are long enough",
    "add: 30 on an empty shelf",
    "add: 30 on a shelf of 768 bytes",
    "add: 30 on a shelf without a free byte",
    "add: 30 for a file longer than the buffer",
    "add: onto an empty shelf",
    "add: into a run of just that length at the front",
    "add: into a run of just that length between two bodies",
    "add: into a run of just that length at the end",
    "add: into a longer run at the front",
    "add: into a longer run between two bodies",
    "add: into a longer run at the end",
    "add: behind a run that is one byte short",
    "add: before a run that is closer to its length",
    "add: before a run that is longer",
    "add: into the first entry, and others are taken",
    "add: into an entry before one that is taken",
    "add: into the entry behind the last one taken",
    "add: into the last entry",
    "add: the last entry that is free",
    "add: a shelf without a free byte afterwards",
    "add: a shelf over 768 bytes, filled by one file",
    "add: the number 2^32 - 1",
    "add: the number 1",
    "add: a number whose low byte is 0",
    "add: a number that is one held but for a byte",
    "add: a number that was removed",
    "add: a file that is signed",
    "add: a file that is not signed",
    "add: the bytes of another body",
    "add: the smallest file",
    "add: a start over 65,535",
    "add: a length over 65,535",
    "add: a shelf of 16,777,216 bytes",
    "add: beside a body that is no file",
    "ask: 31 for 0",
    "ask: 31 on an empty shelf",
    "ask: 31 for a number that was removed",
    "ask: 31 for one held but for a byte",
    "ask: 31 for 2^32 - 1",
    "ask: 2^32 - 1",
    "ask: the first entry",
    "ask: the last entry",
    "ask: a body at 768",
    "ask: a body that ends where the buffer ends",
    "ask: a body of one byte",
    "ask: a body that is no file",
    "remove: 31 for 0",
    "remove: 31 on an empty shelf",
    "remove: 31 for a number that was removed",
    "remove: 31 for one held but for a byte",
    "remove: 2^32 - 1",
    "remove: the only flight",
    "remove: the first entry, and others are taken",
    "remove: the last entry",
    "remove: one of 64",
    "remove: a body between two others without a gap",
    "pack: no flight",
    "pack: one flight",
    "pack: flights, and none moves",
    "pack: some stay, others move",
    "pack: all move",
    "pack: a body moves by fewer bytes than it has",
    "pack: a body moves by as many bytes as it has, or more",
    "pack: entries not in order of start",
    "pack: 64 flights",
    "pack: a shelf without a free byte",
    "pack: bytes of a body stand behind the last one now",
];

#[derive(Default)]
pub struct Reached {
    pub good: u64,
    pub refused: u64,
    branches: BTreeMap<String, u64>,
    own: BTreeMap<u32, u64>,
}

/// What stands before a call: the shelf's flights, its runs and its free entries.
struct Before<'a> {
    shelf: &'a [u8],
    gone: &'a [u32],
    flights: Vec<(usize, Entry)>,
    runs: Vec<(usize, usize)>,
    free: Vec<usize>,
}

impl Before<'_> {
    fn of<'a>(shelf: &'a [u8], gone: &'a [u32]) -> Before<'a> {
        Before { shelf, gone, flights: flights(shelf), runs: runs(shelf), free: free(shelf) }
    }

    fn holds(&self, number: u32) -> bool {
        self.flights.iter().any(|(_, entry)| entry.number == number)
    }

    /// Whether a number is one held with one byte changed.
    fn nearly_holds(&self, number: u32) -> bool {
        let one_byte = |changed: u32| changed > 0 && changed.to_le_bytes().iter().filter(|&&byte| byte > 0).count() == 1;
        !self.holds(number) && self.flights.iter().any(|(_, entry)| one_byte(entry.number ^ number))
    }

    fn longest(&self) -> usize {
        self.runs.iter().map(|run| run.1).max().unwrap()
    }

    fn free_bytes(&self) -> usize {
        self.runs.iter().map(|run| run.1).sum()
    }

    fn is_no_file(&self, entry: &Entry) -> bool {
        check_usual_alone(&self.shelf[entry.body()]).is_err()
    }
}

fn of_way(call: &Call, way: &str) -> String {
    format!("{}: 27 for {way}", call.name().trim_start_matches("hive_shelf_"))
}

impl Reached {
    /// Of these cases those that are so.
    fn add_those<const N: usize>(&mut self, cases: [(&'static str, bool); N]) {
        for (branch, _) in cases.into_iter().filter(|(_, so)| *so) {
            assert!(WANTED.contains(&branch), "{branch}");
            *self.branches.entry(branch.to_string()).or_default() += 1;
        }
    }

    /// All that a run must reach.
    fn wanted() -> Vec<String> {
        let calls = [Call::Add(0, Vec::new()), Call::Ask(0), Call::Remove(0), Call::Pack];
        let ways = WAYS.iter().map(|way| way.0).chain([OVER]);
        let spoiled = ways.flat_map(|way| calls.iter().map(move |call| of_way(call, way)));
        WANTED.iter().map(|branch| branch.to_string()).chain(spoiled).collect()
    }

    pub fn told(&self) -> String {
        let branches = WANTED.iter().map(|b| format!("{b}: {}", self.branches.get(*b).copied().unwrap_or(0)));
        let own = self.own.iter().map(|(number, count)| format!("add: the file's own {number}: {count}"));
        let spoiled: u64 = self.branches.iter().filter(|(b, _)| b.contains(": 27 for ")).map(|(_, count)| count).sum();
        branches.chain(own).chain([format!("27 in {} ways: {spoiled}", WAYS.len() + 1)]).collect::<Vec<_>>().join("; ")
    }

    /// What should have been reached and was not. Only shelves at the size limit have that size or one more, and only there a file is too long.
    pub fn never(&self, at_limit: bool) -> Vec<String> {
        let is_of_limit = |branch: &String| branch.ends_with(OVER) || branch.contains("16,777,216");
        let branches = Reached::wanted().into_iter().filter(|b| !self.branches.contains_key(b) && (at_limit || !is_of_limit(b)));
        let own = OF_A_FILE.iter().filter(|n| !self.own.contains_key(n) && (at_limit || **n != 2));
        branches.chain(own.map(|number| format!("add: the file's own {number}"))).collect()
    }

    /// A call on a shelf that was spoiled in this way.
    pub fn add_spoiled(&mut self, call: &Call, way: &str, answer: &Answer<[u64; 2]>) {
        if answer.is_err_and(|refused| refused.number == SHELF) {
            self.refused += 1;
            *self.branches.entry(of_way(call, way)).or_default() += 1;
            if let Call::Add(number, file) = call {
                self.add_those([
                    ("add: 27, and the file is refused too", check_usual_alone(file).is_err()),
                    ("add: 27, and the number is 0", *number == 0),
                ]);
            }
        }
    }

    /// A call on a sound shelf, from which these numbers were removed earlier, and the shelf behind it.
    pub fn add(&mut self, shelf: &[u8], gone: &[u32], call: &Call, answer: &Answer<[u64; 2]>, after: &[u8]) {
        let before = Before::of(shelf, gone);
        match answer {
            Ok(_) => self.good += 1,
            Err(_) => self.refused += 1,
        }
        match (call, answer) {
            (Call::Add(number, file), Ok([start, _])) => self.add_good(&before, *number, file, *start as usize, after),
            (Call::Add(number, file), Err(refused)) => self.add_refused(&before, *number, file.len(), refused.number),
            (Call::Ask(number), _) => self.add_ask(&before, *number),
            (Call::Remove(number), _) => self.add_remove(&before, *number),
            (Call::Pack, _) => self.add_pack(&before, after),
        }
    }

    fn add_refused(&mut self, before: &Before, number: u32, length: usize, refused: u32) {
        let (full, no_run) = (before.free.is_empty(), length > before.longest());
        if ![SHELF, ID, ENTRIES, NO_RUN, NOT_FOUND].contains(&refused) {
            *self.own.entry(refused).or_default() += 1;
            self.add_those([
                ("add: the file's own, and the number is 0", number == 0),
                ("add: the file's own, and the number is in use", before.holds(number)),
                ("add: the file's own, and no entry is free", full),
                ("add: the file's own, and no run is long enough", no_run),
            ]);
        }
        let (id, entries, run) = (refused == ID, refused == ENTRIES, refused == NO_RUN);
        self.add_those([
            ("add: 28 for 0", id && number == 0),
            ("add: 28 for a number in use", id && number > 0),
            ("add: 28, and no entry is free", id && full),
            ("add: 28, and no run is long enough", id && no_run),
            ("add: 29, and a run is long enough", entries && !no_run),
            ("add: 29, and no run is long enough", entries && no_run),
            ("add: 30 by one byte", run && length == before.longest() + 1),
            ("add: 30, and all runs together are long enough", run && length <= before.free_bytes()),
            ("add: 30 on an empty shelf", run && before.flights.is_empty()),
            ("add: 30 on a shelf of 768 bytes", run && before.shelf.len() == TABLE),
            ("add: 30 on a shelf without a free byte", run && before.free_bytes() == 0 && before.shelf.len() > TABLE),
            ("add: 30 for a file longer than the buffer", run && length > before.shelf.len()),
        ]);
    }

    fn add_good(&mut self, before: &Before, number: u32, file: &[u8], start: usize, after: &[u8]) {
        let (length, runs) = (file.len(), &before.runs);
        let n = runs.iter().position(|run| run.0 == start && run.1 > 0).unwrap();
        let (empty, front, end) = (before.flights.is_empty(), n == 0, n == runs.len() - 1);
        let (just, between) = (runs[n].1 == length, !front && !end);
        let last_taken = before.flights.iter().map(|(place, _)| *place).max();
        let place = before.free[0];
        self.add_those([
            ("add: onto an empty shelf", empty),
            ("add: into a run of just that length at the front", !empty && just && front),
            ("add: into a run of just that length between two bodies", just && between),
            ("add: into a run of just that length at the end", !empty && just && end),
            ("add: into a longer run at the front", !empty && !just && front),
            ("add: into a longer run between two bodies", !just && between),
            ("add: into a longer run at the end", !empty && !just && end),
            ("add: behind a run that is one byte short", runs[..n].iter().any(|run| run.1 + 1 == length)),
            ("add: before a run that is closer to its length", runs[n + 1..].iter().any(|run| length <= run.1 && run.1 < runs[n].1)),
            ("add: before a run that is longer", runs[n + 1..].iter().any(|run| run.1 > runs[n].1)),
            ("add: into the first entry, and others are taken", place == 0 && !empty),
            ("add: into an entry before one that is taken", last_taken.is_some_and(|last| place < last)),
            ("add: into the entry behind the last one taken", last_taken.is_some_and(|last| place == last + 1)),
            ("add: into the last entry", place == PLACES - 1),
            ("add: the last entry that is free", before.free.len() == 1),
            ("add: a shelf without a free byte afterwards", before.free_bytes() == length),
            ("add: a shelf over 768 bytes, filled by one file", empty && just),
        ]);
        let same = before.flights.iter().any(|(_, entry)| before.shelf[entry.body()] == *file);
        let signed = check_usual_alone(file).unwrap().signed;
        self.add_those([
            ("add: the number 2^32 - 1", number == u32::MAX),
            ("add: the number 1", number == 1),
            ("add: a number whose low byte is 0", number % 256 == 0),
            ("add: a number that is one held but for a byte", before.nearly_holds(number)),
            ("add: a number that was removed", before.gone.contains(&number)),
            ("add: a file that is signed", signed),
            ("add: a file that is not signed", !signed),
            ("add: the bytes of another body", same),
            ("add: the smallest file", length == 22),
            ("add: a start over 65,535", start > 65_535),
            ("add: a length over 65,535", length > 65_535),
            ("add: a shelf of 16,777,216 bytes", after.len() == LIMIT),
            ("add: beside a body that is no file", before.flights.iter().any(|(_, entry)| entry.length < 22)),
        ]);
    }

    fn add_ask(&mut self, before: &Before, number: u32) {
        let Some((place, entry)) = before.flights.iter().find(|(_, entry)| entry.number == number) else {
            self.add_those([
                ("ask: 31 for 0", number == 0),
                ("ask: 31 on an empty shelf", before.flights.is_empty() && number > 0),
                ("ask: 31 for a number that was removed", before.gone.contains(&number)),
                ("ask: 31 for one held but for a byte", number > 0 && before.nearly_holds(number)),
                ("ask: 31 for 2^32 - 1", number == u32::MAX),
            ]);
            return;
        };
        self.add_those([
            ("ask: 2^32 - 1", number == u32::MAX),
            ("ask: the first entry", *place == 0),
            ("ask: the last entry", *place == PLACES - 1),
            ("ask: a body at 768", entry.start as usize == TABLE),
            ("ask: a body that ends where the buffer ends", entry.end() == before.shelf.len()),
            ("ask: a body of one byte", entry.length == 1),
            ("ask: a body that is no file", before.is_no_file(entry)),
        ]);
    }

    fn add_remove(&mut self, before: &Before, number: u32) {
        let Some(n) = before.flights.iter().position(|(_, entry)| entry.number == number) else {
            self.add_those([
                ("remove: 31 for 0", number == 0),
                ("remove: 31 on an empty shelf", before.flights.is_empty() && number > 0),
                ("remove: 31 for a number that was removed", before.gone.contains(&number)),
                ("remove: 31 for one held but for a byte", number > 0 && before.nearly_holds(number)),
            ]);
            return;
        };
        let (place, count) = (before.flights[n].0, before.flights.len());
        let touched = before.runs[n].1 == 0 && before.runs[n + 1].1 == 0;
        self.add_those([
            ("remove: 2^32 - 1", number == u32::MAX),
            ("remove: the only flight", count == 1),
            ("remove: the first entry, and others are taken", place == 0 && count > 1),
            ("remove: the last entry", place == PLACES - 1),
            ("remove: one of 64", count == PLACES),
            ("remove: a body between two others without a gap", touched && n > 0 && n < count - 1),
        ]);
    }

    fn add_pack(&mut self, before: &Before, after: &[u8]) {
        let moves = |(place, entry): &(usize, Entry)| entry.start - at(after, *place).start;
        let moved: Vec<(u32, u32)> = before.flights.iter().map(|flight| (moves(flight), flight.1.length)).collect();
        let (count, still) = (moved.len(), moved.iter().filter(|(by, _)| *by == 0).count());
        let end = flights(after).iter().map(|(_, entry)| entry.end()).max().unwrap_or(TABLE);
        self.add_those([
            ("pack: no flight", count == 0),
            ("pack: one flight", count == 1),
            ("pack: flights, and none moves", count > 1 && still == count),
            ("pack: some stay, others move", 0 < still && still < count),
            ("pack: all move", count > 1 && still == 0),
            ("pack: a body moves by fewer bytes than it has", moved.iter().any(|(by, length)| 0 < *by && by < length)),
            ("pack: a body moves by as many bytes as it has, or more", moved.iter().any(|(by, length)| by >= length)),
            ("pack: entries not in order of start", before.flights.windows(2).any(|two| two[0].0 > two[1].0)),
            ("pack: 64 flights", count == PLACES && still < count),
            ("pack: a shelf without a free byte", count > 1 && before.free_bytes() == 0),
            ("pack: bytes of a body stand behind the last one now", before.flights.iter().any(|(_, entry)| entry.end() > end)),
        ]);
    }
}
