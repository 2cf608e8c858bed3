//! The branches of the rules on layouts, and on the lines that have their columns, as short words: which of them a file reaches, and which a run must reach.

use crate::reading::fields::LEAP;
use crate::reading::file::HALF_DAY;
use crate::reading::layouts::FAMILIES;
use crate::reading::{Accepted, Answer, Refusal};

/// The kinds that tell a layout, those that have its columns, and those that have a time.
const TELLING: &[u8] = b"IJM";
const COLUMNED: &[u8] = b"BKN";
const TIMED: &[u8] = b"BEFKN";

/// The refusals of a line that tells a layout, and of one that has columns.
const OF_TELLING: [u32; 8] = [6, 7, 8, 9, 10, 11, 12, 15];
const OF_COLUMNED: [u32; 7] = [6, 7, 8, 13, 14, 15, 22];

/// Two kinds of which the second may not come straight after the first: layouts out of their order or twice, in the body, in place of line 2, after a G line.
const ORDERS: [&str; 27] = [
    "IH", "JH", "MH", "II", "JI", "MI", "JJ", "MJ", "MM", "BI", "BJ", "BM", "KM", "NM", "NJ", "NI", "NH", "LM", "OM", "AM", "AN", "GB",
    "GK", "GN", "GI", "GJ", "GM",
];

/// Two kinds of which the second, a layout line, may come straight after the first.
const PLACES: [&str; 6] = ["HI", "HJ", "HM", "IJ", "IM", "JM"];

fn at(number: u32, kind: u8) -> String {
    format!("{number} at {}", char::from(kind))
}

fn refused_after(number: u32, before: u8, kind: u8) -> String {
    format!("{number} at {} after {}", char::from(kind), char::from(before))
}

fn accepted_after(before: u8, kind: u8) -> String {
    format!("{} after {}", char::from(kind), char::from(before))
}

fn next_day(before: u8, kind: u8) -> String {
    format!("{} on the day after {}", char::from(kind), char::from(before))
}

fn leap(kind: u8) -> String {
    format!("the leap second in {}", char::from(kind))
}

/// What comes after a line at the leap second: the next day, or a fall that is refused, also one of exactly half a day.
const AFTER_LEAP: [&str; 3] = ["the next day after the leap second", "14 after the leap second", "14 half a day before the leap second"];

fn by(kind: u8, how: &str) -> String {
    format!("{} by {how}", char::from(kind))
}

/// What a layout of a file is to the lines that have its columns.
const HOWS: [&str; 4] = ["no layout line", "an empty layout", "a layout", "another layout than the other line with columns from 8"];

/// Every branch that a run must reach.
pub fn wanted() -> Vec<String> {
    let pair = |pair: &str| (pair.as_bytes()[0], pair.as_bytes()[1]);
    let telling = TELLING.iter().flat_map(|&kind| OF_TELLING.map(|number| at(number, kind)));
    let columned = COLUMNED.iter().flat_map(|&kind| OF_COLUMNED.map(|number| at(number, kind)));
    let orders = ORDERS.iter().map(|p| refused_after(6, pair(p).0, pair(p).1));
    let places = PLACES.iter().map(|p| accepted_after(pair(p).0, pair(p).1));
    let two_times = TIMED.iter().flat_map(|&before| TIMED.iter().map(move |&kind| (before, kind)));
    let times = two_times.flat_map(|(before, kind)| [refused_after(14, before, kind), next_day(before, kind)]);
    let layouts = COLUMNED.iter().flat_map(|&kind| HOWS[..3].iter().map(move |how| by(kind, how)));
    let apart = b"KN".iter().map(|&kind| by(kind, HOWS[3]));
    let leaps = TIMED.iter().chain(b"C").map(|&kind| leap(kind)).chain(AFTER_LEAP.map(str::to_string));
    telling.chain(columned).chain(orders).chain(places).chain(times).chain(layouts).chain(apart).chain(leaps).collect()
}

/// The branches that a file reaches, some of them perhaps more than once.
pub fn branches(file: &[u8], answer: &Answer<Accepted>) -> Vec<String> {
    let lines: Vec<&[u8]> = file.split(|&c| c == b'\n').collect();
    match answer {
        Ok(said) => of_accepted(&lines[..said.lines as usize], said),
        Err(refused) => of_refused(&lines, refused),
    }
}

/// The lines before the faulty one are good, so that each ends with its first LF and has a first byte.
fn of_refused(lines: &[&[u8]], refused: &Refusal) -> Vec<String> {
    // 16 has no line.
    if refused.line == 0 || refused.number == 16 {
        return Vec::new();
    }
    let (before, rest) = lines.split_at(refused.line as usize - 1);
    let Some(kind) = rest[0].first().map(one_other) else { return Vec::new() };
    let mut reached = vec![at(refused.number, kind)];
    let one_before = match refused.number {
        6 => before.last(),
        14 => before.iter().rev().find(|l| TIMED.contains(&l[0])),
        _ => None,
    };
    reached.extend(one_before.map(|l| refused_after(refused.number, one_other(&l[0]), kind)));
    if refused.number == 14 && one_before.is_some_and(|l| clock(&l[1..7]) == LEAP) {
        let half_a_day = clock(&rest[0][1..7]) == LEAP - HALF_DAY;
        reached.push(AFTER_LEAP[if half_a_day { 2 } else { 1 }].to_string());
    }
    reached
}

/// A kind, O for every other.
fn one_other(kind: &u8) -> u8 {
    if (b'O'..=b'Z').contains(kind) { b'O' } else { *kind }
}

fn of_accepted(lines: &[&[u8]], said: &Accepted) -> Vec<String> {
    let pairs = lines.windows(2).map(|two| (two[0][0], two[1][0]));
    let mut reached: Vec<String> =
        pairs.filter(|(_, kind)| TELLING.contains(kind)).map(|(before, kind)| accepted_after(before, kind)).collect();
    let timed: Vec<(u8, u32)> = lines.iter().filter(|l| TIMED.contains(&l[0])).map(|l| (l[0], clock(&l[1..7]))).collect();
    for two in timed.windows(2).filter(|two| two[1].1 + HALF_DAY < two[0].1) {
        reached.push(next_day(two[0].0, two[1].0));
        if two[0].1 == LEAP {
            reached.push(AFTER_LEAP[0].to_string());
        }
    }
    reached.extend(timed.iter().filter(|(_, time)| *time == LEAP).map(|(kind, _)| leap(*kind)));
    // A head is the first of its C lines.
    let head = lines.iter().find(|l| l[0] == b'C');
    reached.extend(head.filter(|l| l[7..13] == *b"235960").map(|_| leap(b'C')));
    for family in FAMILIES {
        if !lines.iter().any(|l| l[0] == family.kind()) {
            continue;
        }
        let told = lines.iter().any(|l| l[0] == family.layout_kind());
        let layout = said.layouts.of(family);
        reached.push(by(
            family.kind(),
            if !told {
                HOWS[0]
            } else if layout.entries.is_empty() {
                HOWS[1]
            } else {
                HOWS[2]
            },
        ));
        let other = if family.kind() == b'K' { b'N' } else { b'K' };
        if family.kind() != b'B' && lines.iter().any(|l| l[0] == other) && said.layouts.extras != said.layouts.unsigned {
            reached.push(by(family.kind(), HOWS[3]));
        }
    }
    reached
}

/// HHMMSS in seconds.
fn clock(text: &[u8]) -> u32 {
    let two = |at: usize| u32::from(text[at] - b'0') * 10 + u32::from(text[at + 1] - b'0');
    two(0) * 3600 + two(2) * 60 + two(4)
}
