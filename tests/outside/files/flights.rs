//! Flights to be summed up: files with many fixes, an older file and the newer one that B lines were put into, and what is lent with them: an old number of fixes, and a list.

use super::generate::{self, Line, Maker, Sample};
use super::random::Random;
use crate::reading::Role;
use crate::reading::summary::{NUMBERS, RUN};

/// How many fixes: none, few, and around one, two and three runs.
fn count(random: &mut Random) -> usize {
    match random.below(12) {
        0 => 0,
        1 => 1,
        2 => RUN - 1,
        3 | 4 => RUN,
        5 => RUN + 1,
        6 => 2 * RUN - 1,
        7 => 2 * RUN,
        8 => 2 * RUN + 1,
        9 => random.within(2 * RUN + 2, 4 * RUN),
        _ => random.within(2, 3 * RUN),
    }
}

/// How the fixes of a flight are, so that each number of a summary is at times told by one fix alone, and at times has nothing to tell.
#[derive(Clone, Copy)]
struct Manner {
    /// V in so many of four; all V in the fixes of one run.
    v_of_four: usize,
    v_run: Option<usize>,
    /// Pressure altitudes: any, below zero, above zero.
    heights: Heights,
    /// Letters: either, or one alone.
    letters: Option<[u8; 2]>,
}

#[derive(Clone, Copy)]
enum Heights {
    Any,
    Below,
    Above,
}

fn manner(random: &mut Random) -> Manner {
    Manner {
        v_of_four: *random.pick(&[0, 1, 1, 2, 3, 4]),
        v_run: random.once_in(3).then(|| random.below(3)),
        heights: *random.pick(&[Heights::Any, Heights::Any, Heights::Below, Heights::Above]),
        letters: *random.pick(&[None, None, Some(*b"NE"), Some(*b"SW"), Some(*b"NW")]),
    }
}

/// The nth fix of a flight put into its manner.
fn dress(random: &mut Random, line: &mut [u8], n: usize, how: Manner) {
    line[24] = if random.below(4) < how.v_of_four || how.v_run == Some(n / RUN) { b'V' } else { b'A' };
    let metres = random.within(1, 9_999);
    match how.heights {
        Heights::Any => {}
        Heights::Below => line[25..30].copy_from_slice(format!("-{metres:04}").as_bytes()),
        Heights::Above => line[25..30].copy_from_slice(format!("{metres:05}").as_bytes()),
    }
    if let Some([latitude, longitude]) = how.letters {
        (line[14], line[23]) = (latitude, longitude);
    }
}

/// A valid file with many fixes, put one after the other with other lines between them, and with lines without a time behind them.
fn flight(random: &mut Random) -> Sample {
    let (fixes, how) = (count(random), manner(random));
    let (gaps, body) = (*random.pick(&[0, 0, 20, 4]), random.below(6));
    let mut sample = generate::sample(random, body);
    let begun = sample.count(Role::Fix) as usize;
    let end = sample.first(Role::Seal).unwrap_or(sample.lines.len());
    let behind = sample.lines.split_off(end);
    let mut maker = Maker::go_on(random, sample);
    for _ in begun..fixes {
        if gaps > 0 && maker.random.once_in(gaps) {
            let role = *maker.random.pick(&[Role::Extra, Role::Event, Role::Remark, Role::Differential, Role::Other]);
            maker.push(role);
        }
        maker.push(Role::Fix);
    }
    // Lines without a time behind the last fix.
    for _ in 0..maker.random.below(4) {
        let role = *maker.random.pick(&[Role::Remark, Role::Differential, Role::Other]);
        maker.push(role);
    }
    let mut sample = maker.sample;
    let all = sample.lines.iter_mut().filter(|l| l.role == Role::Fix);
    all.enumerate().for_each(|(n, line)| dress(random, &mut line.text, n, how));
    sample.lines.extend(behind);
    sample
}

/// A file to be summed up, the number of fixes that is told as old, and the numbers that a list holds before.
pub struct Flight {
    pub file: Vec<u8>,
    pub old: u32,
    pub list: Vec<i32>,
}

/// A flight with any old number and any list: too short, just long enough and longer. Now and then its last byte is missing, so that it is refused.
pub fn any(random: &mut Random) -> Flight {
    let sample = flight(random);
    let fixes = sample.count(Role::Fix) as usize;
    let old = old(random, fixes);
    let needed = NUMBERS * (1 + fixes.div_ceil(RUN));
    let length = match random.below(8) {
        0 => needed - 1,
        1 => *random.pick(&[0, 1, NUMBERS - 1, NUMBERS, needed - NUMBERS]),
        2 => random.below(needed),
        3 | 4 => needed,
        _ => needed + random.within(1, 30),
    };
    let mut file = sample.bytes();
    if random.once_in(6) {
        file.pop();
    }
    Flight { file, old, list: (0..length).map(lent).collect() }
}

/// An old number: none, all, some, the ends of runs and their neighbours; and numbers over the count.
fn old(random: &mut Random, fixes: usize) -> u32 {
    let near = (random.below(5) * RUN + random.below(3)).saturating_sub(1);
    let old = match random.below(10) {
        0..=2 => 0,
        3 => fixes,
        4 => fixes + 1,
        5 => return *random.pick(&[u32::MAX, 1 << 31, u32::MAX - 255, 1 << 24]),
        6 => random.below(fixes + 1),
        _ => near.min(fixes),
    };
    old as u32
}

/// What a list holds at a place before a call: a number that no summary has, another at each place.
pub fn lent(n: usize) -> i32 {
    -1_000_000_000 - n as i32
}

/// An older file and the newer one: B lines have since been put into it, behind its last timed line. For each of them the kinds of the older lines before and behind it.
pub struct Grown {
    pub older: Vec<u8>,
    pub newer: Vec<u8>,
    pub put: Vec<(u8, Option<u8>)>,
}

/// B lines put in anywhere behind the last timed line: before, between and behind the other lines there. A declaration is begun before the first B, so that none is put in before one.
pub fn grown(random: &mut Random) -> Grown {
    let older = flight(random);
    let is_behind = |l: &Line| {
        l.role.is_timed() || matches!(l.role, Role::Recorder | Role::Day | Role::Header | Role::Layout(_) | Role::Head | Role::Point)
    };
    let from = older.lines.iter().rposition(is_behind).unwrap() + 1;
    let to = older.first(Role::Seal).unwrap_or(older.lines.len());
    let count = if random.once_in(3) { random.within(1, 2 * RUN) } else { random.within(0, 12) };
    let fixes = {
        let mut maker = Maker::go_on(random, older.clone());
        (0..count).for_each(|_| maker.push(Role::Fix));
        maker.sample.lines.split_off(older.lines.len())
    };
    // The place of each, in the order of their times.
    let mut places: Vec<usize> = fixes.iter().map(|_| random.within(from, to)).collect();
    places.sort();
    let kind = |n: usize| older.lines.get(n).map(|l| l.text[0]);
    let put = places.iter().map(|&place| (kind(place - 1).unwrap(), kind(place))).collect();
    let mut newer = older.clone();
    for (n, (place, fix)) in places.into_iter().zip(fixes).enumerate() {
        newer.lines.insert(place + n, fix);
    }
    Grown { older: older.bytes(), newer: newer.bytes(), put }
}
