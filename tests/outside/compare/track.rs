//! A file's track held: every record of the library is the reading's, and those past the count, and all of a refused call, are as lent.

use crate::hold::{Held, Tally, fix_values};
use crate::library::{self, ANSWER, Record, Told};
use outside::files::random::Random;
use outside::files::reached_track::{Reached, rooms};
use outside::reading::{self, Answer, Finer, Fix, Position, track, track_into};

/// A record of the reading as the library stores it.
fn stored(r: &reading::Record) -> Record {
    Record { line: r.line as u32, day: r.day as u32, fix: fix_values(&r.fix) }
}

/// What a list holds at a place before a call: no record of a file, and at each place another.
fn lent(n: usize) -> reading::Record {
    let place = |letter| Position { count: Finer { count: 0xABCD_EF01_2345_6789 ^ n as u64, decimals: 0xDD ^ n as u8 }, letter };
    let fix = Fix {
        time: Finer { count: 0xDEAD_0000 ^ n as u64, decimals: 0xCC ^ n as u8 },
        latitude: place(b'?'),
        longitude: place(b'!'),
        validity: 0xEE,
        pressure: -777_777,
        gnss: n as i32,
    };
    reading::Record { line: 0xFEED_0000 ^ n as u64, day: 0xBEEF_0000 ^ n as u64, fix }
}

fn told(answer: &Answer<usize>) -> Told {
    let mut told = Told { number: 0, answer: [0; ANSWER] };
    match answer {
        Ok(count) => told.answer[library::TRACK_COUNT] = *count as u64,
        Err(r) => {
            told.number = r.number;
            told.answer[0] = r.line;
            told.answer[1] = r.byte;
        }
    }
    told
}

/// The track into a list of so many records.
fn hold(tally: &mut Tally, file: &[u8], room: usize) -> Held<()> {
    let mut theirs: Vec<reading::Record> = (0..room).map(lent).collect();
    let mut ours: Vec<Record> = theirs.iter().map(stored).collect();
    let raw = library::track(file, &mut ours);
    let answer = track_into(file, &mut theirs);
    tally.same("hive_track", &format!("a list of {room}"), raw.number, raw, told(&answer))?;
    let theirs: Vec<Record> = theirs.iter().map(stored).collect();
    let other = (0..room).find(|&n| ours[n] != theirs[n]);
    tally.same("hive_track", &"its list", raw.number, other.map(|n| (n, ours[n])), other.map(|n| (n, theirs[n])))
}

/// Into a list that is just long enough, into longer and shorter ones, and into none.
pub fn file(tally: &mut Tally, reached: &mut Reached, random: &mut Random, file: &[u8]) -> Held<()> {
    let answer = track(file);
    for room in rooms(random, &answer) {
        reached.add(file, &answer, room);
        hold(tally, file, room)?;
    }
    Ok(())
}

/// A track that lends an answer of the wrong length changes nothing.
pub fn wrong_answers(tally: &mut Tally, file: &[u8]) -> Held<()> {
    let before: Vec<Record> = (0..3).map(|n| stored(&lent(n))).collect();
    for length in [0, 1, ANSWER - 1, ANSWER + 1] {
        let (mut list, mut answer) = (before.clone(), vec![library::BEFORE; length]);
        let number = library::track_answering(file, &mut list, &mut answer);
        let unchanged = (17, before.clone(), vec![library::BEFORE; length]);
        tally.same("hive_track", &format!("an answer of {length}"), number, (number, list, answer), unchanged)?;
    }
    Ok(())
}
