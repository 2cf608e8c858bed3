//! The kinds of a file's lines held: every byte of the list is the reading's, and those past the last line, and all of a refused call, are as lent.

use crate::hold::{Held, Tally, told, unanswered};
use crate::library::{self, ANSWER, Told};
use outside::files::reached_kinds::{Reached, rooms};
use outside::reading::{kinds, kinds_into};

/// What a list holds at a place before a call: no letter, and mostly another at each place.
fn lent(n: usize) -> u8 {
    0x80 | n as u8
}

fn hold(tally: &mut Tally, file: &[u8], room: usize) -> Held<()> {
    let before: Vec<u8> = (0..room).map(lent).collect();
    let (mut ours, mut theirs, mut answer) = (before.clone(), before, [library::BEFORE; ANSWER]);
    let number = library::kinds(file, &mut ours, &mut answer);
    let expected = kinds_into(file, &mut theirs);
    tally.same("hive_kinds", &format!("a list of {room}"), number, Told { number, answer }, told(&expected, |&lines| [lines as u64]))?;
    let other = ours.iter().zip(&theirs).position(|(a, b)| a != b);
    tally.same("hive_kinds", &"its list", number, other.map(|n| (n, ours[n])), other.map(|n| (n, theirs[n])))
}

/// Into a list that is just long enough, and into the one that the turn has.
pub fn file(tally: &mut Tally, reached: &mut Reached, turn: u64, file: &[u8]) -> Held<()> {
    let answer = kinds(file);
    for room in rooms(turn, &answer) {
        reached.add(&answer, room);
        hold(tally, file, room)?;
    }
    let before: Vec<u8> = (0..9).map(lent).collect();
    unanswered(tally, "hive_kinds", turn, &before, |list, answer| library::kinds(file, list, answer))
}
