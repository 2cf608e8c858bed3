//! The declaration of a file held: its head, every number of its points, and those past the last point, and all of a refused call, as lent.

use crate::hold::{Held, Tally, head_values, told, unanswered};
use crate::library::{self, ANSWER, HEAD_LINE, HEAD_TEXT, HEAD_TEXT_LENGTH, POINTS, Told};
use outside::files::reached_declared::{Reached, rooms};
use outside::reading::{Declared, declared, declared_into};

/// What hive_declaration answers from answer[2] on: what hive_head does, and behind it how many points there are, and where the head stands. All 0 where there is
/// none.
fn values(declared: &Option<Declared>) -> [u64; ANSWER - 2] {
    let mut answer = [0; ANSWER];
    if let Some(declared) = declared {
        answer[2..POINTS].copy_from_slice(&head_values(&declared.head));
        answer[POINTS] = declared.points.len() as u64;
        answer[HEAD_LINE] = declared.line;
        answer[HEAD_TEXT] = declared.text.start as u64;
        answer[HEAD_TEXT_LENGTH] = declared.text.length as u64;
    }
    answer[2..].try_into().unwrap()
}

/// What a list holds at a place before a call: a number that no point has, another at each place.
fn lent(n: usize) -> u64 {
    0xFEED_0000_0000_0000 ^ n as u64
}

fn hold(tally: &mut Tally, file: &[u8], room: usize) -> Held<()> {
    let before: Vec<u64> = (0..room).map(lent).collect();
    let (mut ours, mut theirs, mut answer) = (before.clone(), before, [library::BEFORE; ANSWER]);
    let number = library::declaration(file, &mut ours, &mut answer);
    let expected = declared_into(file, &mut theirs);
    tally.same("hive_declaration", &format!("a list of {room}"), number, Told { number, answer }, told(&expected, values))?;
    let other = ours.iter().zip(&theirs).position(|(a, b)| a != b);
    tally.same("hive_declaration", &"its list", number, other.map(|n| (n, ours[n])), other.map(|n| (n, theirs[n])))
}

/// Into a list that is just long enough, and into the one that the turn has.
pub fn file(tally: &mut Tally, reached: &mut Reached, turn: u64, file: &[u8]) -> Held<()> {
    let answer = declared(file);
    for room in rooms(turn, &answer) {
        reached.add(file, &answer, room);
        hold(tally, file, room)?;
    }
    let before: Vec<u64> = (0..30).map(lent).collect();
    unanswered(tally, "hive_declaration", turn, &before, |list, answer| library::declaration(file, list, answer))
}
