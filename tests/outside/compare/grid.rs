//! The columns of a whole file held: every number of the list is the reading's, and those past the last row, and all of a refused call, are as lent.

use crate::hold::{Held, Tally, told, unanswered};
use crate::library::{self, ANSWER, Told};
use outside::files::grids::{Ask, asks};
use outside::files::reached_grid::Reached;
use outside::reading::{Accepted, Answer, grid_into};

/// What a list holds at a place before a call: a number that no column has, another at each place.
fn lent(n: usize) -> i64 {
    -5_000_000_000_000_000_000 - n as i64
}

fn hold(tally: &mut Tally, reached: &mut Reached, file: &[u8], said: &Answer<Accepted>, ask: &Ask) -> Held<()> {
    let before: Vec<i64> = (0..ask.room).map(lent).collect();
    let (mut ours, mut theirs, mut answer) = (before.clone(), before, [library::BEFORE; ANSWER]);
    let number = library::columns(file, ask.letter, &ask.codes, &mut ours, &mut answer);
    let expected = grid_into(file, ask.letter, &ask.codes, &mut theirs);
    reached.add(file, said, ask, &expected, &theirs);
    tally.same("hive_columns", ask, number, Told { number, answer }, told(&expected, |&lines| [lines as u64]))?;
    let other = ours.iter().zip(&theirs).position(|(a, b)| a != b);
    tally.same("hive_columns", &"its list", number, other.map(|n| (n, ours[n])), other.map(|n| (n, theirs[n])))
}

/// What its turn has to ask of a file. `said` is what the usual check says without a table.
pub fn file(tally: &mut Tally, reached: &mut Reached, turn: u64, file: &[u8], said: &Answer<Accepted>) -> Held<()> {
    let asks = asks(turn, said);
    for ask in &asks {
        hold(tally, reached, file, said, ask)?;
    }
    let Ask { letter, codes, .. } = &asks[turn as usize % asks.len()];
    let before: Vec<i64> = (0..3).map(lent).collect();
    unanswered(tally, "hive_columns", turn, &before, |list, answer| library::columns(file, *letter, codes, list, answer))
}
