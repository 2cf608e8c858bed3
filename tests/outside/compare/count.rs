//! The usual check without a table held: its answer is the reading's, and 15 never comes.

use crate::hold::{Held, Tally, checked_values, told, unanswered};
use crate::library::{self, ANSWER, Told};
use outside::reading::{Accepted, Answer};

/// A file, by what the usual check says of it without a table.
pub fn file(tally: &mut Tally, turn: u64, file: &[u8], said: &Answer<Accepted>) -> Held<()> {
    let mut answer = [library::BEFORE; ANSWER];
    let number = library::count(file, &mut answer);
    tally.same("hive_count", &"the file", number, Told { number, answer }, told(said, checked_values))?;
    unanswered::<()>(tally, "hive_count", turn, &[], |_, answer| library::count(file, answer))
}
