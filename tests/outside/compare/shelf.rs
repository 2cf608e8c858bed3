//! A call on a shelf held: the number returned, the whole answer, and every byte of the shelf afterwards are the reading's.

use crate::hold::{Held, Tally, told};
use crate::library::{self, ANSWER, Told};
use outside::files::random::Random;
use outside::files::shelf_calls::{Call, each};
use outside::files::shelf_runs::Broken;
use outside::files::shelves::laid;
use outside::files::spoiled_shelves::{WAYS, spoiled};
use outside::reading::Answer;

/// The call put to the library, with an answer of any length.
fn asked(call: &Call, shelf: &mut [u8], answer: &mut [u64]) -> u32 {
    match call {
        Call::Add(number, file) => library::shelf_add(shelf, *number, file, answer),
        Call::Ask(number) => library::shelf_ask(shelf, *number, answer),
        Call::Remove(number) => library::shelf_remove(shelf, *number, answer),
        Call::Pack => library::shelf_pack(shelf, answer),
    }
}

/// A call on this shelf, with the reading's answer and the shelf that it leaves.
pub fn call(tally: &mut Tally, shelf: &[u8], call: &Call, theirs: &Answer<[u64; 2]>, after: &[u8]) -> Held<()> {
    let (mut ours, mut answer) = (shelf.to_vec(), [library::BEFORE; ANSWER]);
    let number = asked(call, &mut ours, &mut answer);
    tally.same(call.name(), &call.told(), number, Told { number, answer }, told(theirs, |&values| values))?;
    let other = if ours == after { None } else { (0..ours.len()).find(|&n| ours[n] != after[n]) };
    tally.same(call.name(), &"its shelf", number, other.map(|n| (n, ours[n])), other.map(|n| (n, after[n])))
}

/// A call of each kind that lends an answer of the wrong length, on a sound shelf and on one that is not: 17, and nothing is changed.
pub fn wrong_answers(tally: &mut Tally, random: &mut Random) -> Result<(), Broken> {
    let way = *random.pick(&WAYS);
    for shelf in [laid(random, 1_500, 9), spoiled(random, &way)] {
        for call in each(random, &shelf) {
            for length in [0, 1, ANSWER - 1, ANSWER + 1] {
                let (mut ours, mut answer) = (shelf.clone(), vec![library::BEFORE; length]);
                let number = asked(&call, &mut ours, &mut answer);
                let unchanged = (17, vec![library::BEFORE; length], true);
                let held = tally.same(call.name(), &format!("an answer of {length}"), number, (number, answer, ours == shelf), unchanged);
                held.map_err(|difference| Broken { difference, shelf: shelf.clone(), file: call.file().to_vec() })?;
            }
        }
    }
    Ok(())
}
