//! Runs of calls on shelves, each behind the other, each held by what the calls tell and by whoever runs them: on sound shelves, on spoiled ones, and at the size limit.

use super::ledger::{self, Ledger};
use super::random::Random;
use super::reached_shelves::Reached;
use super::shelf_calls::{self, Call, SMALLEST, each, good, manner};
use super::shelves::{PLACES, TABLE, empty, laid, size};
use super::spoiled_shelves::{OVER, WAYS, scribbled, spoiled};
use crate::reading::LIMIT;
use crate::reading::refusals::{Answer, SHELF};

/// What holds a call: given the shelf before it, the call, the reading's answer, and the shelf behind it.
pub type Hold<'a> = &'a mut dyn FnMut(&[u8], &Call, &Answer<[u64; 2]>, &[u8]) -> Result<(), String>;

/// A call that does not hold: why, the shelf before it, and the file lent with it.
#[derive(Debug)]
pub struct Broken {
    pub difference: String,
    pub shelf: Vec<u8>,
    pub file: Vec<u8>,
}

type Kept = Result<(), Broken>;

/// A call put to the reading and held, first by `keep`; the shelf behind it.
fn put(
    shelf: &[u8],
    call: &Call,
    hold: Hold,
    keep: impl FnOnce(&Answer<[u64; 2]>, &[u8]) -> Result<(), String>,
) -> Result<Vec<u8>, Broken> {
    let mut after = shelf.to_vec();
    let answer = call.read(&mut after);
    let held = keep(&answer, &after).and_then(|()| hold(shelf, call, &answer, &after));
    let told = |why| format!("{}, on a shelf of {} bytes: {why}", call.told(), shelf.len());
    held.map(|()| after).map_err(|why| Broken { difference: told(why), shelf: shelf.to_vec(), file: call.file().to_vec() })
}

/// Many calls on a shelf that begins empty or laid out by hand; then some on it with its table scribbled over.
pub fn any(random: &mut Random, reached: &mut Reached, hold: Hold) -> Kept {
    let size = size(random);
    let most = *random.pick(&[3, 20, PLACES, PLACES]);
    let mut shelf = if random.once_in(3) { laid(random, size, most) } else { empty(random, size) };
    let (mut ledger, manner) = (Ledger::of(&shelf), manner(random));
    let calls = match size {
        ..800 => random.within(3, 9),
        800..50_000 => random.within(20, 150),
        _ => random.within(10, 40),
    };
    for _ in 0..calls {
        let call = shelf_calls::any(random, &shelf, &ledger.gone, manner);
        shelf = step(&shelf, &call, &mut ledger, reached, hold)?;
    }
    for _ in 0..4 {
        let scribbled = scribbled(random, &shelf);
        for call in each(random, &scribbled) {
            put(&scribbled, &call, hold, |answer, after| ledger::alone(&scribbled, &call, answer, after))?;
        }
    }
    Ok(())
}

/// One call on a sound shelf; the shelf behind it.
fn step(shelf: &[u8], call: &Call, ledger: &mut Ledger, reached: &mut Reached, hold: Hold) -> Result<Vec<u8>, Broken> {
    put(shelf, call, hold, |answer, after| {
        reached.add(shelf, &ledger.gone, call, answer, after);
        ledger.enter(shelf, call, answer, after)
    })
}

/// Each call on a shelf that was spoiled, in each way: 27, and the shelf is not changed.
pub fn on_spoiled(random: &mut Random, reached: &mut Reached, hold: Hold) -> Kept {
    for way in &WAYS {
        let shelf = spoiled(random, way);
        each_refused(random, &shelf, way.0, reached, hold)?;
    }
    Ok(())
}

fn each_refused(random: &mut Random, shelf: &[u8], way: &str, reached: &mut Reached, hold: Hold) -> Kept {
    for call in each(random, shelf) {
        put(shelf, &call, hold, |answer, after| {
            reached.add_spoiled(&call, way, answer);
            let refused = answer.is_err_and(|refused| (refused.number, refused.line, refused.byte) == (SHELF, 0, 0)) && after == shelf;
            if refused { Ok(()) } else { Err(format!("the reading itself: {answer:?}, yet the shelf was made with {way}")) }
        })?;
    }
    Ok(())
}

/// A shelf of the most bytes, filled to the last one by one file, and by several that are then moved; files that are too long for it and too long at all; and a shelf of a byte more.
pub fn at_limit(random: &mut Random, reached: &mut Reached, hold: Hold) -> Kept {
    let (room, third) = (LIMIT - TABLE, LIMIT / 3);
    let mut shelf = empty(random, LIMIT);
    let mut ledger = Ledger::of(&shelf);
    let mut of_size = |size: usize| good(random, size);
    let calls = [
        Call::Add(1, of_size(LIMIT + 1)),
        Call::Add(1, of_size(LIMIT)),
        Call::Add(1, of_size(room + 1)),
        Call::Add(1, of_size(room)),
        Call::Ask(1),
        Call::Add(2, of_size(SMALLEST)),
        Call::Remove(1),
        Call::Add(3, of_size(SMALLEST)),
        Call::Add(4, of_size(third)),
        Call::Add(5, of_size(third)),
        Call::Add(6, of_size(room - SMALLEST - 2 * third)),
        Call::Remove(3),
        Call::Pack,
        Call::Ask(6),
        Call::Remove(4),
        Call::Add(7, of_size(third + 2 * SMALLEST)),
        Call::Pack,
        Call::Add(7, of_size(third + SMALLEST)),
        Call::Ask(7),
    ];
    for call in calls {
        shelf = step(&shelf, &call, &mut ledger, reached, hold)?;
    }
    let over = vec![0; LIMIT + 1];
    each_refused(random, &over, OVER, reached, hold)
}
