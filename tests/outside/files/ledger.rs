//! What the calls alone tell of a shelf, and what the document says of any call, held against the buffer itself.

use super::shelf_calls::Call;
use super::shelves::{ENTRY, PLACES, TABLE, at, flights, free};
use crate::reading::check_usual_alone;
use crate::reading::refusals::{Answer, ENTRIES, ID, NO_RUN, NOT_FOUND, Refusal, SHELF};
use std::collections::BTreeMap;
use std::ops::Range;

/// The flights that the calls have added and not removed, how many bytes were added and removed, and the numbers that were removed.
#[derive(Default)]
pub struct Ledger {
    held: BTreeMap<u32, Vec<u8>>,
    added: usize,
    removed: usize,
    pub gone: Vec<u32>,
}

type Kept = Result<(), String>;

fn must(so: bool, what: &str) -> Kept {
    if so { Ok(()) } else { Err(format!("the reading itself: {what}")) }
}

impl Ledger {
    /// The ledger of a sound shelf: as if its bodies had been added.
    pub fn of(shelf: &[u8]) -> Ledger {
        let held: BTreeMap<u32, Vec<u8>> = flights(shelf).iter().map(|(_, e)| (e.number, shelf[e.body()].to_vec())).collect();
        Ledger { added: held.values().map(Vec::len).sum(), held, ..Ledger::default() }
    }

    /// Enters a call on a sound shelf and its answer, and holds the shelf behind it.
    pub fn enter(&mut self, before: &[u8], call: &Call, answer: &Answer<[u64; 2]>, after: &[u8]) -> Kept {
        framed(before, call, answer, after)?;
        let refused = answer.as_ref().err().map(|r| r.number);
        match call {
            Call::Add(number, file) => {
                must(*answer == self.added_to(before, *number, file).map(|start| [start as u64, 0]), "another answer to an add")?;
                if refused.is_none() {
                    self.held.insert(*number, file.clone());
                    self.added += file.len();
                }
            }
            Call::Ask(number) | Call::Remove(number) => {
                let expected = if self.held.contains_key(number) { None } else { Some(NOT_FOUND) };
                must(refused == expected, "a number that is held was not found, or one that is not held was")?;
            }
            Call::Pack => {
                must(refused.is_none(), "packing refused")?;
                packed(before, after)?;
            }
        }
        if let (Call::Ask(number), Ok(answer)) = (call, answer) {
            let [start, length] = answer.map(|value| value as usize);
            must(self.held[number] == after[start..start + length], "another body was handed out")?;
        }
        if let (Call::Remove(number), Ok(_)) = (call, answer) {
            self.removed += self.held.remove(number).unwrap().len();
            self.gone.push(*number);
        }
        self.agrees(after)
    }

    /// What an add answers, by the flights held and byte by byte: where so many free bytes stand one behind the other for the first time.
    fn added_to(&self, before: &[u8], number: u32, file: &[u8]) -> Answer<usize> {
        check_usual_alone(file)?;
        if number == 0 || self.held.contains_key(&number) {
            return Err(Refusal::of(ID));
        }
        if self.held.len() == PLACES {
            return Err(Refusal::of(ENTRIES));
        }
        let mut is_free = vec![true; before.len()];
        flights(before).iter().for_each(|(_, entry)| is_free[entry.body()].fill(false));
        let mut count = 0;
        for byte in TABLE..before.len() {
            count = if is_free[byte] { count + 1 } else { 0 };
            if count == file.len() {
                return Ok(byte + 1 - count);
            }
        }
        Err(Refusal::of(NO_RUN))
    }

    /// "The bytes held by all bodies equal what was added less what was removed, told from the calls", and each body is what was added under its number.
    fn agrees(&self, shelf: &[u8]) -> Kept {
        let flights = flights(shelf);
        let bytes: usize = flights.iter().map(|(_, entry)| entry.length as usize).sum();
        must(bytes == self.added - self.removed, "other bytes are held than were added less removed")?;
        must(flights.len() == self.held.len(), "another number of flights is held")?;
        let same = flights.iter().all(|(_, entry)| self.held.get(&entry.number).is_some_and(|body| *body == shelf[entry.body()]));
        must(same, "a body is not what was added")
    }
}

/// One call on a shelf that need not be sound.
pub fn alone(before: &[u8], call: &Call, answer: &Answer<[u64; 2]>, after: &[u8]) -> Kept {
    match answer {
        Err(refused) if refused.number == SHELF => framed(before, call, answer, after),
        _ => Ledger::of(before).enter(before, call, answer, after),
    }
}

/// "Adding changes only the new body and its entry, removing only the entry, packing only starts and the bytes the moved bodies now cover"; asking changes nothing, and "the shelf is
/// changed by none" of the refusals. What may be changed is taken from behind the call; all else must be as before it.
fn framed(before: &[u8], call: &Call, answer: &Answer<[u64; 2]>, after: &[u8]) -> Kept {
    let of_entry = |place: usize| ENTRY * place..ENTRY * (place + 1);
    let mut may: Vec<Range<usize>> = Vec::new();
    if let Ok([start, _]) = answer {
        match call {
            Call::Add(_, file) => {
                let start = *start as usize;
                // "Takes the first free entry".
                may.extend([start..start + file.len(), of_entry(free(before)[0])]);
            }
            Call::Remove(number) => {
                let place = flights(before).iter().find(|(_, entry)| entry.number == *number).unwrap().0;
                may.push(of_entry(place));
                must(after[of_entry(place)] == [0; ENTRY], "the entry removed is not zeros")?;
            }
            Call::Pack => {
                for (place, entry) in flights(after) {
                    may.push(ENTRY * place + 4..ENTRY * place + 8);
                    if at(before, place).start != entry.start {
                        may.push(entry.body());
                    }
                }
            }
            Call::Ask(_) => {}
        }
    }
    must(before.len() == after.len(), "the buffer has another size")?;
    let mut expected = before.to_vec();
    for range in may {
        expected[range.clone()].copy_from_slice(&after[range]);
    }
    must(expected == after, "a byte was changed that may not be")
}

/// "Packing moves bodies to the front in order of start, without gaps, and each flight's bytes stay the same."
fn packed(before: &[u8], after: &[u8]) -> Kept {
    let (was, is) = (flights(before), flights(after));
    must(was.len() == is.len(), "another number of flights behind packing")?;
    let mut start = TABLE;
    for ((p, old), (q, new)) in was.iter().zip(&is) {
        must((p, old.number, old.length) == (q, new.number, new.length), "another order behind packing")?;
        must(new.start as usize == start, "a gap behind packing")?;
        must(before[old.body()] == after[new.body()], "other bytes behind packing")?;
        start = new.end();
    }
    Ok(())
}
