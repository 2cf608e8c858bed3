//! A shelf of flights: one lent buffer, with a table of contents first and the bodies of the flights behind it.

use super::file::check_usual_alone;
use super::refusals::{Answer, ENTRIES, ID, NO_RUN, NOT_FOUND, Refusal, SHELF};

/// "One lent buffer of 768 to 16,777,216 bytes: a table of contents first, 64 entries of 12 bytes, then the bodies from offset 768."
pub const LEAST: usize = 768;
pub const MOST: usize = 16_777_216;
pub const ENTRY: usize = 12;
pub const BODIES: usize = 768;

/// A flight that is held: its number, and where its body stands.
#[derive(Clone, Copy, PartialEq, Eq, Debug)]
pub struct Held {
    pub number: u32,
    pub start: usize,
    pub length: usize,
}

impl Held {
    pub fn end(&self) -> usize {
        self.start + self.length
    }

    fn overlaps(&self, other: &Held) -> bool {
        self.start < other.end() && other.start < self.end()
    }
}

/// "A u32 with its low byte first".
fn word(bytes: &[u8]) -> u32 {
    bytes.iter().rev().fold(0, |value, &byte| value * 256 + u32::from(byte))
}

fn low_byte_first(value: u32) -> [u8; 4] {
    [0, 8, 16, 24].map(|bits| (value >> bits) as u8)
}

/// "An entry is flight number, start and length, each a u32 with its low byte first; flight number 0 is a free entry, whose other bytes are 0." None for a free one.
fn entry(bytes: &[u8]) -> Answer<Option<Held>> {
    let [number, start, length] = [0, 4, 8].map(|at| word(&bytes[at..at + 4]));
    if number == 0 {
        return if bytes.iter().all(|&byte| byte == 0) { Ok(None) } else { Err(Refusal::of(SHELF)) };
    }
    Ok(Some(Held { number, start: start as usize, length: length as usize }))
}

/// The entries of a shelf, of which a free one is none; "27 SHELF if the buffer breaks these rules". "What a body says isn't looked at again."
pub fn contents(buffer: &[u8]) -> Answer<Vec<Option<Held>>> {
    if buffer.len() < LEAST || buffer.len() > MOST {
        return Err(Refusal::of(SHELF));
    }
    let table: Vec<Option<Held>> = buffer[..BODIES].chunks(ENTRY).map(entry).collect::<Answer<_>>()?;
    let held = in_order_of_start(&table);
    for (n, (_, body)) in held.iter().enumerate() {
        // "Bodies have at least one byte, lie inside the part from 768".
        if body.length == 0 || body.start < BODIES || body.end() > buffer.len() {
            return Err(Refusal::of(SHELF));
        }
        // "And don't overlap; no flight number is used twice".
        if held[..n].iter().any(|(_, other)| other.overlaps(body) || other.number == body.number) {
            return Err(Refusal::of(SHELF));
        }
    }
    Ok(table)
}

/// The flights held, "in order of start", each with the place of its entry in the table.
fn in_order_of_start(table: &[Option<Held>]) -> Vec<(usize, Held)> {
    let mut held: Vec<(usize, Held)> = table.iter().enumerate().filter_map(|(place, entry)| entry.map(|held| (place, held))).collect();
    held.sort_by_key(|(_, held)| held.start);
    held
}

/// The flight with this number, and the place of its entry: "31 NOT_FOUND for asking for or removing 0 or a number not held".
fn find(table: &[Option<Held>], number: u32) -> Answer<(usize, Held)> {
    let found = in_order_of_start(table).into_iter().find(|(_, held)| held.number == number);
    found.ok_or(Refusal::of(NOT_FOUND))
}

/// "The smallest start where it fits between the others", for a body of this length in a buffer of this size. None "exactly when no free run is long enough".
fn smallest_start(table: &[Option<Held>], size: usize, length: usize) -> Option<usize> {
    let mut start = BODIES;
    for (_, body) in in_order_of_start(table) {
        if start + length <= body.start {
            return Some(start);
        }
        start = body.end();
    }
    (start + length <= size).then_some(start)
}

/// "Adding puts the file through the usual check, takes the first free entry and puts the body at the smallest start where it fits between the others." The start. "Refusals: 27 SHELF if the
/// buffer breaks these rules, then the file's own, then 28 ID for number 0 or one in use, 29 ENTRIES when none is free, 30 NO_RUN exactly when no free run is long enough".
pub fn add(buffer: &mut [u8], number: u32, file: &[u8]) -> Answer<usize> {
    let table = contents(buffer)?;
    check_usual_alone(file)?;
    if number == 0 || find(&table, number).is_ok() {
        return Err(Refusal::of(ID));
    }
    let place = table.iter().position(Option::is_none).ok_or(Refusal::of(ENTRIES))?;
    let start = smallest_start(&table, buffer.len(), file.len()).ok_or(Refusal::of(NO_RUN))?;
    // "Adding changes only the new body and its entry".
    buffer[start..start + file.len()].copy_from_slice(file);
    let entry = [number, start as u32, file.len() as u32].map(low_byte_first).concat();
    buffer[ENTRY * place..][..ENTRY].copy_from_slice(&entry);
    Ok(start)
}

/// "Asking for a number hands out its body as a part of the buffer".
pub fn ask(buffer: &[u8], number: u32) -> Answer<Held> {
    let (_, held) = find(&contents(buffer)?, number)?;
    Ok(held)
}

/// "Removing zeroes its entry", and changes "only the entry".
pub fn remove(buffer: &mut [u8], number: u32) -> Answer<()> {
    let (place, _) = find(&contents(buffer)?, number)?;
    buffer[ENTRY * place..][..ENTRY].fill(0);
    Ok(())
}

/// "Packing moves bodies to the front in order of start, without gaps, and each flight's bytes stay the same." It changes "only starts and the bytes the moved bodies now cover".
pub fn pack(buffer: &mut [u8]) -> Answer<()> {
    let table = contents(buffer)?;
    let before = buffer.to_vec();
    let mut start = BODIES;
    for (place, body) in in_order_of_start(&table) {
        buffer[start..start + body.length].copy_from_slice(&before[body.start..body.end()]);
        buffer[ENTRY * place + 4..][..4].copy_from_slice(&low_byte_first(start as u32));
        start += body.length;
    }
    Ok(())
}
