//! Calls on a shelf: adds of good, damaged and unsigned files of any length, often just as long as a free run or a byte longer or shorter; asks, removes and packs; each with
//! numbers that are held, that were held, that are nearly one held, 0, and fresh.

use super::damage;
use super::filled::lengths;
use super::generate::{self, text};
use super::random::Random;
use super::shelves::{ENTRY, Entry, PLACES, flights, fresh, runs};
use crate::reading::refusals::Answer;
use crate::reading::shelf;

/// A call, with what is lent beside the shelf.
#[derive(Clone, Debug)]
pub enum Call {
    Add(u32, Vec<u8>),
    Ask(u32),
    Remove(u32),
    Pack,
}

impl Call {
    /// The name that C has for it.
    pub fn name(&self) -> &'static str {
        match self {
            Call::Add(..) => "hive_shelf_add",
            Call::Ask(_) => "hive_shelf_ask",
            Call::Remove(_) => "hive_shelf_remove",
            Call::Pack => "hive_shelf_pack",
        }
    }

    /// The file lent with it.
    pub fn file(&self) -> &[u8] {
        if let Call::Add(_, file) = self { file } else { b"" }
    }

    /// The call in a few words.
    pub fn told(&self) -> String {
        match self {
            Call::Add(number, file) => format!("add {number}, a file of {} bytes", file.len()),
            Call::Ask(number) => format!("ask for {number}"),
            Call::Remove(number) => format!("remove {number}"),
            Call::Pack => "pack".to_string(),
        }
    }

    /// What the reading answers: the start and the length, 0 where the call tells none.
    pub fn read(&self, shelf: &mut [u8]) -> Answer<[u64; 2]> {
        match self {
            Call::Add(number, file) => shelf::add(shelf, *number, file).map(|start| [start as u64, 0]),
            Call::Ask(number) => shelf::ask(shelf, *number).map(|held| [held.start as u64, held.length as u64]),
            Call::Remove(number) => shelf::remove(shelf, *number).map(|()| [0, 0]),
            Call::Pack => shelf::pack(shelf).map(|()| [0, 0]),
        }
    }
}

/// What the calls of a run of calls are mostly like.
#[derive(Clone, Copy)]
pub enum Manner {
    /// Small files, and few removes, until no entry is free.
    Filling,
    /// Files about as long as the free runs.
    Tight,
    Any,
}

pub fn manner(random: &mut Random) -> Manner {
    *random.pick(&[Manner::Filling, Manner::Tight, Manner::Tight, Manner::Any])
}

/// The fewest bytes that a file has that is accepted: an A line of 7, a date line of 11, and their CR LF.
pub const SMALLEST: usize = 22;

/// A file of exactly so many bytes that is accepted, with a G line or without; with any texts.
pub fn good(random: &mut Random, size: usize) -> Vec<u8> {
    let seal = if size >= SMALLEST + 8 && random.once_in(2) { b"GAB\r\n".to_vec() } else { Vec::new() };
    let left = size - SMALLEST - seal.len();
    let in_line = if left < 3 { left } else { 0 };
    let (serial, more) = (generate::codes(random, 3), text(random, b'A', in_line));
    let top = [b"AXYZ".to_vec(), serial, more, b"\r\nHFDTE150724\r\n".to_vec()].concat();
    let notes =
        lengths(left - in_line).into_iter().map(|length| [b"L".to_vec(), text(random, b'L', length - 1), b"\r\n".to_vec()].concat());
    [top, notes.collect::<Vec<_>>().concat(), seal].concat()
}

/// A file that is refused, with any number of a file's own but 2 and 15.
fn bad(random: &mut Random) -> Vec<u8> {
    if random.once_in(20) {
        return Vec::new();
    }
    loop {
        let body = random.below(8);
        let sample = generate::sample(random, body);
        let aim = *random.pick(&[3, 4, 5, 6, 7, 8, 9, 10, 11, 12, 13, 14, 16, 22, 23, 24, 25]);
        if let Some((file, _)) = damage::aimed(random, &sample, aim) {
            return file;
        }
    }
}

/// How long a file is that is to be put on this shelf.
fn length(random: &mut Random, shelf: &[u8], manner: Manner) -> usize {
    let lengths: Vec<usize> = runs(shelf).into_iter().map(|(_, length)| length).collect();
    let (longest, any) = (lengths.iter().copied().max().unwrap(), *random.pick(&lengths));
    let all: usize = lengths.iter().sum();
    let wanted = match (manner, random.below(12)) {
        (Manner::Filling, 0..11) => random.within(SMALLEST, SMALLEST + 30),
        (_, 0) => longest,
        (_, 1) => longest + 1,
        (_, 2) => longest.saturating_sub(random.within(1, 3)),
        (_, 3 | 4) => any,
        (_, 5) => any + 1,
        (_, 6) => any.saturating_sub(1),
        (_, 7) => all,
        (Manner::Tight, _) => random.within(1, longest / 2 + 1),
        _ => random.within(SMALLEST, 300),
    };
    wanted.clamp(SMALLEST, shelf.len() + 30)
}

/// A file for an add: mostly one that is accepted.
fn file(random: &mut Random, shelf: &[u8], manner: Manner) -> Vec<u8> {
    match random.below(16) {
        0 => bad(random),
        1 => {
            let body = random.below(5);
            generate::sample(random, body).bytes()
        }
        2 => flights(shelf).first().map_or_else(Vec::new, |(_, entry)| shelf[entry.body()].to_vec()),
        _ => {
            let length = length(random, shelf, manner);
            good(random, length)
        }
    }
}

/// A number with one byte changed.
fn nearly(random: &mut Random, number: u32) -> u32 {
    number ^ (random.within(1, 255) as u32) << (8 * random.below(4))
}

/// A number to be added: mostly fresh.
fn to_add(random: &mut Random, held: &[Entry], gone: &[u32]) -> u32 {
    let used: Vec<u32> = held.iter().map(|entry| entry.number).collect();
    match random.below(16) {
        0 => 0,
        1 if !held.is_empty() => random.pick(held).number,
        2 => u32::MAX,
        3 if !held.is_empty() => {
            let number = random.pick(held).number;
            nearly(random, number)
        }
        4 if !gone.is_empty() => *random.pick(gone),
        _ => fresh(random, &used),
    }
}

/// A number to be asked for or removed: mostly one held.
fn to_find(random: &mut Random, held: &[Entry], gone: &[u32]) -> u32 {
    match random.below(16) {
        0 => 0,
        1 => u32::MAX,
        2 | 3 if !held.is_empty() => {
            let number = random.pick(held).number;
            nearly(random, number)
        }
        4 | 5 if !gone.is_empty() => *random.pick(gone),
        6 => fresh(random, &[]),
        _ if !held.is_empty() => random.pick(held).number,
        _ => fresh(random, &[]),
    }
}

/// Any call on a sound shelf, of which these numbers were removed earlier.
pub fn any(random: &mut Random, shelf: &[u8], gone: &[u32], manner: Manner) -> Call {
    let held: Vec<Entry> = flights(shelf).into_iter().map(|(_, entry)| entry).collect();
    let is_full = held.len() == PLACES || runs(shelf).iter().all(|run| run.1 < SMALLEST);
    let of = match manner {
        _ if is_full => 14,
        Manner::Filling => 60,
        Manner::Tight => 22,
        Manner::Any => 18,
    };
    match random.below(of) {
        0..3 => Call::Ask(to_find(random, &held, gone)),
        3..8 => Call::Remove(to_find(random, &held, gone)),
        8 => Call::Pack,
        _ => {
            let number = to_add(random, &held, gone);
            Call::Add(number, file(random, shelf, manner))
        }
    }
}

/// Each of the four calls once, on a shelf that need not be sound: with a number of its table, or any; with a file that is accepted, or not.
pub fn each(random: &mut Random, shelf: &[u8]) -> [Call; 4] {
    let words: Vec<u32> = shelf.chunks_exact(ENTRY).take(PLACES).map(|entry| u32::from_le_bytes(entry[..4].try_into().unwrap())).collect();
    let held: Vec<u32> = words.into_iter().filter(|&number| number > 0).collect();
    let mut number = || match random.below(4) {
        0 => 0,
        1 | 2 if !held.is_empty() => *random.pick(&held),
        _ => fresh(random, &held),
    };
    let [a, b, c] = [number(), number(), number()];
    let file = if random.once_in(3) { bad(random) } else { good(random, SMALLEST + 3) };
    [Call::Add(a, file), Call::Ask(b), Call::Remove(c), Call::Pack]
}
