//! Shelves to be called on, of many sizes: empty ones, and ones laid out by hand; and how the entries of a table of contents are put and seen, whatever they say.

use super::random::Random;

/// Where the bodies begin, how many entries there are, and how long one is.
pub const TABLE: usize = 768;
pub const PLACES: usize = 64;
pub const ENTRY: usize = 12;

/// The three numbers of an entry.
#[derive(Clone, Copy, PartialEq, Eq, Debug, Default)]
pub struct Entry {
    pub number: u32,
    pub start: u32,
    pub length: u32,
}

impl Entry {
    pub fn end(&self) -> usize {
        self.start as usize + self.length as usize
    }

    pub fn body(&self) -> std::ops::Range<usize> {
        self.start as usize..self.end()
    }
}

/// Puts an entry at a place of the table.
pub fn put(shelf: &mut [u8], place: usize, entry: Entry) {
    let numbers = [entry.number, entry.start, entry.length].map(u32::to_le_bytes);
    shelf[ENTRY * place..][..ENTRY].copy_from_slice(&numbers.concat());
}

/// The entry at a place of the table.
pub fn at(shelf: &[u8], place: usize) -> Entry {
    let number = |from: usize| u32::from_le_bytes(shelf[ENTRY * place + from..][..4].try_into().unwrap());
    Entry { number: number(0), start: number(4), length: number(8) }
}

/// The places of a shelf's flights and their entries, in order of start.
pub fn flights(shelf: &[u8]) -> Vec<(usize, Entry)> {
    let all = (0..PLACES).map(|place| (place, at(shelf, place)));
    let mut flights: Vec<(usize, Entry)> = all.filter(|(_, entry)| entry.number > 0).collect();
    flights.sort_by_key(|(_, entry)| entry.start);
    flights
}

/// The places of the free entries.
pub fn free(shelf: &[u8]) -> Vec<usize> {
    (0..PLACES).filter(|&place| at(shelf, place).number == 0).collect()
}

/// Where each free run of a sound shelf begins, and how many bytes it has: before each body and behind the last one, those without a byte too.
pub fn runs(shelf: &[u8]) -> Vec<(usize, usize)> {
    let flights = flights(shelf);
    let begins = [TABLE].into_iter().chain(flights.iter().map(|(_, entry)| entry.end()));
    let ends = flights.iter().map(|(_, entry)| entry.start as usize).chain([shelf.len()]);
    begins.zip(ends).map(|(begin, end)| (begin, end - begin)).collect()
}

/// Numbers at the ends of a u32 and of its bytes.
const NUMBERS: [u32; 12] = [1, 2, 255, 256, 257, 65_535, 65_536, 1 << 24, 1 << 31, 0x0101_0101, u32::MAX - 1, u32::MAX];

/// A number that is none of these: at an end, small, or any.
pub fn fresh(random: &mut Random, used: &[u32]) -> u32 {
    loop {
        let number = match random.below(3) {
            0 => *random.pick(&NUMBERS),
            1 => random.within(1, 200) as u32,
            _ => random.below(1 << 32) as u32,
        };
        if number > 0 && !used.contains(&number) {
            return number;
        }
    }
}

/// How many bytes a shelf has: the least, a few more, mostly some thousands, now and then so many that a start needs three bytes.
pub fn size(random: &mut Random) -> usize {
    TABLE
        + match random.below(16) {
            0 => 0,
            1 => random.within(1, 50),
            2..5 => random.within(22, 600),
            5..10 => random.within(1_000, 5_000),
            10..14 => random.within(5_000, 20_000),
            _ => random.within(70_000, 300_000),
        }
}

/// An empty shelf. Behind its table stands anything, as after flights that were removed, or zeros.
pub fn empty(random: &mut Random, size: usize) -> Vec<u8> {
    let mut shelf = vec![0; size];
    if !random.once_in(6) {
        shelf[TABLE..].fill_with(|| random.below(256) as u8);
    }
    shelf
}

/// How many bytes a body that is laid has; some have a length whose low byte is 0.
fn length(random: &mut Random) -> usize {
    match random.below(8) {
        0 | 1 => 1,
        2 => 256,
        3 => random.within(254, 520),
        4 => 2,
        _ => random.within(1, 90),
    }
}

/// How many bytes stand free before a body that is laid: often none, and often about as many as the smallest file has.
fn gap(random: &mut Random) -> usize {
    match random.below(8) {
        0..4 => 0,
        4 => random.within(1, 30),
        5 => random.within(21, 24),
        6 => random.within(1, 300),
        _ => 1,
    }
}

/// A sound shelf with up to `most` bodies, each of any bytes, in any entries. Now and then the last body ends where the buffer ends.
pub fn laid(random: &mut Random, size: usize, most: usize) -> Vec<u8> {
    let mut shelf = empty(random, size);
    let mut places: Vec<usize> = (0..PLACES).collect();
    match random.below(4) {
        0 => {}
        1 => places.reverse(),
        _ => random.shuffle(&mut places),
    }
    let (mut start, mut numbers) = (TABLE, Vec::new());
    for &place in places.iter().take(most) {
        start += gap(random);
        let length = length(random);
        if start + length > size {
            break;
        }
        numbers.push(fresh(random, &numbers));
        put(&mut shelf, place, Entry { number: numbers[numbers.len() - 1], start: start as u32, length: length as u32 });
        start += length;
    }
    if random.once_in(3) {
        if let Some(&(place, last)) = flights(&shelf).last() {
            put(&mut shelf, place, Entry { length: size as u32 - last.start, ..last });
        }
    }
    shelf
}
