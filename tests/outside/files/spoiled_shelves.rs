//! Shelves that break one rule each: a sound one is laid out, and then its table of contents, or its size, is spoiled in one way.

use super::random::Random;
use super::shelves::{ENTRY, Entry, PLACES, TABLE, at, flights, fresh, laid, put, runs};

/// A way to spoil a shelf. It is given a sound one with three bodies or more, free entries, and free runs before its first body and behind its last.
pub type Way = (&'static str, fn(&mut Random, &mut Vec<u8>));

/// All ways but that of a buffer over the limit.
pub const WAYS: [Way; 37] = [
    ("a free entry with a start", |r, s| stray(r, s, 4, 8)),
    ("a free entry with a length", |r, s| stray(r, s, 8, 12)),
    ("a free entry with the start and length of a free run", unnumbered),
    ("the number alone zeroed", number_zeroed),
    ("a body without a byte", |r, s| spare(r, s, |_, run| (run.start, 0))),
    ("a body without a byte, at the end of the buffer", |r, s| spare(r, s, |_, run| (run.size, 0))),
    ("no start and no length", |r, s| spare(r, s, |_, _| (0, 0))),
    ("a start of 0", |r, s| spare(r, s, |random, _| (0, random.within(1, TABLE)))),
    ("a start inside the table", |r, s| spare(r, s, |random, _| (random.within(1, TABLE - 1), 1))),
    ("a start of 767, and the one byte there", |r, s| spare(r, s, |_, _| (TABLE - 1, 1))),
    ("a start of 767, and bytes behind it", from_767),
    ("an end one byte past the buffer", one_past),
    ("a start at the end of the buffer", |r, s| spare(r, s, |random, run| (run.size, random.within(1, 9)))),
    ("a start past the buffer", |r, s| spare(r, s, |random, run| (run.size + random.within(1, 70_000), 1))),
    ("an end far past the buffer", |r, s| spare(r, s, |random, run| (run.start, run.size + random.within(1, 1 << 31)))),
    ("an end at the last u32", |r, s| spare(r, s, |_, run| (run.start, u32::MAX as usize - run.start))),
    ("an end just past the last u32", |r, s| spare(r, s, |_, run| (run.start, (1 << 32) - run.start))),
    ("the start of the last u32 and an end just past it", |r, s| spare(r, s, |_, _| (u32::MAX as usize, 1))),
    ("a start so far behind that the end wraps to a place inside", wraps_from_behind),
    ("a length so great that the end wraps to a place before the start", wraps_to_before),
    ("the greatest start and length", |r, s| spare(r, s, |_, _| (u32::MAX as usize, u32::MAX as usize))),
    ("one byte in common, the earlier entry begins", |r, s| overlap(r, s, true)),
    ("one byte in common, the later entry begins", |r, s| overlap(r, s, false)),
    ("one byte in common, of the first and the last entry", apart),
    ("a body inside another", inside),
    ("the same start, another length", same_start),
    ("the same end, another start", same_end),
    ("the same body under two numbers", |r, s| copied(r, s, None)),
    ("a number twice", twice),
    ("the greatest number twice", twice_greatest),
    ("a number twice in a table without a free entry", |r, s| of_full(r, s, twice)),
    ("one byte in common in a table without a free entry", |r, s| of_full(r, s, |r, s| overlap(r, s, true))),
    ("the number alone zeroed in a table without a free entry", |r, s| of_full(r, s, number_zeroed)),
    ("an end one byte past the buffer in a table without a free entry", |r, s| of_full(r, s, one_past)),
    ("767 bytes", |r, s| cut(r, s, TABLE - 1)),
    ("fewer bytes", cut_short),
    ("no bytes", |_, s| s.clear()),
];

/// A buffer over the limit, which is spoiled by its size alone.
pub const OVER: &str = "a byte over the limit";

/// A sound shelf with so many flights, and free runs before the first and behind the last.
fn sound(random: &mut Random, least: usize, most: usize) -> Vec<u8> {
    loop {
        let size = TABLE + random.within(200 + 60 * most, 300 + 220 * most);
        let shelf = laid(random, size, most);
        let (flights, runs) = (flights(&shelf), runs(&shelf));
        if flights.len() >= least && runs[0].1 >= 3 && runs[runs.len() - 1].1 >= 3 {
            return shelf;
        }
    }
}

/// Another shelf, whose entries are all taken, spoiled in a way that needs no free one.
fn of_full(random: &mut Random, shelf: &mut Vec<u8>, spoil: fn(&mut Random, &mut Vec<u8>)) {
    *shelf = sound(random, PLACES, PLACES);
    spoil(random, shelf);
}

/// A shelf spoiled in a way.
pub fn spoiled(random: &mut Random, way: &Way) -> Vec<u8> {
    let most = random.within(4, PLACES - 4);
    let mut shelf = sound(random, 3, most);
    (way.1)(random, &mut shelf);
    shelf
}

/// A place of a table: of those with a flight, or of those without.
fn any_place(random: &mut Random, shelf: &[u8], is_free: bool) -> usize {
    let places: Vec<usize> = (0..PLACES).filter(|&place| (at(shelf, place).number == 0) == is_free).collect();
    *random.pick(&places)
}

fn any_flight(random: &mut Random, shelf: &[u8]) -> (usize, Entry) {
    *random.pick(&flights(shelf))
}

fn fresh_number(random: &mut Random, shelf: &[u8]) -> u32 {
    let used: Vec<u32> = flights(shelf).iter().map(|(_, entry)| entry.number).collect();
    fresh(random, &used)
}

/// One byte of a free entry, from one of its bytes on and before another.
fn stray(random: &mut Random, shelf: &mut [u8], from: usize, to: usize) {
    let place = any_place(random, shelf, true);
    shelf[ENTRY * place + random.within(from, to - 1)] = *random.pick(&[1, 2, 128, 255]);
}

fn unnumbered(random: &mut Random, shelf: &mut Vec<u8>) {
    let place = any_place(random, shelf, true);
    let (begin, length) = *random.pick(&runs(shelf));
    put(shelf, place, Entry { number: 0, start: begin as u32, length: length as u32 });
}

fn number_zeroed(random: &mut Random, shelf: &mut Vec<u8>) {
    let (place, entry) = any_flight(random, shelf);
    put(shelf, place, Entry { number: 0, ..entry });
}

/// What an entry that is put beside the sound ones can be told from: where the free run behind the last body begins, and the buffer's size.
struct Run {
    start: usize,
    size: usize,
}

/// A free entry taken, with a fresh number and this start and length.
fn spare(random: &mut Random, shelf: &mut Vec<u8>, of: fn(&mut Random, Run) -> (usize, usize)) {
    let place = any_place(random, shelf, true);
    let number = fresh_number(random, shelf);
    let run = Run { start: runs(shelf).last().unwrap().0, size: shelf.len() };
    let (start, length) = of(random, run);
    put(shelf, place, Entry { number, start: start as u32, length: length as u32 });
}

/// From the last byte of the table to within the free run before the first body.
fn from_767(random: &mut Random, shelf: &mut Vec<u8>) {
    let place = any_place(random, shelf, true);
    let number = fresh_number(random, shelf);
    let length = random.within(2, runs(shelf)[0].1 + 1) as u32;
    put(shelf, place, Entry { number, start: TABLE as u32 - 1, length });
}

/// The last body made longer.
fn one_past(_: &mut Random, shelf: &mut Vec<u8>) {
    let &(place, last) = flights(shelf).last().unwrap();
    let length = shelf.len() as u32 + 1 - last.start;
    put(shelf, place, Entry { length, ..last });
}

/// Start and length add up to 2^32 and a place in the buffer.
fn wraps_from_behind(random: &mut Random, shelf: &mut Vec<u8>) {
    spare(random, shelf, |random, run| {
        let back = random.within(1, 1 << 20);
        ((1 << 32) - back, back + random.within(TABLE, run.size))
    });
}

/// Start and length add up to 2^32 and a place before the start.
fn wraps_to_before(random: &mut Random, shelf: &mut Vec<u8>) {
    spare(random, shelf, |random, run| (run.start, (1 << 32) - random.within(1, run.start)));
}

/// Two bodies that are neighbours in order of start, with the places of their entries, of which the earlier body gets the lower or the higher one.
fn neighbours(random: &mut Random, shelf: &mut [u8], lower: bool) -> [(usize, Entry); 2] {
    let all = flights(shelf);
    let n = random.below(all.len() - 1);
    let [(p, first), (q, second)] = [all[n], all[n + 1]];
    let (low, high) = (p.min(q), p.max(q));
    let (p, q) = if lower { (low, high) } else { (high, low) };
    [(p, first), (q, second)]
}

/// The earlier of two neighbours made so long that its last byte is the other's first.
fn overlap(random: &mut Random, shelf: &mut Vec<u8>, lower: bool) {
    let [(p, first), (q, second)] = neighbours(random, shelf, lower);
    put(shelf, p, Entry { length: second.start + 1 - first.start, ..first });
    put(shelf, q, second);
}

/// The first and the last body of a shelf at the first and the last place of its table, the others between them gone, and one byte in common.
fn apart(random: &mut Random, shelf: &mut Vec<u8>) {
    let all = flights(shelf);
    let (first, last) = (all[0].1, all[all.len() - 1].1);
    let (p, q) = if random.once_in(2) { (0, PLACES - 1) } else { (PLACES - 1, 0) };
    shelf[..TABLE].fill(0);
    put(shelf, p, Entry { length: last.start + 1 - first.start, ..first });
    put(shelf, q, last);
}

/// The last body made longer by two bytes, and a body of one byte inside it.
fn inside(random: &mut Random, shelf: &mut Vec<u8>) {
    let &(place, last) = flights(shelf).last().unwrap();
    put(shelf, place, Entry { length: last.length + 2, ..last });
    copied(random, shelf, Some(Entry { start: last.start + 1, length: 1, ..last }));
}

fn same_start(random: &mut Random, shelf: &mut Vec<u8>) {
    let length = |entry: Entry, random: &mut Random| if entry.length == 1 { 2 } else { random.within(1, entry.length as usize - 1) as u32 };
    let (_, entry) = any_flight(random, shelf);
    let length = length(entry, random);
    copied(random, shelf, Some(Entry { length, ..entry }));
}

fn same_end(random: &mut Random, shelf: &mut Vec<u8>) {
    let (_, entry) = any_flight(random, shelf);
    let other = if entry.length == 1 {
        Entry { start: entry.start - 1, length: 2, ..entry }
    } else {
        Entry { start: entry.end() as u32 - 1, length: 1, ..entry }
    };
    copied(random, shelf, Some(other));
}

/// A free entry with a fresh number and the start and length of another, or those given.
fn copied(random: &mut Random, shelf: &mut Vec<u8>, given: Option<Entry>) {
    let place = any_place(random, shelf, true);
    let number = fresh_number(random, shelf);
    let entry = given.unwrap_or_else(|| any_flight(random, shelf).1);
    put(shelf, place, Entry { number, ..entry });
}

/// One flight's number given to another one.
fn twice(random: &mut Random, shelf: &mut Vec<u8>) {
    let all = flights(shelf);
    let n = random.below(all.len());
    let m = (n + random.within(1, all.len() - 1)) % all.len();
    put(shelf, all[n].0, Entry { number: all[m].1.number, ..all[n].1 });
}

fn twice_greatest(random: &mut Random, shelf: &mut Vec<u8>) {
    for (place, entry) in flights(shelf) {
        if entry.number == u32::MAX {
            let number = fresh_number(random, shelf);
            put(shelf, place, Entry { number, ..entry });
        }
    }
    let all = flights(shelf);
    for (place, entry) in [all[0], all[all.len() - 1]] {
        put(shelf, place, Entry { number: u32::MAX, ..entry });
    }
}

/// The buffer cut; half of the time with an empty table, so that nothing else is wrong.
fn cut(random: &mut Random, shelf: &mut Vec<u8>, size: usize) {
    shelf.truncate(size);
    if random.once_in(2) {
        shelf.fill(0);
    }
}

fn cut_short(random: &mut Random, shelf: &mut Vec<u8>) {
    let size = *random.pick(&[1, 11, 12, 24, 500, 756, 766]);
    cut(random, shelf, size);
}

/// A shelf with one or two bytes of its table changed, which may be sound or not.
pub fn scribbled(random: &mut Random, shelf: &[u8]) -> Vec<u8> {
    let mut shelf = shelf.to_vec();
    let taken: Vec<usize> = flights(&shelf).into_iter().map(|(place, _)| place).collect();
    for _ in 0..random.within(1, 2) {
        let place = if taken.is_empty() || random.once_in(4) { random.below(PLACES) } else { *random.pick(&taken) };
        // Mostly a low byte, so that a body moves a little or is a little longer or shorter.
        let byte = if random.once_in(4) { random.below(ENTRY) } else { *random.pick(&[0, 4, 8]) };
        let change = if random.once_in(2) { 1 } else { random.within(1, 255) as u8 };
        let at = ENTRY * place + byte;
        shelf[at] = if random.once_in(2) { shelf[at].wrapping_add(change) } else { shelf[at].wrapping_sub(change) };
    }
    shelf
}
