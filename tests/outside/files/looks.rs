//! Looks to try: the columns of a line, put right, damaged in each way, or of another line; and the code that is looked for.

use super::random::Random;
use crate::reading::{Entry, MOST_ENTRIES};

/// A look to try. A code is a number here, as C has it, so that it can be one that no three bytes have.
#[derive(Clone, Debug)]
pub struct Look {
    pub line: Vec<u8>,
    pub entries: Vec<Entry<u64>>,
    pub code: [u8; 3],
}

impl Look {
    /// Whether some number is one that no entry of C holds, a code over four bytes or a first or last byte over 255: there it is 17, in a line of any length.
    pub fn is_over(&self) -> bool {
        self.entries.iter().any(|e| e.code >> 32 > 0 || e.first > 255 || e.last > 255)
    }
}

/// A code as C has it: "its first character times 65536 plus its second times 256 plus its third".
pub fn packed(code: [u8; 3]) -> u64 {
    code.iter().fold(0, |n, &c| n * 256 + u64::from(c))
}

/// A look into a line and its columns: as they are, or with one or two damages.
pub fn look(random: &mut Random, line: &[u8], columns: &[Entry]) -> Look {
    let entries = columns.iter().map(|e| Entry { first: e.first, last: e.last, code: packed(e.code) }).collect();
    let mut made = Look { line: line.to_vec(), entries, code: *b"ENL" };
    if made.entries.is_empty() && !random.once_in(8) {
        fill(random, &mut made, 3);
    }
    match random.below(8) {
        0 => {}
        1 => {
            damage(random, &mut made);
            damage(random, &mut made);
        }
        _ => damage(random, &mut made),
    }
    made.code = code(random, &made.entries);
    made
}

/// Mostly a code of the entries; else one that begins as one of them does, or any.
fn code(random: &mut Random, entries: &[Entry<u64>]) -> [u8; 3] {
    if entries.is_empty() || random.once_in(6) {
        return *random.pick(&[*b"ENL", *b"FXA", *b"ZZZ", *b"\0\0\0", *b"\0\xFF ", *b"enl"]);
    }
    let [.., a, b, c] = random.pick(entries).code.to_be_bytes();
    match random.below(6) {
        0 => [a, b, c ^ 1],
        1 => [a, b ^ 1, c],
        2 => [a ^ 1, b, c],
        _ => [a, b, c],
    }
}

/// An entry inside a line that has bytes, of a code that the entries have not.
fn another(random: &mut Random, made: &Look) -> Entry<u64> {
    let end = made.line.len().clamp(1, 255);
    let first = random.within(1, end);
    let last = random.within(first, end);
    let free = (0..).map(|n| packed([b'Y', b'0' + n / 10, b'0' + n % 10])).find(|code| made.entries.iter().all(|e| e.code != *code));
    Entry { first, last, code: free.unwrap() }
}

/// Entries put behind the others, up to so many.
fn fill(random: &mut Random, made: &mut Look, count: usize) {
    while made.entries.len() < count {
        let entry = another(random, made);
        made.entries.push(entry);
    }
}

/// One damage, or a change that is none: to the number of entries, to the line, or to one entry.
fn damage(random: &mut Random, made: &mut Look) {
    match random.below(10) {
        0 => fill(random, made, MOST_ENTRIES + 1),
        1 => fill(random, made, MOST_ENTRIES),
        2 => random.shuffle(&mut made.entries),
        3 => other_line(random, made),
        4 => number(random, made),
        5 => twice(random, made),
        _ => entry(random, made),
    }
}

/// The line cut, lengthened, or another of any bytes.
fn other_line(random: &mut Random, made: &mut Look) {
    match random.below(4) {
        0 => drop(made.line.pop()),
        1 => made.line.truncate(random.below(50)),
        2 => {
            made.line.resize(made.line.len() + random.within(1, 300), b'7');
            if let (Some(e), true) = (made.entries.last_mut(), random.once_in(3)) {
                e.last = made.line.len();
            }
        }
        _ => made.line = (0..random.below(60)).map(|_| random.below(256) as u8).collect(),
    }
}

/// A text that is a whole number, or just none, put into the line as an entry's.
fn number(random: &mut Random, made: &mut Look) {
    let Some(n) = at(random, made) else { return };
    let mut text = vec![*random.pick(b"0079"); *random.pick(&[0, 1, 3, 17, 18, 19, 20])];
    if random.once_in(2) {
        text.insert(0, b'-');
    }
    let first = random.below(made.line.len() + 1);
    made.line.splice(first..first, text.iter().copied());
    (made.entries[n].first, made.entries[n].last) = (first + 1, first + text.len());
}

/// The code of one entry given to another.
fn twice(random: &mut Random, made: &mut Look) {
    fill(random, made, 2);
    let from = random.below(made.entries.len());
    let to = (from + random.within(1, made.entries.len() - 1)) % made.entries.len();
    made.entries[to].code = made.entries[from].code;
}

/// The place of an entry, where there are any.
fn at(random: &mut Random, made: &Look) -> Option<usize> {
    (!made.entries.is_empty()).then(|| random.below(made.entries.len()))
}

/// One number of an entry changed.
fn entry(random: &mut Random, made: &mut Look) {
    let Some(n) = at(random, made) else { return };
    let (end, e) = (made.line.len(), &mut made.entries[n]);
    match random.below(12) {
        0 => e.first = 0,
        1 => (e.first, e.last) = (0, 0),
        2 => e.last = end,
        3 => e.last = end + 1,
        4 => e.last = end + random.within(1, 300),
        5 => e.last = e.first.saturating_sub(1),
        6 => e.last = random.below(e.first.max(1)),
        7 => e.first = 1,
        8 => e.first = e.last,
        9 => e.code ^= 1 << random.within(24, 63),
        10 => e.last += 256 << random.below(40),
        _ => e.first += 256 << random.below(40),
    }
}
