//! What is asked of the columns of a whole file: a family's letter, codes, and a list. Which cases a file has, its turn says, which is counted on from file to file.

use super::random::Random;
use crate::reading::layouts::FAMILIES;
use crate::reading::{Accepted, Answer, Family, MOST_ENTRIES};

#[derive(Clone, PartialEq, Eq, Debug)]
pub struct Ask {
    pub letter: u8,
    pub codes: Vec<u8>,
    /// How many numbers the list has.
    pub room: usize,
}

/// How many lines of a family a file has.
pub fn rows(said: &Accepted, family: Family) -> usize {
    let count = match family {
        Family::Fixes => said.b_lines,
        Family::Extras => said.k_lines,
        Family::Unsigned => said.n_lines,
    };
    count as usize
}

/// How long the list is where so many rows of so many numbers are needed: just enough, more, one short, a row short, none.
fn room(turn: u64, rows: usize, row: usize) -> usize {
    let needed = rows * row;
    match turn % 7 {
        0 | 1 => needed,
        2 => needed + 1,
        3 => needed + 2 + (turn % 50) as usize,
        4 => needed.saturating_sub(1),
        5 => needed.saturating_sub(row),
        _ => 0,
    }
}

/// Codes of a family's layout: all in its order, all in any order, one, or some in any order.
fn present(random: &mut Random, turn: u64, said: &Accepted, family: Family) -> Vec<[u8; 3]> {
    let mut codes: Vec<[u8; 3]> = said.layouts.of(family).entries.iter().map(|e| e.code).collect();
    if turn % 4 > 0 {
        random.shuffle(&mut codes);
    }
    match turn % 4 {
        2 => codes.truncate(1),
        3 => codes.truncate(random.within(1, codes.len().max(1))),
        _ => {}
    }
    codes
}

/// A code that a layout has not: one of another layout of the file, one that differs by a byte, or any three bytes.
fn absent(random: &mut Random, turn: u64, said: &Accepted, family: Family) -> [u8; 3] {
    let own = &said.layouts.of(family).entries;
    let others = FAMILIES.into_iter().flat_map(|other| &said.layouts.of(other).entries).map(|e| e.code);
    let lacking: Vec<[u8; 3]> = others.filter(|code| own.iter().all(|e| e.code != *code)).collect();
    let mut code = match own.first() {
        _ if turn % 2 == 0 && !lacking.is_empty() => *random.pick(&lacking),
        Some(_) if turn % 5 > 0 => {
            let mut code = random.pick(own).code;
            code[(turn % 3) as usize] ^= 0x20;
            code
        }
        _ => [0; 3].map(|_: u8| random.below(256) as u8),
    };
    while own.iter().any(|e| e.code == code) {
        code[0] = code[0].wrapping_add(1);
    }
    code
}

/// How many ways there are to spoil what is asked.
const WAYS: u64 = 19;

/// Codes and a letter that are spoiled in one way after the other: 17 or 19, now and then for two reasons.
fn spoiled(random: &mut Random, turn: u64, said: &Accepted, family: Family) -> (u8, Vec<u8>) {
    let mut letter = family.kind();
    let mut codes = present(random, turn / WAYS, said, family);
    let lacking = absent(random, turn / WAYS, said, family);
    let (way, mut bytes) = (turn % WAYS, None);
    // So that there is room for a code more, or for two.
    match way {
        9 | 10 | 12..=14 => codes.truncate(MOST_ENTRIES - 1),
        11 | 17 => codes.truncate(MOST_ENTRIES - 2),
        _ => {}
    }
    let between = random.below(codes.len() + 1);
    match way {
        0 => letter ^= 0x20,
        1 => letter = family.layout_kind(),
        2 => letter = *random.pick(b"\0ACDEFGHLOPZ\x7F\xFF"),
        3 => codes.clear(),
        4 => bytes = Some(3 * codes.len().max(1) - 1),
        5 => bytes = Some(3 * codes.len() + 1),
        6 => bytes = Some(3 * MOST_ENTRIES + 1 + (turn / WAYS) as usize % 2),
        7 => bytes = Some(3 * MOST_ENTRIES + 3),
        8 => bytes = Some(3 * random.within(MOST_ENTRIES + 2, 200)),
        9 => codes.extend(codes.last().copied()),
        10 => codes.extend(codes.first().copied()),
        11 => codes.splice(between..between, [lacking, lacking]).for_each(drop),
        12 => codes.insert(0, lacking),
        13 => codes.push(lacking),
        14 => codes.insert(between, lacking),
        15 => (letter, codes) = (letter ^ 0x20, vec![lacking]),
        16 => codes = vec![lacking],
        17 => codes = [&codes[..], &[lacking], &codes[..codes.len().min(1)]].concat(),
        _ => bytes = Some(1 + (turn / WAYS) as usize % 2),
    }
    let mut text = codes.concat();
    if let Some(length) = bytes {
        // Further codes are all different.
        text.extend((0..200).flat_map(|n: u8| [b'z', n, b'z']));
        text.truncate(length);
    }
    (letter, text)
}

/// What is asked of a file: of each family that has columns, and spoiled. Of a file that is refused, something that would be good of another, and something that
/// would not.
pub fn asks(turn: u64, answer: &Answer<Accepted>) -> Vec<Ask> {
    let mut random = Random::new(turn ^ 0x6121D);
    let none = Accepted::default();
    let said = answer.as_ref().unwrap_or(&none);
    let mut asks = Vec::new();
    for (n, family) in (0..).zip(FAMILIES) {
        let codes = present(&mut random, turn / 7 + n, said, family).concat();
        if !codes.is_empty() {
            asks.push(Ask { letter: family.kind(), room: room(turn + n, rows(said, family), codes.len() / 3), codes });
        }
    }
    if answer.is_err() {
        asks.push(Ask {
            letter: FAMILIES[(turn % 3) as usize].kind(),
            codes: b"FXASIUENL"[..3 + 3 * (turn % 3) as usize].to_vec(),
            room: 4,
        });
    }
    // One spoiled call for a file that is refused anyway, three for another.
    let with_columns: Vec<Family> = FAMILIES.into_iter().filter(|&family| !said.layouts.of(family).entries.is_empty()).collect();
    for turn in if answer.is_ok() { 3 * turn..3 * turn + 3 } else { turn..turn + 1 } {
        let at = (turn / WAYS) as usize;
        let family = if with_columns.is_empty() || turn % 9 == 0 { FAMILIES[at % 3] } else { with_columns[at % with_columns.len()] };
        let (letter, codes) = spoiled(&mut random, turn, said, family);
        asks.push(Ask { letter, room: room(turn / 3, rows(said, family), codes.len() / 3), codes });
    }
    asks
}
