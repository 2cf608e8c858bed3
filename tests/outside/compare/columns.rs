//! A line held with its columns: what hive_fix and hive_extra tell and leave in all that is lent, and looks into that, into damaged entries and into any.

use crate::hold::{Held, Tally, fix_values, told};
use crate::library::{self, ANSWER, ENTRIES, Lent};
use outside::files::looks::{Look, look, packed};
use outside::files::random::Random;
use outside::reading::refusals::BAD_VALUE;
use outside::reading::{self, Answer, Entry, Fix, MOST_ENTRIES, Refusal, WithColumns};

/// Entries as C has them: how many, then code, first and last byte of each, and 0 behind them. Those past the 13 that have room are only counted.
fn numbers(entries: &[Entry<u64>]) -> Vec<u64> {
    let each = entries.iter().take(MOST_ENTRIES).flat_map(|e| [e.code, e.first as u64, e.last as u64]);
    let mut numbers: Vec<u64> = [entries.len() as u64].into_iter().chain(each).collect();
    numbers.resize(ENTRIES, 0);
    numbers
}

/// The columns that a reading gives, as C has them; all 0 where it is refused.
fn columns<T>(answer: &Answer<WithColumns<T>>) -> Vec<u64> {
    let columns: &[Entry] = answer.as_ref().map_or(&[], |read| &read.columns);
    let packed = columns.iter().map(|e| Entry { first: e.first, last: e.last, code: packed(e.code) });
    numbers(&packed.collect::<Vec<_>>())
}

/// What a call must leave: the answer, and what else is lent for writing.
fn left<T, const N: usize>(answer: &Answer<T>, values: impl Fn(&T) -> [u64; N]) -> Lent {
    let told = told(answer, values);
    Lent { number: told.number, answer: told.answer.to_vec(), ..Lent::of(0, 0, 0, 0) }
}

/// A B line: its fix, its heights and its columns; then looks.
pub fn fix(tally: &mut Tally, random: &mut Random, line: &[u8], given: &[u8], answer: &Answer<WithColumns<Fix>>) -> Held<()> {
    let heights = answer.as_ref().map_or(vec![0, 0], |read| fix_values(&read.said).heights().to_vec());
    let expected = Lent { heights, entries: columns(answer), ..left(answer, |read| fix_values(&read.said).answered()) };
    let raw = library::fix(line, given, Lent::of(ANSWER, 2, ENTRIES, 0));
    tally.same("hive_fix", &(line, given), raw.number, raw, expected)?;
    if random.once_in(20) {
        for (a, h, e) in
            [(ANSWER - 1, 2, ENTRIES), (ANSWER, 1, ENTRIES), (ANSWER, 3, ENTRIES), (ANSWER, 2, ENTRIES - 1), (ANSWER, 2, ENTRIES + 1)]
        {
            let lent = Lent::of(a, h, e, 0);
            let raw = library::fix(line, given, lent.clone());
            tally.same("hive_fix", &("lent", a, h, e), raw.number, raw, Lent { number: BAD_VALUE, ..lent })?;
        }
    }
    looks(tally, random, line, answer)
}

/// A K or an N line: its time and its columns; then looks.
pub fn extra(tally: &mut Tally, random: &mut Random, line: &[u8], given: &[u8], answer: &Answer<WithColumns<u32>>) -> Held<()> {
    let expected = Lent { entries: columns(answer), ..left(answer, |read| [read.said.into()]) };
    let raw = library::extra(line, given, Lent::of(ANSWER, 0, ENTRIES, 0));
    tally.same("hive_extra", &(line, given), raw.number, raw, expected)?;
    if random.once_in(20) {
        for (a, e) in [(ANSWER - 1, ENTRIES), (ANSWER + 1, ENTRIES), (ANSWER, ENTRIES - 1), (ANSWER, ENTRIES + 1), (0, 0)] {
            let lent = Lent::of(a, 0, e, 0);
            let raw = library::extra(line, given, lent.clone());
            tally.same("hive_extra", &("lent", a, e), raw.number, raw, Lent { number: BAD_VALUE, ..lent })?;
        }
    }
    looks(tally, random, line, answer)
}

/// Each column by its code, in the entries that the reading gives; then looks that are made, and entries of another length.
fn looks<T>(tally: &mut Tally, random: &mut Random, line: &[u8], answer: &Answer<WithColumns<T>>) -> Held<()> {
    let entries = columns(answer);
    let none = Vec::new();
    let columns = answer.as_ref().map_or(&none, |read| &read.columns);
    for code in columns.iter().map(|e| e.code).chain([*b"ENL"]) {
        // By the reading, where codes are three bytes.
        let (found, number) = (reading::look(line, columns, &code), reading::look_number(line, columns, &code));
        held(tally, line, &entries, code, &found, &number)?;
    }
    for _ in 0..2 {
        let one = look(random, line, columns);
        made(tally, random, &one)?;
    }
    if random.once_in(20) {
        wrong_lengths(tally, line, &entries)?;
    }
    Ok(())
}

/// What both looks must tell and leave.
fn held<C>(tally: &mut Tally, line: &[u8], entries: &[u64], code: [u8; 3], found: &Answer<Entry<C>>, number: &Answer<i64>) -> Held<()> {
    let raw = library::look(line, entries, code, Lent::of(ANSWER, 0, 0, 0));
    let expected = left(found, |e| [e.first as u64 - 1, e.width() as u64]);
    tally.same("hive_look", &(line, entries, code), raw.number, raw, expected)?;
    let raw = library::look_number(line, entries, code, Lent::of(ANSWER, 0, 0, 1));
    let expected = Lent { value: vec![number.unwrap_or(0)], ..left(number, |_| []) };
    tally.same("hive_look_number", &(line, entries, code), raw.number, raw, expected)
}

/// A look that is made. Behind its entries stand unused ones, which have its code, or numbers that no entry has. In C a code is below 2^32 and a byte at most 255, and other
/// numbers are 17.
fn made(tally: &mut Tally, random: &mut Random, made: &Look) -> Held<()> {
    let Look { line, entries, code } = made;
    let room = MOST_ENTRIES.saturating_sub(entries.len());
    let unused = match random.below(3) {
        0 => vec![],
        1 => vec![Entry { first: 1, last: 1, code: packed(*code) }; room],
        _ => vec![Entry { first: 0, last: usize::MAX, code: u64::MAX }; room],
    };
    let mut lent = numbers(&[&entries[..], &unused].concat());
    lent[0] = match entries.len() {
        count if count > MOST_ENTRIES => *random.pick(&[14, 15, 255, 256, 269, 1 << 32, u64::MAX]),
        count => count as u64,
    };
    let mut found = reading::look(line, entries, &packed(*code));
    let mut number = reading::look_number(line, entries, &packed(*code));
    tally.looks.add(made, &unused, &number);
    if made.is_over() {
        (found, number) = (Err(Refusal::of(BAD_VALUE)), Err(Refusal::of(BAD_VALUE)));
    }
    held(tally, line, &lent, *code, &found, &number)
}

/// Entries of another length are 17, and what is lent for writing is then as of any refusal; an answer or a number of another length is 17, and nothing is changed.
fn wrong_lengths(tally: &mut Tally, line: &[u8], entries: &[u64]) -> Held<()> {
    let refused = Err(Refusal::of(BAD_VALUE));
    for length in [0, 1, ENTRIES - 1, ENTRIES + 1] {
        let mut other = entries.to_vec();
        other.resize(length, 0);
        held::<u64>(tally, line, &other, *b"ENL", &Err(Refusal::of(BAD_VALUE)), &refused)?;
    }
    for (a, n) in [(ANSWER - 1, 1), (ANSWER + 1, 1), (0, 1), (ANSWER, 0), (ANSWER, 2)] {
        let lent = Lent::of(a, 0, 0, n);
        let unchanged = Lent { number: BAD_VALUE, ..lent.clone() };
        if a != ANSWER {
            let raw = library::look(line, entries, *b"ENL", lent.clone());
            tally.same("hive_look", &("lent", a), raw.number, raw, unchanged.clone())?;
        }
        let raw = library::look_number(line, entries, *b"ENL", lent);
        tally.same("hive_look_number", &("lent", a, n), raw.number, raw, unchanged)?;
    }
    Ok(())
}
