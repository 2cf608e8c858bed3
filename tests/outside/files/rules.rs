//! The fields of a line by its role, as far as breaking one needs to be known: texts that surely break a field's rule, and texts at the rule's limits.

use super::generate::{Line, valid};
use super::random::Random;
use crate::reading::Role;

/// The rule of a field.
#[derive(Clone, Copy, Debug)]
pub enum Rule {
    Codes,
    Digits,
    Time,
    Date,
    Latitude,
    Longitude,
    Altitude,
    OneOf(&'static [u8]),
    Word,
}

/// A field: its first byte, its width and its rule.
pub type Field = (usize, usize, Rule);

/// The fields of a line, from the left.
pub fn fields(line: &Line) -> Vec<Field> {
    use Rule::*;
    let end = line.text.len();
    match line.role {
        Role::Recorder => vec![(2, 3, Codes), (5, 3, Codes)],
        Role::Day => vec![(2, 4, Word), (6, 6, Date)],
        Role::Header => vec![(2, 1, OneOf(b"FO")), (3, 3, Codes)],
        Role::Fix => vec![(2, 6, Time), (8, 8, Latitude), (16, 9, Longitude), (25, 1, OneOf(b"AV")), (26, 5, Altitude), (31, 5, Altitude)],
        Role::Extra | Role::Unsigned => vec![(2, 6, Time)],
        Role::Event => vec![(2, 6, Time), (8, 3, Codes)],
        Role::Satellites => {
            let pairs = (8..end).step_by(2).map(|at| (at, 2, Codes));
            [(2, 6, Time)].into_iter().chain(pairs).collect()
        }
        Role::Differential => vec![(2, 1, OneOf(b"12")), (3, 4, Codes)],
        Role::Head => vec![(2, 6, Date), (8, 6, Time), (14, 6, Date), (20, 4, Digits), (24, 2, Digits)],
        Role::Point => vec![(2, 8, Latitude), (10, 9, Longitude)],
        Role::Layout(_) => {
            let entries = (4..end).step_by(7).flat_map(|at| [(at, 2, Digits), (at + 2, 2, Digits), (at + 4, 3, Codes)]);
            [(2, 2, Digits)].into_iter().chain(entries).collect()
        }
        Role::Other | Role::Remark | Role::Seal => vec![],
    }
}

impl Rule {
    /// The refusal where the rule is broken: 22 a time, 23 a latitude or longitude, 24 an altitude, 25 a date, 9 any other.
    pub fn number(self) -> u32 {
        match self {
            Rule::Time => 22,
            Rule::Latitude | Rule::Longitude => 23,
            Rule::Altitude => 24,
            Rule::Date => 25,
            Rule::Codes | Rule::Digits | Rule::OneOf(_) | Rule::Word => 9,
        }
    }

    /// A field changed so that it surely breaks its rule, by characters that are valid.
    pub fn spoil(self, random: &mut Random, field: &mut [u8]) {
        let place = random.below(field.len());
        let not_digit = *random.pick(b"-+ :/AaOl");
        match self {
            Rule::Codes => field[place] = *random.pick(b"- abz@[`:/"),
            Rule::Digits => field[place] = not_digit,
            Rule::Time => match random.below(5) {
                0 => field[..2].copy_from_slice(b"24"),
                1 => field[2..4].copy_from_slice(b"60"),
                // The leap second breaks no rule.
                2 if field.starts_with(b"2359") => field[4..6].copy_from_slice(b"61"),
                2 => field[4..6].copy_from_slice(b"60"),
                3 => field[2 * random.within(0, 2)] = b'9',
                _ => field[place] = not_digit,
            },
            Rule::Date => {
                let wrong: [&[u8]; 10] =
                    [b"000124", b"320124", b"310424", b"290223", b"300224", b"010024", b"011324", b"290279", b"290281", b"000001"];
                match random.below(4) {
                    0 => field[place] = not_digit,
                    _ => field.copy_from_slice(*random.pick(&wrong)),
                }
            }
            Rule::Latitude => spoil_position(random, field, 2, &[b"9000001", b"9100000", b"9999999"], b"EWns 0"),
            Rule::Longitude => spoil_position(random, field, 3, &[b"18000001", b"19000000", b"99959999"], b"NSew 0"),
            Rule::Altitude => match random.below(5) {
                0 => field.copy_from_slice(b"-0000"),
                1 => field[random.within(1, 4)] = b'-',
                2 => field[0] = b'+',
                3 => field[random.within(1, 4)] = not_digit,
                _ => field.copy_from_slice(b"--001"),
            },
            Rule::OneOf(good) => {
                let wrong: Vec<u8> = valid().into_iter().filter(|c| !good.contains(c)).collect();
                field[0] = *random.pick(&wrong);
            }
            Rule::Word => field[place] = *random.pick(b"GAfde 0"),
        }
    }

    /// Texts just inside the rule's limits and just outside.
    pub fn limits(self) -> Vec<Vec<u8>> {
        let words = |all: &str| all.split(' ').map(|word| word.as_bytes().to_vec()).collect();
        match self {
            Rule::Codes | Rule::Digits => vec![],
            Rule::Time => words("000000 235959 240000 236000 235960 230000 235961 235969 235860 225960 133960 120060 000060 245960"),
            Rule::Date => {
                let lasts = (1..=12u32).zip([31, 28, 31, 30, 31, 30, 31, 31, 30, 31, 30, 31]);
                let ends = lasts.flat_map(|(month, last)| [last, last + 1].map(|day| format!("{day:02}{month:02}23").into_bytes()));
                let others = "290200 290204 290220 290224 290276 290279 290280 290281 290296 290299 290201 290202 290210 300224 300200 000000 000001 000100 010000 010024 001024 011324 010180 311279";
                ends.chain::<Vec<Vec<u8>>>(words(others)).collect()
            }
            Rule::Latitude => words(
                "9000000N 9000000S 9000001N 9000001S 9060000N 8959999S 8960000N 4560000N 4559999N 0000000S 0000000N 9100000N 4500000E 4500000n",
            ),
            Rule::Longitude => words(
                "18000000E 18000000W 18000001E 18000001W 18060000W 17959999E 17960000W 04560000E 04559999W 00000000W 00000000E 18100000E 04500000N 04500000w 99999999E",
            ),
            Rule::Altitude => words("-0000 -0001 -9999 99999 00000 --001 0-001 +0012 -00a1 -0010 -1000"),
            Rule::OneOf(good) => {
                let mut near: Vec<u8> = good.iter().flat_map(|&c| [c - 1, c, c + 1, c.to_ascii_lowercase()]).collect();
                near.dedup();
                near.into_iter().map(|c| vec![c]).collect()
            }
            Rule::Word => words("FDTE ODTE FDTF FDUE FETE GDTE"),
        }
    }

    /// Characters just inside and just outside those of each byte.
    pub fn limit_characters(self) -> &'static [u8] {
        match self {
            Rule::Codes => b"/09:@AZ[",
            Rule::OneOf(_) | Rule::Word => b"",
            _ => b"/:",
        }
    }
}

/// A position with minutes of 60 or more, over its limit, with a letter of the other kind, or with a digit spoiled.
fn spoil_position(random: &mut Random, field: &mut [u8], wide: usize, over: &[&[u8]], letters: &[u8]) {
    match random.below(4) {
        0 => {
            field[..wide].fill(b'0');
            field[wide] = *random.pick(b"6789");
        }
        1 => field[..wide + 5].copy_from_slice(*random.pick(over)),
        2 => field[wide + 5] = *random.pick(letters),
        _ => field[random.below(wide + 5)] = *random.pick(b"-+ :/AaOl"),
    }
}
