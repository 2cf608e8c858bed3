//! The fields of a line, each both ways: the value that a text tells, and the text that tells a value.

use super::characters::is_code;
use super::finer::Finer;
use super::refusals::{self, FORM, Fault, Read};

/// A kind of field: the refusal where its rule is broken, its width, and the value of its text.
pub struct Field<T> {
    number: u32,
    width: usize,
    value: fn(&[u8]) -> Option<T>,
}

impl<T> Field<T> {
    /// The field of a line whose first byte is `first`, counted from 1.
    pub fn at(&self, line: &[u8], first: usize) -> Read<T> {
        (self.value)(&line[first - 1..first - 1 + self.width]).ok_or(Fault { number: self.number, byte: first })
    }
}

// "A time field that breaks its rule becomes TIME, a latitude or longitude POSITION, an altitude ALTITUDE, a date DATE; every other field stays 9."
pub const TIME: Field<u32> = Field { number: refusals::TIME, width: 6, value: time };
pub const DATE: Field<Date> = Field { number: refusals::DATE, width: 6, value: date };
pub const DATE_OR_NONE: Field<Option<Date>> = Field { number: refusals::DATE, width: 6, value: date_or_none };
pub const LATITUDE: Field<Position> = Field { number: refusals::POSITION, width: 8, value: |text| NORTH_SOUTH.position(text) };
pub const LONGITUDE: Field<Position> = Field { number: refusals::POSITION, width: 9, value: |text| EAST_WEST.position(text) };
pub const ALTITUDE: Field<i32> = Field { number: refusals::ALTITUDE, width: 5, value: altitude };
pub const FDTE: Field<()> = Field { number: FORM, width: 4, value: |text| (text == b"FDTE").then_some(()) };

/// "Digit fields hold 0 to 9 only."
pub const fn digits_of(width: usize) -> Field<u64> {
    Field { number: FORM, width, value: digits }
}

/// ""Code" characters are A to Z and 0 to 9."
pub const fn codes_of(width: usize) -> Field<()> {
    Field { number: FORM, width, value: codes }
}

/// A field of one character out of a few.
pub fn one_of(letters: &[u8], line: &[u8], at: usize) -> Read<u8> {
    let letter = line[at - 1];
    letters.contains(&letter).then_some(letter).ok_or(Fault { number: FORM, byte: at })
}

pub fn digits(text: &[u8]) -> Option<u64> {
    text.iter().try_fold(0u64, |n, c| c.is_ascii_digit().then(|| n * 10 + u64::from(c - b'0')))
}

fn codes(text: &[u8]) -> Option<()> {
    text.iter().all(|&c| is_code(c)).then_some(())
}

/// The leap second, 235960: "That time reads as 86,400".
pub const LEAP: u32 = 86_400;

/// "HHMMSS, 00 to 23, 00 to 59, 00 to 59, read as seconds of the day." "Seconds are 00 to 59, and also 60 when hours and minutes are 23 and 59."
fn time(text: &[u8]) -> Option<u32> {
    let (h, m, s) = (digits(&text[0..2])?, digits(&text[2..4])?, digits(&text[4..6])?);
    let most = if (h, m) == (23, 59) { 60 } else { 59 };
    (h <= 23 && m <= 59 && s <= most).then_some((h * 3600 + m * 60 + s) as u32)
}

/// "Writers accept 86,400 and write 235960."
pub fn time_text(seconds: u32) -> String {
    if seconds == LEAP {
        return "235960".to_string();
    }
    format!("{:02}{:02}{:02}", seconds / 3600, seconds / 60 % 60, seconds % 60)
}

#[derive(Clone, Copy, PartialEq, Eq, Debug, Default)]
pub struct Date {
    pub day: u32,
    pub month: u32,
    pub year: u32,
}

pub fn days_in(month: u32, year: u32) -> u32 {
    let leap = year % 4 == 0 && (year % 100 != 0 || year % 400 == 0);
    match month {
        1 | 3 | 5 | 7 | 8 | 10 | 12 => 31,
        4 | 6 | 9 | 11 => 30,
        2 if leap => 29,
        2 => 28,
        _ => 0,
    }
}

/// DDMMYY: "Years 80 to 99 are 1980 to 1999, 00 to 79 are 2000 to 2079 (h). The day must exist in that month and year."
fn date(text: &[u8]) -> Option<Date> {
    let (day, month, short) = (digits(&text[0..2])? as u32, digits(&text[2..4])? as u32, digits(&text[4..6])? as u32);
    let year = if short >= 80 { 1900 + short } else { 2000 + short };
    (1 <= day && day <= days_in(month, year)).then_some(Date { day, month, year })
}

pub fn date_text(d: &Date) -> String {
    format!("{:02}{:02}{:02}", d.day, d.month, d.year % 100)
}

/// "000000 means not given; every other value must be a date".
fn date_or_none(text: &[u8]) -> Option<Option<Date>> {
    if text == b"000000" { Some(None) } else { date(text).map(Some) }
}

pub fn date_or_none_text(d: &Option<Date>) -> String {
    d.map_or("000000".to_string(), |d| date_text(&d))
}

/// "A count of thousandths of a minute with its letter kept beside it." In a fix the count may have extra decimals; in a C point it has none.
#[derive(Clone, Copy, PartialEq, Eq, Debug)]
pub struct Position {
    pub count: Finer,
    pub letter: u8,
}

impl Position {
    /// A position whose count has no extra decimals.
    pub const fn whole(count: u64, letter: u8) -> Position {
        Position { count: Finer::whole(count), letter }
    }
}

/// What latitude and longitude differ in: the digits of the degrees, the greatest count, and the letters, the one that the map negates last.
#[derive(Clone, Copy)]
pub struct Axis {
    pub wide: usize,
    pub most: u64,
    pub letters: [u8; 2],
}

pub const NORTH_SOUTH: Axis = Axis { wide: 2, most: 5_400_000, letters: *b"NS" };
pub const EAST_WEST: Axis = Axis { wide: 3, most: 10_800_000, letters: *b"EW" };

impl Axis {
    /// "Latitude at most 5,400,000, longitude at most 10,800,000", and as much with extra decimals, "up to 4".
    pub fn allows(&self, p: &Position) -> bool {
        let Finer { count, decimals } = p.count;
        decimals <= 4 && count <= self.most * 10u64.pow(decimals.into()) && self.letters.contains(&p.letter)
    }

    /// Degrees, MMmmm and a letter. "Minutes are 00 to 59."
    fn position(&self, text: &[u8]) -> Option<Position> {
        let wide = self.wide;
        let (degrees, minutes, thousandths) = (digits(&text[..wide])?, digits(&text[wide..wide + 2])?, digits(&text[wide + 2..wide + 5])?);
        let p = Position::whole((degrees * 60 + minutes) * 1000 + thousandths, text[wide + 5]);
        (minutes <= 59 && self.allows(&p)).then_some(p)
    }

    /// The field of a position's plain count.
    pub fn text(&self, p: &Position) -> Vec<u8> {
        let (wide, plain) = (self.wide, p.count.plain());
        let mut text = format!("{:0wide$}{:02}{:03}", plain / 60_000, plain / 1000 % 60, plain % 1000).into_bytes();
        text.push(p.letter);
        text
    }
}

/// "Five digits, or a minus and four digits that are not all zero."
fn altitude(text: &[u8]) -> Option<i32> {
    match text {
        [b'-', rest @ ..] => digits(rest).filter(|&n| n != 0).map(|n| -(n as i32)),
        _ => digits(text).map(|n| n as i32),
    }
}

/// Rust counts the minus in the width, as the rules do.
pub fn altitude_text(metres: i32) -> String {
    format!("{metres:05}")
}
