//! The reading held against the documents' own examples, and against others worked out by hand from them. Each file of this folder has the tests of one concern.
#![cfg(test)]

mod damaged;
mod declared;
mod files;
mod finer;
mod grid;
mod headers;
mod kinds;
mod layouts;
mod leap;
mod lines;
mod looks;
mod made;
mod marked;
mod merged;
mod places;
mod printed;
mod programs;
mod readers;
mod shelf;
mod signed;
mod summary;
mod track;
mod unsigned;
mod writers;

use outside::reading::{
    Answer, Entry, Finer, Fix, Layout, Position, Refusal, check_strict, check_usual, look, look_number, read_extra, read_fix,
};

const A: &str = "AXYZ001";
const DATE: &str = "HFDTE150724";
const I2: &str = "I023638FXA3940SIU";
const B40: &str = "B1200005130000N00015000WA001000012001208";
const B35: &str = "B1200005130000N00015000WA0010000120";
const G: &str = "GABC";
/// No turn points: 4 points follow.
const HEAD: &str = "C150724110000000000000100";
const POINT: &str = "C5130000N00015000W";

/// The parts of B35, to be changed one by one.
struct Parts<'a> {
    time: &'a str,
    lat: &'a str,
    lon: &'a str,
    validity: &'a str,
    pressure: &'a str,
    gnss: &'a str,
}

const PARTS: Parts = Parts { time: "120000", lat: "5130000N", lon: "00015000W", validity: "A", pressure: "00100", gnss: "00120" };

fn b(p: Parts) -> String {
    ["B", p.time, p.lat, p.lon, p.validity, p.pressure, p.gnss].concat()
}

fn x(count: usize) -> String {
    "x".repeat(count)
}

/// Lines, each with its CR LF.
fn file<L: AsRef<[u8]>>(lines: &[L]) -> Vec<u8> {
    lines.iter().flat_map(|l| l.as_ref().iter().copied().chain(*b"\r\n")).collect()
}

/// A verdict on a file: number, line and byte.
type Verdict = (u32, u64, u64);

const OK: Verdict = (0, 0, 0);

/// The usual check's verdict with a table of so many entries, which is looked at on the way: it has the offset of each good line, and else what was lent. The strict check
/// leaves the same table, and gives the same verdict but where a file is accepted that is not signed.
fn verdict_with(room: usize, file: &[u8]) -> Verdict {
    let mut table = vec![7; room];
    let answer = check_usual(file, &mut table);
    let mut strict_table = vec![7; room];
    let strict = check_strict(file, &mut strict_table);
    assert_eq!(strict_table, table, "the strict check's table");
    assert!(strict == answer || answer.as_ref().is_ok_and(|said| !said.signed), "the strict check: {strict:?}");
    let (verdict, good) = match &answer {
        Ok(said) => (OK, said.lines),
        Err(r) => ((r.number, r.line, r.byte), r.line.saturating_sub(1)),
    };
    let past_ends = (2..file.len()).filter(|&at| file[at - 2..at] == *b"\r\n");
    let mut offsets: Vec<u32> = [0].into_iter().chain(past_ends).take(good as usize).map(|at| at as u32).collect();
    offsets.resize(room, 7);
    assert_eq!(table, offsets, "the table");
    verdict
}

fn verdict(file: &[u8]) -> Verdict {
    verdict_with(100, file)
}

/// The strict check's verdict.
fn strict_verdict(file: &[u8]) -> Verdict {
    check_strict(file, &mut [7; 200]).err().map_or(OK, |r| (r.number, r.line, r.byte))
}

/// The verdict on A, the date line, these lines, G.
fn body<L: AsRef<[u8]>>(lines: &[L]) -> Verdict {
    let inner: Vec<&[u8]> = lines.iter().map(|l| l.as_ref()).collect();
    verdict(&file(&[&[A.as_bytes(), DATE.as_bytes()], inner.as_slice(), &[G.as_bytes()]].concat()))
}

/// The same line as often as is said.
fn times(count: usize, line: &str) -> Vec<&str> {
    vec![line; count]
}

/// The refusal of a reading.
fn no<T>(number: u32, byte: u64) -> Answer<T> {
    Err(Refusal { number, line: 0, byte })
}

/// Entries from first byte, last byte and code.
fn entries(all: &[(usize, usize, &str)]) -> Vec<Entry> {
    all.iter().map(|&(first, last, code)| Entry { first, last, code: code.as_bytes().try_into().unwrap() }).collect()
}

/// A layout from its entries.
fn layout(all: &[(usize, usize, &str)]) -> Layout {
    Layout { entries: entries(all) }
}

/// The fix of a B line, without its columns.
fn fix_of(line: &[u8], y: &Layout) -> Answer<Fix> {
    read_fix(line, y).map(|read| read.said)
}

/// A position without extra decimals.
const fn at(count: u64, letter: u8) -> Position {
    Position::whole(count, letter)
}

/// The time of a K or an N line, without its columns.
fn time_of(line: &[u8], y: &Layout) -> Answer<u32> {
    read_extra(line, y).map(|read| read.said)
}

/// The columns of a B, K or N line.
fn columns_of(line: &str, y: &Layout) -> Answer<Vec<Entry>> {
    let line = line.as_bytes();
    if line.starts_with(b"B") { read_fix(line, y).map(|read| read.columns) } else { read_extra(line, y).map(|read| read.columns) }
}

/// The text of a column, by a reading of its line and a look into that answer.
fn text(line: &str, y: &Layout, code: &[u8; 3]) -> Answer<String> {
    let found = look(line.as_bytes(), &columns_of(line, y)?, code)?;
    Ok(String::from_utf8(found.text(line.as_bytes()).to_vec()).unwrap())
}

/// That column as a number.
fn number(line: &str, y: &Layout, code: &[u8; 3]) -> Answer<i64> {
    look_number(line.as_bytes(), &columns_of(line, y)?, code)
}

/// FXA at 36 to 38, SIU at 39 and 40: what I2 tells.
fn two_columns() -> Layout {
    layout(&[(36, 38, "FXA"), (39, 40, "SIU")])
}

/// Columns Z00, Z01 .. of one byte each, from 36 on.
fn narrow_columns(count: usize) -> Layout {
    let codes: Vec<String> = (0..count).map(|n| format!("Z{n:02}")).collect();
    layout(&codes.iter().enumerate().map(|(n, code)| (36 + n, 36 + n, code.as_str())).collect::<Vec<_>>())
}
