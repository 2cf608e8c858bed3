//! The listing: what the program of that name prints of a file.

use super::file::{Accepted, check_usual};
use super::layouts::FAMILIES;
use super::lines::Fix;
use super::look::look;
use super::places::line;
use super::readers::{WithColumns, read_fix};
use super::refusals::{INPUT_OVER, Refusal};

/// "Program's input over 65,536 bytes" is 21.
const INPUT_LIMIT: usize = 65_536;

/// "Lends a table of 16,384 entries".
const ENTRIES: usize = 16_384;

/// The whole output; each printed line ends with LF.
pub fn listing(file: &[u8]) -> String {
    if file.len() > INPUT_LIMIT {
        return refusal(&Refusal::of(INPUT_OVER));
    }
    let mut table = vec![0; ENTRIES];
    match check_usual(file, &mut table) {
        Ok(said) => flight(file, &table, &said),
        Err(refused) => refusal(&refused),
    }
}

/// "A refusal prints only REFUSED, number, line, byte."
pub fn refusal(r: &Refusal) -> String {
    format!("REFUSED {} {} {}\n", r.number, r.line, r.byte)
}

/// An accepted file with its table. "OK: lines, B lines, K lines, B length, K length." It "gets the N count and N length as two more fields at its end".
pub fn flight(file: &[u8], table: &[u32], said: &Accepted) -> String {
    let layout = &said.layouts.fixes;
    let [b, k, n] = FAMILIES.map(|family| said.layouts.of(family).length(family));
    let mut out = format!("OK {} {} {} {b} {k} {} {n}\n", said.lines, said.b_lines, said.k_lines, said.n_lines);
    for number in 1..=said.lines {
        let (start, end) = line(file, table, number).unwrap();
        let text = &file[start..end];
        if text[0] == b'B' {
            out += &fix(number, text, &read_fix(text, layout).unwrap());
        }
    }
    out
}

/// "FIX: line, seconds, latitude and letter, longitude and letter, validity, pressure and GNSS altitude. COL: code and text, in layout order, under each fix." "Time order, day
/// number and the listing still use the plain counts."
pub fn fix(number: u64, text: &[u8], read: &WithColumns<Fix>) -> String {
    let (f, columns) = (&read.said, &read.columns);
    let letters = [f.latitude.letter, f.longitude.letter, f.validity].map(char::from);
    let [time, latitude, longitude] = [f.time, f.latitude.count, f.longitude.count].map(|finer| finer.plain());
    let places = format!("{latitude} {} {longitude} {}", letters[0], letters[1]);
    let mut out = format!("FIX {number} {time} {places} {} {} {}\n", letters[2], f.pressure, f.gnss);
    for column in columns {
        let e = look(text, columns, &column.code).unwrap();
        out += &format!("COL {} {}\n", String::from_utf8_lossy(&e.code), String::from_utf8_lossy(e.text(text)));
    }
    out
}
