//! Generated files, and what the independent reading (tests/outside) says of each, for the tests of the Python package:
//!     told [--seed N] [--files N] [--out FOLDER]
//! writes FOLDER/files, the files one behind the other, and FOLDER/told, a line of JSON for each: its length, and its refusal or all that is read from it. Behind them stand pairs of copies,
//! a quarter as many, with what the merge of each is. No part of the library is used.

use outside::files::flights::any;
use outside::files::pairs::pair;
use outside::files::random::Random;
use outside::files::Run;
use outside::options::Options;
use outside::reading::summary::numbers;
use outside::reading::layouts::FAMILIES;
use outside::reading::{
    check_strict_alone, check_usual_alone, degrees, explained, look_number, merge, read_head, read_point, track, Accepted, Date, Family, Fix, Layout, Position,
    Record, Refusal, Which, LIMIT,
};
use std::fs;

/// A text of bytes, each as the character of that number.
fn text(bytes: &[u8]) -> String {
    let plain = |c: u8| (0x20..0x7F).contains(&c) && c != b'"' && c != b'\\';
    let told: String = bytes.iter().map(|&c| if plain(c) { char::from(c).to_string() } else { format!("\\u{c:04x}") }).collect();
    format!("\"{told}\"")
}

fn list(values: impl Iterator<Item = String>) -> String {
    format!("[{}]", values.collect::<Vec<_>>().join(","))
}

fn date(d: &Date) -> String {
    format!("[{},{},{}]", d.year, d.month, d.day)
}

fn refused(file: &[u8], r: &Refusal) -> String {
    format!("[{},{},{},{}]", r.number, r.line, r.byte, text(explained(file, r).unwrap().as_bytes()))
}

fn place(p: &Position) -> String {
    format!("{},{},{}", p.count.count, text(&[p.letter]), p.count.decimals)
}

fn turned(latitude: Position, longitude: Position) -> String {
    let (latitude, longitude) = degrees(latitude, longitude).unwrap();
    format!("{latitude:?},{longitude:?}")
}

/// The thirteen values of a record, then its degrees.
fn record(r: &Record) -> String {
    let Fix { time, latitude, longitude, validity, pressure, gnss } = r.fix;
    let fix = format!("{},{},{},{}", time.count, time.decimals, place(&latitude), place(&longitude));
    format!("[{},{},{fix},{},{pressure},{gnss},{}]", r.line, r.day, text(&[validity]), turned(latitude, longitude))
}

fn lines(file: &[u8]) -> Vec<&[u8]> {
    file.split_inclusive(|&c| c == b'\n').map(|line| &line[..line.len() - 2]).collect()
}

/// The columns of a family, each with its code, first and last byte; then the numbers of each line, null for a text that is none.
fn columns(file: &[u8], family: Family, layout: &Layout) -> String {
    let entries = list(layout.entries.iter().map(|e| format!("[{},{},{}]", text(&e.code), e.first, e.last)));
    let number = |line: &[u8], code: &[u8; 3]| look_number(line, &layout.entries, code).map_or("null".to_string(), |n| n.to_string());
    let of_family = lines(file).into_iter().filter(|line| line[0] == family.kind());
    let rows = list(of_family.map(|line| list(layout.entries.iter().map(|e| number(line, &e.code)))));
    format!("[{entries},{rows}]")
}

/// The letter of each line; small for an L line behind the last G.
fn kinds(file: &[u8]) -> String {
    let letters: Vec<u8> = lines(file).iter().map(|line| line[0]).collect();
    let sealed = letters.iter().rposition(|&c| c == b'G').unwrap_or(letters.len());
    text(&letters.iter().enumerate().map(|(n, &c)| if n > sealed { c.to_ascii_lowercase() } else { c }).collect::<Vec<u8>>())
}

/// The declaration: its head, the number of its line, and its points.
fn declaration(file: &[u8]) -> String {
    let all = lines(file);
    let Some(at) = all.iter().position(|line| line[0] == b'C') else { return "null".to_string() };
    let head = read_head(all[at]).unwrap();
    let points = all[at + 1..].iter().take(head.turns as usize + 4).map(|line| {
        let point = read_point(line).unwrap();
        format!("[{},{}]", turned(point.latitude, point.longitude), text(&line[18..]))
    });
    let flight = head.flight.as_ref().map_or("null".to_string(), date);
    let told = format!("{},{},{flight},{},{}", date(&head.declared), head.time, head.task, head.turns);
    format!("[{told},{},{},{}]", text(&all[at][25..]), at + 1, list(points))
}

/// What an accepted file says.
fn accepted(file: &[u8], said: &Accepted) -> String {
    let track = track(file).unwrap();
    let counts = format!("{},{},{},{},{}", said.lines, said.b_lines, said.k_lines, said.n_lines, said.signed);
    let strict = check_strict_alone(file).err().map_or("null".to_string(), |r| refused(file, &r));
    let families = FAMILIES.map(|family| format!("{}:{}", text(&[family.kind()]), columns(file, family, said.layouts.of(family))));
    let whole = list(numbers(&track).iter().map(|n| n.to_string()));
    format!(
        "\"date\":{},\"counts\":[{counts}],\"strict\":{strict},\"track\":{},\"summary\":{whole},\"columns\":{{{}}},\"kinds\":{},\"declaration\":{}",
        date(&said.date),
        list(track.iter().map(record)),
        families.join(","),
        kinds(file),
        declaration(file)
    )
}

fn told(file: &[u8]) -> String {
    let says = match check_usual_alone(file) {
        Ok(said) => accepted(file, &said),
        Err(r) => format!("\"refused\":{}", refused(file, &r)),
    };
    format!("{{\"bytes\":{},{says}}}\n", file.len())
}

/// Two copies and what their merge is, in an output that has room for both.
fn merged(first: &[u8], second: &[u8]) -> String {
    let says = match merge(first, second, (first.len() + second.len()).min(LIMIT)) {
        Ok(result) => format!("\"merged\":{}", text(&result)),
        Err(r) => {
            let whose = r.of.map_or(0, |which| if which == Which::First { 1 } else { 2 });
            format!("\"unmerged\":[{},{},{},{whose}]", r.refusal.number, r.refusal.line, r.refusal.byte)
        }
    };
    format!("{{\"first\":{},\"second\":{},{says}}}\n", first.len(), second.len())
}

fn main() {
    let options = Options::given(6_000, "target/python/told");
    let (mut files, mut says) = (Vec::new(), String::new());
    let run = Run::new(options.seed, 40);
    for n in 0..options.files {
        let mut random = run.random(n);
        // one in thirty with many fixes
        let file = if n % 30 == 29 { any(&mut random).file } else { run.make(&mut random, n).file };
        says += &told(&file);
        files.extend(file);
    }
    for n in 0..options.files / 4 {
        let pair = pair(&mut Random::new(options.seed.wrapping_mul(1_000_033).wrapping_add(n)), 20, n);
        says += &merged(&pair.first, &pair.second);
        files.extend([pair.first, pair.second].concat());
    }
    fs::create_dir_all(&options.out).expect("the folder");
    fs::write(format!("{}/files", options.out), files).expect("the files can be written");
    fs::write(format!("{}/told", options.out), says).expect("what is told of them can be written");
}
