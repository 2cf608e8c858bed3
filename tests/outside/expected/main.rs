//! Makes what the programs must print, from their inputs and the reading, and never from a program:
//!     expected [--check]
//! Run from the repository's root. Says of each expected output whether it is what the reading makes, and writes it anew where it is not; with --check fails there instead.

mod igc;
mod try_inputs;
mod writes;

use outside::reading::listing::listing;
use std::fs;

/// The words of a file, one to a line.
fn words(path: &str) -> Vec<Vec<u8>> {
    let words = fs::read(path).expect("the words");
    words.strip_suffix(b"\n").unwrap().split(|&c| c == b'\n').map(<[u8]>::to_vec).collect()
}

/// The words of a program's `args`.
fn args(program: &str) -> Vec<Vec<u8>> {
    words(&format!("crates/{program}/args"))
}

/// Where a file of a program's `data` stands.
fn data(program: &str, name: &[u8]) -> String {
    format!("crates/{program}/data/{}", std::str::from_utf8(name).expect("a file's name"))
}

/// Each expected output, and what it must be.
fn outputs() -> [(&'static str, Vec<u8>); 9] {
    let five = fs::read("crates/listing/stdin").expect("the listing's input");
    [
        ("crates/listing/stdout", listing(&five).into_bytes()),
        ("crates/try_inputs/stdout", try_inputs::printed()),
        ("tests/igc/listed", igc::listed()),
        ("tests/igc/checked", igc::checked()),
        ("tests/igc/tracks", igc::tracks()),
        ("tests/igc/summaries", igc::summaries()),
        ("tests/igc/badges", igc::badges()),
        ("tests/igc/said", igc::said()),
        ("c/expected/written", writes::written_from_c()),
    ]
}

/// The first line in which a committed output is not what the reading makes.
fn difference(committed: &[u8], made: &[u8]) -> String {
    let [theirs, ours] = [committed, made].map(|text| text.split(|&c| c == b'\n').collect::<Vec<_>>());
    let at = (0..).find(|&n| theirs.get(n) != ours.get(n)).unwrap();
    let [theirs, ours] = [theirs, ours].map(|lines| lines.get(at).map_or("(no line)".to_string(), |l| format!("\"{}\"", l.escape_ascii())));
    format!("line {}:\n  committed:   {theirs}\n  the reading: {ours}", at + 1)
}

fn main() {
    let words: Vec<String> = std::env::args().skip(1).collect();
    let only_check = match words.iter().map(String::as_str).collect::<Vec<_>>()[..] {
        [] => false,
        ["--check"] => true,
        _ => panic!("usage: expected [--check]"),
    };
    let mut others = 0;
    for (path, made) in outputs() {
        let committed = fs::read(path).unwrap_or_default();
        if committed == made {
            println!("expected: {path} is what the reading makes");
            continue;
        }
        others += 1;
        println!("expected: {path} is not what the reading makes, {}", difference(&committed, &made));
        if !only_check {
            fs::write(path, made).expect("the output can be written");
            println!("expected: {path} is written anew");
        }
    }
    if only_check && others > 0 {
        std::process::exit(1);
    }
}
