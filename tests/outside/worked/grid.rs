//! Columns of a whole file: their numbers worked out by hand, and what must hold of any file's.

use super::*;
use outside::files::Run;
use outside::files::grids::asks;
use outside::files::reached_grid::Reached;
use outside::files::wide::wide;
use outside::reading::layouts::FAMILIES;
use outside::reading::{NO_NUMBER, check_usual_alone, grid_into};

/// What a list holds at a place before a call.
fn lent(n: usize) -> i64 {
    -7_000_000_000_000_000_000 - n as i64
}

/// The answer with a list of this length, and the list afterwards.
fn put(file: &[u8], letter: u8, codes: &str, length: usize) -> (Answer<usize>, Vec<i64>) {
    let mut list: Vec<i64> = (0..length).map(lent).collect();
    (grid_into(file, letter, codes.as_bytes(), &mut list), list)
}

/// How many lines there are, and the numbers that were put into a list with room for three more.
fn numbers(file: &[u8], letter: u8, codes: &str, count: usize) -> (usize, Vec<i64>) {
    let (answer, mut list) = put(file, letter, codes, count + 3);
    assert_eq!(list.split_off(count), (count..count + 3).map(lent).collect::<Vec<_>>(), "numbers past the last row");
    (answer.unwrap(), list)
}

/// The refusal with a list of this length, which stays.
fn refused(file: &[u8], letter: u8, codes: &str, length: usize) -> Verdict {
    let (answer, list) = put(file, letter, codes, length);
    assert_eq!(list, (0..length).map(lent).collect::<Vec<_>>(), "the list of a refused call");
    let r = answer.unwrap_err();
    (r.number, r.line, r.byte)
}

/// The listing's file: one B line with FXA 012 and SIU 08.
fn five() -> Vec<u8> {
    file(&[A, DATE, I2, B40, G])
}

#[test]
fn rows_and_codes() {
    assert_eq!(numbers(&five(), b'B', "FXASIU", 2), (1, vec![12, 8]));
    assert_eq!(numbers(&five(), b'B', "SIUFXA", 2), (1, vec![8, 12]));
    assert_eq!(numbers(&five(), b'B', "SIU", 1), (1, vec![8]));
    // two lines of each family, those of the others between them; a row for each line, in the order of the codes
    let b = |columns: &str| format!("{B35}{columns}");
    let lines = [
        A,
        DATE,
        "I023638FXA3940SIU",
        "J020812ABC1315FLP",
        "M010809FXA",
        &b("00100"),
        "K120000-0012-07",
        "N12000042",
        "K12000012 34007",
        "LX",
        &b("99917"),
        "N120000-1",
        "E120000PEV",
    ];
    // FXA is three wide where it is listed: M's has two
    assert_eq!(refused(&file(&lines), b'N', "FXA", 9), (12, 5, 4));
    let lines = lines.map(|line| if line.starts_with('M') { "M010809ZZZ" } else { line });
    let all = file(&lines);
    assert_eq!(numbers(&all, b'B', "FXASIU", 4), (2, vec![1, 0, 999, 17]));
    assert_eq!(numbers(&all, b'B', "SIU", 2), (2, vec![0, 17]));
    assert_eq!(numbers(&all, b'K', "ABCFLP", 4), (2, vec![-12, -7, NO_NUMBER, 7]));
    assert_eq!(numbers(&all, b'K', "FLPABC", 4), (2, vec![-7, -12, 7, NO_NUMBER]));
    assert_eq!(numbers(&all, b'N', "ZZZ", 2), (2, vec![42, -1]));
    // each family by its own layout
    for (letter, codes) in [(b'B', "ABC"), (b'B', "ZZZ"), (b'K', "FXA"), (b'K', "ZZZ"), (b'N', "FLP"), (b'N', "SIU")] {
        assert_eq!(refused(&all, letter, codes, 9), (19, 0, 0), "{codes}");
    }
}

#[test]
fn whole_numbers() {
    let nines = "9".repeat(18);
    for (text, number) in [
        ("0".to_string(), 0),
        ("-".to_string(), NO_NUMBER),
        ("-0".to_string(), 0),
        ("-5".to_string(), -5),
        ("+5".to_string(), NO_NUMBER),
        ("5-".to_string(), NO_NUMBER),
        (" 5".to_string(), NO_NUMBER),
        ("0x1".to_string(), NO_NUMBER),
        ("--1".to_string(), NO_NUMBER),
        (nines.clone(), 999_999_999_999_999_999),
        (format!("-{nines}"), -999_999_999_999_999_999),
        (format!("0{nines}"), NO_NUMBER),
        (format!("-0{nines}"), NO_NUMBER),
    ] {
        let wide = text.len();
        for (letter, layout, fixed, start) in [(b'B', 'I', B35, 36), (b'K', 'J', "K120000", 8), (b'N', 'M', "N120000", 8)] {
            let layout = format!("{layout}01{start:02}{:02}QQQ", start + wide - 1);
            let lines = [A, DATE, &layout, &format!("{fixed}{text}")];
            assert_eq!(numbers(&file(&lines), letter, "QQQ", 1), (1, vec![number]), "{text} in {}", letter as char);
        }
    }
}

#[test]
fn thirteen() {
    let codes: Vec<String> = (0..14).map(|n| format!("Z{n:02}")).collect();
    let entries: Vec<String> = (0..13).map(|n| format!("{0}{0}{1}", 36 + n, codes[n])).collect();
    let layout = format!("I13{}", entries.concat());
    let all = file(&[A, DATE, &layout, &format!("{B35}0123456789-5x"), G]);
    assert_eq!(numbers(&all, b'B', &codes[..13].concat(), 13), (1, vec![0, 1, 2, 3, 4, 5, 6, 7, 8, 9, NO_NUMBER, 5, NO_NUMBER]));
    assert_eq!(refused(&all, b'B', &codes[..13].concat(), 12), (18, 0, 0));
    // a 14th: 17, before it is absent; instead of the 13th: 19
    assert_eq!(refused(&all, b'B', &codes.concat(), 20), (17, 0, 0));
    assert_eq!(refused(&all, b'B', &codes[1..].concat(), 20), (19, 0, 0));
    // the first code again behind the others
    assert_eq!(refused(&all, b'B', &[&codes[..12].concat(), "Z00"].concat(), 20), (17, 0, 0));
}

#[test]
fn letters() {
    for letter in (0..=255).filter(|letter| !b"BKN".contains(letter)) {
        assert_eq!(refused(&five(), letter, "FXA", 2), (17, 0, 0), "{letter}");
    }
    // no J line, and no M line; also without a K or an N line
    for letter in *b"KN" {
        assert_eq!(refused(&five(), letter, "FXA", 2), (19, 0, 0));
        assert_eq!(refused(&file(&[A, DATE, "J00", "M00", "K120000", "N120000"]), letter, "FXA", 2), (19, 0, 0));
    }
}

#[test]
fn codes() {
    let long = "FXASIU".repeat(50);
    for length in [0, 1, 2, 4, 5, 7, 37, 38, 40, 41, 42, 255, 256, 258, 300] {
        assert_eq!(refused(&five(), b'B', &long[..length], 2), (17, 0, 0), "{length} bytes of codes");
    }
    for twice in ["FXAFXA", "FXASIUFXA", "SIUFXAFXA", "ZZZZZZ", "ZZZFXAZZZ", "FXAFXAZZZ", "ZZZFXAFXA"] {
        assert_eq!(refused(&five(), b'B', twice, 9), (17, 0, 0), "{twice}");
    }
    // codes that overlap in the text are no code twice
    for absent in ["ZZZ", "fxa", "FX ", "XAS", "FXAZZZ", "ZZZFXA", "FXAZZZSIU", "FXAXAF", "\0\0\0", "\r\nB"] {
        assert_eq!(refused(&five(), b'B', absent, 9), (19, 0, 0), "{absent:?}");
    }
}

#[test]
fn lists() {
    let two = file(&[A, DATE, I2, B40, B40]);
    assert_eq!(put(&two, b'B', "FXASIU", 4), (Ok(2), vec![12, 8, 12, 8]));
    assert_eq!(put(&two, b'B', "FXASIU", 6), (Ok(2), vec![12, 8, 12, 8, lent(4), lent(5)]));
    for length in 0..4 {
        assert_eq!(refused(&two, b'B', "FXASIU", length), (18, 0, 0), "a list of {length}");
    }
    // no line: nothing is needed
    let none = file(&[A, DATE, I2]);
    assert_eq!(put(&none, b'B', "FXASIU", 0), (Ok(0), vec![]));
    assert_eq!(put(&none, b'B', "FXA", 2), (Ok(0), vec![lent(0), lent(1)]));
}

#[test]
fn refusals_in_their_order() {
    // 17, then 19, then 18
    assert_eq!(refused(&five(), b'C', "ZZZ", 0), (17, 0, 0));
    assert_eq!(refused(&five(), b'B', "ZZZZZZ", 0), (17, 0, 0));
    assert_eq!(refused(&five(), b'B', "FXAFXA", 1), (17, 0, 0));
    assert_eq!(refused(&five(), b'B', "FXAZZZ", 0), (19, 0, 0));
    assert_eq!(refused(&five(), b'B', "FXASIU", 1), (18, 0, 0));
    // the file's own before all of them
    for (file, number, line, byte) in [
        (file(&[A, DATE, I2, B35]), 7, 4, 0),
        (file(&[A, DATE, I2, &B40.replace("01208", "0a208")]), 13, 4, 36),
        (file(&[A, DATE, HEAD]), 16, 4, 0),
        (file(&[A]), 16, 2, 0),
        (b"".to_vec(), 1, 0, 0),
        (vec![b'A'; 16_777_217], 2, 0, 0),
    ] {
        for (letter, codes) in [(b'B', "FXA"), (b'B', "ZZZ"), (b'B', ""), (b'C', "FXA")] {
            for length in [0, 5] {
                assert_eq!(refused(&file, letter, codes, length), (number, line, byte), "{number} with {codes}");
            }
        }
    }
}

#[test]
fn of_any_file() {
    let run = Run::new(13, 20);
    let mut reached = Reached::default();
    for n in 0..12_000 {
        let mut random = run.random(n);
        let made = if n % 40 == 0 { wide(&mut random, if n < 280 { 1_500 } else { 4 }) } else { run.make(&mut random, n).file };
        let said = check_usual_alone(&made);
        assert!(said.is_ok() || n % 40 > 0, "file {n}");
        for ask in asks(n, &said) {
            let mut list: Vec<i64> = (0..ask.room).map(lent).collect();
            let answer = grid_into(&made, ask.letter, &ask.codes, &mut list);
            reached.add(&made, &said, &ask, &answer, &list);
            let codes: Vec<[u8; 3]> = ask.codes.chunks_exact(3).map(|code| code.try_into().unwrap()).collect();
            let set = answer.map_or(0, |lines| lines * codes.len());
            assert_eq!(list.split_off(set), (set..ask.room).map(lent).collect::<Vec<_>>(), "file {n}");
            let (Ok(said), Ok(_)) = (&said, answer) else { continue };
            // The numbers are those of single readings and looks.
            let layout = said.layouts.of(FAMILIES.into_iter().find(|family| family.kind() == ask.letter).unwrap());
            let lines = made.split(|&c| c == b'\n').filter(|line| line.first() == Some(&ask.letter));
            let texts = lines.map(|line| str::from_utf8(&line[..line.len() - 1]).unwrap());
            let looked = texts.flat_map(|line| codes.iter().map(move |code| number(line, layout, code).unwrap_or(NO_NUMBER)));
            assert_eq!(list, looked.collect::<Vec<_>>(), "file {n}");
        }
    }
    println!("{}", reached.told());
    assert_eq!(reached.never(), Vec::<&str>::new(), "never met");
}
