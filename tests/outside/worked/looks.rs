//! The look for a column: any line with any entries.

use super::*;
use outside::files::Run;
use outside::files::looks::{self, packed};
use outside::files::reached_looks::Reached;
use outside::reading::Family;

/// FXA at 36 to 38, SIU at 39 and 40: the columns of B40, which are 012 and 08.
const TWO: [(usize, usize, &str); 2] = [(36, 38, "FXA"), (39, 40, "SIU")];

/// The first and the last byte of the column that a look finds.
fn found(line: &str, all: &[(usize, usize, &str)], code: &[u8; 3]) -> Answer<(usize, usize)> {
    look(line.as_bytes(), &entries(all), code).map(|e| (e.first, e.last))
}

fn as_number(line: &str, all: &[(usize, usize, &str)], code: &[u8; 3]) -> Answer<i64> {
    look_number(line.as_bytes(), &entries(all), code)
}

#[test]
fn the_column_of_a_code() {
    assert_eq!(found(B40, &TWO, b"FXA"), Ok((36, 38)));
    assert_eq!(found(B40, &TWO, b"SIU"), Ok((39, 40)));
    assert_eq!(as_number(B40, &TWO, b"FXA"), Ok(12));
    assert_eq!(as_number(B40, &TWO, b"SIU"), Ok(8));
    assert_eq!(found(B40, &[], b"FXA"), no(19, 0));
    // codes that begin alike, or end alike, and any three bytes
    for other in [b"FXB", b"FX ", b"GXA", b"FYA", b"fxa", b"AXF", b"ENL", b"\0\0\0", b"\xff\r\n"] {
        assert_eq!(found(B40, &TWO, other), no(19, 0), "{other:?}");
        assert_eq!(as_number(B40, &TWO, other), no(19, 0), "{other:?}");
    }
    let alike = [(36, 36, "FXB"), (37, 37, "FYA"), (38, 38, "GXA"), (39, 40, "FXA")];
    assert_eq!(found(B40, &alike, b"FXA"), Ok((39, 40)));
    assert_eq!(found(B40, &alike, b"GXA"), Ok((38, 38)));
}

#[test]
fn more_than_thirteen() {
    let fourteen = narrow_columns(14).entries;
    let line = format!("{B35}{}", "1".repeat(14));
    assert_eq!(look(line.as_bytes(), &fourteen[..13], b"Z12").map(|e| e.first), Ok(48));
    assert_eq!(look(line.as_bytes(), &fourteen[..13], b"Z13"), no(19, 0));
    // found among the first 13, found as the 14th, absent
    for code in [b"Z00", b"Z12", b"Z13", b"ENL"] {
        assert_eq!(look(line.as_bytes(), &fourteen, code), no(17, 0));
        assert_eq!(look_number(line.as_bytes(), &fourteen, code), no(17, 0));
    }
}

/// Entries that are refused, each for one reason, and every other entry good: for the code of the bad entry, for that of the good one, and for one that is absent.
#[test]
fn each_reason_alone() {
    let good = (39, 40, "SIU");
    for bad in [
        // a code twice: the same bytes, other bytes
        (39, 40, "SIU"),
        (36, 38, "SIU"),
        // first 0
        (0, 38, "FXA"),
        (0, 0, "FXA"),
        // last past the end
        (36, 41, "FXA"),
        (41, 41, "FXA"),
        (36, 255, "FXA"),
        // last before first
        (36, 35, "FXA"),
        (40, 1, "FXA"),
        (1, 0, "FXA"),
        (41, 40, "FXA"),
    ] {
        for all in [[bad, good], [good, bad]] {
            for code in [b"FXA", b"SIU", b"ENL"] {
                assert_eq!(found(B40, &all, code), no(17, 0), "{all:?}");
                assert_eq!(as_number(B40, &all, code), no(17, 0), "{all:?}");
            }
        }
    }
    // a code twice that is not the one asked for, and not side by side
    let apart = [(36, 36, "AAA"), (37, 37, "BBB"), (38, 38, "AAA"), (39, 40, "SIU")];
    assert_eq!(found(B40, &apart, b"SIU"), no(17, 0));
    assert_eq!(found(B40, &apart[1..], b"SIU"), Ok((39, 40)));
}

#[test]
fn the_order_of_refusals() {
    let words = "abcdefgh";
    // 17 before 19 and before 20
    assert_eq!(as_number(words, &[(1, 4, "AAA"), (5, 9, "BBB")], b"AAA"), no(17, 0));
    assert_eq!(as_number(words, &[(1, 4, "AAA"), (5, 9, "BBB")], b"CCC"), no(17, 0));
    // 19 before 20: there is no number in the line
    assert_eq!(as_number(words, &[(1, 4, "AAA"), (5, 8, "BBB")], b"CCC"), no(19, 0));
    assert_eq!(as_number(words, &[(1, 4, "AAA"), (5, 8, "BBB")], b"AAA"), no(20, 0));
    assert_eq!(found(words, &[(1, 4, "AAA"), (5, 8, "BBB")], b"AAA"), Ok((1, 4)));
}

#[test]
fn at_the_lines_end() {
    assert_eq!(found("1", &[(1, 1, "AAA")], b"AAA"), Ok((1, 1)));
    assert_eq!(found("1", &[(1, 2, "AAA")], b"AAA"), no(17, 0));
    assert_eq!(found("1", &[(2, 2, "AAA")], b"AAA"), no(17, 0));
    assert_eq!(found("", &[(1, 1, "AAA")], b"AAA"), no(17, 0));
    assert_eq!(found("", &[(1, 0, "AAA")], b"AAA"), no(17, 0));
    assert_eq!(found("", &[], b"AAA"), no(19, 0));
    // B40 without its last byte: SIU is past the end, and the look for FXA is refused with it
    assert_eq!(found(&B40[..39], &TWO, b"FXA"), no(17, 0));
    assert_eq!(found(&B40[..39], &TWO[..1], b"FXA"), Ok((36, 38)));
    assert_eq!(found(&B40[..38], &TWO[..1], b"FXA"), Ok((36, 38)));
    assert_eq!(found(&B40[..37], &TWO[..1], b"FXA"), no(17, 0));
    // a line that is longer than its columns
    assert_eq!(found(&format!("{B40}{}", x(300)), &TWO, b"SIU"), Ok((39, 40)));
}

#[test]
fn any_line_and_any_entries() {
    // the line is not checked: of no kind, with bytes that no line may have
    let odd = b"\r\n\0\xff-07";
    let minus = entries(&[(5, 7, "\0\0\0")]);
    assert_eq!(look_number(odd, &minus, b"\0\0\0"), Ok(-7));
    // entries out of order, that overlap, that leave gaps
    let odd = [(39, 40, "SIU"), (1, 40, "ALL"), (36, 38, "FXA"), (2, 7, "TIM")];
    assert_eq!(found(B40, &odd, b"FXA"), Ok((36, 38)));
    assert_eq!(found(B40, &odd, b"ALL"), Ok((1, 40)));
    assert_eq!(as_number(B40, &odd, b"TIM"), Ok(120_000));
    assert_eq!(as_number(B40, &odd, b"ALL"), no(20, 0));
    // two entries may have the same bytes
    assert_eq!(as_number(B40, &[(36, 38, "AAA"), (36, 38, "BBB")], b"BBB"), Ok(12));
    // entries of another layout: those of a K line over B40, and listed codes of other widths and with other text than their rule
    assert_eq!(as_number(B40, &[(8, 10, "HRT"), (11, 13, "OXY")], b"OXY"), Ok(0));
    assert_eq!(found(B40, &[(14, 15, "FXA")], b"FXA"), Ok((14, 15)));
    assert_eq!(as_number(B40, &[(14, 15, "FXA")], b"FXA"), no(20, 0));
    // those of B40 over a K line that is too short for them
    assert_eq!(found("K12000012a", &TWO, b"FXA"), no(17, 0));
}

#[test]
fn numbers() {
    let nines = "9".repeat(18);
    for (digits, value) in [
        (nines.clone(), Some(999_999_999_999_999_999)),
        (format!("-{nines}"), Some(-999_999_999_999_999_999)),
        (format!("0{nines}"), None),
        (format!("-0{nines}"), None),
        ("0".repeat(18), Some(0)),
        ("0".repeat(19), None),
        ("-000".to_string(), Some(0)),
        ("-0".to_string(), Some(0)),
        ("-".to_string(), None),
        ("--1".to_string(), None),
        ("1-".to_string(), None),
        ("+1".to_string(), None),
        (" 1".to_string(), None),
        ("1 ".to_string(), None),
        ("7".to_string(), Some(7)),
        ("007".to_string(), Some(7)),
        ("-12".to_string(), Some(-12)),
        ("1:2".to_string(), None),
        ("1/2".to_string(), None),
    ] {
        // digits on both sides, which are no part of the column
        let line = format!("55{digits}55");
        let answer = as_number(&line, &[(3, 2 + digits.len(), "ZZZ")], b"ZZZ");
        assert_eq!(answer, value.map_or(no(20, 0), Ok), "{digits}");
    }
}

/// The looks that a run makes, over the lines of accepted files, reach each reason for 17, alone and before 19 and 20, and each kind of column found.
#[test]
fn looks_of_a_run() {
    let run = Run::new(8, 40);
    let mut reached = Reached::default();
    for n in 0..600 {
        let mut random = run.random(n);
        let made = run.make(&mut random, n);
        let Ok(said) = check_usual(&made.file, &mut vec![0; made.entries]) else { continue };
        for line in made.file.split(|&c| c == b'\n').map(|l| l.strip_suffix(b"\r").unwrap_or(l)) {
            let Some(family) = Family::of_line(line) else { continue };
            let one = looks::look(&mut random, line, &said.layouts.of(family).entries);
            let code = packed(one.code);
            let answer = look_number(&one.line, &one.entries, &code);
            reached.add(&one, &[Entry { first: 1, last: 1, code }], &answer);
        }
    }
    assert_eq!(reached.never(), Vec::<String>::new(), "{}", reached.told());
}
