//! I and J lines, the widths of listed codes, and the rules of their columns.

use super::*;
use outside::reading::{Family, LISTED, column_given, read_layout};

#[test]
fn layout_lines() {
    let i = |text: &str| read_layout(format!("I{text}").as_bytes(), Family::Fixes);
    for (text, number, byte) in [
        ("0A", 9, 2),
        ("01", 9, 2),
        ("013638FXA0", 9, 2),
        ("01A638FXA", 9, 4),
        ("0136A8FXA", 9, 6),
        ("013638FxA", 9, 8),
        ("013538FXA", 10, 4),
        ("013738FXA", 10, 4),
        ("013635ZZZ", 10, 4),
        ("013637FXA", 12, 4),
        // entry by entry: 12 in the first entry before 9 in the second
        ("023637FXA3x40SIU", 12, 4),
        ("023638FXA3x40SIU", 9, 11),
        ("023638FXA394xSIU", 9, 13),
        ("023638FXA3940S U", 9, 15),
        // 10 before 11 before 12
        ("023638FXA4040FXA", 10, 11),
        ("023638FXA3939FXA", 11, 11),
        ("023638FXA3939SIU", 12, 11),
        // 99 is the last place: nothing can follow it
        ("023699ZZZ0000YYY", 10, 11),
        ("023699ZZZ9999YYY", 10, 11),
        ("02,638FXA3940SIU", 8, 4),
    ] {
        assert_eq!(i(text), no(number, byte), "I{text}");
    }
    assert_eq!(i("013636ZZZ"), Ok(layout(&[(36, 36, "ZZZ")])));
    let j = |line: &str| read_layout(line.as_bytes(), Family::Extras);
    assert_eq!(j("J010810HDT"), Ok(layout(&[(8, 10, "HDT")])));
    assert_eq!(j("J013638HDT"), no(10, 4));
    assert_eq!(j("J010809HDT"), no(12, 4));
    assert_eq!(j("I00"), no(17, 0));
    assert_eq!(read_layout(b"J00", Family::Fixes), no(17, 0));
    assert_eq!(read_layout(b"B00", Family::Fixes), no(17, 0));
    assert_eq!(read_layout(b"", Family::Fixes), no(17, 0));
}

#[test]
fn columns_by_their_place() {
    let second = |line: &str| column_given(line.as_bytes(), 2).map(|e| (e.first, e.last));
    assert_eq!(second("I023638FXA3940SIU"), Ok((39, 40)));
    assert_eq!(second("J010810HDT"), no(17, 0));
    assert_eq!(second("I023638FXA4041SIU"), no(10, 11));
    assert_eq!(second("B00"), no(17, 0));
    // 17 for a number that no line has, before what the line is refused for
    for (n, number, byte) in [(0, 17, 0), (1, 10, 11), (13, 10, 11), (14, 17, 0)] {
        assert_eq!(column_given(b"I023638FXA4041SIU", n), no(number, byte), "column {n}");
    }
}

/// Document 01's list of codes with their least and most width, taken from it once more.
const WIDTHS: [(&str, usize, usize); 15] = [
    ("FXA", 3, 3),
    ("SIU", 2, 2),
    ("ENL", 3, 3),
    ("MOP", 3, 3),
    ("IAS", 3, 3),
    ("FLP", 3, 3),
    ("HDM", 3, 6),
    ("HDT", 3, 6),
    ("TRM", 3, 6),
    ("TRT", 3, 6),
    ("TDS", 1, 3),
    ("LAD", 1, 4),
    ("LOD", 1, 4),
    ("DAE", 2, 6),
    ("DAN", 2, 6),
];

#[test]
fn widths() {
    assert_eq!(LISTED.map(|l| l.code.as_slice()), WIDTHS.map(|w| w.0.as_bytes()));
    for (code, least, most) in WIDTHS {
        for width in 1..=8 {
            for (kind, first, family) in [("I", 36, Family::Fixes), ("J", 8, Family::Extras)] {
                let last = first + width - 1;
                let answer = read_layout(format!("{kind}01{first:02}{last:02}{code}").as_bytes(), family);
                let expected = if least <= width && width <= most { Ok(layout(&[(first, last, code)])) } else { no(12, 4) };
                assert_eq!(answer, expected, "{kind} with {code} of {width}");
            }
        }
    }
}

#[test]
fn columns() {
    let two = |text: &str| body(&[I2, &format!("{B35}{text}")]);
    assert_eq!(two("01208"), OK);
    assert_eq!(two("0A208"), (13, 4, 36));
    assert_eq!(two("0120A"), (13, 4, 39));
    assert_eq!(two("-1208"), (13, 4, 36));
    assert_eq!(two("012-8"), (13, 4, 39));
    let one = |code: &str, text: &str| body(&[format!("I0136{}{code}", 35 + text.len()), format!("{B35}{text}")]);
    for code in ["FLP", "DAE", "DAN"] {
        for text in ["-12", "-00", "012"] {
            assert_eq!(one(code, text), OK, "{code} {text}");
        }
        for text in ["--1", "1-2", "-1 ", "+12"] {
            assert_eq!(one(code, text), (13, 4, 36), "{code} {text}");
        }
    }
    assert_eq!(one("DAE", "-1"), OK);
    assert_eq!(one("DAE", "--"), (13, 4, 36));
    for code in ["ENL", "HDT", "TDS", "LAD"] {
        assert_eq!(one(code, "-12"), (13, 4, 36), "{code}");
    }
    assert_eq!(one("ZZZ", "- a"), OK);
    // K by the J line
    assert_eq!(body(&["J020809LAD1010ZZZ", "K12000012-"]), OK);
    assert_eq!(body(&["J020809LAD1010ZZZ", "K1200001-2"]), (13, 4, 8));
    assert_eq!(body(&["J020808ZZZ0909LAD", "K120000-a"]), (13, 4, 9));
    // a field of the line before 13 before 14
    let later = |p: Parts, text: &str| body(&[I2, B40, &(b(p) + text)]);
    assert_eq!(later(Parts { time: "116000", ..PARTS }, "0x208"), (22, 5, 2));
    assert_eq!(later(Parts { time: "110000", lon: "18000001W", ..PARTS }, "0x208"), (23, 5, 16));
    assert_eq!(later(Parts { time: "110000", validity: "B", ..PARTS }, "0x208"), (9, 5, 25));
    assert_eq!(later(Parts { time: "110000", gnss: "x0000", ..PARTS }, "0x208"), (24, 5, 31));
    assert_eq!(later(Parts { time: "110000", ..PARTS }, "0x208"), (13, 5, 36));
    assert_eq!(later(Parts { time: "110000", ..PARTS }, "01208"), (14, 5, 2));
}

#[test]
fn presence() {
    assert_eq!(Layout::default().presence(), (0, 0));
    assert_eq!(two_columns().presence(), (3, 2));
    assert_eq!(layout(&[(36, 37, "DAN"), (38, 38, "ZZZ"), (39, 41, "ENL")]).presence(), ((1 << 14) + 4, 2));
}
