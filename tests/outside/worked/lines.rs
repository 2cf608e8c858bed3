//! The lines of each kind: lengths, characters, fields.

use super::*;
use outside::reading::{Date, read_date};

#[test]
fn lengths() {
    let first = |line: &str| verdict(&file(&[line, DATE, G]));
    assert_eq!(first("AXYZ00"), (7, 1, 0));
    assert_eq!(first(&(A.to_string() + &x(248))), OK);
    assert_eq!(first(&(A.to_string() + &x(249))), (7, 1, 0));
    assert_eq!(verdict(&file(&[A, &DATE[..10]])), (7, 2, 0));
    assert_eq!(verdict(&file(&[A, "HFDTE1507240"])), (7, 2, 0));
    for (line, most) in [("HFABC", 255), ("E120000PEV", 255), ("L", 99), ("GX", 255), ("O", 255), ("D1ABCD", 6)] {
        let verdict_of = |length: usize| verdict(&file(&[A, DATE, &format!("{line}{}", x(length - line.len())), G]));
        assert_eq!(verdict_of(line.len()), OK, "{line}");
        assert_eq!(verdict_of(most), OK, "{line} of {most}");
        assert_eq!(verdict_of(most + 1), (7, 3, 0), "{line} of {}", most + 1);
        if line.len() > 1 {
            assert_eq!(body(&[&line[..line.len() - 1]]), (7, 3, 0), "{line} without its last byte");
        }
    }
    let pairs = format!("F120000{}", "AB".repeat(124));
    assert_eq!(pairs.len(), 255);
    assert_eq!(body(&["F120000"]), OK);
    assert_eq!(body(&["F12000"]), (7, 3, 0));
    assert_eq!(body(&[&pairs]), OK);
    assert_eq!(body(&[format!("{pairs}C")]), (7, 3, 0));
    let head = |line: &str| body(&[&[line], &*times(4, POINT)].concat());
    assert_eq!(head(&HEAD[..24]), (7, 3, 0));
    assert_eq!(head(&format!("{HEAD}{}", x(230))), OK);
    assert_eq!(head(&format!("{HEAD}{}", x(231))), (7, 3, 0));
    assert_eq!(body(&[HEAD, &POINT[..17]]), (7, 4, 0));
    assert_eq!(body(&[&[HEAD], &*times(4, &format!("{POINT}{}", x(237)))].concat()), OK);
    assert_eq!(body(&[HEAD, POINT, &format!("{POINT}{}", x(238))]), (7, 5, 0));
    assert_eq!(body(&["I0"]), (7, 3, 0));
    assert_eq!(body(&["J"]), (7, 3, 0));
    assert_eq!(body(&[format!("I{}", "0".repeat(98))]), (9, 3, 2));
    assert_eq!(body(&[format!("I{}", "0".repeat(99))]), (7, 3, 0));
    assert_eq!(body(&[&B35[..34]]), (7, 3, 0));
    assert_eq!(body(&["K12000"]), (7, 3, 0));
    assert_eq!(body(&["K1200000"]), (7, 3, 0));
    assert_eq!(body(&["J010899ZZZ", &format!("K120000{}", "~".repeat(92))]), (8, 4, 8));
    assert_eq!(body(&["J010899ZZZ", &format!("K120000{}", "}".repeat(92))]), OK);
    // 7 comes before 8
    assert_eq!(body(&["D1ABCD!"]), (7, 3, 0));
}

#[test]
fn characters() {
    for byte in (0..=255u8).filter(|c| !b"\r\n".contains(c)) {
        let valid = (0x20..=0x7D).contains(&byte) && ![0x21, 0x24, 0x2A, 0x5C, 0x5E].contains(&byte);
        let with = |line: &str| [line.as_bytes(), &[byte]].concat();
        let expected = |good: bool, at: u64| if good { OK } else { (8, 3, at) };
        assert_eq!(body(&[with("HFABC")]), expected(valid, 6), "{byte} in H");
        assert_eq!(body(&[with("LX")]), expected(valid && byte != b',', 3), "{byte} in L");
        assert_eq!(body(&[with("G")]), expected(valid && byte != b',', 2), "{byte} in G");
    }
    assert_eq!(verdict(&file(&[A, "HFDTE15,724", G])), (25, 2, 6));
    assert_eq!(verdict(&file(&[A, "HFDTE15!724", G])), (8, 2, 8));
    assert_eq!(verdict(&file(&["AXYZ001,"])), (8, 1, 8));
    // 8 comes before 9, and before 22 to 25
    assert_eq!(body(&["D3ABC!"]), (8, 3, 6));
    assert_eq!(body(&["E999999PEV x!"]), (8, 3, 13));
    assert_eq!(body(&[b(Parts { lat: "9000001N", gnss: "-000!", ..PARTS })]), (8, 3, 35));
    assert_eq!(verdict(&file(&[A, "HFDTE3201!4", G])), (8, 2, 10));
}

#[test]
fn forms() {
    assert_eq!(verdict(&file(&["AXyZ001", DATE, G])), (9, 1, 2));
    assert_eq!(verdict(&file(&["AXYZ-01", DATE, G])), (9, 1, 5));
    assert_eq!(verdict(&file(&[A, "HODTE150724", G])), (9, 2, 2));
    assert_eq!(verdict(&file(&[A, "HFDTE320124", G])), (25, 2, 6));
    for (line, number, byte) in [
        ("HPABC", 9, 2),
        ("HFABc", 9, 3),
        ("D0ABCD", 9, 2),
        ("D3ABCD", 9, 2),
        ("D2ABC ", 9, 3),
        ("E240000PEV", 22, 2),
        ("E236000PEV", 22, 2),
        ("E235959PeV", 9, 8),
        ("F1200001", 9, 8),
        ("F240000AB", 22, 2),
        ("F126000a", 22, 2),
        ("F120000a", 9, 8),
        ("F120000aB", 9, 8),
        ("F120000AB1 ", 9, 10),
        ("F120000AB12Cd", 9, 12),
        ("K12000O", 22, 2),
        ("K-12000", 22, 2),
    ] {
        assert_eq!(body(&[line]), (number, 3, byte), "{line}");
    }
    assert_eq!(body(&["F120000AB12CD"]), OK);
    let fix = |p: Parts| body(&[b(p)]);
    assert_eq!(fix(Parts { validity: "B", ..PARTS }), (9, 3, 25));
    assert_eq!(fix(Parts { time: "1200 0", ..PARTS }), (22, 3, 2));
    assert_eq!(fix(Parts { lat: "5130000E", ..PARTS }), (23, 3, 8));
    assert_eq!(fix(Parts { lon: "00015000N", ..PARTS }), (23, 3, 16));
    assert_eq!(fix(Parts { lon: "17960000E", ..PARTS }), (23, 3, 16));
    assert_eq!(fix(Parts { lon: "18000001W", ..PARTS }), (23, 3, 16));
    assert_eq!(fix(Parts { pressure: "+0012", ..PARTS }), (24, 3, 26));
    assert_eq!(fix(Parts { gnss: "0-012", ..PARTS }), (24, 3, 31));
    assert_eq!(fix(Parts { pressure: "-9999", gnss: "99999", ..PARTS }), OK);
    // the first wrong field wins
    assert_eq!(fix(Parts { time: "240000", lat: "9900000N", ..PARTS }), (22, 3, 2));
    assert_eq!(fix(Parts { lat: "9900000N", gnss: "abcde", ..PARTS }), (23, 3, 8));
    assert_eq!(fix(Parts { lon: "00060000W", validity: "B", ..PARTS }), (23, 3, 16));
    assert_eq!(fix(Parts { validity: "B", pressure: "-0000", ..PARTS }), (9, 3, 25));
    assert_eq!(fix(Parts { pressure: "-0000", gnss: "abcde", ..PARTS }), (24, 3, 26));
}

#[test]
fn head_fields() {
    let head = |line: &str| body(&[&[line], &*times(4, POINT)].concat());
    assert_eq!(head("C150724110000000000000100"), OK);
    assert_eq!(head("C150724110000160724000100"), OK);
    assert_eq!(head("C000000110000000000000100"), (25, 3, 2));
    assert_eq!(head("C150724110060000000000100"), (22, 3, 8));
    assert_eq!(head("C150724110000000001000100"), (25, 3, 14));
    assert_eq!(head("C150724110000310424000100"), (25, 3, 14));
    assert_eq!(head("C15072411000000000000 100"), (9, 3, 20));
    assert_eq!(head("C15072411000000000000010A"), (9, 3, 24));
    // the first wrong field wins
    assert_eq!(head("C320124240000310424000100"), (25, 3, 2));
    assert_eq!(head("C150724240000310424000100"), (22, 3, 8));
    assert_eq!(head("C150724110000310424 00100"), (25, 3, 14));
    assert_eq!(body(&[HEAD, "C5130000X00015000W"]), (23, 4, 2));
    assert_eq!(body(&[HEAD, POINT, "C5130000N00015000X"]), (23, 5, 10));
    assert_eq!(body(&[HEAD, POINT, "C5160000N18000001E"]), (23, 5, 2));
}

#[test]
fn dates() {
    let date = |text: &str| read_date(format!("HFDTE{text}").as_bytes());
    let day = |day, month, year| Ok(Date { day, month, year });
    assert_eq!(date("010180"), day(1, 1, 1980));
    assert_eq!(date("311299"), day(31, 12, 1999));
    assert_eq!(date("311279"), day(31, 12, 2079));
    for (n, last) in [31, 28, 31, 30, 31, 30, 31, 31, 30, 31, 30, 31].into_iter().enumerate() {
        let month = n as u32 + 1;
        assert_eq!(date(&format!("{last:02}{month:02}23")), day(last, month, 2023));
        assert_eq!(date(&format!("{:02}{month:02}23", last + 1)), no(25, 6));
        assert_eq!(date(&format!("00{month:02}23")), no(25, 6));
    }
    assert_eq!(date("010023"), no(25, 6));
    assert_eq!(date("011323"), no(25, 6));
    assert_eq!(date("290280"), day(29, 2, 1980));
    assert_eq!(date("290281"), no(25, 6));
    assert_eq!(date("290276"), day(29, 2, 2076));
    assert_eq!(date("300224"), no(25, 6));
    assert_eq!(date("15O724"), no(25, 6));
    assert_eq!(read_date(b"HFDTE1507240"), no(7, 0));
    assert_eq!(read_date(b"HFDTF150724"), no(9, 2));
    assert_eq!(read_date(b"HFDTF290223"), no(9, 2));
    assert_eq!(read_date(b"AFDTE150724"), no(17, 0));
    assert_eq!(read_date(b""), no(17, 0));
}
