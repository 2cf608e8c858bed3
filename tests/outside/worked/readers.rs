//! The readers of one line.

use super::*;
use outside::reading::{Date, Head, Point, WithColumns, read_event, read_head, read_point, read_satellites};

#[test]
fn fixes() {
    let read = |line: &str, y: &Layout| fix_of(line.as_bytes(), y);
    let none = Layout::default();
    let expected = Fix {
        time: Finer::whole(43_200),
        latitude: at(3_090_000, b'N'),
        longitude: at(15_000, b'W'),
        validity: b'A',
        pressure: 100,
        gnss: 120,
    };
    assert_eq!(read(B40, &two_columns()), Ok(expected));
    let columns = entries(&[(36, 38, "FXA"), (39, 40, "SIU")]);
    assert_eq!(read_fix(B40.as_bytes(), &two_columns()), Ok(WithColumns { said: expected, columns }));
    assert_eq!(read_fix(B35.as_bytes(), &none), Ok(WithColumns { said: expected, columns: vec![] }));
    let south = Fix { latitude: at(0, b'S'), longitude: at(0, b'W'), validity: b'V', ..expected };
    assert_eq!(read(&b(Parts { lat: "0000000S", lon: "00000000W", validity: "V", ..PARTS }), &none), Ok(south));
    assert_eq!(read(B40, &none), no(7, 0));
    assert_eq!(read(B35, &two_columns()), no(7, 0));
    assert_eq!(read(&format!("K{}", &B35[1..]), &none), no(17, 0));
    assert_eq!(read("", &none), no(17, 0));
    assert_eq!(read("B", &none), no(7, 0));
    assert_eq!(read(&format!("{}\r", &B35[..34]), &none), no(8, 35));
    // 17 comes before 7: the layout is not allowed
    assert_eq!(read("B", &layout(&[(37, 38, "ZZZ")])), no(17, 0));
    for (text, entries) in [
        ("00", vec![(36, 37, "FXA")]),
        ("0", vec![(36, 36, "zzz")]),
        ("0", vec![(36, 35, "ZZZ")]),
        ("", vec![(8, 10, "HDT")]),
        ("00", vec![(36, 36, "ZZZ"), (37, 37, "ZZZ")]),
        (&"0".repeat(65), vec![(36, 100, "ZZZ")]),
    ] {
        assert_eq!(read(&format!("{B35}{text}"), &layout(&entries)), no(17, 0), "{entries:?}");
    }
    assert_eq!(read(&format!("{B35}{}", "0".repeat(14)), &narrow_columns(14)), no(17, 0));
    // 13 columns, in layout order
    let thirteen = columns_of(&format!("{B35}{}", "0".repeat(13)), &narrow_columns(13)).unwrap();
    assert_eq!(thirteen.iter().map(|e| (e.first, e.last)).collect::<Vec<_>>(), (36..49).map(|n| (n, n)).collect::<Vec<_>>());
    assert_eq!((&thirteen[0].code, &thirteen[12].code), (b"Z00", b"Z12"));
}

#[test]
fn columns() {
    let four = layout(&[(36, 38, "FXA"), (39, 42, "ZZZ"), (43, 45, "FLP"), (46, 65, "WWW")]);
    let line = |z: &str, f: &str| format!("{B35}012{z}{f}{}", "1".repeat(20));
    let good = line("-000", "-07");
    assert_eq!(text(&good, &four, b"FXA"), Ok("012".to_string()));
    assert_eq!(text(&good, &four, b"ZZZ"), Ok("-000".to_string()));
    assert_eq!(text(&good, &four, b"ENL"), no(19, 0));
    assert_eq!(text(&good, &four, b"\xff\r\n"), no(19, 0));
    assert_eq!(number(&good, &four, b"FXA"), Ok(12));
    assert_eq!(number(&good, &four, b"ZZZ"), Ok(0));
    assert_eq!(number(&good, &four, b"FLP"), Ok(-7));
    assert_eq!(number(&good, &four, b"WWW"), no(20, 0));
    assert_eq!(number(&good, &four, b"ENL"), no(19, 0));
    for z in ["- 12", "12- ", "--12", "+012"] {
        assert_eq!(number(&line(z, "007"), &four, b"ZZZ"), no(20, 0), "{z}");
    }
    // 7 to 13 before 19 before 20
    assert_eq!(number(&line("-   ", "0x7"), &four, b"ENL"), no(13, 43));
    assert_eq!(text(&format!("B{}", &good[2..]), &four, b"ENL"), no(7, 0));
    // how many digits, in B and K lines
    let nines = "9".repeat(18);
    for (digits, value) in [
        (nines.clone(), Some(999_999_999_999_999_999)),
        (format!("9{nines}"), None),
        (format!("-{nines}"), Some(-999_999_999_999_999_999)),
        (format!("-9{nines}"), None),
        ("-".to_string(), None),
        ("-0".to_string(), Some(0)),
        ("7".to_string(), Some(7)),
        ("0".repeat(19), None),
    ] {
        let expected = value.map_or(no(20, 0), Ok);
        assert_eq!(number(&format!("{B35}{digits}"), &layout(&[(36, 35 + digits.len(), "ZZZ")]), b"ZZZ"), expected, "{digits} in B");
        assert_eq!(number(&format!("K120000{digits}"), &layout(&[(8, 7 + digits.len(), "ZZZ")]), b"ZZZ"), expected, "{digits} in K");
    }
    // K lines take the J layout
    assert_eq!(columns_of("K12000012a", &layout(&[(8, 9, "LAD"), (10, 10, "ZZZ")])), Ok(entries(&[(8, 9, "LAD"), (10, 10, "ZZZ")])));
    assert_eq!(text("K12000012a", &layout(&[(8, 9, "LAD"), (10, 10, "ZZZ")]), b"ZZZ"), Ok("a".to_string()));
    assert_eq!(text("K12000012a", &two_columns(), b"FXA"), no(17, 0));
    assert_eq!(text(B40, &layout(&[(8, 9, "LAD")]), b"LAD"), no(17, 0));
    assert_eq!(text("E120000PEV", &Layout::default(), b"LAD"), no(17, 0));
    assert_eq!(text(B35, &Layout::default(), b"LAD"), no(19, 0));
    assert_eq!(text("", &Layout::default(), b"LAD"), no(17, 0));
}

#[test]
fn extras_heads_and_points() {
    assert_eq!(time_of(b"K000000", &Layout::default()), Ok(0));
    assert_eq!(time_of(b"K000000", &layout(&[(8, 8, "ZZZ")])), no(7, 0));
    assert_eq!(time_of(b"K000000", &layout(&[(36, 38, "FXA")])), no(17, 0));
    assert_eq!(time_of(b"J000000", &Layout::default()), no(17, 0));
    assert_eq!(time_of(b"", &Layout::default()), no(17, 0));
    let declared = Date { day: 15, month: 7, year: 2024 };
    let flight = Some(Date { day: 16, month: 7, year: 2024 });
    assert_eq!(read_head(b"C150724110001160724123402Task one"), Ok(Head { declared, time: 39_601, flight, task: 1234, turns: 2 }));
    assert_eq!(read_head(HEAD.as_bytes()), Ok(Head { declared, time: 39_600, flight: None, task: 1, turns: 0 }));
    assert_eq!(read_head(POINT.as_bytes()), no(7, 0));
    assert_eq!(read_head(format!("B{}", &HEAD[1..]).as_bytes()), no(17, 0));
    let point = Point { latitude: at(3_090_000, b'N'), longitude: at(15_000, b'W') };
    assert_eq!(read_point(format!("{POINT}x y").as_bytes()), Ok(point));
    // a head read as a point, and a point as a head: 15072411 is no latitude, 513000 no date
    assert_eq!(read_point(HEAD.as_bytes()), no(23, 2));
    assert_eq!(read_head(format!("{POINT}LANDING").as_bytes()), no(25, 2));
    assert_eq!(read_head(b"C150724116001160724123402"), no(22, 8));
    assert_eq!(time_of(b"K000060", &Layout::default()), no(22, 2));
    assert_eq!(read_point(b"C"), no(7, 0));
    assert_eq!(read_point(b""), no(17, 0));
}

#[test]
fn events_and_satellites() {
    assert_eq!(read_event(b"E120001PEVx"), Ok(43_201));
    assert_eq!(read_event(b"E120001PE"), no(7, 0));
    assert_eq!(read_event(b"F120001"), no(17, 0));
    assert_eq!(read_satellites(b"F120001"), Ok(43_201));
    assert_eq!(read_event(b"E126001PEV"), no(22, 2));
    assert_eq!(read_event(b"E120001pEV"), no(9, 8));
    assert_eq!(read_satellites(b"F120001040"), no(9, 8));
    assert_eq!(read_satellites(b"F320001040"), no(22, 2));
    assert_eq!(read_satellites(b"E120001PEV"), no(17, 0));
}
