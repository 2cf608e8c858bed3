//! The marked examples, the examples that are only run, and the listing's.

use super::*;
use outside::reading::listing::listing;
use outside::reading::{Date, Family, LIMIT, Point, read_date, read_layout, read_point};

fn fix(p: Parts) -> Answer<Fix> {
    fix_of(b(p).as_bytes(), &Layout::default())
}

#[test]
fn marked_1() {
    assert_eq!(fix(Parts { lat: "9000000N", ..PARTS }).map(|f| f.latitude.count), Ok(Finer::whole(5_400_000)));
    assert_eq!(fix(Parts { lat: "9000001N", ..PARTS }), no(23, 8));
    let corner = Point { latitude: at(5_400_000, b'N'), longitude: at(0, b'E') };
    assert_eq!(read_point(b"C9000000N00000000E"), Ok(corner));
    assert_eq!(read_point(b"C9000001N00000000E"), no(23, 2));
}

#[test]
fn marked_2() {
    assert_eq!(fix(Parts { lon: "18000000E", ..PARTS }).map(|f| f.longitude.count), Ok(Finer::whole(10_800_000)));
    assert_eq!(fix(Parts { lon: "18000001E", ..PARTS }), no(23, 16));
    assert_eq!(read_point(b"C9000000N18000000W").map(|p| p.longitude.count), Ok(Finer::whole(10_800_000)));
    assert_eq!(read_point(b"C9000000N18000001W"), no(23, 10));
}

#[test]
fn marked_3() {
    assert_eq!(fix(Parts { lat: "4560000N", ..PARTS }), no(23, 8));
    assert_eq!(fix(Parts { lat: "4559999N", ..PARTS }).map(|f| f.latitude.count), Ok(Finer::whole(45 * 60_000 + 59_999)));
}

#[test]
fn marked_4() {
    assert_eq!(fix(Parts { pressure: "-0012", ..PARTS }).map(|f| f.pressure), Ok(-12));
    assert_eq!(fix(Parts { pressure: "-0000", ..PARTS }), no(24, 26));
    assert_eq!(fix(Parts { gnss: "-0012", ..PARTS }).map(|f| f.gnss), Ok(-12));
    assert_eq!(fix(Parts { gnss: "-0000", ..PARTS }), no(24, 31));
}

#[test]
fn marked_5() {
    assert_eq!(time_of(b"K235959", &Layout::default()), Ok(86_399));
    assert_eq!(time_of(b"K235960", &Layout::default()), Ok(86_400));
    assert_eq!(time_of(b"K235961", &Layout::default()), no(22, 2));
    assert_eq!(fix(Parts { time: "235959", ..PARTS }).map(|f| f.time), Ok(Finer::whole(86_399)));
    assert_eq!(fix(Parts { time: "235960", ..PARTS }).map(|f| f.time), Ok(Finer::whole(86_400)));
    assert_eq!(fix(Parts { time: "235961", ..PARTS }), no(22, 2));
}

#[test]
fn marked_6() {
    assert_eq!(read_date(b"HFDTE290224"), Ok(Date { day: 29, month: 2, year: 2024 }));
    assert_eq!(read_date(b"HFDTE290200"), Ok(Date { day: 29, month: 2, year: 2000 }));
    assert_eq!(read_date(b"HFDTE290223"), no(25, 6));
    assert_eq!(verdict(&file(&[A, "HFDTE290223", G])), (25, 2, 6));
}

#[test]
fn marked_7() {
    assert_eq!(read_layout(b"I00", Family::Fixes), Ok(Layout::default()));
    assert_eq!(Layout::default().length(Family::Fixes), 35);
    assert_eq!(body(&["I00", B35]), OK);
    assert_eq!(body(&["I00", &format!("{B35}0")]), (7, 4, 0));
}

#[test]
fn marked_8() {
    assert_eq!(read_layout(I2.as_bytes(), Family::Fixes), Ok(two_columns()));
    assert_eq!(two_columns().length(Family::Fixes), 40);
}

#[test]
fn marked_9() {
    assert_eq!(read_layout(b"I023638FXA4041SIU", Family::Fixes), no(10, 11));
    assert_eq!(body(&["I023638FXA4041SIU"]), (10, 3, 11));
}

#[test]
fn marked_10() {
    assert_eq!(read_layout(b"I013639FXA", Family::Fixes), no(12, 4));
}

#[test]
fn marked_11() {
    assert_eq!(read_layout(b"I023638ZZZ3940ZZZ", Family::Fixes), no(11, 11));
}

#[test]
fn marked_12() {
    let two = |first: &str, second: &str| {
        let extras = body(&[format!("K{first}"), format!("K{second}")]);
        let fixes = body(&[b(Parts { time: first, ..PARTS }), b(Parts { time: second, ..PARTS })]);
        assert_eq!(extras, fixes);
        extras
    };
    assert_eq!(two("235958", "000001"), OK);
    assert_eq!(two("120000", "000000"), (14, 4, 2));
    assert_eq!(two("120001", "000000"), OK);
}

#[test]
fn run_only() {
    let entry = |n: usize| format!("{0}{0}Z{n:02}", 36 + n);
    let thirteen = format!("I13{}", (0..13).map(entry).collect::<String>());
    assert_eq!(thirteen.len(), 94);
    assert_eq!(read_layout(thirteen.as_bytes(), Family::Fixes), Ok(narrow_columns(13)));
    assert_eq!(body(&[&thirteen, &format!("{B35}ABCDEFGHIJKLM")]), OK);
    let fourteen = format!("I14{}", (0..14).map(entry).collect::<String>());
    assert_eq!(fourteen.len(), 101);
    assert_eq!(read_layout(fourteen.as_bytes(), Family::Fixes), no(7, 0));
    assert_eq!(body(&[&fourteen]), (7, 3, 0));
    assert_eq!(verdict_with(1, &[0; 16_777_217]), (2, 0, 0));
    assert_eq!(verdict_with(3, &[b'A'; 16_777_217]), (2, 0, 0));
    let wide = format!("{B35}{}", x(64));
    assert_eq!(wide.len(), 99);
    assert_eq!(body(&["I013699ZZZ", &wide]), OK);
    assert_eq!(body(&["I013699ZZZ", &format!("{wide}x")]), (7, 4, 0));
}

#[test]
fn largest_file() {
    let (top, end) = (file(&[A, DATE]), file(&["GX"]));
    let (long, left) = (file(&["O".repeat(255)]), 16_777_216 - top.len() - end.len());
    let (whole, rest) = (left / long.len(), left % long.len());
    assert!(rest >= 3);
    let data = [top, long.repeat(whole), file(&["O".repeat(rest - 2)]), end].concat();
    assert_eq!((data.len(), LIMIT), (16_777_216, 16_777_216));
    let mut table = vec![7; whole + 5];
    assert_eq!(check_usual(&data, &mut table).map(|said| said.lines), Ok(whole as u64 + 4));
    assert_eq!(table[whole + 3..], [16_777_216 - 4, 7]);
    let over = [&data[..data.len() - 2], b"X\r\n"].concat();
    assert_eq!(check_usual(&over, &mut [7]), no(2, 0));
}

#[test]
fn listing_example() {
    let expected = "OK 5 1 0 40 7 0 7\nFIX 4 43200 3090000 N 15000 W A 100 120\nCOL FXA 012\nCOL SIU 08\n";
    assert_eq!(listing(&file(&[A, DATE, I2, B40, G])), expected);
    assert_eq!(listing(outside::files::examples::FIVE), expected);
}
