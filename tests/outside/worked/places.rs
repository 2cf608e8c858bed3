//! Lines by their number and by stepping, and a position for the map.

use super::*;
use outside::reading::{degrees, line, step};

#[test]
fn line_by_number() {
    let data = b"ab\r\nc\rd\n\r\n\r\nrest";
    let table = [0, 4, 10, 12, 1, 99, 16, 2];
    assert_eq!(line(data, &table, 0), no(17, 0));
    assert_eq!(line(data, &table, 1), Ok((0, 2)));
    assert_eq!(line(data, &table, 2), Ok((4, 8)));
    assert_eq!(line(data, &table, 3), Ok((10, 10)));
    // no CR LF from there on; not just past a CR LF; beyond the end; the end; inside a pair; past the entries
    for number in 4..=9 {
        assert_eq!(line(data, &table, number), no(17, 0), "line {number}");
    }
    assert_eq!(line(b"", &[0], 1), no(17, 0));
    assert_eq!(line(b"x\r\n", &[3], 1), no(17, 0));
    assert_eq!(line(b"\r\n\r\n", &[2], 1), Ok((2, 2)));
}

#[test]
fn stepping() {
    let data = b"ab\r\nc\rd\r\nx";
    assert_eq!(step(data, 0), Ok(Some((0, 2))));
    assert_eq!(step(data, 1), Ok(Some((1, 2))));
    assert_eq!(step(data, 3), Ok(Some((3, 7))));
    assert_eq!(step(data, 4), Ok(Some((4, 7))));
    assert_eq!(step(data, 9), no(17, 0));
    assert_eq!(step(data, 10), Ok(None));
    assert_eq!(step(data, 11), no(17, 0));
    assert_eq!(step(b"", 0), Ok(None));
    assert_eq!(step(b"", 1), no(17, 0));
}

#[test]
fn for_the_map() {
    let at = |lat: u64, n_or_s: u8, lon: u64, e_or_w: u8| degrees(at(lat, n_or_s), at(lon, e_or_w));
    assert_eq!(at(3_090_000, b'N', 15_000, b'W'), Ok((51.5, -0.25)));
    assert_eq!(at(5_400_000, b'S', 10_800_000, b'E'), Ok((-90.0, 180.0)));
    assert_eq!(at(1, b'S', 1, b'E'), Ok((-1.0 / 60_000.0, 1.0 / 60_000.0)));
    let (lat, lon) = at(0, b'S', 0, b'W').unwrap();
    assert_eq!((lat.to_bits(), lon.to_bits()), (0, 0));
    assert_eq!(at(20_000, b'N', 0, b'E').unwrap().0.to_bits(), 0x3FD5_5555_5555_5555);
    assert_eq!(at(5_400_001, b'N', 0, b'E'), no(17, 0));
    assert_eq!(at(0, b'N', 10_800_001, b'E'), no(17, 0));
    assert_eq!(at(u64::MAX, b'N', 0, b'E'), no(17, 0));
    assert_eq!(at(0, b'E', 0, b'E'), no(17, 0));
    assert_eq!(at(0, b'N', 0, b'N'), no(17, 0));
}
