//! Finer positions and times: the digits of LAD, LOD and TDS in the fix, at the limits, in the map's degrees, in the writer, and where the plain counts stay.

use super::*;
use outside::files::Run;
use outside::files::random::Random;
use outside::files::reached_finer::Reached;
use outside::files::values::{spoil_position, to_write};
use outside::reading::listing::listing;
use outside::reading::{degrees, read_point, track, tracked, write_extra, write_fix};

/// LAD at 36 and 37, LOD at 38 to 40, TDS at 41; 12, 345 and 6 in the line.
const I3: &str = "I033637LAD3840LOD4141TDS";
const B41: &str = "B1200005130000N00015000WA0010000120123456";

fn three() -> Layout {
    layout(&[(36, 37, "LAD"), (38, 40, "LOD"), (41, 41, "TDS")])
}

const fn finer(count: u64, decimals: u8) -> Finer {
    Finer { count, decimals }
}

/// A position with so many extra decimals.
const fn fine(count: u64, decimals: u8, letter: u8) -> Position {
    Position { count: finer(count, decimals), letter }
}

/// The fix of B41.
const FIX: Fix = Fix {
    time: finer(432_006, 1),
    latitude: fine(309_000_012, 2, b'N'),
    longitude: fine(15_000_345, 3, b'W'),
    validity: b'A',
    pressure: 100,
    gnss: 120,
};

/// The layout of one column behind 35 bytes.
fn one(code: &str, width: usize) -> Layout {
    layout(&[(36, 35 + width, code)])
}

/// The fix of a line with one column.
fn with(parts: Parts, code: &str, digits: &str) -> Answer<Fix> {
    fix_of((b(parts) + digits).as_bytes(), &one(code, digits.len()))
}

/// The old count times ten for each digit, plus the digits. Fails where the power of ten is left out, where a zero at the front is lost, or where a column is taken for another.
#[test]
fn counts() {
    assert_eq!(fix_of(B41.as_bytes(), &three()), Ok(FIX));
    for (digits, count) in [("7", 30_900_007), ("07", 309_000_007), ("070", 3_090_000_070), ("9999", 30_900_009_999)] {
        assert_eq!(with(PARTS, "LAD", digits).map(|f| f.latitude), Ok(fine(count, digits.len() as u8, b'N')), "LAD {digits}");
    }
    for (digits, count) in [("0", 150_000), ("10", 1_500_010), ("000", 15_000_000), ("0001", 150_000_001)] {
        assert_eq!(with(PARTS, "LOD", digits).map(|f| f.longitude), Ok(fine(count, digits.len() as u8, b'W')), "LOD {digits}");
    }
    for (digits, count) in [("5", 432_005), ("05", 4_320_005), ("999", 43_200_999)] {
        assert_eq!(with(PARTS, "TDS", digits).map(|f| f.time), Ok(finer(count, digits.len() as u8)), "TDS {digits}");
    }
    // each column refines its own part alone
    let plain = Fix { time: finer(43_200, 0), latitude: at(3_090_000, b'N'), longitude: at(15_000, b'W'), ..FIX };
    assert_eq!(fix_of(B35.as_bytes(), &Layout::default()), Ok(plain));
    assert_eq!(with(PARTS, "LAD", "12"), Ok(Fix { latitude: FIX.latitude, ..plain }));
    assert_eq!(with(PARTS, "LOD", "345"), Ok(Fix { longitude: FIX.longitude, ..plain }));
    assert_eq!(with(PARTS, "TDS", "6"), Ok(Fix { time: FIX.time, ..plain }));
    // codes that are nearly these refine nothing
    for code in ["LAE", "LAC", "LOO", "TDT", "DAE", "ZZZ"] {
        assert_eq!(with(PARTS, code, "12"), Ok(plain), "{code}");
    }
    // in any order, with other columns before and between
    let mixed = layout(&[(36, 38, "FXA"), (39, 39, "TDS"), (40, 41, "ZZZ"), (42, 44, "LOD"), (45, 46, "LAD")]);
    assert_eq!(fix_of(format!("{B35}0126--34512").as_bytes(), &mixed), Ok(FIX));
    assert_eq!(columns_of(B41, &three()), Ok(entries(&[(36, 37, "LAD"), (38, 40, "LOD"), (41, 41, "TDS")])));
    assert_eq!(number(B41, &three(), b"LOD"), Ok(345));
    // 0 S, 0 W and midnight, and the leap second
    let low = Parts { time: "000000", lat: "0000000S", lon: "00000000W", ..PARTS };
    let zero = Fix { time: finer(1, 3), latitude: fine(2, 4, b'S'), longitude: fine(0, 4, b'W'), ..FIX };
    assert_eq!(fix_of((b(low) + "00100020000").as_bytes(), &layout(&[(36, 38, "TDS"), (39, 42, "LAD"), (43, 46, "LOD")])), Ok(zero));
    assert_eq!(with(Parts { time: "235960", ..PARTS }, "TDS", "999").map(|f| f.time), Ok(finer(86_400_999, 3)));
}

/// Zeros alone at 90 and at 180 degrees. Fails where the digits are taken there, where zeros are refused, or where the other coordinate's limit is asked.
#[test]
fn at_the_limits() {
    let both = |letters: [&str; 2], code: &str, digits: &str| {
        let [lat, lon] = [format!("9000000{}", letters[0]), format!("18000000{}", letters[1])];
        with(Parts { lat: &lat, lon: &lon, ..PARTS }, code, digits)
    };
    for letters in [["N", "E"], ["S", "W"]] {
        let [n_or_s, e_or_w] = letters.map(|l| l.as_bytes()[0]);
        for (digits, lat, lon) in [
            ("0", 54_000_000, 108_000_000),
            ("00", 540_000_000, 1_080_000_000),
            ("000", 5_400_000_000, 10_800_000_000),
            ("0000", 54_000_000_000, 108_000_000_000),
        ] {
            let decimals = digits.len() as u8;
            assert_eq!(both(letters, "LAD", digits).map(|f| f.latitude), Ok(fine(lat, decimals, n_or_s)));
            assert_eq!(both(letters, "LOD", digits).map(|f| f.longitude), Ok(fine(lon, decimals, e_or_w)));
        }
        for digits in ["1", "9", "01", "10", "001", "010", "100", "0001", "9999"] {
            for code in ["LAD", "LOD"] {
                assert_eq!(both(letters, code, digits), no(13, 36), "{code} {digits} at {letters:?}");
            }
        }
        // a time has no such limit
        assert_eq!(both(letters, "TDS", "99").map(|f| f.time), Ok(finer(4_320_099, 2)));
    }
    // one limit is not the other's
    let north = Parts { lat: "9000000N", lon: "17959999E", ..PARTS };
    assert_eq!(with(north, "LOD", "9").map(|f| f.longitude), Ok(fine(107_999_999, 1, b'E')));
    let east = Parts { lat: "8959999N", lon: "18000000E", ..PARTS };
    assert_eq!(with(east, "LAD", "9999").map(|f| f.latitude), Ok(fine(53_999_999_999, 4, b'N')));
    // 5,400,000 as a longitude, 90 degrees east, is no limit
    assert_eq!(with(Parts { lon: "09000000E", ..PARTS }, "LOD", "1").map(|f| f.longitude), Ok(fine(54_000_001, 1, b'E')));
}

/// 13 from the left, behind the fields of the 35 bytes, and before 14. Fails where the limit is asked before or behind all other columns.
#[test]
fn in_the_order_of_checks() {
    let read = |p: Parts, tail: &str, y: &[(usize, usize, &str)]| fix_of((b(p) + tail).as_bytes(), &layout(y));
    let full = || Parts { lat: "9000000N", lon: "18000000E", ..PARTS };
    let (lad_lod, lod_lad) = ([(36, 36, "LAD"), (37, 38, "LOD")], [(36, 37, "LOD"), (38, 38, "LAD")]);
    assert_eq!(read(full(), "101", &lad_lod), no(13, 36));
    assert_eq!(read(full(), "001", &lad_lod), no(13, 37));
    assert_eq!(read(full(), "011", &lod_lad), no(13, 36));
    assert_eq!(read(full(), "001", &lod_lad), no(13, 38));
    assert_eq!(read(full(), "000", &lod_lad).map(|f| f.time), Ok(finer(43_200, 0)));
    // a bad column before it, and behind it
    assert_eq!(read(full(), "0x21", &[(36, 38, "FXA"), (39, 39, "LAD")]), no(13, 36));
    assert_eq!(read(full(), "10x2", &[(36, 36, "LAD"), (37, 39, "FXA")]), no(13, 36));
    assert_eq!(read(full(), "00x2", &[(36, 36, "LAD"), (37, 39, "FXA")]), no(13, 37));
    // no digits, as before
    assert_eq!(read(full(), "-", &[(36, 36, "LAD")]), no(13, 36));
    assert_eq!(read(PARTS, "1x", &[(36, 37, "TDS")]), no(13, 36));
    // a field of the 35 bytes comes first
    assert_eq!(read(Parts { lon: "17960000E", ..full() }, "1", &[(36, 36, "LAD")]), no(23, 16));
    assert_eq!(read(Parts { gnss: "-0000", ..full() }, "1", &[(36, 36, "LAD")]), no(24, 31));
    assert_eq!(read(Parts { lat: "9000001N", ..full() }, "0", &[(36, 36, "LAD")]), no(23, 8));
    // in a file, with its line, and before 14
    let body_of = |second: Parts, tail: &str| body(&["I013636LAD", &(b(PARTS) + "5"), &(b(second) + tail)]);
    assert_eq!(body_of(full(), "0"), OK);
    assert_eq!(body_of(full(), "1"), (13, 5, 36));
    assert_eq!(body_of(Parts { time: "115959", ..full() }, "1"), (13, 5, 36));
    assert_eq!(body_of(Parts { time: "115959", ..full() }, "0"), (14, 5, 2));
    // before 15
    let data = file(&[A, DATE, "I013636LAD", &(b(full()) + "1"), G]);
    assert_eq!(verdict_with(3, &data), (13, 4, 36));
}

/// In K and N lines they are columns like any other. Fails where those lines are refined, or the limit of a fix is asked of them.
#[test]
fn in_other_lines() {
    let of_k = layout(&[(8, 9, "LAD"), (10, 10, "TDS")]);
    assert_eq!(time_of(b"K120000015", &of_k), Ok(43_200));
    assert_eq!(time_of(b"N120000015", &of_k), Ok(43_200));
    for (told, line) in [("J020809LAD1010LOD", "K120000019"), ("M020809LAD1010LOD", "N120000019")] {
        let full = b(Parts { lat: "9000000N", lon: "18000000E", ..PARTS });
        assert_eq!(body(&[told, line, &full]), OK, "{told}");
        let data = file(&[A, DATE, told, line, &full, G]);
        assert_eq!(track(&data).unwrap()[0].fix.latitude, at(5_400_000, b'N'), "{told}");
    }
    // E and F lines, and a declaration, have no columns
    assert_eq!(read_point(b"C9000000N18000000E1").map(|p| p.latitude), Ok(at(5_400_000, b'N')));
}

/// The time order and the day go by the plain seconds. Fails where TDS is in the time order.
#[test]
fn in_the_time_order() {
    let two = |first: &str, second: &str| {
        let line = |t: &str| b(Parts { time: &t[..6], ..PARTS }) + &t[6..];
        [A.to_string(), DATE.to_string(), "I013636TDS".to_string(), line(first), line(second), G.to_string()]
    };
    let days = |first: &str, second: &str| {
        let records = track(&file(&two(first, second))).unwrap();
        records.iter().map(|r| (r.day, r.fix.time)).collect::<Vec<_>>()
    };
    // a fall within the second is none
    assert_eq!(days("1200009", "1200000"), [(0, finer(432_009, 1)), (0, finer(432_000, 1))]);
    // 43,200.9 seconds are a fall of exactly half a day by the plain seconds: 14
    assert_eq!(verdict(&file(&two("1200009", "0000000"))), (14, 5, 2));
    // 43,200.1 seconds are one of 43,201
    assert_eq!(days("1200010", "0000009"), [(0, finer(432_010, 1)), (1, finer(9, 1))]);
    // a fall of one second is one of a second, though the digits make it less
    assert_eq!(verdict(&file(&two("1200010", "1200009"))), (14, 5, 2));
    // across kinds: a fix at 12:00:00.9, then an event at 12:00:00
    assert_eq!(body(&["I013636TDS", &(B35.to_string() + "9"), "E120000PEV"]), OK);
}

/// The listing has the plain counts, and the columns as text. Fails where a finer count is printed.
#[test]
fn listed() {
    let expected = "OK 5 1 0 41 7 0 7\nFIX 4 43200 3090000 N 15000 W A 100 120\nCOL LAD 12\nCOL LOD 345\nCOL TDS 6\n";
    assert_eq!(listing(&file(&[A, DATE, I3, B41, G])), expected);
    let full = b(Parts { time: "235960", lat: "9000000S", lon: "18000000W", ..PARTS });
    let expected = "OK 5 1 0 41 7 0 7\nFIX 4 86400 5400000 S 10800000 W A 100 120\nCOL LAD 00\nCOL LOD 000\nCOL TDS 9\n";
    assert_eq!(listing(&file(&[A, DATE, I3, &(full + "000009"), G])), expected);
}

/// The finer count over 60,000 times the power of ten, rounded once. Fails where the count is divided twice, where plain degrees and the rest are added, or where a limit is not moved with
/// the decimals.
#[test]
fn for_the_map() {
    let both = |a: Position, o: Position| degrees(a, o);
    assert_eq!(both(fine(309_000_000, 2, b'N'), fine(1_500, 0, b'W')), Ok((51.5, -0.025)));
    assert_eq!(both(fine(54_000_000_000, 4, b'S'), fine(10_800_000_000, 3, b'E')), Ok((-90.0, 180.0)));
    // 24,695,181,570 / 600,000,000 is 41.15863595; rounded twice it ends with 26
    let lat = |count, decimals, letter| both(fine(count, decimals, letter), at(0, b'E')).map(|d| d.0.to_bits());
    assert_eq!(lat(24_695_181_570, 4, b'N'), Ok(0x4044_944E_2ECC_9C25));
    assert_eq!(lat(24_695_181_570, 4, b'S'), Ok(0xC044_944E_2ECC_9C25));
    let line = b(Parts { lat: "4109518N", ..PARTS }) + "1570";
    let read = fix_of(line.as_bytes(), &one("LAD", 4)).unwrap();
    assert_eq!(both(read.latitude, read.longitude).map(|d| d.0.to_bits()), Ok(0x4044_944E_2ECC_9C25));
    // 1 / 600,000,000, 7 / 600,000, and one before each limit
    assert_eq!(lat(1, 4, b'N'), Ok(0x3E1C_A213_D840_BAF8));
    assert_eq!(lat(7, 1, b'N'), Ok(0x3EE8_777E_7509_4FC3));
    assert_eq!(lat(53_999_999_999, 4, b'N'), Ok(0x4056_7FFF_FFFE_35DF));
    assert_eq!(both(at(0, b'N'), fine(107_999_999_999, 4, b'E')).map(|d| d.1.to_bits()), Ok(0x4066_7FFF_FFFF_1AEF));
    // zero under either letter
    assert_eq!(both(fine(0, 4, b'S'), fine(0, 1, b'W')).map(|d| (d.0.to_bits(), d.1.to_bits())), Ok((0, 0)));
    for (decimals, power) in [(0, 1), (1, 10), (2, 100), (3, 1_000), (4, 10_000)] {
        assert_eq!(both(fine(5_400_000 * power, decimals, b'N'), fine(10_800_000 * power, decimals, b'W')), Ok((90.0, -180.0)));
        assert_eq!(both(fine(5_400_000 * power + 1, decimals, b'N'), at(0, b'E')), no(17, 0), "{decimals}");
        assert_eq!(both(at(0, b'N'), fine(10_800_000 * power + 1, decimals, b'E')), no(17, 0), "{decimals}");
    }
    for decimals in [5, 6, 64, 255] {
        assert_eq!(both(fine(0, decimals, b'N'), at(0, b'E')), no(17, 0), "{decimals}");
        assert_eq!(both(at(0, b'N'), fine(1, decimals, b'E')), no(17, 0), "{decimals}");
    }
    assert_eq!(both(fine(u64::MAX, 4, b'N'), at(0, b'E')), no(17, 0));
    assert_eq!(both(fine(0, 2, b'E'), at(0, b'E')), no(17, 0));
}

/// The B writer splits the counts again. Fails where decimals or digits that are not the column's are taken, or good ones are refused.
#[test]
fn written() {
    let write = |fix: Fix, tail: &str, y: &Layout| {
        let mut out = [b'.'; 60];
        let answer = write_fix(&fix, tail.as_bytes(), y, 3, &mut out).map_err(|r| (r.number, r.line, r.byte));
        (answer, String::from_utf8(out.to_vec()).unwrap())
    };
    let good = |line: &str| (Ok(line.len() + 5), format!("...{line}\r\n{}", ".".repeat(55 - line.len())));
    let bad = || (Err((17, 0, 0)), ".".repeat(60));
    assert_eq!(write(FIX, "123456", &three()), good(B41));
    let reordered = layout(&[(36, 36, "TDS"), (37, 39, "ZZZ"), (40, 42, "LOD"), (43, 44, "LAD")]);
    assert_eq!(write(FIX, "6a b34512", &reordered), good(&format!("{B35}6a b34512")));
    // each of the three: other digits in the count, or in the column
    let (time, latitude, longitude) = (FIX.time, FIX.latitude, FIX.longitude);
    for wrong in [
        Fix { time: finer(432_007, 1), ..FIX },
        Fix { latitude: fine(309_000_021, 2, b'N'), ..FIX },
        Fix { longitude: fine(15_000_346, 3, b'W'), ..FIX },
        // fewer decimals, more, none; and the same value with one more
        Fix { time: finer(43_200, 0), ..FIX },
        Fix { time: finer(4_320_060, 2), ..FIX },
        Fix { latitude: fine(30_900_001, 1, b'N'), ..FIX },
        Fix { latitude: fine(3_090_000_120, 3, b'N'), ..FIX },
        Fix { latitude: at(3_090_000, b'N'), ..FIX },
        Fix { longitude: fine(1_500_034, 2, b'W'), ..FIX },
        Fix { longitude: at(15_000, b'W'), ..FIX },
        // decimals that are too many for any count
        Fix { time: finer(432_006, 20), ..FIX },
        Fix { latitude: fine(309_000_012, 255, b'N'), ..FIX },
        Fix { longitude: fine(u64::MAX, 19, b'W'), ..FIX },
    ] {
        assert_eq!(write(wrong, "123456", &three()), bad(), "{wrong:?}");
    }
    for tail in ["113456", "123446", "123457", "12345", "1234567", "12345x"] {
        assert_eq!(write(FIX, tail, &three()), bad(), "{tail}");
    }
    // without the columns: no decimals, not even zeros
    let plain = Fix { time: finer(43_200, 0), latitude: at(3_090_000, b'N'), longitude: at(15_000, b'W'), ..FIX };
    let none = Layout::default();
    assert_eq!(write(plain, "", &none), good(B35));
    for wrong in [
        Fix { time: finer(432_000, 1), ..plain },
        Fix { latitude: fine(30_900_000, 1, b'N'), ..plain },
        Fix { longitude: fine(150_000, 1, b'W'), ..plain },
    ] {
        assert_eq!(write(wrong, "", &none), bad(), "{wrong:?}");
    }
    // with one: zeros in the column are decimals
    let [of_lad, of_lod, of_tds] = [one("LAD", 1), one("LOD", 1), one("TDS", 1)];
    assert_eq!(write(plain, "0", &of_lad), bad());
    assert_eq!(write(Fix { latitude: fine(30_900_000, 1, b'N'), ..plain }, "0", &of_lad), good(&format!("{B35}0")));
    assert_eq!(write(Fix { latitude, ..plain }, "2", &of_lad), bad());
    assert_eq!(write(Fix { longitude, ..plain }, "5", &of_lod), bad());
    assert_eq!(write(Fix { time, ..plain }, "6", &of_tds), good(&format!("{B35}6")));
    // the leap second with its tenths, and past it
    let leap = b(Parts { time: "235960", ..PARTS });
    assert_eq!(write(Fix { time: finer(864_009, 1), ..plain }, "9", &of_tds), good(&format!("{leap}9")));
    assert_eq!(write(Fix { time: finer(864_010, 1), ..plain }, "0", &of_tds), bad());
    assert_eq!(write(Fix { time: finer(u32::MAX.into(), 1), ..plain }, "5", &of_tds), bad());
    // at the limits and past them
    let north = b(Parts { lat: "9000000N", ..PARTS });
    assert_eq!(write(Fix { latitude: fine(54_000_000, 1, b'N'), ..plain }, "0", &of_lad), good(&format!("{north}0")));
    assert_eq!(write(Fix { latitude: fine(54_000_001, 1, b'N'), ..plain }, "1", &of_lad), bad());
    let west = b(Parts { lon: "18000000W", ..PARTS });
    assert_eq!(write(Fix { longitude: fine(108_000_000, 1, b'W'), ..plain }, "0", &of_lod), good(&format!("{west}0")));
    assert_eq!(write(Fix { longitude: fine(108_000_009, 1, b'W'), ..plain }, "9", &of_lod), bad());
    // 17 before 18
    let mut short = [b'.'; 10];
    assert_eq!(write_fix(&FIX, b"123456", &three(), 0, &mut short), no(18, 0));
    assert_eq!(write_fix(&plain, b"123456", &three(), 0, &mut short), no(17, 0));
    // a K line's time is plain, with TDS too
    let mut out = [b'.'; 10];
    assert_eq!(write_extra(b'K', 43_200, b"5", &layout(&[(8, 8, "TDS")]), 0, &mut out), Ok(10));
    assert_eq!(&out, b"K1200005\r\n");
}

/// What `igc track` prints: as many digits of the second as the line has, and of the degrees six and as many more as the minute has. Fails where a digit is lost or a zero is left out.
#[test]
fn printed() {
    let lines = |told: &str, all: &[String]| {
        let all: Vec<&str> = [A, DATE, told].into_iter().chain(all.iter().map(String::as_str)).collect();
        tracked(&track(&file(&all)).unwrap())
    };
    // 309,000,012 x 50 / 3 is 5,150,000,200; 15,000,345 x 50 / 3 is 250,005,750
    assert_eq!(lines(I3, &[B41.to_string()]), "4 0 12:00:00.6 51.50000200 -0.250005750 A 100 120\n");
    // 1 x 50 / 3 is 16.66.., 2 x 50 / 3 is 33.33..
    let low = Parts { time: "000000", lat: "0000000S", lon: "00000000W", ..PARTS };
    let of_four = "I033639LAD4043LOD4446TDS";
    assert_eq!(lines(of_four, &[b(low) + "00010002003"]), "4 0 00:00:00.003 -0.0000000017 -0.0000000033 A 100 120\n");
    let full = Parts { time: "235960", lat: "9000000N", lon: "18000000E", ..PARTS };
    assert_eq!(lines(of_four, &[b(full) + "00000000090"]), "4 0 23:59:60.090 90.0000000000 180.0000000000 A 100 120\n");
    let zero = Parts { lat: "0000000S", lon: "00000000W", ..PARTS };
    assert_eq!(lines("I023637LAD3838LOD", &[b(zero) + "000"]), "4 0 12:00:00 0.00000000 0.0000000 A 100 120\n");
}

/// What holds of the B lines of any file, and what a run reaches: the plain counts are those of the line without these columns, the line is written again from its fix, and no spoiled fix is
/// written as another line.
#[test]
fn of_any_file() {
    let run = Run::new(9, 20);
    let mut reached = Reached::default();
    for n in 0..12_000 {
        let mut random = run.random(n);
        let made = run.make(&mut random, n);
        let said = check_usual(&made.file, &mut vec![0; made.file.len() / 3 + 1]);
        reached.add_file(&made.file, &said);
        let lines: Vec<&[u8]> = made.file.split(|&c| c == b'\n').map(|l| l.strip_suffix(b"\r").unwrap_or(l)).collect();
        let told = lines.iter().find(|l| l.starts_with(b"I")).copied().unwrap_or(b"");
        let Some(y) = outside::reading::layout_given(told, outside::reading::Family::Fixes) else { continue };
        for line in lines.into_iter().filter(|l| l.starts_with(b"B")) {
            let answer = read_fix(line, &y);
            reached.add_line(line, &y, &answer);
            if let Ok(read) = answer {
                hold(&mut reached, &mut random, line, &y, &read.said);
            }
        }
    }
    println!("{}", reached.told());
    assert_eq!(reached.never(), Vec::<String>::new(), "never met");
}

/// One fix of a line by a layout.
fn hold(reached: &mut Reached, random: &mut Random, line: &[u8], y: &Layout, fix: &Fix) {
    let plain = fix_of(&line[..35], &Layout::default()).unwrap();
    let counts = |f: &Fix| [f.time, f.latitude.count, f.longitude.count].map(|c| c.plain());
    assert_eq!(counts(fix), counts(&plain));
    assert_eq!([fix.latitude.letter, fix.longitude.letter, fix.validity], [plain.latitude.letter, plain.longitude.letter, plain.validity]);
    let widths = [b"TDS", b"LAD", b"LOD"].map(|code| y.look_up(code).map_or(0, |e| e.width() as u8));
    assert_eq!([fix.time.decimals, fix.latitude.count.decimals, fix.longitude.count.decimals], widths);
    let (mut a, mut o) = (fix.latitude, fix.longitude);
    if random.once_in(2) {
        spoil_position(random, &mut a, 5_400_000);
    } else {
        spoil_position(random, &mut o, 10_800_000);
    }
    for (a, o) in [(fix.latitude, fix.longitude), (a, o)] {
        reached.add_degrees(a, o, degrees(a, o).map_or_else(|r| r.number, |_| 0));
    }
    let (other, columns) = to_write(random, fix, &line[35..], y);
    let mut out = vec![b'.'; 400];
    let answer = write_fix(&other, &columns, y, 0, &mut out);
    reached.add_write(&other, &columns, y, answer.map_or_else(|r| r.number, |_| 0));
    match answer {
        Ok(end) => assert_eq!(fix_of(&out[..end - 2], y), Ok(other)),
        Err(_) => assert_eq!(out, vec![b'.'; 400]),
    }
    let end = write_fix(fix, &line[35..], y, 0, &mut out).unwrap();
    assert_eq!(&out[..end - 2], line);
}
