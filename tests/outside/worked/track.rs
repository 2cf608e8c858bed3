//! The whole track: its records worked out by hand, what must hold of any file's, and what `igc track` prints.

use super::*;
use outside::files::Run;
use outside::files::reached_track::{Reached, rooms};
use outside::reading::{Record, track, track_into, tracked};

fn fix_at(time: &str) -> String {
    b(Parts { time, ..PARTS })
}

/// A, the date line, these lines, G.
fn flight<L: AsRef<str>>(lines: &[L]) -> Vec<u8> {
    let inner: Vec<&str> = lines.iter().map(|l| l.as_ref()).collect();
    file(&[&[A, DATE], &*inner, &[G]].concat())
}

/// Line, day and seconds of each record of that file.
fn days<L: AsRef<str>>(lines: &[L]) -> Vec<(u64, u64, u64)> {
    track(&flight(lines)).unwrap().iter().map(|r| (r.line, r.day, r.fix.time.count)).collect()
}

/// A line of each timed kind but B.
fn timed(kind: char, time: &str) -> String {
    if kind == 'E' { format!("E{time}PEV") } else { format!("{kind}{time}") }
}

/// A record that no file has, another for each place of a list.
fn lent(n: usize) -> Record {
    let place = at(77, b'?');
    let fix = Fix { time: Finer::whole(99_999), latitude: place, longitude: place, validity: b'?', pressure: -77_777, gnss: 777_777 };
    Record { line: 1_000 + n as u64, day: 500, fix }
}

fn lent_list(length: usize) -> Vec<Record> {
    (0..length).map(lent).collect()
}

#[test]
fn values() {
    // columns and an I line before it; 0 S and 0 W keep their letters, altitudes their minus
    let south = "B1200010000000S00000000WV-0012-9999";
    let lines = [A, DATE, "HFPLTPILOT:DOE, JANE", I2, "LX", B40, "LX", &format!("{south}01208"), G];
    let first = Fix {
        time: Finer::whole(43_200),
        latitude: at(3_090_000, b'N'),
        longitude: at(15_000, b'W'),
        validity: b'A',
        pressure: 100,
        gnss: 120,
    };
    let second =
        Fix { time: Finer::whole(43_201), latitude: at(0, b'S'), longitude: at(0, b'W'), validity: b'V', pressure: -12, gnss: -9_999 };
    assert_eq!(track(&file(&lines)), Ok(vec![Record { line: 6, day: 0, fix: first }, Record { line: 8, day: 0, fix: second }]));
}

#[test]
fn several_days() {
    let times = ["230000", "235959", "000000", "120000", "235959", "000001", "000001", "120002", "000000"];
    // falls of 86,399, 86,398 and 43,202
    let expected =
        [(3, 0, 82_800), (4, 0, 86_399), (5, 1, 0), (6, 1, 43_200), (7, 1, 86_399), (8, 2, 1), (9, 2, 1), (10, 2, 43_202), (11, 3, 0)];
    assert_eq!(days(&times.map(fix_at)), expected);
}

#[test]
fn falls() {
    let two = |first: &str, second: &str| days(&[fix_at(first), fix_at(second)])[1].1;
    // a fall of 43,201 is a new day; no fall, and a rise over half a day, are none
    assert_eq!(two("120001", "000000"), 1);
    assert_eq!(two("120000", "120000"), 0);
    assert_eq!(two("000000", "235959"), 0);
    // one of 43,200 exactly is refused, and no record changes
    for (first, second) in [("120000", "000000"), ("235959", "115959"), ("235960", "120000")] {
        let mut list = lent_list(2);
        let wanted = Err(Refusal { number: 14, line: 4, byte: 2 });
        assert_eq!(track_into(&flight(&[fix_at(first), fix_at(second)]), &mut list), wanted, "{first}, {second}");
        assert_eq!(list, lent_list(2));
    }
}

#[test]
fn midnights_that_no_fix_shows() {
    for kind in ['E', 'F', 'K', 'N'] {
        // the fixes alone would rise from 13:00 to 14:00, and are a day apart
        assert_eq!(days(&[fix_at("130000"), timed(kind, "003000"), fix_at("140000")]), [(3, 0, 46_800), (5, 1, 50_400)], "{kind}");
        // they would fall by an hour, which is refused, and are a day apart
        assert_eq!(days(&[fix_at("130000"), timed(kind, "003000"), fix_at("120000")]), [(3, 0, 46_800), (5, 1, 43_200)], "{kind}");
        // one midnight, whichever line is the first behind it
        assert_eq!(days(&[fix_at("235900"), timed(kind, "235959"), fix_at("000000")]), [(3, 0, 86_340), (5, 1, 0)], "{kind}");
        assert_eq!(days(&[fix_at("235900"), timed(kind, "000000"), fix_at("000000")]), [(3, 0, 86_340), (5, 1, 0)], "{kind}");
        // before the first fix; and two of them between two fixes
        assert_eq!(days(&[timed(kind, "235959"), timed(kind, "000000"), fix_at("000000")]), [(5, 1, 0)], "{kind}");
        let four = ["130000", "003000", "140000", "003000"].map(|time| timed(kind, time));
        assert_eq!(days(&[&[fix_at("120000")], &four[..], &[fix_at("140000")]].concat()), [(3, 0, 43_200), (8, 2, 50_400)], "{kind}");
    }
}

#[test]
fn lines_without_a_time() {
    // text that looks like a time, in lines that have none
    assert_eq!(days(&[&fix_at("130000"), "L003000", "O003000", "D1ABCD", &fix_at("140000")]), [(3, 0, 46_800), (7, 0, 50_400)]);
    // the time of a declaration, 11:00, is none of the time order
    let fix = fix_at("235959");
    let declared = [&["E235959PEV", HEAD], &*times(4, POINT), &["F235959", &fix]].concat();
    assert_eq!(days(&declared), [(10, 0, 86_399)]);
    // behind the G lines there is no time
    let lines = [A, DATE, &fix_at("130000"), G, "L003000"];
    assert_eq!(track(&file(&lines)).unwrap().len(), 1);
}

#[test]
fn without_a_signature() {
    // the usual check: no G is needed
    let lines = [A, DATE, &fix_at("235959"), "K000000", &fix_at("000001")];
    let records: Vec<_> = track(&file(&lines)).unwrap().iter().map(|r| (r.line, r.day, r.fix.time.count)).collect();
    assert_eq!(records, [(3, 0, 86_399), (5, 1, 1)]);
    assert_eq!(track(&file(&[A, DATE])), Ok(vec![]));
}

#[test]
fn the_leap_second() {
    let times = ["235959", "235960", "235960", "000000", "235960", "000000"];
    let expected = [(3, 0, 86_399), (4, 0, 86_400), (5, 0, 86_400), (6, 1, 0), (7, 1, 86_400), (8, 2, 0)];
    assert_eq!(days(&times.map(fix_at)), expected);
    for kind in ['E', 'F', 'K', 'N'] {
        assert_eq!(days(&[timed(kind, "235960"), fix_at("000000")]), [(4, 1, 0)], "{kind}");
        assert_eq!(days(&[fix_at("235960"), timed(kind, "115959"), fix_at("235960")]), [(3, 0, 86_400), (5, 1, 86_400)], "{kind}");
    }
}

#[test]
fn lists() {
    let put = |file: &[u8], length: usize| {
        let mut list = lent_list(length);
        (track_into(file, &mut list), list)
    };
    let two = flight(&[fix_at("120000"), fix_at("120005")]);
    let records = track(&two).unwrap();
    assert_eq!(records.iter().map(|r| (r.line, r.day)).collect::<Vec<_>>(), [(3, 0), (4, 0)]);
    assert_eq!(put(&two, 2), (Ok(2), records.clone()));
    assert_eq!(put(&two, 4), (Ok(2), [records, vec![lent(2), lent(3)]].concat()));
    assert_eq!(put(&two, 1), (no(18, 0), vec![lent(0)]));
    assert_eq!(put(&two, 0), (no(18, 0), vec![]));
    // no B lines: any list will do, and stays
    let none = flight(&["K120000", "LX"]);
    assert_eq!(put(&none, 0), (Ok(0), vec![]));
    assert_eq!(put(&none, 2), (Ok(0), lent_list(2)));
    // refused: the file's own before 18, with its line and byte
    for (file, number, line, byte) in [
        (flight(&[fix_at("120000"), fix_at("126000")]), 22, 4, 2),
        (flight(&[fix_at("120000"), fix_at("115959")]), 14, 4, 2),
        (flight(&[fix_at("120000"), format!("{B35}0")]), 7, 4, 0),
        (file(&[A, DATE, HEAD]), 16, 4, 0),
        (file(&[A]), 16, 2, 0),
        (b"A".to_vec(), 3, 1, 2),
        (b"".to_vec(), 1, 0, 0),
        (vec![b'A'; 16_777_217], 2, 0, 0),
    ] {
        for length in [0, 1, 3] {
            assert_eq!(put(&file, length), (Err(Refusal { number, line, byte }), lent_list(length)), "{number} with a list of {length}");
        }
    }
}

#[test]
fn no_table() {
    // 15 is not met, however many lines there are
    let many = flight(&vec![fix_at("120000"); 20_000]);
    let track = track(&many).unwrap();
    assert_eq!((track.len(), track[19_999].line, track[19_999].day), (20_000, 20_002, 0));
}

#[test]
fn of_any_file() {
    let run = Run::new(12, 20);
    let mut reached = Reached::default();
    for n in 0..8_000 {
        let mut random = run.random(n);
        let made = run.make(&mut random, n);
        let answer = track(&made.file);
        for room in rooms(&mut random, &answer) {
            let mut list = lent_list(room);
            let count = track_into(&made.file, &mut list);
            reached.add(&made.file, &answer, room);
            let set = count.unwrap_or(0);
            assert_eq!(list[..set], answer.as_deref().unwrap_or(&[])[..set], "file {n}");
            assert_eq!(list[set..], lent_list(room)[set..], "file {n}");
        }
        let said = check_usual(&made.file, &mut vec![0; made.file.len() / 3 + 1]);
        // Refused as the check with a table that has room; else a record for each B line.
        assert_eq!(said.as_ref().err(), answer.as_ref().err(), "file {n}");
        let (Ok(said), Ok(records)) = (said, answer) else { continue };
        assert_eq!(records.len() as u64, said.b_lines, "file {n}");
        let lines: Vec<&[u8]> = made.file.split(|&c| c == b'\n').map(|l| l.strip_suffix(b"\r").unwrap_or(l)).collect();
        let of_b: Vec<u64> = (1..).zip(&lines).filter(|(_, l)| l.starts_with(b"B")).map(|(number, _)| number).collect();
        assert_eq!(records.iter().map(|r| r.line).collect::<Vec<_>>(), of_b, "file {n}");
        for r in records {
            let before = &lines[..r.line as usize];
            assert_eq!(fix_of(before[before.len() - 1], &said.layouts.fixes), Ok(r.fix), "file {n}");
            // A fall that is no new day is refused, so that each one up to here was a new day. HHMMSS falls where its text does.
            let clocks: Vec<&[u8]> = before.iter().filter(|l| b"BEFKN".contains(&l[0])).map(|l| &l[1..7]).collect();
            assert_eq!(r.day, clocks.windows(2).filter(|two| two[1] < two[0]).count() as u64, "file {n}");
        }
    }
    println!("{}", reached.told());
    assert_eq!(reached.never(), Vec::<&str>::new(), "never met");
}

#[test]
fn printed() {
    let lines = |file: &[u8]| tracked(&track(file).unwrap());
    // the listing's fix: 3,090,000 / 60,000 is 51.5, and 15,000 / 60,000 is 0.25
    assert_eq!(lines(&file(&[A, DATE, I2, B40, G])), "4 0 12:00:00 51.500000 -0.250000 A 100 120\n");
    assert_eq!(lines(&flight(&["K120000"])), "");
    let at = |time, lat, lon| b(Parts { time, lat, lon, validity: "V", pressure: "-0012", gnss: "99999" });
    let all = [
        // 1 / 60,000 is 0.00001666.., 2 / 60,000 is 0.00003333.., 3 / 60,000 is 0.00005
        at("235959", "0000001N", "00000002E"),
        at("235960", "0000001S", "00000002W"),
        at("000000", "0000003S", "00000000W"),
        at("000001", "0000000S", "00000004E"),
        // the limits, and one before: 5,399,999 / 60,000 is 89.99998333.., 10,799,999 / 60,000 is 179.99998333..
        at("010203", "9000000S", "18000000W"),
        at("123456", "8959999N", "17959999E"),
        // 599 / 60,000 is 0.00998333.., 6,000 / 60,000 is 0.1, 59,999 / 60,000 is 0.99998333..
        at("123456", "0000599S", "00006000W"),
        at("123456", "0059999S", "00159999W"),
    ];
    let expected = "3 0 23:59:59 0.000017 0.000033 V -12 99999\n\
                    4 0 23:59:60 -0.000017 -0.000033 V -12 99999\n\
                    5 1 00:00:00 -0.000050 0.000000 V -12 99999\n\
                    6 1 00:00:01 0.000000 0.000067 V -12 99999\n\
                    7 1 01:02:03 -90.000000 -180.000000 V -12 99999\n\
                    8 1 12:34:56 89.999983 179.999983 V -12 99999\n\
                    9 1 12:34:56 -0.009983 -0.100000 V -12 99999\n\
                    10 1 12:34:56 -0.999983 -1.999983 V -12 99999\n";
    assert_eq!(lines(&flight(&all)), expected);
}
