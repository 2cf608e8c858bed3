//! The leap second: 23:59:60 in every time field, read as 86,400, written again, and what comes after it.

use super::*;
use outside::reading::listing::listing;
use outside::reading::{Date, Head, read_event, read_head, read_satellites, write_extra, write_fix, write_head};

/// Times with 60 seconds that are no leap second, and times past it.
const NONE: [&str; 9] = ["235961", "235969", "240000", "236000", "235860", "225960", "120060", "000060", "245960"];

fn fix_at(time: &str) -> String {
    b(Parts { time, ..PARTS })
}

#[test]
fn in_every_time_field() {
    let none = Layout::default();
    assert_eq!(fix_of(fix_at("235960").as_bytes(), &none).map(|f| f.time), Ok(Finer::whole(86_400)));
    assert_eq!(time_of(b"K235960", &none), Ok(86_400));
    assert_eq!(time_of(b"N235960", &none), Ok(86_400));
    assert_eq!(read_event(b"E235960PEV"), Ok(86_400));
    assert_eq!(read_satellites(b"F235960"), Ok(86_400));
    assert_eq!(read_head(b"C150724235960000000000100").map(|h| h.time), Ok(86_400));
    // the second before is as it was
    assert_eq!(time_of(b"K235959", &none), Ok(86_399));
    for wrong in NONE {
        assert_eq!(fix_of(fix_at(wrong).as_bytes(), &none), no(22, 2), "B {wrong}");
        assert_eq!(time_of(format!("K{wrong}").as_bytes(), &none), no(22, 2), "K {wrong}");
        assert_eq!(time_of(format!("N{wrong}").as_bytes(), &none), no(22, 2), "N {wrong}");
        assert_eq!(read_event(format!("E{wrong}PEV").as_bytes()), no(22, 2), "E {wrong}");
        assert_eq!(read_satellites(format!("F{wrong}").as_bytes()), no(22, 2), "F {wrong}");
        assert_eq!(read_head(format!("C150724{wrong}000000000100").as_bytes()), no(22, 8), "C {wrong}");
    }
}

#[test]
fn in_a_file() {
    for good in [&fix_at("235960"), "K235960", "N235960", "E235960PEV", "F235960"] {
        assert_eq!(body(&[good]), OK, "{good}");
    }
    assert_eq!(body(&[&["C150724235960000000000100"], &*times(4, POINT)].concat()), OK);
    for wrong in NONE {
        for line in [fix_at(wrong), format!("K{wrong}"), format!("N{wrong}"), format!("E{wrong}PEV"), format!("F{wrong}")] {
            assert_eq!(body(&[&line]), (22, 3, 2), "{line}");
        }
        assert_eq!(body(&[format!("C150724{wrong}000000000100")]), (22, 3, 8), "C {wrong}");
    }
    // on any date: which years have one, the rule does not say
    assert_eq!(verdict(&file(&[A, "HFDTE311216", &fix_at("235960"), G])), OK);
}

#[test]
fn in_the_time_order() {
    let two = |first: &str, second: &str| {
        let extras = body(&[format!("K{first}"), format!("N{second}")]);
        assert_eq!(extras, body(&[fix_at(first), format!("E{second}PEV")]));
        assert_eq!(extras, body(&[format!("F{first}"), fix_at(second)]));
        extras
    };
    assert_eq!(two("235959", "235960"), OK);
    assert_eq!(two("235960", "235960"), OK);
    assert_eq!(two("000000", "235960"), OK);
    // "235960 then 000000 passes as the next day": falls of 86,400, 86,399 and 43,201
    assert_eq!(two("235960", "000000"), OK);
    assert_eq!(two("235960", "000001"), OK);
    assert_eq!(two("235960", "115959"), OK);
    // falls of 43,200, 43,199, 1
    assert_eq!(two("235960", "120000"), (14, 4, 2));
    assert_eq!(two("235960", "120001"), (14, 4, 2));
    assert_eq!(two("235960", "235959"), (14, 4, 2));
    assert_eq!(body(&["K235959", "K235960", "K000000", "K235960", "K000000"]), OK);
}

#[test]
fn listed() {
    let lines = [A, "HFDTE311216", &fix_at("235959"), &fix_at("235960"), &fix_at("000000"), G];
    let place = "3090000 N 15000 W A 100 120";
    let expected = format!("OK 6 3 0 35 7 0 7\nFIX 3 86399 {place}\nFIX 4 86400 {place}\nFIX 5 0 {place}\n");
    assert_eq!(listing(&file(&lines)), expected);
}

#[test]
fn written() {
    let put = |write: &dyn Fn(&mut [u8]) -> Answer<usize>| {
        let mut out = [b'.'; 40];
        let answer = write(&mut out).map_err(|r| r.number);
        (answer, String::from_utf8(out.to_vec()).unwrap())
    };
    let none = Layout::default();
    let (latitude, longitude) = (at(3_090_000, b'N'), at(15_000, b'W'));
    let fix = |time: u32| Fix { time: Finer::whole(time.into()), latitude, longitude, validity: b'A', pressure: 100, gnss: 120 };
    let head = |time| Head { declared: Date { day: 31, month: 12, year: 2016 }, time, flight: None, task: 1, turns: 0 };
    for (line, write) in [
        ("K235960", &(|time, out: &mut [u8]| write_extra(b'K', time, b"", &none, 0, out)) as &dyn Fn(u32, &mut [u8]) -> Answer<usize>),
        ("N235960", &|time, out: &mut [u8]| write_extra(b'N', time, b"", &none, 0, out)),
        ("B2359605130000N00015000WA0010000120", &|time, out: &mut [u8]| write_fix(&fix(time), b"", &none, 0, out)),
        ("C311216235960000000000100", &|time, out: &mut [u8]| write_head(&head(time), b"", 0, out)),
    ] {
        let after = line.len() + 2;
        assert_eq!(put(&|out| write(86_400, out)), (Ok(after), format!("{line}\r\n{}", ".".repeat(40 - after))));
        for wrong in [86_401, 86_460, 90_000, 360_000, u32::MAX] {
            assert_eq!(put(&|out| write(wrong, out)), (Err(17), ".".repeat(40)), "{wrong} for {line}");
        }
    }
}
