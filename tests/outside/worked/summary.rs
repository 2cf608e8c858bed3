//! The summary beside a flight: its numbers worked out by hand, updates, and what must hold of any file and of one that B lines were put into.

use super::*;
use outside::files::flights::{any, grown, lent};
use outside::files::random::Random;
use outside::files::reached_summary::Reached;
use outside::reading::summary::{NUMBERS, RUN, summary, summary_into};
use outside::reading::track;

/// A, the date line, these lines, G.
fn flight<L: AsRef<str>>(lines: &[L]) -> Vec<u8> {
    let inner: Vec<&str> = lines.iter().map(|l| l.as_ref()).collect();
    file(&[&[A, DATE], &*inner, &[G]].concat())
}

fn lent_list(length: usize) -> Vec<i32> {
    (0..length).map(lent).collect()
}

/// What an update answers, and the list behind it.
fn update(file: &[u8], old: usize, length: usize) -> (Answer<usize>, Vec<i32>) {
    let mut list = lent_list(length);
    (summary_into(file, old, &mut list), list)
}

/// The twelve numbers of the whole of a flight of few fixes, which are those of its one run.
fn whole<L: AsRef<str>>(lines: &[L]) -> [i32; NUMBERS] {
    let all = summary(&flight(lines)).unwrap();
    assert_eq!(all.len(), 24);
    assert_eq!(all[..12], all[12..]);
    all[..12].try_into().unwrap()
}

/// One fix, and none. Fails where one of the twelve is left out, or stands at another place.
#[test]
fn one_fix() {
    assert_eq!(whole(&[B35]), [1, 0, 43_200, 0, 43_200, 100, 100, 1, 3_090_000, 3_090_000, -15_000, -15_000]);
    let south = "B0000010000001S17959999EA-001200120";
    assert_eq!(whole(&[south]), [1, 0, 1, 0, 1, -12, -12, 1, -1, -1, 10_799_999, 10_799_999]);
    // marked V: an altitude, and no position
    assert_eq!(whole(&[b(Parts { validity: "V", ..PARTS })]), [1, 0, 43_200, 0, 43_200, 100, 100, 0, 0, 0, 0, 0]);
    // no fixes: twelve zeros, and no run
    assert_eq!(summary(&flight(&["K120000", "LX"])), Ok(vec![0; 12]));
    assert_eq!(summary(&file(&[A, DATE])), Ok(vec![0; 12]));
}

/// The line for people. Fails where a field is left out or changes its place, where the days are left out of the duration, where a leap second is the next midnight, or where a V fix has a box.
#[test]
fn outlines() {
    let line = |lines: &[&str]| {
        let file = flight(lines);
        let said = outside::reading::check_usual_alone(&file).unwrap();
        outside::reading::outlined(&said.date, &track(&file).unwrap())
    };
    assert_eq!(line(&[B35]), "2024-07-15 12:00:00 12:00:00 0:00:00 100 100 1 51.500000 51.500000 -0.250000 -0.250000");
    assert_eq!(line(&["K120000"]), "2024-07-15 - - - - - 0 - - - -");
    assert_eq!(line(&["B2359600000001S00000002WV-001200120"]), "2024-07-15 23:59:60 23:59:60 0:00:00 -12 -12 1 - - - -");
    // 22:00:00 to 01:00:05 of the next day are 3 hours and 5 seconds; 30 minutes are half a degree
    let night = ["B2200004530000S00030000WA0050000120", "B2300004600000S00030000EV9999900120", "B0100054700000S00130000EA-010000120"];
    assert_eq!(line(&night), "2024-07-15 22:00:00 01:00:05+1 3:00:05 99999 -100 3 -47.000000 -45.500000 -0.500000 1.500000");
    // a K line, from which the clock falls by 43,201, brings the first fix to day 1
    let late = ["K235959", "B1159585130000N00015000WA0010000120"];
    assert_eq!(line(&late), "2024-07-15 11:59:58+1 11:59:58+1 0:00:00 100 100 1 51.500000 51.500000 -0.250000 -0.250000");
}

/// First and last, highest and lowest, the corners. Fails where V fixes count for the position or not for altitudes, where highest and lowest or the corners begin from 0, or where the GNSS
/// altitude is taken.
#[test]
fn several_fixes() {
    let at = |time, lat, lon, validity, pressure| b(Parts { time, lat, lon, validity, pressure, gnss: "55555" });
    let night = [
        at("235958", "0000001S", "00000002E", "V", "00500"),
        at("235959", "4500000N", "01000000W", "A", "-0100"),
        at("000000", "3000000S", "02000000E", "A", "-0200"),
        at("000001", "9000000N", "18000000W", "V", "99999"),
    ];
    assert_eq!(whole(&night), [4, 0, 86_398, 1, 1, 99_999, -200, 1, -1_800_000, 2_700_000, -600_000, 1_200_000]);
    // all below zero, in the south and in the west
    let low = [at("120000", "1000000S", "00100000W", "A", "-0012"), at("120001", "2000000S", "00200000W", "A", "-9999")];
    assert_eq!(whole(&low), [2, 0, 43_200, 0, 43_201, -12, -9_999, 1, -1_200_000, -600_000, -120_000, -60_000]);
    // all above zero, in the north and in the east
    let high = [at("120000", "2000000N", "00200000E", "A", "00012"), at("120001", "1000000N", "00100000E", "A", "09999")];
    assert_eq!(whole(&high), [2, 0, 43_200, 0, 43_201, 9_999, 12, 1, 600_000, 1_200_000, 60_000, 120_000]);
    // 0 S and 0 W are 0, and a position
    assert_eq!(whole(&[at("120000", "0000000S", "00000000W", "A", "00000")]), [1, 0, 43_200, 0, 43_200, 0, 0, 1, 0, 0, 0, 0]);
    // the first and the last, not the least and the greatest time; the day that E, F, K and N lines show
    let days =
        [b(Parts { time: "235960", ..PARTS }), "K000000".to_string(), b(Parts { time: "000005", ..PARTS }), "E000006PEV".to_string()];
    assert_eq!(whole(&days)[..5], [2, 0, 86_400, 1, 5]);
    let before = ["F235959".to_string(), "N000000".to_string(), b(Parts { time: "100000", ..PARTS }), b(Parts { time: "110000", ..PARTS })];
    assert_eq!(whole(&before)[..5], [2, 1, 36_000, 1, 39_600]);
}

/// The plain counts. Fails where the digits of LAD, LOD or TDS are told.
#[test]
fn of_refined_fixes() {
    let line = format!("{B35}123456");
    assert_eq!(whole(&["I033637LAD3840LOD4141TDS", &line]), [1, 0, 43_200, 0, 43_200, 100, 100, 1, 3_090_000, 3_090_000, -15_000, -15_000]);
}

/// So many fixes, one each second from 12:00:00 on; the nth has the altitude n, and the latitude of n thousandths of a minute north.
fn climb(count: usize) -> Vec<String> {
    let fix = |n: usize| format!("B12{:02}{:02}00{:02}{:03}N00015000WA{n:05}00120", n / 60, n % 60, n / 1000, n % 1000);
    (0..count).map(fix).collect()
}

/// The numbers of the fixes of a climb from one on, and before another.
fn climbed(from: i32, to: i32) -> [i32; NUMBERS] {
    [to - from, 0, 43_200 + from, 0, 43_200 + to - 1, to - 1, from, 1, from, to - 1, -15_000, -15_000]
}

/// Runs of 256. Fails where a run has another length, the last one is left out, or one too many is told.
#[test]
fn runs() {
    let of = |count: usize| summary(&flight(&climb(count))).unwrap();
    assert_eq!(of(255), [climbed(0, 255), climbed(0, 255)].concat());
    assert_eq!(of(256), [climbed(0, 256), climbed(0, 256)].concat());
    assert_eq!(of(257), [climbed(0, 257), climbed(0, 256), climbed(256, 257)].concat());
    assert_eq!(of(512), [climbed(0, 512), climbed(0, 256), climbed(256, 512)].concat());
    assert_eq!(of(513), [climbed(0, 513), climbed(0, 256), climbed(256, 512), climbed(512, 513)].concat());
    // a run without a position in a flight that has one
    let mut lines = climb(257);
    lines[256] = lines[256].replace('A', "V");
    let last = [1, 0, 43_456, 0, 43_456, 256, 256, 0, 0, 0, 0, 0];
    let whole = [257, 0, 43_200, 0, 43_456, 256, 0, 1, 0, 255, -15_000, -15_000];
    assert_eq!(summary(&flight(&lines)), Ok([whole, climbed(0, 256), last].concat()));
}

/// An update works out the whole, the run that was last if not full, and new runs. Fails where a full run is written over, where the last run is kept, or where numbers past the last run are
/// changed.
#[test]
fn updates() {
    let file = flight(&climb(600));
    let (w, a, c, d) = (climbed(0, 600).to_vec(), climbed(0, 256).to_vec(), climbed(256, 512).to_vec(), climbed(512, 600).to_vec());
    let all = lent_list(60);
    let (keep_a, keep_c, rest) = (all[12..24].to_vec(), all[24..36].to_vec(), all[48..].to_vec());
    for (old, expected) in [
        (0, [&w, &a, &c, &d, &rest]),
        (1, [&w, &a, &c, &d, &rest]),
        (255, [&w, &a, &c, &d, &rest]),
        (256, [&w, &keep_a, &c, &d, &rest]),
        (257, [&w, &keep_a, &c, &d, &rest]),
        (511, [&w, &keep_a, &c, &d, &rest]),
        (512, [&w, &keep_a, &keep_c, &d, &rest]),
        (513, [&w, &keep_a, &keep_c, &d, &rest]),
        (600, [&w, &keep_a, &keep_c, &d, &rest]),
    ] {
        let expected: Vec<i32> = expected.into_iter().flatten().copied().collect();
        assert_eq!(update(&file, old, 60), (Ok(3), expected), "{old}");
    }
    // all of it old, and the last run full: the whole alone
    let full = flight(&climb(512));
    let expected = [climbed(0, 512).to_vec(), keep_a, keep_c].concat();
    assert_eq!(update(&full, 512, 36), (Ok(2), expected));
}

/// The file's own, 17, 18; the list is then as it was. Fails where another order is kept, or where a list that is just long enough is refused.
#[test]
fn refusals() {
    let file = flight(&climb(257));
    assert_eq!(update(&file, 257, 36).0, Ok(2));
    for length in [0, 1, 12, 24, 35] {
        assert_eq!(update(&file, 257, length), (no(18, 0), lent_list(length)), "{length}");
    }
    for old in [258, 259, 16_777_217, u32::MAX as usize] {
        for length in [0, 35, 36, 40] {
            assert_eq!(update(&file, old, length), (no(17, 0), lent_list(length)), "{old}, {length}");
        }
    }
    let none = flight(&["K120000"]);
    let zeros: Vec<i32> = [vec![0; 12], lent_list(14)[12..].to_vec()].concat();
    assert_eq!(update(&none, 0, 12), (Ok(0), vec![0; 12]));
    assert_eq!(update(&none, 0, 14), (Ok(0), zeros));
    assert_eq!(update(&none, 0, 11), (no(18, 0), lent_list(11)));
    assert_eq!(update(&none, 1, 11), (no(17, 0), lent_list(11)));
    let bad = flight(&[B35, "K126000"]);
    for (old, length) in [(0, 24), (2, 24), (0, 0), (usize::MAX, 0)] {
        assert_eq!(update(&bad, old, length), (Err(Refusal { number: 22, line: 4, byte: 2 }), lent_list(length)), "{old}, {length}");
    }
    assert_eq!(update(b"", 0, 24).0, no(1, 0));
    // the usual check, and no table: 15 is not met
    assert_eq!(update(&super::file(&[A, DATE, B35]), 0, 24).0, Ok(1));
    assert_eq!(update(&flight(&vec![B35; 20_000]), 0, 12 * 80).0, Ok(79));
}

/// The numbers of any fixes by what they mean, counted out here once more.
fn told(records: &[outside::reading::Record]) -> [i32; NUMBERS] {
    let mut n = [0; NUMBERS];
    let mut placed = 0;
    for (k, r) in records.iter().enumerate() {
        let (time, pressure) = (r.fix.time.plain() as i32, r.fix.pressure);
        if k == 0 {
            (n[1], n[2], n[5], n[6]) = (r.day as i32, time, pressure, pressure);
        }
        (n[0], n[3], n[4]) = (k as i32 + 1, r.day as i32, time);
        (n[5], n[6]) = (n[5].max(pressure), n[6].min(pressure));
        if r.fix.validity == b'V' {
            continue;
        }
        let sign = |p: Position| if p.letter == b'S' || p.letter == b'W' { -1 } else { 1 } * p.count.plain() as i32;
        let (latitude, longitude) = (sign(r.fix.latitude), sign(r.fix.longitude));
        if placed == 0 {
            (n[8], n[9], n[10], n[11]) = (latitude, latitude, longitude, longitude);
        }
        placed += 1;
        n[7] = 1;
        (n[8], n[9]) = (n[8].min(latitude), n[9].max(latitude));
        (n[10], n[11]) = (n[10].min(longitude), n[11].max(longitude));
    }
    n
}

#[test]
fn of_any_flight() {
    let mut reached = Reached::default();
    for n in 0..500 {
        let mut random = Random::new(n * 31_013);
        let flight = any(&mut random);
        let (track, old) = (track(&flight.file), flight.old as usize);
        let mut list = flight.list.clone();
        let answer = summary_into(&flight.file, old, &mut list);
        reached.add(&track, flight.old, list.len(), &answer);
        let (Ok(runs), Ok(records)) = (answer, &track) else {
            assert_eq!(list, flight.list, "flight {n}");
            assert_eq!(track.err().or(answer.err()), answer.err(), "flight {n}");
            continue;
        };
        assert_eq!(runs, records.len().div_ceil(RUN), "flight {n}");
        assert_eq!(list[..12], told(records), "flight {n}");
        for (k, run) in records.chunks(RUN).enumerate() {
            let at = 12 + 12 * k;
            let expected = if RUN * k + RUN <= old { flight.list[at..at + 12].to_vec() } else { told(run).to_vec() };
            assert_eq!(list[at..at + 12], expected, "run {k} of flight {n}");
        }
        assert_eq!(list[12 + 12 * runs..], flight.list[12 + 12 * runs..], "flight {n}");
    }
    // "If those are of an older file with that many fixes, and only B lines have since been put, after its last timed line, the result equals one made afresh."
    for n in 0..300 {
        let grown = grown(&mut Random::new(n * 70_001));
        let (older, newer) = (summary(&grown.older).unwrap(), summary(&grown.newer).unwrap());
        reached.add_grown(&grown, older[0] as usize);
        // the earlier runs are the older file's; all else is as lent
        let mut list = lent_list(newer.len() + 5);
        let kept = 12 + 12 * (older[0] as usize / RUN);
        list[12..kept].copy_from_slice(&older[12..kept]);
        assert_eq!(summary_into(&grown.newer, older[0] as usize, &mut list), Ok(newer.len() / 12 - 1), "grown {n}");
        assert_eq!(list[..newer.len()], newer, "grown {n}");
        assert_eq!(list[newer.len()..], lent_list(newer.len() + 5)[newer.len()..], "grown {n}");
    }
    println!("{}", reached.told());
    assert_eq!(reached.never(), Vec::<&str>::new(), "never met");
}

/// The update of a file that a B line was put into before its last timed line is another than one made afresh. Fails where the update works out the earlier runs too.
#[test]
fn put_in_earlier() {
    let old = climb(256);
    let new = [vec![b(Parts { lat: "0000000N", pressure: "09999", ..PARTS })], old.clone()].concat();
    let before = summary(&flight(&old)).unwrap();
    let mut list = [before, vec![0; 12]].concat();
    assert_eq!(summary_into(&flight(&new), 256, &mut list), Ok(2));
    let fresh = summary(&flight(&new)).unwrap();
    assert_eq!(list[..12], fresh[..12]);
    assert_eq!(list[12..24], climbed(0, 256));
    assert_eq!(fresh[12..24][5], 9_999);
    assert_ne!(list, fresh);
}
