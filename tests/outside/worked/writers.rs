//! The writers.

use super::*;
use outside::reading::{Date, Family, Head, Point, write_extra, write_fix, write_head, write_layout, write_point};

/// The line that a writer puts at the front of an output with room for it, or its refusal's number. Nothing else of the output changes.
fn written(write: impl Fn(usize, &mut [u8]) -> Answer<usize>) -> Result<String, u32> {
    let mut out = vec![b'.'; 300];
    let answer = write(0, &mut out);
    let end = *answer.as_ref().unwrap_or(&0);
    assert!(out[end..].iter().all(|&c| c == b'.'), "bytes outside the line");
    match answer {
        Ok(end) => Ok(String::from_utf8(out[..end].to_vec()).unwrap().strip_suffix("\r\n").unwrap().to_string()),
        Err(r) => {
            assert_eq!((r.line, r.byte), (0, 0));
            Err(r.number)
        }
    }
}

fn line(text: &str) -> Result<String, u32> {
    Ok(text.to_string())
}

const FIX: Fix = Fix {
    time: Finer::whole(43_200),
    latitude: at(3_090_000, b'N'),
    longitude: at(15_000, b'W'),
    validity: b'A',
    pressure: 100,
    gnss: 120,
};

#[test]
fn fixes() {
    let write = |fix: Fix, tail: &str, y: &Layout| written(|place, out| write_fix(&fix, tail.as_bytes(), y, place, out));
    let (none, one) = (Layout::default(), layout(&[(36, 38, "ZZZ")]));
    assert_eq!(write(FIX, "01208", &two_columns()), line(B40));
    assert_eq!(write(FIX, "", &none), line(B35));
    let low = Fix { time: Finer::whole(0), latitude: at(0, b'S'), longitude: at(0, b'E'), validity: b'V', pressure: -12, gnss: -9_999 };
    assert_eq!(write(low, "", &none), line("B0000000000000S00000000EV-0012-9999"));
    let (latitude, longitude) = (at(5_400_000, b'S'), at(10_800_000, b'W'));
    let high = Fix { time: Finer::whole(86_399), latitude, longitude, validity: b'V', pressure: 99_999, gnss: -1 };
    assert_eq!(write(high, "", &none), line("B2359599000000S18000000WV99999-0001"));
    let times = [86_401, 10_000_000, u32::MAX.into(), u64::MAX].map(|time| Fix { time: Finer::whole(time), ..FIX });
    let latitudes =
        [at(5_400_001, b'N'), at(100_000_000, b'N'), at(0, b'E'), at(0, b'n'), at(0, 0)].map(|latitude| Fix { latitude, ..FIX });
    let longitudes =
        [at(10_800_001, b'E'), at(1_000_000_000, b'E'), at(0, b'N'), at(0, b'w'), at(0, 0)].map(|longitude| Fix { longitude, ..FIX });
    let validities = [b'a', b'X', 0].map(|validity| Fix { validity, ..FIX });
    let pressures = [-10_000, 100_000].map(|pressure| Fix { pressure, ..FIX });
    let heights = [-10_000, 100_000].map(|gnss| Fix { gnss, ..FIX });
    let all: [&[Fix]; 6] = [&times, &latitudes, &longitudes, &validities, &pressures, &heights];
    for fix in all.concat() {
        assert_eq!(write(fix, "", &none), Err(17), "{fix:?}");
    }
    assert_eq!(write(FIX, "0", &none), Err(17));
    assert_eq!(write(FIX, "", &two_columns()), Err(17));
    assert_eq!(write(FIX, "0x208", &two_columns()), Err(17));
    assert_eq!(write(FIX, "-1208", &two_columns()), Err(17));
    assert_eq!(write(FIX, "a b", &one), line(&format!("{B35}a b")));
    assert_eq!(write(FIX, "a,b", &one), Err(17));
    assert_eq!(write(FIX, "a\rb", &one), Err(17));
    assert_eq!(write(FIX, "0", &layout(&[(37, 37, "ZZZ")])), Err(17));
    // values that would slip into a neighbour's place
    assert_eq!(write(Fix { gnss: 100_000, ..FIX }, "01", &one), Err(17));
    assert_eq!(write(Fix { gnss: 100_000, ..FIX }, "", &layout(&[(36, 36, "ZZZ")])), Err(17));
}

#[test]
fn extras() {
    let write = |time: u32, tail: &str, y: &Layout| written(|place, out| write_extra(b'K', time, tail.as_bytes(), y, place, out));
    let two = layout(&[(8, 9, "LAD"), (10, 10, "ZZZ")]);
    assert_eq!(write(1, "", &Layout::default()), line("K000001"));
    assert_eq!(write(86_399, "12a", &two), line("K23595912a"));
    assert_eq!(write(86_399, "1-a", &two), Err(17));
    assert_eq!(write(86_401, "", &Layout::default()), Err(17));
    assert_eq!(write(u32::MAX, "", &Layout::default()), Err(17));
    assert_eq!(write(0, "0", &Layout::default()), Err(17));
    assert_eq!(write(0, "012", &layout(&[(36, 38, "FXA")])), Err(17));
}

#[test]
fn layouts() {
    let write = |family: Family, y: &Layout| written(|place, out| write_layout(y, family, place, out));
    let i = |entries: &[(usize, usize, &str)]| write(Family::Fixes, &layout(entries));
    let j = |entries: &[(usize, usize, &str)]| write(Family::Extras, &layout(entries));
    assert_eq!(i(&[]), line("I00"));
    assert_eq!(j(&[]), line("J00"));
    assert_eq!(write(Family::Fixes, &two_columns()), line(I2));
    assert_eq!(write(Family::Extras, &two_columns()), Err(17));
    assert_eq!(j(&[(8, 9, "LAD")]), line("J010809LAD"));
    assert_eq!(i(&[(8, 9, "LAD")]), Err(17));
    assert_eq!(i(&[(36, 99, "ZZZ")]), line("I013699ZZZ"));
    assert_eq!(i(&[(36, 100, "ZZZ")]), Err(17));
    assert_eq!(i(&[(36, 39, "FXA")]), Err(17));
    assert_eq!(i(&[(36, 38, "FX ")]), Err(17));
    assert_eq!(i(&[(36, 38, "ZZZ"), (39, 39, "ZZZ")]), Err(17));
    assert_eq!(write(Family::Fixes, &narrow_columns(14)), Err(17));
    assert!(write(Family::Fixes, &narrow_columns(13)).is_ok());
}

#[test]
fn declarations() {
    let declared = Date { day: 15, month: 7, year: 2024 };
    let good = Head { declared, time: 39_600, flight: None, task: 1, turns: 0 };
    let head = |head: Head, text: &str| written(|place, out| write_head(&head, text.as_bytes(), place, out));
    assert_eq!(head(good, ""), line(HEAD));
    assert_eq!(head(good, &x(230)), line(&format!("{HEAD}{}", x(230))));
    assert_eq!(head(good, &x(231)), Err(17));
    assert_eq!(head(good, "a,b"), Err(17));
    let day = |day, month, year| Date { day, month, year };
    assert_eq!(head(Head { flight: Some(day(1, 1, 1980)), ..good }, ""), line("C150724110000010180000100"));
    let days = [day(0, 0, 0), day(0, 1, 2024), day(29, 2, 2023), day(1, 1, 1979), day(1, 1, 2080), day(1, 13, 2024)];
    let heads = days.map(|declared| Head { declared, ..good }).to_vec();
    let flights = [day(0, 0, 2000), day(31, 4, 2024)].map(|flight| Head { flight: Some(flight), ..good });
    let numbers = [Head { time: 86_401, ..good }, Head { task: 10_000, ..good }, Head { turns: 100, ..good }];
    for wrong in [heads, flights.to_vec(), numbers.to_vec()].concat() {
        assert_eq!(head(wrong, ""), Err(17), "{wrong:?}");
    }
    let place = Point { latitude: at(3_090_000, b'N'), longitude: at(15_000, b'W') };
    let point = |point: Point, text: &str| written(|place, out| write_point(&point, text.as_bytes(), place, out));
    assert_eq!(point(place, ""), line(POINT));
    assert_eq!(point(place, &x(237)), line(&format!("{POINT}{}", x(237))));
    assert_eq!(point(place, &x(238)), Err(17));
    assert_eq!(point(place, "^"), Err(17));
    assert_eq!(point(Point { latitude: at(5_400_001, b'N'), ..place }, ""), Err(17));
    assert_eq!(point(Point { longitude: at(15_000, b'S'), ..place }, ""), Err(17));
}

#[test]
fn where_a_line_is_put() {
    let put = |time: u32, place: usize| {
        let mut out = *b"...............";
        let answer = write_extra(b'K', time, b"", &Layout::default(), place, &mut out);
        (answer, String::from_utf8(out.to_vec()).unwrap())
    };
    let dots = "...............".to_string();
    assert_eq!(put(1, 1), (Ok(10), ".K000001\r\n.....".to_string()));
    assert_eq!(put(1, 6), (Ok(15), "......K000001\r\n".to_string()));
    assert_eq!(put(1, 7), (no(18, 0), dots.clone()));
    assert_eq!(put(1, 16), (no(18, 0), dots.clone()));
    assert_eq!(put(1, usize::MAX), (no(18, 0), dots.clone()));
    // 17 before 18
    assert_eq!(put(86_401, 16), (no(17, 0), dots));
}
