//! What must be told of lines written at the limits of their values and past them: the answer, and the whole output.

use outside::reading::refusals::BAD_VALUE;
use outside::reading::{
    Answer, Date, Entry, Family, Finer, Fix, Head, Layout, Point, Position, Refusal, listing, write_extra, write_extra_given, write_fix,
    write_head, write_layout, write_layout_given, write_point,
};

/// One write into an output of so many dots.
fn told(size: usize, write: impl Fn(&mut [u8]) -> Answer<usize>) -> Vec<u8> {
    let mut out = vec![b'.'; size];
    let answer = write(&mut out).map_or_else(|r| listing::refusal(&r), |after| format!("WROTE {after}\n"));
    [answer.into_bytes(), out, b"\n".to_vec()].concat()
}

const fn at(count: u64, letter: u8) -> Position {
    Position::whole(count, letter)
}

/// The writes of c/written.c, in its order.
pub fn written_from_c() -> Vec<u8> {
    [points(), heads(), layouts(), extras(), fixes()].concat().concat()
}

// C points

fn point(point: Point, text: &[u8], place: usize, size: usize) -> Vec<u8> {
    told(size, |out| write_point(&point, text, place, out))
}

fn points() -> Vec<Vec<u8>> {
    let here = Point { latitude: at(3_090_000, b'N'), longitude: at(15_000, b'W') };
    let latitude = |count, letter, place| point(Point { latitude: at(count, letter), ..here }, b"ab", place, 24);
    let longitude = |count, letter| point(Point { longitude: at(count, letter), ..here }, b"ab", 0, 24);
    let text = |text: &[u8]| point(here, text, 1, 260);
    vec![
        latitude(5_400_000, b'N', 0),
        latitude(0, b'S', 1),
        latitude(3_090_000, b'N', 2),
        latitude(3_090_000, b'N', 3),
        latitude(3_090_000, b'N', 25),
        latitude(3_090_000, b'N', usize::MAX),
        latitude(5_400_001, b'N', 0),
        latitude(3_090_000, b'E', 0),
        longitude(10_800_000, b'E'),
        longitude(10_800_001, b'E'),
        longitude(15_000, b'N'),
        text(&[b'a'; 237]),
        text(&[b'a'; 238]),
        text(b"a*b"),
        text(b"a,b"),
    ]
}

// C heads

fn head(head: Head, text: &[u8], place: usize, size: usize) -> Vec<u8> {
    told(size, |out| write_head(&head, text, place, out))
}

fn heads() -> Vec<Vec<u8>> {
    let day = |day, month, year| Date { day, month, year };
    let usual = Head { declared: day(15, 7, 2024), time: 43_200, flight: None, task: 1, turns: 2 };
    let numbers = |time, task, turns, place| head(Head { declared: day(31, 7, 2024), time, flight: None, task, turns }, b"T", place, 32);
    let declared = |d, m, y| head(Head { declared: day(d, m, y), ..usual }, b"T", 0, 32);
    let planned = |d, m, y| head(Head { flight: Some(day(d, m, y)), ..usual }, b"T", 0, 32);
    let text = |text: &[u8]| head(usual, text, 1, 260);
    vec![
        numbers(43_200, 1, 2, 0),
        numbers(86_399, 9_999, 99, 4),
        numbers(43_200, 1, 2, 5),
        numbers(43_200, 1, 2, 33),
        numbers(86_400, 1, 2, 0),
        numbers(86_401, 1, 2, 0),
        numbers(43_200, 10_000, 2, 0),
        numbers(43_200, 1, 100, 0),
        declared(1, 1, 1980),
        declared(31, 12, 2079),
        declared(0, 7, 2024),
        declared(32, 7, 2024),
        declared(1, 13, 2024),
        declared(31, 12, 1979),
        declared(1, 1, 2080),
        planned(29, 2, 2024),
        planned(29, 2, 2023),
        planned(0, 0, 2000),
        text(&[b'a'; 230]),
        text(&[b'a'; 231]),
        text(b"a*b"),
    ]
}

// I, J and M lines

fn layouts() -> Vec<Vec<u8>> {
    let layout = |line: &str, place| told(24, |out| write_layout_given(line.as_bytes(), place, out));
    vec![
        layout("I013638HDT", 0),
        layout("J010813HDT", 6),
        layout("J010810HDT", 12),
        layout("J010810HDT", 13),
        layout("J010810HDT", 25),
        layout("I00", 3),
        layout("I023638HDT3941ZZZ", 0),
        layout("I013538HDT", 0),
        layout("J010809HDT", 0),
        layout("I023638HDT3938ZZZ", 0),
        layout("I023638HDT4042ZZZ", 0),
        layout("I023638HDT3941HDT", 0),
        layout("I023638HDT3941ZZz", 0),
        layout(OF_M, 2),
        layout(OF_M, 13),
        layout("M013638HDT", 0),
        layout("M010809HDT", 0),
    ]
}

/// A layout of these columns.
fn columns(entries: &[(usize, usize, &[u8; 3])]) -> Layout {
    Layout { entries: entries.iter().map(|&(first, last, code)| Entry { first, last, code: *code }).collect() }
}

/// HDT at 36 to 38 of B lines, and at 8 to 10 of K lines.
fn of_i() -> Layout {
    columns(&[(36, 38, b"HDT")])
}

fn of_j() -> Layout {
    columns(&[(8, 10, b"HDT")])
}

// K and N lines

/// HDT at 36 to 38 of B lines, at 8 to 10 of K lines, and at 8 to 10 of N lines, as the lines that tell it.
const OF_I: &str = "I013638HDT";
const OF_J: &str = "J010810HDT";
const OF_M: &str = "M010810HDT";

fn extra(kind: u8, time: u32, tail: &[u8], line: &str, place: usize) -> Vec<u8> {
    told(16, |out| write_extra_given(kind, time, tail, line.as_bytes(), place, out))
}

/// The same writes of K lines by their J line and of N lines by their M line; then by each other's, and of a letter that is neither.
fn extras() -> Vec<Vec<u8>> {
    let of_kind = |kind, line| {
        let usual = |time, tail: &[u8], place| extra(kind, time, tail, line, place);
        vec![
            usual(0, b"090", 0),
            usual(86_399, b"090", 4),
            usual(0, b"090", 5),
            usual(0, b"090", 17),
            extra(kind, 3_600, b"", "", 7),
            usual(86_400, b"090", 0),
            usual(86_401, b"090", 0),
            usual(0, b"09", 0),
            usual(0, b"0900", 0),
            usual(0, b"0*0", 0),
            usual(0, b"0A0", 0),
            extra(kind, 0, b"090", OF_I, 0),
        ]
    };
    let crossed = vec![extra(b'K', 0, b"090", OF_M, 0), extra(b'N', 0, b"090", OF_J, 0), extra(b'B', 0, b"", "", 0)];
    [of_kind(b'K', OF_J), of_kind(b'N', OF_M), crossed].concat()
}

// B lines

fn fix(fix: Fix, tail: &[u8], layout: &Layout, place: usize) -> Vec<u8> {
    told(44, |out| write_fix(&fix, tail, layout, place, out))
}

const USUAL: Fix =
    Fix { time: Finer::whole(43_200), latitude: at(0, b'S'), longitude: at(10_800_000, b'E'), validity: b'A', pressure: 100, gnss: 120 };

fn fixes() -> Vec<Vec<u8>> {
    let with = |f| fix(f, b"012", &of_i(), 0);
    let timed = |time, place| fix(Fix { time: Finer::whole(time), ..USUAL }, b"012", &of_i(), place);
    let placed = |latitude, longitude| with(Fix { latitude, longitude, ..USUAL });
    let marked = |validity| with(Fix { validity, ..USUAL });
    let heights = |pressure, gnss| with(Fix { pressure, gnss, ..USUAL });
    let tail = |tail: &[u8]| fix(USUAL, tail, &of_i(), 0);
    vec![
        timed(43_200, 0),
        timed(86_399, 4),
        timed(0, 5),
        timed(0, 45),
        timed(86_400, 0),
        timed(86_401, 0),
        placed(at(5_400_000, b'N'), at(0, b'W')),
        placed(at(5_400_001, b'N'), at(0, b'W')),
        placed(at(0, b'E'), at(0, b'W')),
        placed(at(5_400_000, b'N'), at(10_800_000, b'W')),
        placed(at(5_400_000, b'N'), at(10_800_001, b'W')),
        placed(at(5_400_000, b'N'), at(0, b'N')),
        marked(b'V'),
        marked(b'B'),
        heights(-9_999, 99_999),
        heights(99_999, -9_999),
        heights(-1, 0),
        heights(-10_000, 120),
        heights(100_000, 120),
        heights(100, -10_000),
        heights(100, 100_000),
        tail(b"01"),
        tail(b"0123"),
        tail(b"0*2"),
        tail(b"0A2"),
        tail(b"-12"),
        fix(USUAL, b"012", &of_j(), 0),
        fix(USUAL, b"", &Layout::default(), 7),
    ]
}

/// The writes of the program `try_inputs`, whose layouts no line tells. A count that leaves an entry out, and one over 13, are values that only the program's own type can
/// hold; the document gives 17 for both.
pub fn by_layouts_that_no_line_tells() -> Vec<u8> {
    let layout = |family, y: Layout| told(24, |out| write_layout(&y, family, 0, out));
    let two = |first, last, code| layout(Family::Fixes, columns(&[(36, 38, b"HDT"), (first, last, code)]));
    let miscounted = || told(24, |_| Err(Refusal::of(BAD_VALUE)));
    [
        layout(Family::Fixes, columns(&[(35, 38, b"HDT")])),
        layout(Family::Extras, columns(&[(8, 9, b"HDT")])),
        two(39, 38, b"ZZZ"),
        two(40, 42, b"ZZZ"),
        two(39, 41, b"HDT"),
        two(39, 41, b"ZZz"),
        two(39, 100, b"ZZZ"),
        miscounted(),
        miscounted(),
        told(16, |out| write_extra(b'K', 0, b"090", &of_i(), 0, out)),
        fix(USUAL, b"012", &of_j(), 0),
    ]
    .concat()
}
