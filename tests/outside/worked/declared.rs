//! Declarations: their values and places worked out by hand, and what must hold of any file's.

use super::*;
use outside::files::Run;
use outside::files::reached_declared::{Reached, rooms};
use outside::reading::{Date, Declared, Head, Part, Point, declared, declared_into, read_head, read_point};

/// What a list holds at a place before a call.
fn lent(n: usize) -> u64 {
    7_000_000 + n as u64
}

/// The answer with a list of this length, and the list afterwards.
fn put(file: &[u8], length: usize) -> (Answer<Option<Declared>>, Vec<u64>) {
    let mut list: Vec<u64> = (0..length).map(lent).collect();
    (declared_into(file, &mut list), list)
}

const SIX: [&str; 6] = [
    "C5130000N00015000WTAKEOFF",
    "C5131500N00016000W",
    "C0000000S00000000E1",
    "C9000000N18000000WTP2",
    "C5130000N00015000WFINISH",
    "C5130000N00015000WLAND",
];

/// Two turn points. A has 9 bytes with its CR LF, the date line 13: the head stands behind 22 bytes, and its text behind 25 more.
fn task() -> Vec<u8> {
    let head = "C150724110001160724123402Task one";
    file(&[&[A, DATE, head], &SIX[..], &[B35, G]].concat())
}

/// The head has 33 bytes and CR LF, so that the first point stands behind 57, and its text behind 18 more; the points have 25, 18, 19, 21, 24 and 22 bytes.
const NUMBERS: [[u64; 6]; 6] = [
    [3_090_000, 78, 15_000, 87, 75, 7],
    [3_091_500, 78, 16_000, 87, 102, 0],
    [0, 83, 0, 69, 122, 1],
    [5_400_000, 78, 10_800_000, 87, 143, 3],
    [3_090_000, 78, 15_000, 87, 166, 6],
    [3_090_000, 78, 15_000, 87, 192, 4],
];

#[test]
fn head_and_points() {
    let said = declared(&task()).unwrap().unwrap();
    let (day, flight) = (Date { day: 15, month: 7, year: 2024 }, Date { day: 16, month: 7, year: 2024 });
    assert_eq!(said.head, Head { declared: day, time: 39_601, flight: Some(flight), task: 1234, turns: 2 });
    assert_eq!((said.line, said.text), (3, Part { start: 47, length: 8 }));
    assert_eq!(said.points[3], (Point { latitude: at(5_400_000, b'N'), longitude: at(10_800_000, b'W') }, Part { start: 143, length: 3 }));
    assert_eq!(said.numbers(), NUMBERS.concat());
    // the texts stand there
    let text = |part: Part| String::from_utf8(task()[part.start..part.start + part.length].to_vec()).unwrap();
    assert_eq!(text(said.text), "Task one");
    assert_eq!(said.points.iter().map(|(_, part)| text(*part)).collect::<Vec<_>>(), ["TAKEOFF", "", "1", "TP2", "FINISH", "LAND"]);
}

#[test]
fn heads() {
    // lines before it, 6, 8 and 12 bytes with CR LF; no text, no flight date, the leap second, years before 2000
    let head = "C311299235960000000000000";
    let all = file(&[&[A, DATE, "D1AB", "K120000"], &[head][..], &times(4, POINT)].concat());
    assert_eq!(declared(&all).unwrap_err(), Refusal { number: 7, line: 3, byte: 0 });
    let all = file(&[&[A, DATE, "D1ABCD", "K120000", "E120000PEV"], &[head][..], &times(4, POINT)].concat());
    let said = declared(&all).unwrap().unwrap();
    let day = Date { day: 31, month: 12, year: 1999 };
    assert_eq!(said.head, Head { declared: day, time: 86_400, flight: None, task: 0, turns: 0 });
    // 22, then lines of 6, 7 and 10 bytes and CR LF: 51; and 25 more
    assert_eq!((said.line, said.text, said.points.len()), (6, Part { start: 76, length: 0 }, 4));
    // a head of 27 bytes with CR LF: 78, and points of 20
    assert_eq!(said.points.iter().map(|(_, part)| (part.start, part.length)).collect::<Vec<_>>(), [(96, 0), (116, 0), (136, 0), (156, 0)]);
    // 99 turn points
    let many = file(&[&[A, DATE, &HEAD.replace("000100", "999999")], &times(103, POINT)[..]].concat());
    let said = declared(&many).unwrap().unwrap();
    assert_eq!((said.head.task, said.head.turns, said.points.len(), said.numbers().len()), (9_999, 99, 103, 618));
    assert_eq!(put(&many, 617).0, no(18, 0));
    // the head behind 22, the points behind 49, of 20 bytes each: the text of the last one behind 49 + 102 x 20 + 18
    assert_eq!(said.points[102].1, Part { start: 2107, length: 0 });
    // texts as long as they can be
    let full = file(&[&[A, DATE, &format!("{HEAD}{}", x(230))], &times(4, &format!("{POINT}{}", x(237)))[..]].concat());
    let said = declared(&full).unwrap().unwrap();
    assert_eq!((said.text.length, said.points[3].1), (230, Part { start: 22 + 257 + 3 * 257 + 18, length: 237 }));
}

#[test]
fn none() {
    for lines in [vec![A, DATE], vec![A, DATE, B35, G], vec![A, DATE, "LC150724110000000000000100", "OC"]] {
        assert_eq!(put(&file(&lines), 0), (Ok(None), vec![]));
        assert_eq!(put(&file(&lines), 7), (Ok(None), (0..7).map(lent).collect()));
    }
}

#[test]
fn lists() {
    let numbers = NUMBERS.concat();
    let (answer, list) = put(&task(), 36);
    assert_eq!((answer, list), (declared(&task()), numbers.clone()));
    let (answer, list) = put(&task(), 39);
    assert_eq!((answer.map(|said| said.is_some()), list), (Ok(true), [numbers, vec![lent(36), lent(37), lent(38)]].concat()));
    for length in [0, 1, 6, 30, 35] {
        assert_eq!(put(&task(), length), (no(18, 0), (0..length).map(lent).collect()), "a list of {length}");
    }
    // the file's own before 18, with its line and byte
    for (file, number, line, byte) in [
        (file(&[&[A, DATE, HEAD], &times(3, POINT)[..]].concat()), 16, 7, 0),
        (file(&[&[A, DATE, HEAD], &times(5, POINT)[..]].concat()), 6, 8, 1),
        (file(&[&[A, DATE, HEAD], &times(4, POINT)[..], &[HEAD]].concat()), 6, 8, 1),
        (file(&[&[A, DATE, B35, HEAD], &times(4, POINT)[..]].concat()), 6, 4, 1),
        (file(&[A, DATE, HEAD, "C5160000N00015000W"]), 23, 4, 2),
        (file(&[A, DATE, &HEAD.replace("110000", "116000")]), 22, 3, 8),
        (b"".to_vec(), 1, 0, 0),
        (vec![b'A'; 16_777_217], 2, 0, 0),
    ] {
        for length in [0, 24, 40] {
            let refused = Err(Refusal { number, line, byte });
            assert_eq!(put(&file, length), (refused, (0..length).map(lent).collect()), "{number} with a list of {length}");
        }
    }
}

#[test]
fn of_any_file() {
    let run = Run::new(15, 20);
    let mut reached = Reached::default();
    for n in 0..12_000 {
        let made = run.make(&mut run.random(n), n);
        let answer = declared(&made.file);
        rooms(n, &answer).into_iter().for_each(|room| reached.add(&made.file, &answer, room));
        let Ok(said) = answer else { continue };
        // All C lines are of the declaration; each text reaches up to its line's end, and the lines read as their parts do.
        let lines: Vec<&[u8]> = made.file.split(|&c| c == b'\n').filter(|line| line.starts_with(b"C")).collect();
        assert_eq!(lines.len(), said.as_ref().map_or(0, |said| said.points.len() + 1), "file {n}");
        let Some(said) = said else { continue };
        let parts = [(said.text, 25)].into_iter().chain(said.points.iter().map(|(_, text)| (*text, 18)));
        for ((part, fixed), line) in parts.zip(&lines) {
            assert_eq!(&made.file[part.start - fixed..part.start + part.length], &line[..line.len() - 1], "file {n}");
        }
        let plain: Vec<&[u8]> = lines.iter().map(|line| &line[..line.len() - 1]).collect();
        assert_eq!(read_head(plain[0]), Ok(said.head), "file {n}");
        assert_eq!(
            plain[1..].iter().map(|line| read_point(line)).collect::<Answer<Vec<_>>>().unwrap(),
            said.points.iter().map(|p| p.0).collect::<Vec<_>>()
        );
    }
    println!("{}", reached.told());
    assert_eq!(reached.never(), Vec::<&str>::new(), "never met");
}
