//! Holds the library's fixes, its track and its declarations against gpsbabel's track points and routes, and judges the files that gpsbabel writes:
//!     gpsbabel FOLDER FILES
//! gpsbabel makes two tracks of an IGC file, one with the pressure altitudes and one with the GNSS altitudes; an altitude of 0 it takes for unknown. It counts a day on where
//! the clock falls from one fix to the next; a midnight that only an E, F, K or N line shows it does not see.

#[allow(dead_code)]
#[path = "../library.rs"]
mod library;

use outside::files::generate::{self, Line, Sample};
use outside::files::random::Random;
use outside::reading::fields::{LEAP, days_in};
use outside::reading::{self, Family, Role};
use std::path::Path;
use std::process::Command;

/// What the library tells of a file: its date, its fixes, and of its declaration the head's answer and the degrees of each point.
struct Flight {
    date: [u64; 3],
    fixes: Vec<Fix>,
    head: Option<[u64; library::ANSWER]>,
    points: Vec<[f64; 2]>,
}

/// A fix as the library's track tells it, with the degrees of its position; and whether the timed line before it is a fix too.
struct Fix {
    day: u64,
    seconds: u64,
    degrees: [f64; 2],
    heights: [i32; 2],
    follows: bool,
}

/// A track point as gpsbabel writes it to GPX.
struct Point {
    degrees: [f64; 2],
    height: Option<f64>,
    time: String,
}

/// A valid file that gpsbabel reads too: it wants a letter after the A, lines of three bytes or more, no kind past L, no second date line, and takes the years 70 to 79 for 1970 to 1979.
/// An N line becomes an event of the same time, so that the time order stays. Columns that refine a fix get other codes, since the points are held by the plain counts.
fn tamed(random: &mut Random) -> Sample {
    let body = random.within(5, 120);
    let mut sample = generate::sample(random, body);
    let unread = [Role::Other, Role::Layout(Family::Unsigned)];
    sample.lines.retain(|l| !unread.contains(&l.role) && (l.text.len() >= 3 || l.role == Role::Seal));
    for line in &mut sample.lines {
        match line.role {
            Role::Recorder if !line.text[1].is_ascii_alphabetic() => line.text[1] = b'X',
            Role::Day => move_day(&mut line.text[5..11]),
            Role::Head => move_day(&mut line.text[1..7]),
            Role::Header if &line.text[2..5] == b"DTE" => line.text[2] = b'G',
            Role::Seal if line.text.len() < 3 => line.text.push(b'x'),
            Role::Layout(Family::Fixes) => line.text = unrefined(&line.text),
            Role::Unsigned => *line = Line { role: Role::Event, text: [b"E", &line.text[1..7], b"PEV"].concat() },
            _ => {}
        }
    }
    sample
}

/// An I line in which LAD, LOD and TDS have other codes, which no listed code and no other column has.
fn unrefined(line: &[u8]) -> Vec<u8> {
    let mut line = line.to_vec();
    for at in (7..line.len()).step_by(7) {
        let [a, b, c] = [line[at], line[at + 1], line[at + 2]];
        if [b"LAD", b"LOD", b"TDS"].contains(&&[a, b, c]) {
            let free = (b'0'..=b'9').map(|n| [n, a, b]).find(|code| line[3..].chunks(7).all(|entry| entry[4..] != *code)).unwrap();
            line[at..at + 3].copy_from_slice(&free);
        }
    }
    line
}

/// A date of the seventies moved to the sixties; the year may have lost its 29 February.
fn move_day(day: &mut [u8]) {
    if day[4] == b'7' {
        day[4] = b'6';
        day[0] = if day.starts_with(b"2902") { b'1' } else { day[0] };
    }
}

/// The degrees of a position.
fn degrees_of(latitude: library::PositionValues, longitude: library::PositionValues) -> [f64; 2] {
    let (number, degrees) = library::degrees(latitude, longitude);
    assert_eq!(number, 0);
    degrees.map(f64::from_bits)
}

/// The degrees of a declaration's point.
fn degrees_of_point(told: &library::Told) -> [f64; 2] {
    assert_eq!(told.number, 0);
    let at = |place: usize| library::PositionValues { count: told.answer[place], letter: told.answer[place + 1] as u8, decimals: 0 };
    degrees_of(at(library::POINT_LATITUDE), at(library::POINT_LONGITUDE))
}

/// The library's track of a file that has so many fixes.
fn track_of(file: &[u8], count: u64) -> Vec<library::Record> {
    let place = library::PositionValues { count: 0, letter: 0, decimals: 0 };
    let time = library::TimeValues { count: 0, decimals: 0 };
    let fix = library::FixValues { time, latitude: place, longitude: place, validity: 0, pressure: 0, gnss: 0 };
    let mut list = vec![library::Record { line: 0, day: 0, fix }; count as usize];
    let told = library::track(file, &mut list);
    assert_eq!((told.number, told.answer[library::TRACK_COUNT]), (0, count), "the track's count");
    list
}

/// A fix of the track, which is what the single reading of its line gives.
fn fix_of(record: &library::Record, line: &[u8], layout: &[u8], follows: bool) -> Fix {
    let read = library::fix(line, layout, library::Lent::of(library::ANSWER, 2, library::ENTRIES, 0));
    let (values, heights) = (record.fix.answered(), record.fix.heights());
    assert_eq!(
        (read.number, &read.answer[2..2 + values.len()], &read.heights[..]),
        (0, &values[..], &heights[..]),
        "a record of the track"
    );
    let degrees = degrees_of(record.fix.latitude, record.fix.longitude);
    Fix { day: record.day.into(), seconds: record.fix.time.count.into(), degrees, heights, follows }
}

/// A file by the library: checked, stepped through, each B and C line read, the B lines also as its track.
fn flight(file: &[u8]) -> Flight {
    let mut table = vec![0; file.len() / 3 + 1];
    let told = library::check_usual(file, &mut table);
    assert_eq!(told.number, 0, "a valid file is accepted: {:?}", told.answer);
    let date = [told.answer[2], told.answer[3], told.answer[4]];
    let mut flight = Flight { date, fixes: Vec::new(), head: None, points: Vec::new() };
    let track = track_of(file, told.answer[library::B_LINES]);
    let (mut layout, mut place, mut follows): (&[u8], usize, bool) = (b"", 0, false);
    for number in 1.. {
        let step = library::step(file, place);
        assert_eq!(step.number, 0);
        if step.answer[5] == 0 {
            break;
        }
        let line = &file[step.answer[2] as usize..(step.answer[2] + step.answer[3]) as usize];
        place = step.answer[4] as usize;
        match line[0] {
            b'I' => layout = line,
            b'B' => {
                let record = &track[flight.fixes.len()];
                assert_eq!(record.line, number, "the line of a record");
                flight.fixes.push(fix_of(record, line, layout, follows));
                follows = true;
            }
            b'E' | b'F' | b'K' | b'N' => follows = false,
            b'C' if flight.head.is_none() => flight.head = Some(library::head(line).answer),
            b'C' => flight.points.push(degrees_of_point(&library::point(line))),
            _ => {}
        }
    }
    flight
}

fn babel(words: &[&str]) {
    let run = Command::new("gpsbabel").args(words).output().expect("gpsbabel can be started");
    assert!(run.status.success(), "gpsbabel {words:?}: {}", String::from_utf8_lossy(&run.stderr));
}

/// What stands between two texts, where both are there.
fn between<'a>(text: &'a str, open: &str, close: &str) -> Option<&'a str> {
    let rest = &text[text.find(open)? + open.len()..];
    Some(&rest[..rest.find(close)?])
}

/// What a point's text says, from its element's name on.
fn point(text: &str) -> Point {
    Point {
        degrees: ["lat=\"", "lon=\""].map(|open| between(text, open, "\"").unwrap().parse().unwrap()),
        height: between(text, "<ele>", "</ele>").map(|h| h.parse().unwrap()),
        time: between(text, "<time>", "</time>").unwrap().to_string(),
    }
}

/// The points of the track of a name; none where the file has no such track.
fn track(gpx: &str, name: &str) -> Vec<Point> {
    let Some(track) = gpx.split("<trk>").find(|t| t.contains(&format!("<name>{name}</name>"))) else { return Vec::new() };
    track.split("<trkpt").skip(1).map(point).collect()
}

/// The day after.
fn next_day([day, month, year]: [u64; 3]) -> [u64; 3] {
    if day < days_in(month as u32, year as u32).into() {
        [day + 1, month, year]
    } else if month < 12 {
        [1, month + 1, year]
    } else {
        [1, 1, year + 1]
    }
}

/// A date and time as gpsbabel writes them: it takes the leap second for the midnight behind it.
fn time_text(date: [u64; 3], clock: u64) -> String {
    let ([day, month, year], clock) = if clock == u64::from(LEAP) { (next_day(date), 0) } else { (date, clock) };
    format!("{year:04}-{month:02}-{day:02}T{:02}:{:02}:{:02}Z", clock / 3600, clock / 60 % 60, clock % 60)
}

/// Whether degrees are the same as far as gpsbabel prints them.
fn near(theirs: [f64; 2], ours: [f64; 2]) -> bool {
    theirs.iter().zip(ours).all(|(t, o)| (t - o).abs() < 0.6e-9)
}

/// Holds a declaration against gpsbabel's route: its task number is the name, its date and time stand at each point, and a point
/// at 0, 0 is left out as not given. How many points were held.
fn hold_route(gpx: &str, flight: &Flight) -> usize {
    let Some(head) = flight.head else {
        assert!(!gpx.contains("<rte>"), "a route where nothing was declared");
        return 0;
    };
    assert_eq!(between(gpx, "<name>", "</name>"), Some(format!("{:04}", head[9]).as_str()), "task number");
    let points: Vec<Point> = gpx.split("<rtept").skip(1).map(point).collect();
    assert_eq!(flight.points.len() as u64, head[10] + 4, "points of the declaration");
    let placed: Vec<[f64; 2]> = flight.points.iter().copied().filter(|p| *p != [0.0, 0.0]).collect();
    assert_eq!(points.len(), placed.len(), "points of the route");
    let time = time_text([head[2], head[3], head[4]], head[5]);
    for (theirs, ours) in points.iter().zip(&placed) {
        assert!(near(theirs.degrees, *ours), "{:?} and {ours:?}", theirs.degrees);
        assert_eq!(theirs.time, time, "time of the declaration");
    }
    points.len()
}

/// Holds fixes against both tracks; how many points were held, and how many of them with an altitude.
fn hold_tracks(gpx: &str, date: [u64; 3], fixes: &[Fix]) -> (usize, usize) {
    let (mut points, mut heights) = (0, 0);
    for (which, name) in ["PRESALTTRK", "GNSSALTTRK"].into_iter().enumerate() {
        let track = track(gpx, name);
        // gpsbabel leaves out the track of an altitude that is 0 at every fix
        if track.is_empty() && fixes.iter().all(|fix| fix.heights[which] == 0) {
            continue;
        }
        assert_eq!(track.len(), fixes.len(), "points of {name}");
        let (mut day, mut clock) = (date, 0);
        for (n, (point, fix)) in track.iter().zip(fixes).enumerate() {
            let falls = fix.seconds < clock;
            if falls {
                day = next_day(day);
            }
            clock = fix.seconds;
            if n > 0 && fix.follows {
                assert_eq!(fix.day - fixes[n - 1].day, falls.into(), "day of point {n} of {name}");
            }
            assert_eq!(point.time, time_text(day, clock), "time of point {n} of {name}");
            assert!(near(point.degrees, fix.degrees), "point {n} of {name}: {:?} and {:?}", point.degrees, fix.degrees);
            let height = (fix.heights[which] != 0).then_some(f64::from(fix.heights[which]));
            assert_eq!(point.height, height, "altitude of point {n} of {name}");
            heights += usize::from(height.is_some());
        }
        points += track.len();
    }
    (points, heights)
}

/// What the rules say of a file that gpsbabel wrote. It keeps only B lines of the body, so times that ran on with an E, F or K line between may fall (14); and it
/// may write an unknown altitude as -99999998, which makes the line too long (7). Else it is accepted.
fn expected(file: &[u8]) -> (u32, u64, u64) {
    let mut clock = b"000000".to_vec();
    let seconds = |t: &[u8]| t.chunks(2).fold(0, |n, d| n * 60 + i32::from(d[0] - b'0') * 10 + i32::from(d[1] - b'0'));
    for (n, line) in file.split(|&c| c == b'\n').enumerate().filter(|(_, l)| l.starts_with(b"B")) {
        if line.len() != 36 {
            return (7, n as u64 + 1, 0);
        }
        let fall = seconds(&clock) - seconds(&line[1..7]);
        if (1..=43_200).contains(&fall) {
            return (14, n as u64 + 1, 2);
        }
        clock = line[1..7].to_vec();
    }
    (0, 0, 0)
}

/// The library's and the reading's verdict on a file that gpsbabel wrote, by the usual check: number, line and byte. By the strict one they are alike too.
fn judged(file: &[u8]) -> (u32, u64, u64) {
    let mut table = vec![0; file.len() / 3 + 1];
    let alike = |ours: library::Told, theirs: reading::Answer<reading::Accepted>| {
        let ours = (ours.number, ours.answer[0], ours.answer[1]);
        assert_eq!(ours, theirs.err().map_or((0, 0, 0), |r| (r.number, r.line, r.byte)), "the library and the reading");
        ours
    };
    alike(library::check_strict(file, &mut table), reading::check_strict(file, &mut table));
    alike(library::check_usual(file, &mut table), reading::check_usual(file, &mut table))
}

/// A task of five points and a track of two, from which gpsbabel writes a file of 14 lines: A, H, H, a declaration at 4 to 10, B at 11 and 12, L, G.
const TASK: &str = r#"<?xml version="1.0" encoding="UTF-8"?>
<gpx version="1.0" creator="club" xmlns="http://www.topografix.com/GPX/1/0">
<rte><name>TASK</name>
<rtept lat="51.5" lon="-0.25"><name>TAKE OFF</name></rtept>
<rtept lat="51.6" lon="-0.25"><name>START</name></rtept>
<rtept lat="51.7" lon="-0.25"><name>TURN</name></rtept>
<rtept lat="51.8" lon="-0.25"><name>FINISH</name></rtept>
<rtept lat="51.9" lon="-0.25"><name>LANDING</name></rtept>
</rte>
<trk><trkseg>
<trkpt lat="51.5" lon="-0.25"><ele>100</ele><time>2024-07-15T12:00:00Z</time></trkpt>
<trkpt lat="51.6" lon="-0.25"><ele>120</ele><time>2024-07-15T12:00:05Z</time></trkpt>
</trkseg></trk>
</gpx>
"#;

/// What is changed in the task, to what, and the answer that the rules give of the file written: number, line, byte.
const CHANGES: [(&str, &str, (u32, u64, u64)); 9] = [
    ("TASK", "TASK", (0, 0, 0)),
    (">100<", ">-12<", (0, 0, 0)),
    (">TURN<", ">TURN, ONE<", (8, 8, 23)),
    (">TURN<", ">TURN*<", (8, 8, 23)),
    (">TURN<", ">T\u{fc}r<", (8, 8, 20)),
    (">100<", ">123456<", (7, 11, 0)),
    (">120<", ">-10000<", (7, 12, 0)),
    ("12:00:05", "11:00:05", (14, 12, 2)),
    ("12:00:05", "00:00:00", (14, 12, 2)),
];

/// The version whose lines the answers above were worked out for.
const VERSION: &str = "1.8.0";

/// Files that gpsbabel writes of a task and a track, each with its answer.
fn hold_tasks(folder: &str) {
    let said = Command::new("gpsbabel").arg("-V").output().expect("gpsbabel can be started");
    if !String::from_utf8_lossy(&said.stdout).contains(VERSION) {
        println!("with gpsbabel: its files of a task and a track are left out: their answers were worked out for version {VERSION}");
        return;
    }
    let (from, to) = (format!("{folder}/task.gpx"), format!("{folder}/task.igc"));
    for (old, new, answer) in CHANGES {
        std::fs::write(&from, TASK.replace(old, new)).unwrap();
        babel(&["-r", "-t", "-i", "gpx", "-f", &from, "-o", "igc", "-F", &to]);
        let file = std::fs::read(&to).unwrap();
        assert_eq!(file.iter().filter(|&&c| c == b'\n').count(), 14, "lines that gpsbabel wrote");
        assert_eq!(judged(&file), answer, "the answer of gpsbabel's file with {new}");
    }
    println!(
        "with gpsbabel: {} files that it wrote of a task and a track: answers 0, 7, 8 and 14 at the line and byte worked out",
        CHANGES.len()
    );
}

fn main() {
    let words: Vec<String> = std::env::args().collect();
    let (folder, files): (&str, u64) = (&words[1], words[2].parse().expect("a number of files"));
    let (mut points, mut heights, mut declared, mut verdicts) = (0, 0, 0, std::collections::BTreeMap::new());
    for n in 0..files {
        let file = tamed(&mut Random::new(n)).bytes();
        let path = |end: &str| Path::new(folder).join(end).to_str().unwrap().to_string();
        let (igc, gpx, again) = (path("file.igc"), path("file.gpx"), path("again.igc"));
        std::fs::write(&igc, &file).unwrap();
        babel(&["-t", "-i", "igc", "-f", &igc, "-o", "gpx", "-F", &gpx, "-o", "igc", "-F", &again]);
        let flight = flight(&file);
        let held = hold_tracks(&std::fs::read_to_string(&gpx).unwrap(), flight.date, &flight.fixes);
        points += held.0;
        heights += held.1;
        babel(&["-r", "-i", "igc", "-f", &igc, "-o", "gpx", "-F", &gpx]);
        declared += hold_route(&std::fs::read_to_string(&gpx).unwrap(), &flight);
        let written = std::fs::read(&again).unwrap();
        let verdict = judged(&written);
        assert_eq!(verdict, expected(&written), "the rules and the library, of what gpsbabel wrote of file {n}");
        *verdicts.entry(verdict.0).or_insert(0) += 1;
    }
    println!(
        "with gpsbabel: {files} files: {points} track points as our fixes, {heights} of them with an altitude; {declared} points of declarations as ours"
    );
    let each: Vec<String> =
        verdicts.iter().map(|(n, c)| if *n == 0 { format!("{c} accepted") } else { format!("{c} refused with {n}") }).collect();
    println!("with gpsbabel: the files it wrote of them, as the rules say: {}", each.join(", "));
    hold_tasks(folder);
}
