//! What the refined B lines of a run have reached: as they were read, as they were written, and their positions as degrees.

use crate::reading::file::HALF_DAY;
use crate::reading::refusals::{BACK, BAD_VALUE, COLUMN, POSITION};
use crate::reading::{Accepted, Answer, Entry, Family, Finer, Fix, Layout, Position, WithColumns, layout_given};
use std::collections::BTreeMap;

/// What a run must reach in the lines that it reads, beside each width alone.
const READ: [&str; 32] = [
    "none of the three",
    "LAD and LOD",
    "LAD and TDS",
    "LOD and TDS",
    "all three",
    "zeros away from the limits",
    "90 N with zeros",
    "90 S with zeros",
    "180 E with zeros",
    "180 W with zeros",
    "90 degrees without LAD, LOD with digits",
    "180 degrees without LOD, LAD with digits",
    "90 degrees, LAD with zeros, LOD with digits",
    "180 degrees, LOD with zeros, LAD with digits",
    "90 and 180 degrees, TDS with digits",
    "a thousandth before 90 degrees, LAD with nines",
    "a thousandth before 180 degrees, LOD with nines",
    "13 at 90 N",
    "13 at 90 S",
    "13 at 180 E",
    "13 at 180 W",
    "13 for the first digit of LAD alone",
    "13 for the last digit of LAD alone",
    "13 for the first digit of LOD alone",
    "13 for the last digit of LOD alone",
    "13 at LAD, and LOD behind it would be too",
    "13 at LOD, and LAD behind it would be too",
    "13 at a column before LAD or LOD at its limit",
    "13 at LAD or LOD at its limit, before another column",
    "23 of the other coordinate, LAD or LOD at its limit with digits",
    "TDS with digits at the leap second",
    "a column of the three with something else than digits",
];

/// What a run must reach in its files.
const FILES: [&str; 6] = [
    "TDS falls within a second",
    "14 for a fall of half a day that is more by TDS",
    "LAD with digits in a J layout, a fix at 90 degrees",
    "LAD with digits in an M layout, a fix at 90 degrees",
    "LOD with digits in a J layout, a fix at 180 degrees",
    "LOD with digits in an M layout, a fix at 180 degrees",
];

/// What a run must reach for the map, beside each number of decimals of each coordinate.
const MAPPED: [&str; 6] = [
    "at the limit with decimals",
    "17 one past the limit with decimals",
    "17 for 5 decimals",
    "17 for 255 decimals",
    "0 S with decimals",
    "0 W with decimals",
];

/// What a run must reach in its writes, of each of the time, the latitude and the longitude.
const WRITTEN: [&str; 7] = [
    "written with decimals",
    "17 for decimals without the column",
    "17 for the column without decimals",
    "17 for fewer decimals",
    "17 for more decimals",
    "17 for other digits",
    "17 for 20 decimals or more",
];

/// What a run must reach in its writes besides.
const LIMITS: [&str; 4] = [
    "written at 90 degrees with decimals",
    "written at 180 degrees with decimals",
    "17 past 90 degrees, by the digits of the count and of the column",
    "17 past 180 degrees, by the digits of the count and of the column",
];

/// The parts of a fix that a column refines: its code, the part's name, and its place among the first 35 bytes.
const PARTS: [(&[u8; 3], &str, usize); 3] = [(b"TDS", "time", 3), (b"LAD", "latitude", 4), (b"LOD", "longitude", 4)];

#[derive(Default)]
pub struct Reached {
    branches: BTreeMap<String, u64>,
}

fn alone(code: &[u8; 3], width: usize) -> String {
    format!("{} of {width} alone", String::from_utf8_lossy(code))
}

fn mapped(part: &str, decimals: u8) -> String {
    format!("degrees of a {part} with {decimals} decimals")
}

fn written(part: &str, how: &str) -> String {
    format!("{part} {how}")
}

/// What a run must reach.
fn wanted() -> Vec<String> {
    let widths = PARTS.into_iter().flat_map(|(code, _, most)| (1..=most).map(move |width| alone(code, width)));
    let degrees = ["latitude", "longitude"].into_iter().flat_map(|part| (0..=4).map(move |decimals| mapped(part, decimals)));
    let writes = PARTS.into_iter().flat_map(|(_, part, _)| WRITTEN.map(|how| written(part, how)));
    let others = READ.into_iter().chain(FILES).chain(MAPPED).chain(LIMITS).map(str::to_string);
    widths.chain(degrees).chain(writes).chain(others).collect()
}

/// Whether a text has a digit other than 0.
fn has_digits(text: &[u8]) -> bool {
    text.iter().any(|c| (b'1'..=b'9').contains(c))
}

impl Reached {
    fn add<S: ToString>(&mut self, reached: impl IntoIterator<Item = S>) {
        for branch in reached {
            *self.branches.entry(branch.to_string()).or_default() += 1;
        }
    }

    /// Of these cases those that are so.
    fn add_those<const N: usize>(&mut self, cases: [(&str, bool); N]) {
        self.add(cases.into_iter().filter(|(_, so)| *so).map(|(branch, _)| branch));
    }

    pub fn told(&self) -> String {
        let each: Vec<String> = wanted().iter().map(|b| format!("{b}: {}", self.branches.get(b).copied().unwrap_or(0))).collect();
        each.join("; ")
    }

    /// What should have been reached and was not.
    pub fn never(&self) -> Vec<String> {
        wanted().into_iter().filter(|b| !self.branches.contains_key(b)).collect()
    }

    /// A B line, its layout, and the answer of its reading.
    pub fn add_line(&mut self, line: &[u8], layout: &Layout, answer: &Answer<WithColumns<Fix>>) {
        match answer {
            Ok(_) => self.add_good(line, layout),
            Err(refused) if [COLUMN, POSITION].contains(&refused.number) => self.add_bad(line, layout, refused.number, refused.byte),
            Err(_) => {}
        }
    }

    fn add_good(&mut self, line: &[u8], layout: &Layout) {
        let [lad, lod, tds] = [b"LAD", b"LOD", b"TDS"].map(|code| layout.look_up(code).map(|e| e.text(line)));
        match (lad, lod, tds) {
            (Some(text), None, None) => self.add([alone(b"LAD", text.len())]),
            (None, Some(text), None) => self.add([alone(b"LOD", text.len())]),
            (None, None, Some(text)) => self.add([alone(b"TDS", text.len())]),
            _ => {}
        }
        let (at_90, at_180) = (&line[7..14] == b"9000000", &line[15..23] == b"18000000");
        let zeros = |text: Option<&[u8]>| text.is_some_and(|t| !has_digits(t));
        let digits = |text: Option<&[u8]>| text.is_some_and(has_digits);
        let nines = |text: Option<&[u8]>| text.is_some_and(|t| t.iter().all(|&c| c == b'9'));
        self.add_those([
            ("none of the three", lad.is_none() && lod.is_none() && tds.is_none()),
            ("LAD and LOD", lad.is_some() && lod.is_some() && tds.is_none()),
            ("LAD and TDS", lad.is_some() && lod.is_none() && tds.is_some()),
            ("LOD and TDS", lad.is_none() && lod.is_some() && tds.is_some()),
            ("all three", lad.is_some() && lod.is_some() && tds.is_some()),
            ("zeros away from the limits", !at_90 && zeros(lad) && !at_180 && zeros(lod)),
            ("90 N with zeros", at_90 && line[14] == b'N' && zeros(lad)),
            ("90 S with zeros", at_90 && line[14] == b'S' && zeros(lad)),
            ("180 E with zeros", at_180 && line[23] == b'E' && zeros(lod)),
            ("180 W with zeros", at_180 && line[23] == b'W' && zeros(lod)),
            ("90 degrees without LAD, LOD with digits", at_90 && lad.is_none() && digits(lod)),
            ("180 degrees without LOD, LAD with digits", at_180 && lod.is_none() && digits(lad)),
            ("90 degrees, LAD with zeros, LOD with digits", at_90 && zeros(lad) && digits(lod)),
            ("180 degrees, LOD with zeros, LAD with digits", at_180 && zeros(lod) && digits(lad)),
            ("90 and 180 degrees, TDS with digits", at_90 && at_180 && digits(tds)),
            ("a thousandth before 90 degrees, LAD with nines", &line[7..14] == b"8959999" && nines(lad)),
            ("a thousandth before 180 degrees, LOD with nines", &line[15..23] == b"17959999" && nines(lod)),
            ("TDS with digits at the leap second", &line[1..7] == b"235960" && digits(tds)),
        ]);
    }

    /// A line that is refused for a column, or for a position.
    fn add_bad(&mut self, line: &[u8], layout: &Layout, number: u32, byte: u64) {
        // A column whose position is at its limit, with digits other than zeros alone.
        let is_past = |e: &Entry| {
            let full = e.code == *b"LAD" && &line[7..14] == b"9000000" || e.code == *b"LOD" && &line[15..23] == b"18000000";
            full && e.text(line).iter().all(u8::is_ascii_digit) && has_digits(e.text(line))
        };
        let past: Vec<&Entry> = layout.entries.iter().filter(|e| is_past(e)).collect();
        if number == POSITION {
            self.add_those([("23 of the other coordinate, LAD or LOD at its limit with digits", !past.is_empty())]);
            return;
        }
        let Some(found) = layout.entries.iter().find(|e| e.first as u64 == byte) else { return };
        let behind = |code: &[u8; 3]| past.iter().any(|e| e.first > found.first && e.code == *code);
        if !is_past(found) {
            self.add_those([
                ("13 at a column before LAD or LOD at its limit", behind(b"LAD") || behind(b"LOD")),
                ("a column of the three with something else than digits", PARTS.iter().any(|(code, ..)| **code == found.code)),
            ]);
            return;
        }
        let (text, is_lad) = (found.text(line), found.code == *b"LAD");
        let letter = if is_lad { line[14] } else { line[23] };
        let (first, last) = (has_digits(&text[..1]), has_digits(&text[text.len() - 1..]));
        let first_alone = text.len() > 1 && first && !has_digits(&text[1..]);
        let last_alone = text.len() > 1 && last && !has_digits(&text[..text.len() - 1]);
        // A column behind it that would be refused by itself: one of the listed codes that has something else than digits and a minus.
        let other = |e: &Entry| {
            e.first > found.first
                && !is_past(e)
                && crate::reading::layouts::listed(&e.code).is_some()
                && e.text(line).iter().any(|c| !c.is_ascii_digit() && *c != b'-')
        };
        self.add_those([
            ("13 at 90 N", letter == b'N'),
            ("13 at 90 S", letter == b'S'),
            ("13 at 180 E", letter == b'E'),
            ("13 at 180 W", letter == b'W'),
            ("13 for the first digit of LAD alone", is_lad && first_alone),
            ("13 for the last digit of LAD alone", is_lad && last_alone),
            ("13 for the first digit of LOD alone", !is_lad && first_alone),
            ("13 for the last digit of LOD alone", !is_lad && last_alone),
            ("13 at LAD, and LOD behind it would be too", is_lad && behind(b"LOD")),
            ("13 at LOD, and LAD behind it would be too", !is_lad && behind(b"LAD")),
            ("13 at LAD or LOD at its limit, before another column", layout.entries.iter().any(other)),
        ]);
    }

    /// A file by the answer of its check.
    pub fn add_file(&mut self, file: &[u8], answer: &Answer<Accepted>) {
        let lines: Vec<&[u8]> = file.split(|&c| c == b'\n').map(|l| l.strip_suffix(b"\r").unwrap_or(l)).collect();
        let of = |family: Family| {
            let told = lines.iter().find(|l| l.first() == Some(&family.layout_kind()));
            told.and_then(|l| layout_given(l, family)).unwrap_or_default()
        };
        let fixes = of(Family::Fixes);
        let good = match answer {
            Ok(said) => said.lines,
            Err(r) if r.number == BACK => r.line,
            Err(_) => return,
        };
        let timed: Vec<&[u8]> = lines[..good as usize].iter().copied().filter(|l| b"BEFKN".contains(&l[0])).collect();
        let tds = fixes.look_up(b"TDS");
        let refused = answer.is_err();
        for (n, two) in timed.windows(2).enumerate() {
            let (Some(tds), b"BB") = (tds, &[two[0][0], two[1][0]]) else { continue };
            let (falls, last) = (tds.text(two[1]) < tds.text(two[0]), n + 2 == timed.len());
            let half_day = seconds(two[0]) == seconds(two[1]) + HALF_DAY;
            self.add_those([
                ("TDS falls within a second", !refused && falls && two[0][1..7] == two[1][1..7]),
                ("14 for a fall of half a day that is more by TDS", refused && last && falls && half_day),
            ]);
        }
        if refused {
            return;
        }
        for (family, name) in [(Family::Extras, "a J"), (Family::Unsigned, "an M")] {
            for (code, full, at) in [("LAD", "9000000", 7), ("LOD", "18000000", 15)] {
                let degrees = if code == "LAD" { 90 } else { 180 };
                let column = of(family).look_up(code.as_bytes());
                let told = column.is_some_and(|e| lines.iter().any(|l| l.first() == Some(&family.kind()) && has_digits(e.text(l))));
                let fix = lines.iter().any(|l| l.first() == Some(&b'B') && l[at..].starts_with(full.as_bytes()));
                if told && fix {
                    self.add([format!("{code} with digits in {name} layout, a fix at {degrees} degrees")]);
                }
            }
        }
    }

    /// A position for the map, and whether it has degrees.
    pub fn add_degrees(&mut self, latitude: Position, longitude: Position, number: u32) {
        for (part, p, most) in [("latitude", latitude, 5_400_000), ("longitude", longitude, 10_800_000)] {
            let Finer { count, decimals } = p.count;
            let limit = 10u64.checked_pow(decimals.into()).map_or(0, |power| most * power);
            if number == 0 {
                self.add([mapped(part, decimals)]);
            }
            let (good, refused) = (number == 0 && decimals > 0, number == BAD_VALUE && decimals > 0);
            self.add_those([
                ("at the limit with decimals", good && count == limit),
                ("17 one past the limit with decimals", refused && decimals <= 4 && count == limit + 1),
                ("17 for 5 decimals", refused && decimals == 5 && count <= limit),
                ("17 for 255 decimals", refused && decimals == 255),
                ("0 S with decimals", good && count == 0 && p.letter == b'S'),
                ("0 W with decimals", good && count == 0 && p.letter == b'W'),
            ]);
        }
    }

    /// A fix that was to be written with its columns' text by a layout, and the number that was given.
    pub fn add_write(&mut self, fix: &Fix, columns: &[u8], layout: &Layout, number: u32) {
        let finer = [fix.time, fix.latitude.count, fix.longitude.count];
        let whole = columns.len() + 35 == layout.length(Family::Fixes);
        if !whole || ![0, BAD_VALUE].contains(&number) {
            return;
        }
        let text = |code: &[u8; 3]| layout.look_up(code).map(|e| &columns[e.first - 36..e.last - 35]);
        for ((code, part, _), Finer { count, decimals }) in PARTS.into_iter().zip(finer) {
            let (told, decimals, refused) = (text(code), usize::from(decimals), number == BAD_VALUE);
            let width = told.map_or(0, <[u8]>::len);
            // The last digits of the count are those of the column.
            let alike = told.is_none_or(|t| format!("{count:030}").as_bytes().ends_with(t));
            let hows = [
                (WRITTEN[0], number == 0 && decimals > 0),
                (WRITTEN[1], refused && told.is_none() && decimals > 0),
                (WRITTEN[2], refused && told.is_some() && decimals == 0),
                (WRITTEN[3], refused && 0 < decimals && decimals < width),
                (WRITTEN[4], refused && 0 < width && width < decimals),
                (WRITTEN[5], refused && 0 < width && width == decimals && !alike),
                (WRITTEN[6], refused && decimals >= 20),
            ];
            self.add(hows.into_iter().filter(|(_, so)| *so).map(|(how, _)| written(part, how)));
        }
        let [_, latitude, longitude] = finer;
        let past = |finer: Finer, code: &[u8; 3], most: u64| {
            let told = text(code).filter(|t| t.iter().all(u8::is_ascii_digit) && t.len() == usize::from(finer.decimals));
            told.is_some_and(|t| finer.plain() == most && has_digits(t) && format!("{:030}", finer.count).as_bytes().ends_with(t))
        };
        self.add_those([
            (LIMITS[0], number == 0 && latitude.decimals > 0 && latitude.plain() == 5_400_000),
            (LIMITS[1], number == 0 && longitude.decimals > 0 && longitude.plain() == 10_800_000),
            (LIMITS[2], number == BAD_VALUE && past(latitude, b"LAD", 5_400_000)),
            (LIMITS[3], number == BAD_VALUE && past(longitude, b"LOD", 10_800_000)),
        ]);
    }
}

/// The seconds of the HHMMSS of a good line that has a time.
fn seconds(line: &[u8]) -> u32 {
    line[1..7].chunks(2).fold(0, |n, d| n * 60 + u32::from(d[0] - b'0') * 10 + u32::from(d[1] - b'0'))
}
