//! What the declarations of a run have reached: none and some, heads, points and their texts, and lists.

use super::counted::Counted;
use crate::reading::declared::POINT_NUMBERS;
use crate::reading::fields::{EAST_WEST, LEAP, NORTH_SOUTH};
use crate::reading::refusals::ENDS_EARLY;
use crate::reading::{Answer, Declared};

/// What a run must reach.
const WANTED: [&str; 38] = [
    "refused, and a list",
    "refused, and no list",
    "refused inside a declaration",
    "no declaration, and a list",
    "no declaration, and no list",
    "18 for one number short",
    "18 for a point short",
    "18 for no list",
    "18, and there is room for a number a point",
    "a list just long enough",
    "a list longer by less than a point",
    "a list longer by a point or more",
    "no turn points",
    "one turn point",
    "10 turn points",
    "99 turn points",
    "a flight date",
    "no flight date",
    "declared before 2000",
    "declared at the leap second",
    "a task below 100",
    "a task over 8,191",
    "the head behind the second line",
    "the head behind a line with a time",
    "the head's text: none",
    "the head's text: some",
    "the head's text: 230 bytes",
    "a point's text: none",
    "a point's text: some",
    "a point's text: 237 bytes",
    "points with texts of several lengths",
    "N",
    "S",
    "E",
    "W",
    "0 S or 0 W",
    "a latitude at its limit",
    "a longitude at its limit",
];

pub struct Reached(Counted);

impl Default for Reached {
    fn default() -> Self {
        Reached(Counted::of(&WANTED))
    }
}

/// The lengths of the lists to lend for a declaration: one that is just long enough, and by its turn another.
pub fn rooms(turn: u64, answer: &Answer<Option<Declared>>) -> [usize; 2] {
    let points = answer.as_ref().ok().and_then(Option::as_ref).map_or(0, |declared| declared.points.len());
    let needed = POINT_NUMBERS * points;
    let other = match turn % 7 {
        0 => 0,
        1 => needed.saturating_sub(1),
        2 => needed.saturating_sub(POINT_NUMBERS),
        3 => points,
        4 => (turn / 7 % 32) as usize * needed / 32,
        5 => needed + 1 + (turn / 7 % 5) as usize,
        _ => needed + POINT_NUMBERS + (turn / 7 % 9) as usize,
    };
    [needed, other]
}

impl Reached {
    pub fn told(&self) -> String {
        self.0.told()
    }

    pub fn never(&self) -> Vec<&'static str> {
        self.0.never()
    }

    /// A file with its declaration, and the length of the list that was lent for it.
    pub fn add(&mut self, file: &[u8], answer: &Answer<Option<Declared>>, room: usize) {
        match answer {
            Err(refused) => self.0.add_those([
                ("refused, and a list", room > 0),
                ("refused, and no list", room == 0),
                ("refused inside a declaration", refused.number == ENDS_EARLY && refused.line > 2),
            ]),
            Ok(None) => self.0.add_those([("no declaration, and a list", room > 0), ("no declaration, and no list", room == 0)]),
            Ok(Some(declared)) if room < POINT_NUMBERS * declared.points.len() => {
                let points = declared.points.len();
                self.0.add_those([
                    ("18 for one number short", room + 1 == POINT_NUMBERS * points),
                    ("18 for a point short", room + POINT_NUMBERS == POINT_NUMBERS * points),
                    ("18 for no list", room == 0),
                    ("18, and there is room for a number a point", room == points),
                ]);
            }
            Ok(Some(declared)) => {
                self.add_head(file, declared, room - POINT_NUMBERS * declared.points.len());
                self.add_points(declared);
            }
        }
    }

    fn add_head(&mut self, file: &[u8], declared: &Declared, left: usize) {
        let (head, text) = (&declared.head, declared.text.length);
        let before: Vec<u8> = file.split(|&c| c == b'\n').take(declared.line as usize - 1).map(|line| line[0]).collect();
        self.0.add_those([
            ("a list just long enough", left == 0),
            ("a list longer by less than a point", 0 < left && left < POINT_NUMBERS),
            ("a list longer by a point or more", left >= POINT_NUMBERS),
            ("no turn points", head.turns == 0),
            ("one turn point", head.turns == 1),
            ("10 turn points", head.turns == 10),
            ("99 turn points", head.turns == 99),
            ("a flight date", head.flight.is_some()),
            ("no flight date", head.flight.is_none()),
            ("declared before 2000", head.declared.year < 2000),
            ("declared at the leap second", head.time == LEAP),
            ("a task below 100", head.task < 100),
            ("a task over 8,191", head.task > 8_191),
            ("the head behind the second line", declared.line == 3),
            ("the head behind a line with a time", before.iter().any(|kind| b"EFKN".contains(kind))),
            ("the head's text: none", text == 0),
            ("the head's text: some", 0 < text && text < 230),
            ("the head's text: 230 bytes", text == 230),
        ]);
    }

    fn add_points(&mut self, declared: &Declared) {
        let texts: Vec<usize> = declared.points.iter().map(|(_, text)| text.length).collect();
        self.0.add_those([("points with texts of several lengths", texts.iter().any(|length| *length != texts[0]))]);
        for ((point, _), text) in declared.points.iter().zip(texts) {
            let (a, o) = (point.latitude, point.longitude);
            self.0.add_those([
                ("a point's text: none", text == 0),
                ("a point's text: some", 0 < text && text < 237),
                ("a point's text: 237 bytes", text == 237),
                ("N", a.letter == b'N'),
                ("S", a.letter == b'S'),
                ("E", o.letter == b'E'),
                ("W", o.letter == b'W'),
                ("0 S or 0 W", (a.count.count, a.letter) == (0, b'S') || (o.count.count, o.letter) == (0, b'W')),
                ("a latitude at its limit", a.count.count == NORTH_SOUTH.most),
                ("a longitude at its limit", o.count.count == EAST_WEST.most),
            ]);
        }
    }
}
