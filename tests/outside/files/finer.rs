//! Files whose B lines are refined: LAD, LOD and TDS of every width, alone and together, at 90 and 180 degrees and one thousandth of a minute before, with zeros and with other digits;
//! and in J and M layouts, where they refine nothing. What is known of each file's answer from how it was made.

use super::Known;
use super::generate::{Maker, Sample, text};
use super::random::Random;
use crate::reading::refusals::{BACK, COLUMN, POSITION};
use crate::reading::{Entry, Family, Layout, Refusal, Role};

/// A column: its code and the text that the line has there.
type Column = ([u8; 3], Vec<u8>);

/// Where a B line stands: at the limit, or just before it.
#[derive(Clone, Copy, PartialEq, Debug)]
pub enum Place {
    Full,
    Near,
}

/// The other fault of a line that has two: a column before LAD or LOD, one behind it, or the other coordinate.
#[derive(Clone, Copy, PartialEq, Debug)]
pub enum Other {
    Before,
    Behind,
    Position,
}

/// A small file with one thing to try.
#[derive(Clone, Debug)]
pub enum Case {
    /// A B line with these columns, at this latitude and longitude.
    Fix(Vec<Column>, Place, Place),
    /// A K or an N line with this column, and a B line without columns at both limits.
    Other(Family, Column),
    /// A B line with two faults, one of which is a digit of LAD or LOD past the limit: the other comes before it, or behind it.
    Twice([u8; 3], Other),
    /// Two B lines with TDS of this width: a fall of exactly half a day by the seconds, and of more by the digits.
    HalfDay(usize),
}

/// The codes that refine a fix, with the widths that they may have.
const WIDTHS: [([u8; 3], usize); 3] = [(*b"LAD", 4), (*b"LOD", 4), (*b"TDS", 3)];

/// Digits of a width: all zeros; a digit at the front alone; a digit at the end alone; nines.
fn texts(width: usize) -> Vec<Vec<u8>> {
    let one_at = |at: usize| (0..width).map(|n| if n == at { b'1' } else { b'0' }).collect();
    let mut texts = vec![vec![b'0'; width], one_at(0), one_at(width - 1), vec![b'9'; width]];
    texts.dedup();
    texts
}

/// Every column of the three codes.
fn columns() -> Vec<Column> {
    let of_width = |code: [u8; 3], width: usize| texts(width).into_iter().map(move |digits| (code, digits));
    WIDTHS.into_iter().flat_map(|(code, most)| (1..=most).flat_map(move |width| of_width(code, width))).collect()
}

/// Every case.
pub fn all() -> Vec<Case> {
    let places = [Place::Full, Place::Near].into_iter().flat_map(|a| [Place::Full, Place::Near].map(|o| (a, o)));
    let alone = places.flat_map(|(a, o)| columns().into_iter().map(move |column| Case::Fix(vec![column], a, o)));
    let other =
        columns().into_iter().flat_map(|column| [Family::Extras, Family::Unsigned].map(|family| Case::Other(family, column.clone())));
    let twice = [Other::Before, Other::Behind, Other::Position]
        .into_iter()
        .flat_map(|fault| [*b"LAD", *b"LOD"].map(|code| Case::Twice(code, fault)));
    let days = (1..=3).map(Case::HalfDay);
    alone.chain(other).chain(twice).chain(days).chain(together()).collect()
}

/// All three together, at both limits, of all widths: LAD and LOD each with zeros alone, or with a digit other than 0.
fn together() -> Vec<Case> {
    let digits = |width: usize, is_zero: bool| if is_zero { vec![b'0'; width] } else { texts(width).pop().unwrap() };
    let case = |n: usize| {
        let [a, o, t] = [n / 4 % 4 + 1, n / 16 % 4 + 1, n / 64 % 3 + 1];
        let columns = vec![(*b"LAD", digits(a, n % 2 == 0)), (*b"LOD", digits(o, n / 2 % 2 == 0)), (*b"TDS", digits(t, false))];
        Case::Fix(columns, Place::Full, Place::Full)
    };
    (0..192).map(case).collect()
}

/// The layout that has these columns behind each other.
fn layout(family: Family, columns: &[Column]) -> Layout {
    let mut layout = Layout::default();
    for (code, text) in columns {
        let end = layout.length(family);
        layout.entries.push(Entry { first: end + 1, last: end + text.len(), code: *code });
    }
    layout
}

/// The digits of a latitude and of a longitude.
fn degrees(latitude: Place, longitude: Place) -> [&'static [u8]; 2] {
    let latitude: &[u8] = if latitude == Place::Full { b"9000000" } else { b"8959999" };
    let longitude: &[u8] = if longitude == Place::Full { b"18000000" } else { b"17959999" };
    [latitude, longitude]
}

/// The last line at these degrees.
fn move_to(sample: &mut Sample, [latitude, longitude]: [&[u8]; 2]) {
    let line = &mut sample.lines.last_mut().unwrap().text;
    line[7..14].copy_from_slice(latitude);
    line[15..23].copy_from_slice(longitude);
}

/// The last line with these columns.
fn set_columns(sample: &mut Sample, columns: &[Column]) {
    let line = sample.lines.last_mut().unwrap();
    let start = line.role.family().unwrap().start();
    line.text.truncate(start - 1);
    line.text.extend(columns.iter().flat_map(|(_, text)| text));
}

fn begin(maker: &mut Maker, family: Family, columns: &[Column]) {
    maker.push(Role::Recorder);
    maker.push(Role::Day);
    *maker.sample.layouts.of_mut(family) = layout(family, columns);
    maker.push(Role::Layout(family));
}

/// The file of a case, and what is known of its answer.
pub fn file(random: &mut Random, case: &Case) -> (Vec<u8>, Known) {
    let is_signed = !random.once_in(3);
    let (mut sample, refused) = match case {
        Case::Fix(columns, latitude, longitude) => fix(random, columns.clone(), *latitude, *longitude),
        Case::Other(family, column) => other(random, *family, column),
        Case::Twice(code, fault) => twice(random, *code, *fault),
        Case::HalfDay(width) => half_day(random, *width),
    };
    if is_signed {
        let mut maker = Maker::new(random);
        maker.push(Role::Seal);
        sample.lines.append(&mut maker.sample.lines);
    }
    (sample.bytes(), refused.map_or(Known::of(&sample), Known::Refused))
}

/// The three columns in any order, now and then with another one before, between or behind them.
fn fix(random: &mut Random, mut columns: Vec<Column>, latitude: Place, longitude: Place) -> (Sample, Option<Refusal>) {
    if random.once_in(2) {
        let wide = random.within(1, 3);
        columns.push((*b"QQQ", text(random, b'B', wide)));
    }
    random.shuffle(&mut columns);
    let mut maker = Maker::new(random);
    begin(&mut maker, Family::Fixes, &columns);
    maker.push(Role::Fix);
    move_to(&mut maker.sample, degrees(latitude, longitude));
    set_columns(&mut maker.sample, &columns);
    let is_past = |(code, text): &Column| {
        let is_full = *code == *b"LAD" && latitude == Place::Full || *code == *b"LOD" && longitude == Place::Full;
        is_full && text.iter().any(|&c| c != b'0')
    };
    let entries = &maker.sample.layouts.fixes.entries;
    let past = columns.iter().position(is_past).map(|n| Refusal { number: COLUMN, line: 4, byte: entries[n].first as u64 });
    (maker.sample, past)
}

fn other(random: &mut Random, family: Family, column: &Column) -> (Sample, Option<Refusal>) {
    let columns = [column.clone()];
    let mut maker = Maker::new(random);
    begin(&mut maker, family, &columns);
    maker.push(family.role());
    set_columns(&mut maker.sample, &columns);
    maker.push(Role::Fix);
    move_to(&mut maker.sample, degrees(Place::Full, Place::Full));
    (maker.sample, None)
}

/// A line at both limits. FXA has a letter, or the coordinate of the other code has 60 minutes.
fn twice(random: &mut Random, code: [u8; 3], fault: Other) -> (Sample, Option<Refusal>) {
    let past = (code, b"05".to_vec());
    let columns = match fault {
        Other::Before => vec![(*b"FXA", b"0x1".to_vec()), past],
        Other::Behind => vec![past, (*b"FXA", b"0x1".to_vec())],
        Other::Position => vec![past],
    };
    let mut maker = Maker::new(random);
    begin(&mut maker, Family::Fixes, &columns);
    maker.push(Role::Fix);
    move_to(&mut maker.sample, degrees(Place::Full, Place::Full));
    set_columns(&mut maker.sample, &columns);
    let line = &mut maker.sample.lines[3].text;
    let (number, byte) = match (fault, &code) {
        (Other::Before | Other::Behind, _) => (COLUMN, 36),
        (Other::Position, b"LAD") => {
            line[15..23].copy_from_slice(b"17960000");
            (POSITION, 16)
        }
        (Other::Position, _) => {
            line[7..14].copy_from_slice(b"8960000");
            (POSITION, 8)
        }
    };
    (maker.sample, Some(Refusal { number, line: 4, byte }))
}

fn half_day(random: &mut Random, width: usize) -> (Sample, Option<Refusal>) {
    let mut maker = Maker::new(random);
    let later: [Column; 1] = [(*b"TDS", vec![b'9'; width])];
    let earlier: [Column; 1] = [(*b"TDS", vec![b'0'; width])];
    begin(&mut maker, Family::Fixes, &later);
    for (time, columns) in [(b"235959", later), (b"115959", earlier)] {
        maker.push(Role::Fix);
        set_columns(&mut maker.sample, &columns);
        maker.sample.lines.last_mut().unwrap().text[1..7].copy_from_slice(time);
    }
    (maker.sample, Some(Refusal { number: BACK, line: 5, byte: 2 }))
}
