//! Valid files, made at random from a seed: every kind of line, layouts of listed and unlisted codes in any order and width, LAD, LOD and TDS among them more often,
//! declarations, midnight, the leap second, texts at their limits; with G lines and without.

use super::random::Random;
use crate::reading::characters::{is_code, is_valid};
use crate::reading::fields::{Axis, EAST_WEST, LEAP, NORTH_SOUTH, TIME, altitude_text, date_text, days_in, time_text};
use crate::reading::file::HALF_DAY;
use crate::reading::layouts::listed;
use crate::reading::{Date, Entry, Family, LISTED, Layout, Layouts, Position, Role};

pub const DAY: u32 = 86_400;

#[derive(Clone, Debug)]
pub struct Line {
    pub role: Role,
    pub text: Vec<u8>,
}

/// A valid file, line by line.
#[derive(Clone, Default)]
pub struct Sample {
    pub lines: Vec<Line>,
    pub layouts: Layouts,
}

impl Sample {
    pub fn bytes(&self) -> Vec<u8> {
        join(&self.lines)
    }

    pub fn count(&self, role: Role) -> u64 {
        self.lines.iter().filter(|l| l.role == role).count() as u64
    }

    pub fn first(&self, role: Role) -> Option<usize> {
        self.lines.iter().position(|l| l.role == role)
    }
}

pub fn join(lines: &[Line]) -> Vec<u8> {
    lines.iter().flat_map(|l| l.text.iter().copied().chain(*b"\r\n")).collect()
}

/// The characters that may stand in any line, and those of codes.
pub fn valid() -> Vec<u8> {
    (0..=255).filter(|&c| is_valid(c, b'L')).collect()
}

pub fn codes(random: &mut Random, width: usize) -> Vec<u8> {
    let all: Vec<u8> = (0..=255).filter(|&c| is_code(c)).collect();
    (0..width).map(|_| *random.pick(&all)).collect()
}

pub fn digits(random: &mut Random, width: usize) -> Vec<u8> {
    (0..width).map(|_| *random.pick(b"0123456789")).collect()
}

/// A text of valid characters; in an H line also commas.
pub fn text(random: &mut Random, kind: u8, length: usize) -> Vec<u8> {
    let from = if random.once_in(2) { b"ABCDEFGHIJKLMNOPQRSTUVWXYZ 0123456789abcdefghij.-:".to_vec() } else { valid() };
    (0..length).map(|_| if kind == b'H' && random.once_in(12) { b',' } else { *random.pick(&from) }).collect()
}

/// How long a text is that may have up to `most` bytes: mostly short, now and then none or all of it.
fn reach(random: &mut Random, most: usize) -> usize {
    match random.below(24) {
        0 | 1 => 0,
        2 => most,
        3 => random.within(0, most),
        _ => random.within(0, most.min(14)),
    }
}

/// A line's fixed part with a text behind it, as long as the role allows.
fn with_text(random: &mut Random, role: Role, mut line: Vec<u8>) -> Vec<u8> {
    let length = reach(random, role.lengths().1 - line.len());
    let kind = line[0];
    line.extend(text(random, kind, length));
    line
}

/// DDMMYY of a day that exists from 1980 to 2079, the last of its month more often than chance has it.
fn day(random: &mut Random) -> Vec<u8> {
    let year = random.within(1980, 2079) as u32;
    let month = if random.once_in(5) { 2 } else { random.within(1, 12) as u32 };
    let last = days_in(month, year);
    let day = if random.once_in(4) { last } else { random.within(1, last as usize) as u32 };
    date_text(&Date { day, month, year }).into_bytes()
}

pub fn clock(seconds: u32) -> Vec<u8> {
    time_text(seconds).into_bytes()
}

/// A position with its letter; the limit, 0 and whole degrees come up often.
fn position(random: &mut Random, axis: Axis) -> Vec<u8> {
    let (most, degrees) = (axis.most as usize, axis.most as usize / 60_000);
    let count = match random.below(16) {
        0 => 0,
        1 => most,
        2 => random.below(degrees) * 60_000,
        3 => random.below(degrees) * 60_000 + 59_999,
        _ => random.below(most),
    };
    axis.text(&Position::whole(count as u64, *random.pick(&axis.letters)))
}

fn altitude(random: &mut Random) -> Vec<u8> {
    let metres = match random.below(12) {
        0 => 0,
        1 => 99_999,
        2 => -9_999,
        3 => -1,
        4 => -(random.within(1, 9_999) as i32),
        _ => random.within(0, 9_000) as i32,
    };
    altitude_text(metres).into_bytes()
}

/// The codes whose columns refine a fix.
const REFINING: [[u8; 3]; 3] = [*b"LAD", *b"LOD", *b"TDS"];

/// Which codes a layout has: so many of four are listed, and so many of four are those that refine a fix.
#[derive(Clone, Copy)]
struct Mixture {
    listed: usize,
    refining: usize,
}

/// A code that is not among the entries, and a width that it may have within `room` bytes.
fn column(random: &mut Random, layout: &Layout, room: usize, of_four: Mixture) -> Option<([u8; 3], usize)> {
    let of = |random: &mut Random, code: [u8; 3]| {
        let l = listed(&code).unwrap();
        (code, random.within(l.least, l.most))
    };
    let (code, width) = if random.below(4) < of_four.refining {
        let code = *random.pick(&REFINING);
        of(random, code)
    } else if random.below(4) < of_four.listed {
        let code = *random.pick(&LISTED).code;
        of(random, code)
    } else {
        let width = match random.below(20) {
            0 => room,
            1 => random.within(1, room),
            _ => random.within(1, 4),
        };
        (codes(random, 3).try_into().unwrap(), width)
    };
    let fits = listed(&code).is_none_or(|l| l.least <= width && width <= l.most);
    (fits && width <= room && layout.look_up(&code).is_none()).then_some((code, width))
}

/// A layout of listed and unlisted codes in any order; in a third of them the codes that refine a fix come up often.
pub fn layout(random: &mut Random, family: Family) -> Layout {
    let count = match random.below(8) {
        0 => 0,
        1 => 13,
        _ => random.within(1, 8),
    };
    let of_four = Mixture { listed: random.below(5), refining: if random.once_in(3) { random.within(1, 4) } else { 0 } };
    let mut layout = Layout::default();
    for _ in 0..2 * count {
        let end = layout.length(family);
        if layout.entries.len() == count || end == 99 {
            break;
        }
        if let Some((code, width)) = column(random, &layout, 99 - end, of_four) {
            layout.entries.push(Entry { first: end + 1, last: end + width, code });
        }
    }
    layout
}

/// A column's text: digits for a listed code, with a minus where it may have one; for another, numbers and any text.
fn column_text(random: &mut Random, e: &Entry) -> Vec<u8> {
    let signed = match listed(&e.code) {
        Some(l) => l.signed,
        None if random.once_in(2) => return text(random, b'B', e.width()),
        None => e.width() > 1,
    };
    let mut field = digits(random, e.width());
    if signed && random.once_in(3) {
        field[0] = b'-';
    }
    if random.once_in(8) {
        let from = usize::from(field[0] == b'-');
        field[from..].fill(b'0');
    }
    field
}

fn columns(random: &mut Random, layout: &Layout) -> Vec<u8> {
    layout.entries.iter().flat_map(|e| column_text(random, e)).collect()
}

/// The columns of a B line at this latitude and longitude. At 90 degrees LAD has zeros alone, at 180 degrees LOD.
fn fix_columns(random: &mut Random, layout: &Layout, latitude: &[u8], longitude: &[u8]) -> Vec<u8> {
    let is_full = |e: &Entry| e.code == *b"LAD" && latitude.starts_with(b"90") || e.code == *b"LOD" && longitude.starts_with(b"180");
    layout.entries.iter().flat_map(|e| if is_full(e) { vec![b'0'; e.width()] } else { column_text(random, e) }).collect()
}

/// The time of the next timed line: the same, a little later, much later, the leap second, or past midnight, often by the least fall that is one. All of these come after any
/// time, the leap second too.
fn later(random: &mut Random, time: u32) -> u32 {
    match random.below(25) {
        0 => random.within(time as usize, LEAP as usize) as u32,
        24 => LEAP,
        1 => (time + random.below(HALF_DAY as usize) as u32) % DAY,
        2 | 3 => (time + DAY - HALF_DAY - 1) % DAY,
        4..=8 => time,
        _ => (time + random.within(1, 20) as u32) % DAY,
    }
}

/// A file that is being made: lines of any role are put behind each other, by its layouts and its clock.
pub struct Maker<'a> {
    pub random: &'a mut Random,
    time: u32,
    pub sample: Sample,
}

impl<'a> Maker<'a> {
    pub fn new(random: &'a mut Random) -> Self {
        let time = random.below(DAY as usize) as u32;
        Maker { random, time, sample: Sample::default() }
    }

    /// The lines that come behind those of a file, by its layouts and by the clock of its last timed line.
    pub fn go_on(random: &'a mut Random, sample: Sample) -> Self {
        let last = sample.lines.iter().rfind(|l| l.role.is_timed());
        let time = last.map_or_else(|| random.below(DAY as usize) as u32, |l| TIME.at(&l.text, 2).unwrap());
        Maker { random, time, sample }
    }

    pub fn push(&mut self, role: Role) {
        if role.is_timed() {
            self.time = later(self.random, self.time);
        }
        let text = self.line(role);
        self.sample.lines.push(Line { role, text });
    }

    /// A declaration's head with this number of turn points, and its points.
    pub fn declare(&mut self, turns: usize) {
        self.push(Role::Head);
        let head = self.sample.lines.last_mut().unwrap();
        head.text[23..25].copy_from_slice(format!("{turns:02}").as_bytes());
        for _ in 0..turns + 4 {
            self.push(Role::Point);
        }
    }

    fn line(&mut self, role: Role) -> Vec<u8> {
        let random = &mut *self.random;
        let timed = |kind: u8| [vec![kind], clock(self.time)].concat();
        match role {
            Role::Recorder => {
                let line = [b"A".to_vec(), codes(random, 6)].concat();
                with_text(random, role, line)
            }
            Role::Day => [b"HFDTE".to_vec(), day(random)].concat(),
            Role::Header => {
                let source = *random.pick(b"FO");
                let code = if random.once_in(9) { b"DTE".to_vec() } else { codes(random, 3) };
                with_text(random, role, [vec![b'H', source], code].concat())
            }
            Role::Layout(family) => self.sample.layouts.of(family).text(family),
            Role::Head => {
                let flight = if random.once_in(2) { b"000000".to_vec() } else { day(random) };
                let time = if random.once_in(12) { clock(LEAP) } else { clock(random.below(DAY as usize) as u32) };
                let line = [b"C".to_vec(), day(random), time, flight, digits(random, 6)].concat();
                with_text(random, role, line)
            }
            Role::Point => {
                let line = [b"C".to_vec(), position(random, NORTH_SOUTH), position(random, EAST_WEST)].concat();
                with_text(random, role, line)
            }
            Role::Differential => [vec![b'D', *random.pick(b"12")], codes(random, 4)].concat(),
            Role::Event => {
                let line = [timed(b'E'), codes(random, 3)].concat();
                with_text(random, role, line)
            }
            Role::Satellites => {
                let pairs = reach(random, role.lengths().1 - 7) / 2;
                [timed(b'F'), codes(random, 2 * pairs)].concat()
            }
            Role::Fix => {
                let [latitude, longitude] = [NORTH_SOUTH, EAST_WEST].map(|axis| position(random, axis));
                let columns = fix_columns(random, &self.sample.layouts.fixes, &latitude, &longitude);
                let heights = [altitude(random), altitude(random)].concat();
                [timed(b'B'), latitude, longitude, vec![*random.pick(b"AAAV")], heights, columns].concat()
            }
            Role::Extra => [timed(b'K'), columns(random, &self.sample.layouts.extras)].concat(),
            Role::Unsigned => [timed(b'N'), columns(random, &self.sample.layouts.unsigned)].concat(),
            Role::Remark => with_text(random, role, vec![b'L']),
            Role::Seal => {
                let line = [b"G".to_vec(), text(random, b'G', 1)].concat();
                with_text(random, role, line)
            }
            Role::Other => {
                let kind = *random.pick(b"OPQRSTUVWXYZ");
                with_text(random, role, vec![kind])
            }
        }
    }

    fn top(&mut self) {
        self.push(Role::Recorder);
        self.push(Role::Day);
        for _ in 0..self.random.below(5) {
            self.push(Role::Header);
        }
        if !self.random.once_in(5) {
            self.push_layout(Family::Fixes);
        }
        if self.random.once_in(2) {
            self.push_layout(Family::Extras);
        }
        if self.random.once_in(2) {
            self.push_layout(Family::Unsigned);
        }
    }

    fn push_layout(&mut self, family: Family) {
        *self.sample.layouts.of_mut(family) = layout(self.random, family);
        self.push(Role::Layout(family));
    }

    fn body(&mut self, count: usize) {
        let mut may_declare = !self.random.once_in(3);
        for _ in 0..count {
            if may_declare && self.random.once_in(4) {
                let turns = match self.random.below(30) {
                    0 => 99,
                    1 => 10,
                    _ => self.random.below(6),
                };
                self.declare(turns);
                may_declare = false;
            }
            let role = *self.random.pick(&BODY);
            may_declare &= role != Role::Fix;
            self.push(role);
        }
    }

    fn end(&mut self) {
        for _ in 0..self.random.within(1, 4) {
            self.push(Role::Seal);
        }
        if self.random.once_in(4) {
            for _ in 0..self.random.within(1, 3) {
                self.push(Role::Remark);
            }
        }
    }
}

/// The roles of a body's lines; a role comes up as often as it stands here.
const BODY: [Role; 23] = [
    Role::Fix,
    Role::Fix,
    Role::Fix,
    Role::Fix,
    Role::Fix,
    Role::Fix,
    Role::Fix,
    Role::Fix,
    Role::Fix,
    Role::Fix,
    Role::Fix,
    Role::Extra,
    Role::Extra,
    Role::Extra,
    Role::Unsigned,
    Role::Unsigned,
    Role::Unsigned,
    Role::Event,
    Role::Event,
    Role::Satellites,
    Role::Differential,
    Role::Remark,
    Role::Other,
];

/// A valid file with about `body` lines behind its layouts. A third of the files have no G line.
pub fn sample(random: &mut Random, body: usize) -> Sample {
    let is_signed = !random.once_in(3);
    made(random, body, is_signed)
}

/// The same with G lines.
pub fn signed(random: &mut Random, body: usize) -> Sample {
    made(random, body, true)
}

fn made(random: &mut Random, body: usize, is_signed: bool) -> Sample {
    let mut maker = Maker::new(random);
    maker.top();
    maker.body(body);
    if is_signed {
        maker.end();
    }
    maker.sample
}
