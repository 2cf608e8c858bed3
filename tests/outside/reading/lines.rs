//! Each kind of line: its checks 7 to 13, and what it says.

use super::characters::is_valid;
use super::fields::{ALTITUDE, DATE, DATE_OR_NONE, Date, FDTE, LATITUDE, LONGITUDE, Position, TIME, codes_of, digits_of, one_of};
use super::finer::{Finer, passes_a_limit, refined};
use super::layouts::{Family, Layout, columns};
use super::refusals::{CHARACTER, FORM, LENGTH, Read, refuse};

/// What a line is in its file.
#[derive(Clone, Copy, PartialEq, Eq, Debug)]
pub enum Role {
    Recorder,
    Day,
    Header,
    Layout(Family),
    Head,
    Point,
    Differential,
    Event,
    Satellites,
    Fix,
    Extra,
    Unsigned,
    Remark,
    Seal,
    Other,
}

impl Role {
    /// The least and most length, of a B, a K or an N line by some layout or other.
    pub const fn lengths(self) -> (usize, usize) {
        match self {
            Role::Recorder => (7, 255),
            Role::Day => (11, 11),
            Role::Header => (5, 255),
            Role::Layout(_) => (3, 99),
            Role::Head => (25, 255),
            Role::Point => (18, 255),
            Role::Differential => (6, 6),
            Role::Event => (10, 255),
            Role::Satellites => (7, 255),
            Role::Fix => (35, 99),
            Role::Extra | Role::Unsigned => (7, 99),
            Role::Remark => (1, 99),
            Role::Seal => (2, 255),
            Role::Other => (1, 255),
        }
    }

    /// The family of a line that tells a layout or has columns.
    pub const fn family(self) -> Option<Family> {
        match self {
            Role::Layout(family) => Some(family),
            Role::Fix => Some(Family::Fixes),
            Role::Extra => Some(Family::Extras),
            Role::Unsigned => Some(Family::Unsigned),
            _ => None,
        }
    }

    /// "B, E, F and K lines run in time order." N "joins the time order".
    pub const fn is_timed(self) -> bool {
        matches!(self, Role::Fix | Role::Event | Role::Satellites | Role::Extra | Role::Unsigned)
    }
}

/// A fix. Its time and its position have the extra decimals that its columns tell.
#[derive(Clone, Copy, PartialEq, Eq, Debug)]
pub struct Fix {
    pub time: Finer,
    pub latitude: Position,
    pub longitude: Position,
    pub validity: u8,
    pub pressure: i32,
    pub gnss: i32,
}

/// A declaration's head. `flight` is none where the line has 000000.
#[derive(Clone, Copy, PartialEq, Eq, Debug)]
pub struct Head {
    pub declared: Date,
    pub time: u32,
    pub flight: Option<Date>,
    pub task: u32,
    pub turns: u32,
}

#[derive(Clone, Copy, PartialEq, Eq, Debug)]
pub struct Point {
    pub latitude: Position,
    pub longitude: Position,
}

/// Checks 7 and 8, the first of every line.
pub fn shape(line: &[u8], (least, most): (usize, usize)) -> Read<()> {
    if line.len() < least || line.len() > most {
        return refuse(LENGTH, 0);
    }
    match line.iter().position(|&c| !is_valid(c, line[0])) {
        Some(at) => refuse(CHARACTER, at + 1),
        None => Ok(()),
    }
}

/// "3 code characters for the maker, 3 for the serial, then text."
pub fn recorder(line: &[u8]) -> Read<()> {
    shape(line, Role::Recorder.lengths())?;
    codes_of(3).at(line, 2)?;
    codes_of(3).at(line, 5)
}

/// "H, FDTE at 2 to 5 as one field, DDMMYY at 6 to 11".
pub fn date_line(line: &[u8]) -> Read<Date> {
    shape(line, Role::Day.lengths())?;
    FDTE.at(line, 2)?;
    DATE.at(line, 6)
}

/// "Other H: F or O, 3 code characters, text."
pub fn header(line: &[u8]) -> Read<()> {
    shape(line, Role::Header.lengths())?;
    one_of(b"FO", line, 2)?;
    codes_of(3).at(line, 3)
}

/// "Time 2 to 7; latitude .. 8 to 15; longitude .. 16 to 24; A or V, 25; pressure altitude 26 to 30; GNSS altitude 31 to 35; columns from 36."
pub fn fix_line(line: &[u8], layout: &Layout) -> Read<Fix> {
    let length = layout.length(Family::Fixes);
    shape(line, (length, length))?;
    let plain = Fix {
        time: Finer::whole(TIME.at(line, 2)?.into()),
        latitude: LATITUDE.at(line, 8)?,
        longitude: LONGITUDE.at(line, 16)?,
        validity: one_of(b"AV", line, 25)?,
        pressure: ALTITUDE.at(line, 26)?,
        gnss: ALTITUDE.at(line, 31)?,
    };
    columns(line, layout, |column| passes_a_limit(&plain, line, column))?;
    Ok(refined(plain, line, layout))
}

/// "K: time 2 to 7, columns from 8." "N is built as K is: time at 2 to 7, columns from 8, exact length, listed codes checked". The family is one of these two.
pub fn extra_line(line: &[u8], family: Family, layout: &Layout) -> Read<u32> {
    let length = layout.length(family);
    shape(line, (length, length))?;
    let time = TIME.at(line, 2)?;
    columns(line, layout, |_| false)?;
    Ok(time)
}

/// "E: time, 3 code characters, text."
pub fn event_line(line: &[u8]) -> Read<u32> {
    shape(line, Role::Event.lengths())?;
    let time = TIME.at(line, 2)?;
    codes_of(3).at(line, 8)?;
    Ok(time)
}

/// "F: time, then pairs of code characters, perhaps none." "F with an odd half pair is 9 at byte 8, after its time and before its pairs."
pub fn satellites_line(line: &[u8]) -> Read<u32> {
    shape(line, Role::Satellites.lengths())?;
    let time = TIME.at(line, 2)?;
    if line.len() % 2 == 0 {
        return refuse(FORM, 8);
    }
    for at in (8..line.len()).step_by(2) {
        codes_of(2).at(line, at)?;
    }
    Ok(time)
}

/// "D: 1 or 2, then 4 code characters."
pub fn differential(line: &[u8]) -> Read<()> {
    shape(line, Role::Differential.lengths())?;
    one_of(b"12", line, 2)?;
    codes_of(4).at(line, 3)
}

/// "C head: declared date, time, flight date .., 4-digit task number, 2-digit number of turn points, text."
pub fn head_line(line: &[u8]) -> Read<Head> {
    shape(line, Role::Head.lengths())?;
    Ok(Head {
        declared: DATE.at(line, 2)?,
        time: TIME.at(line, 8)?,
        flight: DATE_OR_NONE.at(line, 14)?,
        task: digits_of(4).at(line, 20)? as u32,
        turns: digits_of(2).at(line, 24)? as u32,
    })
}

/// "C point: latitude, longitude, text."
pub fn point_line(line: &[u8]) -> Read<Point> {
    shape(line, Role::Point.lengths())?;
    Ok(Point { latitude: LATITUDE.at(line, 2)?, longitude: LONGITUDE.at(line, 10)? })
}

/// L, G and other lines: text.
pub fn text_line(line: &[u8], role: Role) -> Read<()> {
    shape(line, role.lengths())
}
