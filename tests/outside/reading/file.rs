//! A whole file: which line may follow which, the time order, and the check of all its lines.

use super::fields::Date;
use super::layouts::{Family, Layouts, layout_line};
use super::lines::{
    Role, date_line, differential, event_line, extra_line, fix_line, head_line, header, point_line, recorder, satellites_line, text_line,
};
use super::refusals::{Answer, BACK, EMPTY, EMPTY_LINE, ENDS_EARLY, KIND, LINE_END, ORDER, Read, Refusal, TABLE_FULL, TOO_LONG, refuse};

/// "A file has 1 to 16,777,216 bytes (h)."
pub const LIMIT: usize = 16_777_216;

/// "A fall of more than 43,200 seconds from the one before counts as the next day".
pub const HALF_DAY: u32 = 43_200;

/// What an accepted file says.
#[derive(Clone, PartialEq, Eq, Debug, Default)]
pub struct Accepted {
    pub date: Date,
    pub layouts: Layouts,
    pub lines: u64,
    pub b_lines: u64,
    pub k_lines: u64,
    pub n_lines: u64,
    /// "Yes exactly when a G line exists".
    pub signed: bool,
}

/// Which of the two checks.
#[derive(Clone, Copy, PartialEq, Eq, Debug)]
pub enum Check {
    /// "The usual check now accepts a file with no G and answers "signed" yes or no".
    Usual,
    /// "A separate strict check keeps the old rule".
    Strict,
}

/// How far a file has come: what may follow is told from this.
#[derive(Clone, Copy, PartialEq, PartialOrd)]
enum Stage {
    Start,
    Recorder,
    Headers,
    FixLayout,
    ExtraLayout,
    UnsignedLayout,
    Body,
    Seal,
    Remarks,
}

/// What the lines before have left behind for the next one.
struct Course {
    stage: Stage,
    declared: bool,
    points_due: u32,
    time: Option<u32>,
    said: Accepted,
}

impl Course {
    /// What a line of this kind is here, or none where the kind is not allowed here.
    fn role(&self, kind: u8) -> Option<Role> {
        let stage = self.stage;
        let in_body = stage <= Stage::Body;
        let (role, allowed) = match kind {
            // "a C head, then at once its point lines"
            _ if self.points_due > 0 => (Role::Point, kind == b'C'),
            // "Line 1 is A, line 2 is H, then further H lines"
            b'A' => (Role::Recorder, stage == Stage::Start),
            b'H' if stage == Stage::Recorder => (Role::Day, true),
            b'H' => (Role::Header, stage == Stage::Headers),
            _ if stage < Stage::Headers => return None,
            // "then at most one I, then at most one J"
            b'I' => (Role::Layout(Family::Fixes), stage == Stage::Headers),
            b'J' => (Role::Layout(Family::Extras), stage <= Stage::FixLayout),
            // M: "at most one, straight after J, or after I or the H lines if those are missing"
            b'M' => (Role::Layout(Family::Unsigned), stage <= Stage::ExtraLayout),
            // "At most one declaration (h), begun before the first B"
            b'C' => (Role::Head, in_body && !self.declared && self.said.b_lines == 0),
            b'D' => (Role::Differential, in_body),
            b'E' => (Role::Event, in_body),
            b'F' => (Role::Satellites, in_body),
            b'B' => (Role::Fix, in_body),
            b'K' => (Role::Extra, in_body),
            b'N' => (Role::Unsigned, in_body),
            // "After the first G only G or L; after an L that follows a G, only L."
            b'L' => (Role::Remark, true),
            b'G' => (Role::Seal, stage <= Stage::Seal),
            // "M to Z are "other" and carried (h)." "M and N are "other" no more".
            _ => (Role::Other, in_body),
        };
        allowed.then_some(role)
    }

    fn stage_after(&self, role: Role) -> Stage {
        match role {
            Role::Recorder => Stage::Recorder,
            Role::Day | Role::Header => Stage::Headers,
            Role::Layout(Family::Fixes) => Stage::FixLayout,
            Role::Layout(Family::Extras) => Stage::ExtraLayout,
            Role::Layout(Family::Unsigned) => Stage::UnsignedLayout,
            Role::Seal => Stage::Seal,
            Role::Remark if self.stage >= Stage::Seal => Stage::Remarks,
            _ => Stage::Body,
        }
    }

    /// Checks 7 to 13 of a line, and what it says kept; the time of a timed line.
    fn read(&mut self, line: &[u8], role: Role) -> Read<Option<u32>> {
        let said = &mut self.said;
        match role {
            // "Time order, day number and the listing still use the plain counts."
            Role::Fix => return fix_line(line, &said.layouts.fixes).map(|f| Some(f.time.plain() as u32)),
            Role::Extra => return extra_line(line, Family::Extras, &said.layouts.extras).map(Some),
            Role::Unsigned => return extra_line(line, Family::Unsigned, &said.layouts.unsigned).map(Some),
            Role::Event => return event_line(line).map(Some),
            Role::Satellites => return satellites_line(line).map(Some),
            Role::Recorder => recorder(line)?,
            Role::Day => said.date = date_line(line)?,
            Role::Header => header(line)?,
            Role::Layout(family) => *said.layouts.of_mut(family) = layout_line(line, family)?,
            Role::Head => {
                // "as many as its turn points plus 4 (take-off, start, finish, landing)"
                self.points_due = head_line(line)?.turns + 4;
                self.declared = true;
            }
            Role::Point => {
                point_line(line)?;
                self.points_due -= 1;
            }
            Role::Differential => differential(line)?,
            Role::Remark | Role::Seal | Role::Other => text_line(line, role)?,
        }
        Ok(None)
    }

    /// "A smaller fall, or one of exactly 43,200, is refused (h). Equal times are fine."
    fn keep_time(&mut self, now: u32) -> Read<()> {
        let before = self.time.unwrap_or(0);
        if now < before && before - now <= HALF_DAY {
            return refuse(BACK, 2);
        }
        self.time = Some(now);
        Ok(())
    }

    /// Checks 4 to 14 of one line.
    fn pass(&mut self, line: &[u8]) -> Read<()> {
        let Some(&kind) = line.first() else { return refuse(EMPTY_LINE, 1) };
        if !kind.is_ascii_uppercase() {
            return refuse(KIND, 1);
        }
        let Some(role) = self.role(kind) else { return refuse(ORDER, 1) };
        if let Some(now) = self.read(line, role)? {
            self.keep_time(now)?;
        }
        self.stage = self.stage_after(role);
        self.said.lines += 1;
        self.said.b_lines += u64::from(role == Role::Fix);
        self.said.k_lines += u64::from(role == Role::Extra);
        self.said.n_lines += u64::from(role == Role::Unsigned);
        self.said.signed |= role == Role::Seal;
        Ok(())
    }
}

/// A line at the front of the bytes, checked (3 to 14); its length.
fn pass_first(course: &mut Course, rest: &[u8]) -> Read<usize> {
    let length = rest.iter().position(|&c| c == b'\r' || c == b'\n').unwrap_or(rest.len());
    if !rest[length..].starts_with(b"\r\n") {
        return refuse(LINE_END, length + 1);
    }
    course.pass(&rest[..length])?;
    Ok(length)
}

/// The usual check of a whole file. The table gets the offset of each good line.
pub fn check_usual(file: &[u8], table: &mut [u32]) -> Answer<Accepted> {
    walk(file, Check::Usual, into(table))
}

/// The strict check of a whole file, with a table as for the usual one.
pub fn check_strict(file: &[u8], table: &mut [u32]) -> Answer<Accepted> {
    walk(file, Check::Strict, into(table))
}

/// The usual check where "no table is lent", "so 15 isn't met".
pub fn check_usual_alone(file: &[u8]) -> Answer<Accepted> {
    walk(file, Check::Usual, |_, _| true)
}

/// The strict check without a table.
pub fn check_strict_alone(file: &[u8]) -> Answer<Accepted> {
    walk(file, Check::Strict, |_, _| true)
}

/// Enters the offset of a line, counted from 0, in a table, and says whether there was an entry for it.
fn into(table: &mut [u32]) -> impl FnMut(usize, usize) -> bool {
    |line, at| table.get_mut(line).map(|entry| *entry = at as u32).is_some()
}

/// A check, with what enters the offset of a line.
fn walk(file: &[u8], check: Check, mut enter: impl FnMut(usize, usize) -> bool) -> Answer<Accepted> {
    if file.is_empty() {
        return Err(Refusal::of(EMPTY));
    }
    if file.len() > LIMIT {
        return Err(Refusal::of(TOO_LONG));
    }
    let mut course = Course { stage: Stage::Start, declared: false, points_due: 0, time: None, said: Accepted::default() };
    let mut at = 0;
    while at < file.len() {
        let number = course.said.lines + 1;
        let length = pass_first(&mut course, &file[at..]).map_err(|fault| fault.at(number))?;
        if !enter(number as usize - 1, at) {
            return Err(Refusal { number: TABLE_FULL, line: number, byte: 0 });
        }
        at += length + 2;
    }
    if course.points_due > 0 || ends_early(&course.said, check) {
        return Err(Refusal { number: ENDS_EARLY, line: course.said.lines + 1, byte: 0 });
    }
    Ok(course.said)
}

/// Whether a file whose lines are all good, and whose declaration is finished, ends before it may.
fn ends_early(said: &Accepted, check: Check) -> bool {
    match check {
        // "16 in the usual check only for an unfinished declaration, and for a file that ends before its second line."
        Check::Usual => said.lines < 2,
        // "At least one G is needed (h)."
        Check::Strict => !said.signed,
    }
}
