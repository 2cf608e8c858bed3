//! The layouts that I, J and M lines tell, the listed codes, and the columns of the lines that follow a layout.

use super::fields::{codes_of, digits, digits_of};
use super::lines::{Role, shape};
use super::refusals::{COLUMN, FORM, Read, TILE, TWICE, WIDTH, refuse};

/// Lines with columns, and the line that tells their layout.
#[derive(Clone, Copy, PartialEq, Eq, Debug)]
pub enum Family {
    Fixes,
    Extras,
    /// "Unsigned data in N lines, described by an M line".
    Unsigned,
}

pub const FAMILIES: [Family; 3] = [Family::Fixes, Family::Extras, Family::Unsigned];

impl Family {
    /// The kind of the lines that have the columns.
    pub const fn kind(self) -> u8 {
        match self {
            Family::Fixes => b'B',
            Family::Extras => b'K',
            Family::Unsigned => b'N',
        }
    }

    /// The kind of the line that tells the layout.
    pub const fn layout_kind(self) -> u8 {
        match self {
            Family::Fixes => b'I',
            Family::Extras => b'J',
            Family::Unsigned => b'M',
        }
    }

    /// The family that a line has columns of, by its first byte.
    pub fn of_line(line: &[u8]) -> Option<Family> {
        FAMILIES.into_iter().find(|family| line.first() == Some(&family.kind()))
    }

    /// The family whose layout a line tells, by its first byte.
    pub fn told_by(line: &[u8]) -> Option<Family> {
        FAMILIES.into_iter().find(|family| line.first() == Some(&family.layout_kind()))
    }

    /// The role of the lines that have the columns.
    pub const fn role(self) -> Role {
        match self {
            Family::Fixes => Role::Fix,
            Family::Extras => Role::Extra,
            Family::Unsigned => Role::Unsigned,
        }
    }

    /// "The first entry starts at 36 (I) or 8 (J)"; "M is built as J is".
    pub const fn start(self) -> usize {
        match self {
            Family::Fixes => 36,
            Family::Extras | Family::Unsigned => 8,
        }
    }
}

/// A listed code with its least and most width, and whether its columns "may have a minus first".
pub struct Listed {
    pub code: &'static [u8; 3],
    pub least: usize,
    pub most: usize,
    pub signed: bool,
}

const fn digits_only(code: &'static [u8; 3], least: usize, most: usize) -> Listed {
    Listed { code, least, most, signed: false }
}

const fn signed(code: &'static [u8; 3], least: usize, most: usize) -> Listed {
    Listed { code, least, most, signed: true }
}

/// "Listed codes, numbered 0 to 14 in this order".
pub const LISTED: [Listed; 15] = [
    digits_only(b"FXA", 3, 3),
    digits_only(b"SIU", 2, 2),
    digits_only(b"ENL", 3, 3),
    digits_only(b"MOP", 3, 3),
    digits_only(b"IAS", 3, 3),
    signed(b"FLP", 3, 3),
    digits_only(b"HDM", 3, 6),
    digits_only(b"HDT", 3, 6),
    digits_only(b"TRM", 3, 6),
    digits_only(b"TRT", 3, 6),
    digits_only(b"TDS", 1, 3),
    digits_only(b"LAD", 1, 4),
    digits_only(b"LOD", 1, 4),
    signed(b"DAE", 2, 6),
    signed(b"DAN", 2, 6),
];

pub fn listed(code: &[u8; 3]) -> Option<&'static Listed> {
    LISTED.iter().find(|l| l.code == code)
}

/// One column: its first and last byte in the line, counted from 1, and its code, which is three characters, or whatever else stands for them.
#[derive(Clone, Copy, PartialEq, Eq, Debug)]
pub struct Entry<C = [u8; 3]> {
    pub first: usize,
    pub last: usize,
    pub code: C,
}

impl<C> Entry<C> {
    pub fn width(&self) -> usize {
        self.last - self.first + 1
    }

    pub fn text<'a>(&self, line: &'a [u8]) -> &'a [u8] {
        &line[self.first - 1..self.last]
    }
}

impl Entry {
    /// "An unlisted code may have any width".
    fn has_its_width(&self) -> bool {
        listed(&self.code).is_none_or(|l| l.least <= self.width() && self.width() <= l.most)
    }

    /// "Their columns hold digits; FLP, DAE, DAN may have a minus first with at least one digit after it. An unlisted code may have .. any text."
    fn keeps_its_rule(&self, line: &[u8]) -> bool {
        let Some(l) = listed(&self.code) else { return true };
        match self.text(line) {
            [b'-', rest @ ..] if l.signed => !rest.is_empty() && digits(rest).is_some(),
            text => digits(text).is_some(),
        }
    }
}

#[derive(Clone, PartialEq, Eq, Debug, Default)]
pub struct Layout {
    pub entries: Vec<Entry>,
}

impl Layout {
    /// "A line of that kind ends at the last FF; with NN 00, or no such line, B has 35 and K has 7." "N is built as K is".
    pub fn length(&self, family: Family) -> usize {
        self.entries.last().map_or(family.start() - 1, |e| e.last)
    }

    pub fn look_up(&self, code: &[u8]) -> Option<Entry> {
        self.entries.iter().find(|e| e.code == code).copied()
    }

    /// The one line that could tell this layout.
    pub fn text(&self, family: Family) -> Vec<u8> {
        let mut line = vec![family.layout_kind()];
        line.extend(format!("{:02}", self.entries.len()).bytes());
        for e in &self.entries {
            line.extend(format!("{:02}{:02}", e.first, e.last).bytes());
            line.extend(e.code);
        }
        line
    }

    /// Whether some I, J or M line that passes 7 to 12 tells this layout.
    pub fn is_allowed(&self, family: Family) -> bool {
        layout_line(&self.text(family), family).as_ref() == Ok(self)
    }

    /// "A bit for each number, with the count of those columns".
    pub fn presence(&self) -> (u32, u32) {
        let carried = LISTED.iter().enumerate().filter(|(_, l)| self.look_up(l.code).is_some());
        let word = carried.fold(0u32, |word, (n, _)| word | 1 << n);
        (word, word.count_ones())
    }
}

/// The layouts of a file.
#[derive(Clone, PartialEq, Eq, Debug, Default)]
pub struct Layouts {
    pub fixes: Layout,
    pub extras: Layout,
    pub unsigned: Layout,
}

impl Layouts {
    pub fn of(&self, family: Family) -> &Layout {
        match family {
            Family::Fixes => &self.fixes,
            Family::Extras => &self.extras,
            Family::Unsigned => &self.unsigned,
        }
    }

    pub fn of_mut(&mut self, family: Family) -> &mut Layout {
        match family {
            Family::Fixes => &mut self.fixes,
            Family::Extras => &mut self.extras,
            Family::Unsigned => &mut self.unsigned,
        }
    }
}

/// An I, a J or an M line: "NN and the length against it come first (9, byte 2), then entries from the left, each by 9, 10, 11, 12".
pub fn layout_line(line: &[u8], family: Family) -> Read<Layout> {
    shape(line, Role::Layout(family).lengths())?;
    let count = digits_of(2).at(line, 2)? as usize;
    if line.len() != 3 + 7 * count {
        return refuse(FORM, 2);
    }
    let mut layout = Layout::default();
    for at in (4..line.len()).step_by(7) {
        let first = digits_of(2).at(line, at)? as usize;
        let last = digits_of(2).at(line, at + 2)? as usize;
        codes_of(3).at(line, at + 4)?;
        let entry = Entry { first, last, code: [line[at + 3], line[at + 4], line[at + 5]] };
        if first != layout.length(family) + 1 || last < first {
            return refuse(TILE, at);
        }
        if layout.look_up(&entry.code).is_some() {
            return refuse(TWICE, at);
        }
        if !entry.has_its_width() {
            return refuse(WIDTH, at);
        }
        layout.entries.push(entry);
    }
    Ok(layout)
}

/// The columns of a line whose length is the layout's, from the left. `besides` is what breaks a column's rule for what else its line says.
pub fn columns(line: &[u8], layout: &Layout, besides: impl Fn(&Entry) -> bool) -> Read<()> {
    match layout.entries.iter().find(|e| !e.keeps_its_rule(line) || besides(e)) {
        Some(e) => refuse(COLUMN, e.first),
        None => Ok(()),
    }
}

/// "A whole number where it is 1 to 18 digits, with or without a minus before them."
pub fn whole_number(text: &[u8]) -> Option<i64> {
    let (minus, rest) = match text {
        [b'-', rest @ ..] => (true, rest),
        _ => (false, text),
    };
    if rest.is_empty() || rest.len() > 18 {
        return None;
    }
    let size = digits(rest)? as i64;
    Some(if minus { -size } else { size })
}
