//! Files at the limits: each has one thing just inside a rule or just outside it, and is else valid.

use super::generate::{DAY, Line, Maker, Sample, clock, codes, digits, text};
use super::random::Random;
use super::rules::{Field, fields};
use crate::reading::fields::LEAP;
use crate::reading::file::HALF_DAY;
use crate::reading::layouts::FAMILIES;
use crate::reading::{Entry, Family, LISTED, Layout, Layouts, Role};

/// What stands at a limit.
#[derive(Clone, Debug)]
pub enum Limit {
    /// A text put at a byte of a line.
    Text(Role, usize, Vec<u8>),
    /// A character put at a line's end, or in place of its last where there is no room for one more.
    Character(Role, u8),
    /// A line cut or filled to a length.
    Length(Role, usize),
    /// A layout of so many columns of one byte each.
    Columns(Family, usize),
    /// A listed code's column with this text, as wide as the text is.
    Listed(Family, [u8; 3], Vec<u8>),
    /// A line of the second role so many seconds before one of the first, which stands before it.
    Fall(Role, Role, u32),
    /// The same, with the line before at the leap second.
    FromLeap(Role, Role, u32),
    /// A line between two fixes of the same time, so many seconds before them.
    Between(Role, u32),
    /// A line of the second role straight after one of the first.
    After(Role, Role),
}

const ROLES: [Role; 17] = [
    Role::Recorder,
    Role::Day,
    Role::Header,
    Role::Layout(Family::Fixes),
    Role::Layout(Family::Extras),
    Role::Layout(Family::Unsigned),
    Role::Head,
    Role::Point,
    Role::Differential,
    Role::Event,
    Role::Satellites,
    Role::Fix,
    Role::Extra,
    Role::Unsigned,
    Role::Remark,
    Role::Seal,
    Role::Other,
];

/// The roles of which any may come after any, as lines of a small file.
const NEIGHBOURS: [Role; 11] = [
    Role::Recorder,
    Role::Header,
    Role::Layout(Family::Fixes),
    Role::Layout(Family::Extras),
    Role::Layout(Family::Unsigned),
    Role::Fix,
    Role::Extra,
    Role::Unsigned,
    Role::Remark,
    Role::Other,
    Role::Seal,
];

/// Every limit.
pub fn all() -> Vec<Limit> {
    let neighbours = NEIGHBOURS.into_iter().flat_map(|before| NEIGHBOURS.map(|role| Limit::After(before, role)));
    ROLES.into_iter().enumerate().flat_map(of_role).chain(FAMILIES.into_iter().flat_map(of_family)).chain(neighbours).collect()
}

/// The characters around those that are not valid, and some that are far off. H lines, in which the comma is valid, and L lines have every byte value.
const CHARACTERS: &[u8] = b"\0\t\x1F !\"#$%)*+,-[\\]^_`|}~\x7F\x80\xA0\xFF";

/// The characters that the nth role has at its limits: every fifth, or all.
fn characters(n: usize, role: Role) -> Vec<u8> {
    match role {
        Role::Header | Role::Remark => (0..=255).collect(),
        _ => CHARACTERS.iter().skip(n % 5).step_by(5).copied().collect(),
    }
}

/// The limits of the nth role of the list.
fn of_role((n, role): (usize, Role)) -> Vec<Limit> {
    let mut limits = texts(role);
    let (least, most) = lengths(role);
    let near = [least - 1, least, most, most + 1];
    limits.extend(near.into_iter().filter(|&n| n > 0).map(|n| Limit::Length(role, n)));
    limits.extend(characters(n, role).into_iter().map(|c| Limit::Character(role, c)));
    if role.is_timed() {
        for before in ROLES.into_iter().filter(|before| before.is_timed()) {
            limits.extend([0, 1, HALF_DAY - 1, HALF_DAY, HALF_DAY + 1, DAY - 1].map(|fall| Limit::Fall(before, role, fall)));
            limits.extend([0, 1, HALF_DAY, HALF_DAY + 1, LEAP].map(|fall| Limit::FromLeap(before, role, fall)));
        }
        limits.extend([HALF_DAY, HALF_DAY + 1, DAY - 1].map(|fall| Limit::Between(role, fall)));
    }
    limits
}

/// The fields of a role, at their limits as a whole and byte by byte: one byte has every second character, the next the others.
fn texts(role: Role) -> Vec<Limit> {
    let sample = small(&mut Random::new(0), role);
    let line = &sample.lines[sample.first(role).unwrap()];
    let field = |(first, width, rule): Field| {
        let whole = rule.limits().into_iter().map(move |text| Limit::Text(role, first, text));
        let byte = move |at: usize| rule.limit_characters().iter().skip(at % 2).step_by(2).map(move |&c| Limit::Text(role, at, vec![c]));
        whole.chain((first..first + width).flat_map(byte))
    };
    fields(line).into_iter().flat_map(field).collect()
}

/// The least and most length of a line in the file that `small` makes.
fn lengths(role: Role) -> (usize, usize) {
    match role {
        Role::Fix | Role::Extra | Role::Unsigned => {
            let end = two_columns(role.family().unwrap()).entries[1].last;
            (end, end)
        }
        _ => role.lengths(),
    }
}

/// Layouts of few and many columns; each listed code at every width up to one that is too wide for all, and with each kind of text.
fn of_family(family: Family) -> Vec<Limit> {
    let mut limits = [0, 12, 13, 14].map(|count| Limit::Columns(family, count)).to_vec();
    for l in &LISTED {
        let all = |c: u8, width: usize| vec![c; width];
        let rest = l.most - 1;
        let widths = (1..=7).map(|n| all(b'7', n));
        let firsts = [b'-', b':'].map(|c| [vec![c], all(b'7', rest)].concat());
        let lasts = [b'-', b'/', b'A'].map(|c| [all(b'7', rest), vec![c]].concat());
        let texts = widths.chain(firsts).chain(lasts).chain([all(b'-', l.most)]);
        limits.extend(texts.map(|text| Limit::Listed(family, *l.code, text)));
    }
    limits
}

/// Two columns of unlisted codes, of two and three bytes.
fn two_columns(family: Family) -> Layout {
    let at = family.start();
    Layout { entries: vec![Entry { first: at, last: at + 1, code: *b"X7Q" }, Entry { first: at + 2, last: at + 4, code: *b"QQ0" }] }
}

/// A small valid file that has a line of this role; a line that can have columns has two, an F line three pairs.
fn small(random: &mut Random, role: Role) -> Sample {
    let mut sample = small_by(random, role, role.family().map(|family| (family, two_columns(family))));
    for line in sample.lines.iter_mut().filter(|l| l.role == Role::Satellites) {
        line.text.truncate(7);
        line.text.extend(codes(random, 6));
    }
    sample
}

/// The same by this layout, which need not be allowed. A third of the files have no G line.
fn small_by(random: &mut Random, role: Role, layout: Option<(Family, Layout)>) -> Sample {
    let mut maker = Maker::new(random);
    maker.push(Role::Recorder);
    maker.push(Role::Day);
    if let Some((family, layout)) = layout {
        *maker.sample.layouts.of_mut(family) = layout;
        maker.push(Role::Layout(family));
    }
    match role {
        Role::Recorder | Role::Day | Role::Layout(_) | Role::Seal => {}
        Role::Head | Role::Point => maker.declare(0),
        _ => maker.push(role),
    }
    if role == Role::Seal || !maker.random.once_in(3) {
        maker.push(Role::Seal);
    }
    maker.sample
}

/// A small file in which a line of the second role comes straight after one of the first; a Recorder that is the first is line 1.
fn neighbours(random: &mut Random, before: Role, role: Role) -> Sample {
    let mut maker = Maker::new(random);
    maker.push(Role::Recorder);
    let first = if before == Role::Recorder { None } else { Some(before) };
    if first.is_some() {
        maker.push(Role::Day);
    }
    for role in first.into_iter().chain([role]) {
        if let Role::Layout(family) = role {
            *maker.sample.layouts.of_mut(family) = two_columns(family);
        }
        maker.push(role);
    }
    maker.push(Role::Seal);
    maker.sample
}

/// The file that has a limit.
pub fn file(random: &mut Random, limit: &Limit) -> Vec<u8> {
    let role = match *limit {
        Limit::After(before, role) => return neighbours(random, before, role).bytes(),
        Limit::Text(role, ..) | Limit::Character(role, _) | Limit::Length(role, _) => role,
        Limit::Fall(_, role, _) | Limit::FromLeap(_, role, _) | Limit::Between(role, _) => role,
        Limit::Columns(family, _) | Limit::Listed(family, ..) => family.role(),
    };
    let mut sample = match limit {
        Limit::Columns(family, count) => small_by(random, role, Some((*family, narrow_columns(*family, *count)))),
        Limit::Listed(family, code, text) => small_by(random, role, Some((*family, one_column(*family, *code, text.len())))),
        _ => small(random, role),
    };
    let at = sample.first(role).unwrap();
    let line = &mut sample.lines[at].text;
    match limit {
        Limit::Text(_, first, text) => line[first - 1..first - 1 + text.len()].copy_from_slice(text),
        Limit::Character(role, c) if line.len() == lengths(*role).1 => *line.last_mut().unwrap() = *c,
        Limit::Character(_, c) => line.push(*c),
        Limit::Length(_, length) => set_length(random, role, line, *length),
        Limit::Columns(..) | Limit::After(..) => {}
        Limit::Listed(family, _, text) => line[family.start() - 1..].copy_from_slice(text),
        Limit::Fall(role, _, fall) | Limit::FromLeap(role, _, fall) => {
            let leap = matches!(limit, Limit::FromLeap(..));
            let before = if leap { LEAP } else { random.within(*fall as usize, DAY as usize - 1) as u32 };
            line[1..7].copy_from_slice(&clock(before - fall));
            let text = timed(*role, before, &sample.layouts);
            sample.lines.insert(at, Line { role: *role, text });
        }
        Limit::Between(_, fall) => {
            let fixes = random.within(*fall as usize, DAY as usize - 1) as u32;
            line[1..7].copy_from_slice(&clock(fixes - fall));
            let fix = Line { role: Role::Fix, text: timed(Role::Fix, fixes, &sample.layouts) };
            sample.lines.insert(at + 1, fix.clone());
            sample.lines.insert(at, fix);
        }
    }
    sample.bytes()
}

/// A timed line with nothing behind its fields but the columns of its layout, which are unlisted ones.
fn timed(role: Role, seconds: u32, layouts: &Layouts) -> Vec<u8> {
    let (kind, fields) = match role {
        Role::Fix => (b'B', "0000000N00000000EA0000000000"),
        Role::Event => (b'E', "PEV"),
        Role::Satellites => (b'F', ""),
        Role::Extra => (b'K', ""),
        Role::Unsigned => (b'N', ""),
        _ => panic!("{role:?} has no time"),
    };
    let columns = role.family().map_or(0, |family| layouts.of(family).length(family) + 1 - family.start());
    [vec![kind], clock(seconds), fields.as_bytes().to_vec(), vec![b'x'; columns]].concat()
}

/// So many columns of one byte each.
fn narrow_columns(family: Family, count: usize) -> Layout {
    let entry =
        |n: usize| Entry { first: family.start() + n, last: family.start() + n, code: format!("Z{n:02}").into_bytes().try_into().unwrap() };
    Layout { entries: (0..count).map(entry).collect() }
}

fn one_column(family: Family, code: [u8; 3], width: usize) -> Layout {
    Layout { entries: vec![Entry { first: family.start(), last: family.start() + width - 1, code }] }
}

/// A line cut, or filled with characters that its fields may have.
fn set_length(random: &mut Random, role: Role, line: &mut Vec<u8>, length: usize) {
    let missing = length.saturating_sub(line.len());
    line.truncate(length);
    line.extend(match role {
        Role::Satellites => codes(random, missing),
        _ if role.family().is_some() => digits(random, missing),
        _ => text(random, b'L', missing),
    });
}
