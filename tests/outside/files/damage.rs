//! Damaged files: any byte or line spoiled at random, and damage aimed at one refusal number, which tells the number, line and byte that must be answered.

use super::generate::{Line, Sample, clock, codes, digits, join, text};
use super::random::Random;
use super::rules::{Field, fields};
use crate::reading::characters::is_valid;
use crate::reading::file::HALF_DAY;
use crate::reading::layouts::{FAMILIES, listed};
use crate::reading::{Entry, Family, LISTED, Layout, Refusal, Role};

/// Bytes that rules turn on, to be put where they do not belong.
const SHARP: &[u8] = b"\r\n\0 !$*\\^,-~0123456789:AZ@[`az{}\x7F\x80\xFF/BCGHIJKLMNOSEWAV";

/// One to three faults at places of no particular meaning: in the whole file, in one line, or lines moved.
pub fn anywhere(random: &mut Random, sample: &Sample) -> Vec<u8> {
    match random.below(3) {
        0 => lines_moved(random, sample),
        1 => {
            let mut lines = sample.lines.clone();
            let line = random.below(lines.len());
            spoil(random, &mut lines[line].text, 2);
            join(&lines)
        }
        _ => {
            let mut file = sample.bytes();
            spoil(random, &mut file, 1);
            file
        }
    }
}

/// Bytes put in, taken out or changed at `least` to 3 places, or all behind a place cut off.
fn spoil(random: &mut Random, bytes: &mut Vec<u8>, least: usize) {
    for _ in 0..random.within(least, 3) {
        if bytes.is_empty() {
            return;
        }
        let at = random.below(bytes.len());
        match random.below(7) {
            0 => bytes.insert(at, *random.pick(SHARP)),
            1 => drop(bytes.remove(at)),
            2 => bytes.truncate(at.max(1)),
            3 => bytes[at] = random.below(256) as u8,
            4 => bytes[at] = *random.pick(b"0123456789"),
            _ => bytes[at] = *random.pick(SHARP),
        }
    }
}

fn lines_moved(random: &mut Random, sample: &Sample) -> Vec<u8> {
    let mut lines = sample.lines.clone();
    let (a, b) = (random.below(lines.len()), random.below(lines.len()));
    match random.below(4) {
        0 => lines.swap(a, b),
        1 => lines.insert(a, lines[b].clone()),
        2 => lines.insert(a, lines[a].clone()),
        _ => drop(lines.remove(a)),
    }
    join(&lines)
}

/// A damaged file, and the refusal that it must meet.
pub type Aimed = (Vec<u8>, Refusal);

/// The refusal of line `at`, counted from 0.
fn refused(number: u32, at: usize, byte: usize) -> Refusal {
    Refusal { number, line: at as u64 + 1, byte: byte as u64 }
}

/// The file with line `at` changed to `text`, and the refusal met there.
fn changed(sample: &Sample, at: usize, text: Vec<u8>, number: u32, byte: usize) -> Aimed {
    let mut lines = sample.lines.clone();
    lines[at].text = text;
    (join(&lines), refused(number, at, byte))
}

fn put_in(sample: &Sample, at: usize, text: Vec<u8>, number: u32, byte: usize) -> Aimed {
    let mut lines = sample.lines.clone();
    lines.insert(at, Line { role: Role::Other, text });
    (join(&lines), refused(number, at, byte))
}

/// A place of the file whose line is one of those wanted.
fn find(random: &mut Random, sample: &Sample, wanted: impl Fn(&Line) -> bool) -> Option<usize> {
    let places: Vec<usize> = (0..sample.lines.len()).filter(|&n| wanted(&sample.lines[n])).collect();
    (!places.is_empty()).then(|| *random.pick(&places))
}

/// Damage that both checks must refuse with `number` (3 to 14, 16, or 22 to 25), where the file has a line that it can be done to.
pub fn aimed(random: &mut Random, sample: &Sample, number: u32) -> Option<Aimed> {
    match number {
        3 => Some(ending(random, sample)),
        4 => Some({
            let at = random.within(0, sample.lines.len());
            put_in(sample, at, Vec::new(), 4, 1)
        }),
        5 => Some(kind(random, sample)),
        6 => Some(order(random, sample)),
        7 => Some(length(random, sample)),
        8 => character(random, sample),
        9 | 22..=25 => form(random, sample, number),
        10..=12 => entry(random, sample, number),
        13 if random.once_in(3) => past_limit(random, sample),
        13 => column(random, sample),
        14 => back(random, sample),
        16 => Some(early(random, sample)),
        _ => None,
    }
}

/// A line that does not end with CR LF, or a CR or LF inside one.
fn ending(random: &mut Random, sample: &Sample) -> Aimed {
    let at = random.below(sample.lines.len());
    let text = &sample.lines[at].text;
    let mut byte = text.len() + 1;
    let mut line = text.clone();
    let choice = random.below(7);
    match choice {
        0 => {
            byte = random.within(1, text.len() + 1);
            line.insert(byte - 1, *random.pick(b"\r\n"));
            line.extend(b"\r\n");
        }
        _ => line.extend([b"".as_slice(), b"\r", b"\n", b"\r", b"\n\r", b"\r\r\n"][choice - 1]),
    }
    // With the first two endings the file ends there.
    let rest = if choice == 1 || choice == 2 { Vec::new() } else { join(&sample.lines[at + 1..]) };
    ([join(&sample.lines[..at]), line, rest].concat(), refused(3, at, byte))
}

fn kind(random: &mut Random, sample: &Sample) -> Aimed {
    let at = random.below(sample.lines.len());
    let mut text = sample.lines[at].text.clone();
    text[0] = *random.pick(b"@[az0 \0\x7F\x80\xC1\xFF-,");
    changed(sample, at, text, 5, 1)
}

/// The kinds that may not stand before line `at` of a valid file.
fn wrong_kinds(lines: &[Line], at: usize) -> Vec<u8> {
    let before = &lines[..at];
    let has = |role: Role| before.iter().any(|l| l.role == role);
    let has_layout = |families: &[Family]| families.iter().any(|&family| has(Role::Layout(family)));
    let sealed = before.iter().position(|l| l.role == Role::Seal);
    let body = before.iter().any(|l| !matches!(l.role, Role::Recorder | Role::Day | Role::Header | Role::Layout(_)));
    let all_but = |kind: u8| (b'A'..=b'Z').filter(|&k| k != kind).collect();
    if at == 0 {
        return all_but(b'A');
    }
    if at == 1 {
        return all_but(b'H');
    }
    if at < lines.len() && lines[at].role == Role::Point {
        return all_but(b'C');
    }
    let mut wrong = vec![b'A'];
    if body || has_layout(&FAMILIES) {
        wrong.extend(b"HI");
    }
    if body || has_layout(&[Family::Extras, Family::Unsigned]) {
        wrong.push(b'J');
    }
    if body || has_layout(&[Family::Unsigned]) {
        wrong.push(b'M');
    }
    if has(Role::Head) || has(Role::Fix) || sealed.is_some() {
        wrong.push(b'C');
    }
    if let Some(seal) = sealed {
        wrong.extend(b"BDEFKNOPQRSTUVWXYZ");
        if before[seal..].iter().any(|l| l.role == Role::Remark) {
            wrong.push(b'G');
        }
    }
    wrong
}

/// A line of a kind that may not stand where it is put: at any place, or just behind a layout line; of any such kind, or one of the top or of N lines.
fn order(random: &mut Random, sample: &Sample) -> Aimed {
    let layout = find(random, sample, |l| matches!(l.role, Role::Layout(_)));
    let at = match layout {
        Some(layout) if random.once_in(2) => layout + 1,
        _ => random.within(0, sample.lines.len()),
    };
    let mut kinds = wrong_kinds(&sample.lines, at);
    if random.once_in(2) && kinds.iter().any(|kind| b"HIJMN".contains(kind)) {
        kinds.retain(|kind| b"HIJMN".contains(kind));
    }
    let kind = *random.pick(&kinds);
    let line = match find(random, sample, |l| l.text[0] == kind) {
        Some(like) if random.once_in(2) => sample.lines[like].text.clone(),
        _ => {
            let more = random.below(40);
            [vec![kind], text(random, kind, more)].concat()
        }
    };
    put_in(sample, at, line, 6, 1)
}

fn length(random: &mut Random, sample: &Sample) -> Aimed {
    let at = random.below(sample.lines.len());
    let line = &sample.lines[at];
    let (least, most) = match line.role {
        Role::Fix | Role::Extra | Role::Unsigned => (line.text.len(), line.text.len()),
        role => role.lengths(),
    };
    let mut text = line.text.clone();
    if least > 1 && random.once_in(2) {
        text.truncate(if random.once_in(2) { least - 1 } else { random.within(1, least - 1) });
    } else {
        let over = if random.once_in(2) { 1 } else { random.within(1, 300) };
        let missing = most + over - text.len();
        text.extend(digits(random, missing));
    }
    changed(sample, at, text, 7, 0)
}

/// A character that may not stand in its line: any of them, the comma and the neighbours of valid ones more often.
fn character(random: &mut Random, sample: &Sample) -> Option<Aimed> {
    let at = find(random, sample, |l| l.text.len() > 1)?;
    let mut text = sample.lines[at].text.clone();
    let byte = random.within(2, text.len());
    text[byte - 1] = match random.below(3) {
        0 if text[0] != b'H' => b',',
        1 => *random.pick(b"\0\t\x1F!$*\\^~\x7F\x80\xA0\xFF"),
        _ => {
            let wrong: Vec<u8> = (0..=255).filter(|&c| !is_valid(c, text[0]) && !b"\r\n".contains(&c)).collect();
            *random.pick(&wrong)
        }
    };
    Some(changed(sample, at, text, 8, byte))
}

/// The roles whose lines have a field with this number.
fn roles_with(number: u32) -> &'static [Role] {
    match number {
        22 => &[Role::Fix, Role::Extra, Role::Unsigned, Role::Event, Role::Satellites, Role::Head],
        23 => &[Role::Fix, Role::Point],
        24 => &[Role::Fix],
        25 => &[Role::Day, Role::Head],
        _ => &[
            Role::Recorder,
            Role::Day,
            Role::Header,
            Role::Layout(Family::Fixes),
            Role::Layout(Family::Extras),
            Role::Layout(Family::Unsigned),
            Role::Fix,
            Role::Event,
            Role::Satellites,
            Role::Differential,
            Role::Head,
        ],
    }
}

/// A field with this number against its rule; for 9 also half a pair, or an NN that does not give the line's length.
fn form(random: &mut Random, sample: &Sample, number: u32) -> Option<Aimed> {
    let role = *random.pick(roles_with(number));
    let at = find(random, sample, |l| l.role == role)?;
    let line = &sample.lines[at];
    let mut text = line.text.clone();
    if number == 9 && role == Role::Satellites && text.len() < role.lengths().1 && random.once_in(3) {
        text.extend(codes(random, 1));
        return Some(changed(sample, at, text, 9, 8));
    }
    if matches!(role, Role::Layout(_)) && random.once_in(3) {
        return Some(changed(sample, at, counted_wrong(random, text), 9, 2));
    }
    let choices: Vec<Field> = fields(line).into_iter().filter(|(.., rule)| rule.number() == number).collect();
    if choices.is_empty() {
        return None;
    }
    let (first, width, rule) = *random.pick(&choices);
    rule.spoil(random, &mut text[first - 1..first - 1 + width]);
    Some(changed(sample, at, text, number, first))
}

/// A layout line whose NN does not give its length.
fn counted_wrong(random: &mut Random, mut text: Vec<u8>) -> Vec<u8> {
    let count = (text.len() - 3) / 7;
    if text.len() > 3 && random.once_in(2) {
        text.truncate(text.len() - random.within(1, 6));
    } else if text.len() < 99 && random.once_in(2) {
        let more = random.within(1, 6).min(99 - text.len());
        text.extend(digits(random, more));
    } else {
        let wrong = (count + random.within(1, 99)) % 100;
        text[1..3].copy_from_slice(format!("{wrong:02}").as_bytes());
    }
    text
}

/// An I, J or M entry that does not go on from the one before (10), has its code (11) or is of the wrong width (12).
fn entry(random: &mut Random, sample: &Sample, number: u32) -> Option<Aimed> {
    let at = find(random, sample, |l| matches!(l.role, Role::Layout(_)) && l.text.len() > 3)?;
    let line = &sample.lines[at];
    let layout = sample.layouts.of(line.role.family().unwrap());
    let n = random.below(layout.entries.len());
    let mut text = line.text.clone();
    let from = 3 + 7 * n;
    match number {
        10 => {
            let first = layout.entries[n].first;
            if random.once_in(2) {
                let near = if random.once_in(2) { [first - 1, first + 1] } else { [0, 99] };
                let wrong = *random.pick(&near);
                let wrong = if wrong == first || wrong > 99 { first - 1 } else { wrong };
                text[from..from + 2].copy_from_slice(format!("{wrong:02}").as_bytes());
            } else {
                let wrong = if random.once_in(2) { first - 1 } else { random.below(first) };
                text[from + 2..from + 4].copy_from_slice(format!("{wrong:02}").as_bytes());
            }
        }
        11 if n > 0 => {
            let before = random.below(n);
            text[from + 4..from + 7].copy_from_slice(&layout.entries[before].code);
        }
        12 => text[from + 4..from + 7].copy_from_slice(&wrong_for(random, layout, n)?),
        _ => return None,
    }
    Some(changed(sample, at, text, number, from + 1))
}

/// A listed code, not among the entries before, that may not be as wide as entry `n`.
fn wrong_for(random: &mut Random, layout: &Layout, n: usize) -> Option<[u8; 3]> {
    let width = layout.entries[n].width();
    let fresh = |code: &[u8; 3]| layout.entries[..n].iter().all(|e| e.code != *code);
    let wrong = LISTED.iter().filter(|l| width < l.least || l.most < width).map(|l| *l.code);
    let choices: Vec<[u8; 3]> = wrong.filter(fresh).collect();
    (!choices.is_empty()).then(|| *random.pick(&choices))
}

/// LAD or LOD with a digit other than 0, in a line that is put at 90 or at 180 degrees.
fn past_limit(random: &mut Random, sample: &Sample) -> Option<Aimed> {
    let full = |e: &Entry| match &e.code {
        b"LAD" => Some((*e, 7, b"9000000".as_slice())),
        b"LOD" => Some((*e, 15, b"18000000".as_slice())),
        _ => None,
    };
    let choices: Vec<_> = sample.layouts.fixes.entries.iter().filter_map(full).collect();
    if choices.is_empty() {
        return None;
    }
    let at = find(random, sample, |l| l.role == Role::Fix)?;
    let (entry, from, degrees) = *random.pick(&choices);
    let mut text = sample.lines[at].text.clone();
    text[from..from + degrees.len()].copy_from_slice(degrees);
    let field = &mut text[entry.first - 1..entry.last];
    field.fill(b'0');
    field[random.below(entry.width())] = *random.pick(b"123456789");
    Some(changed(sample, at, text, 13, entry.first))
}

/// A listed column with something else than its digits.
fn column(random: &mut Random, sample: &Sample) -> Option<Aimed> {
    let family = *random.pick(&FAMILIES);
    let with_rules = sample.layouts.of(family).entries.iter().filter_map(|e| Some((*e, listed(&e.code)?)));
    let choices: Vec<_> = with_rules.collect();
    if choices.is_empty() {
        return None;
    }
    let at = find(random, sample, |l| l.role == family.role())?;
    let (entry, rule) = *random.pick(&choices);
    let mut text = sample.lines[at].text.clone();
    let field = &mut text[entry.first - 1..entry.last];
    let width = field.len();
    match random.below(3) {
        0 if !rule.signed => field[0] = b'-',
        1 if width > 1 => field[random.within(1, width - 1)] = b'-',
        _ => field[random.below(width)] = *random.pick(b"+ .:/AaO"),
    }
    Some(changed(sample, at, text, 13, entry.first))
}

/// A timed line that is up to half a day before the one before it.
fn back(random: &mut Random, sample: &Sample) -> Option<Aimed> {
    let timed: Vec<usize> = (0..sample.lines.len()).filter(|&n| sample.lines[n].role.is_timed()).collect();
    if timed.len() < 2 {
        return None;
    }
    let n = random.within(1, timed.len() - 1);
    let before = seconds(&sample.lines[timed[n - 1]].text[1..7]);
    let most = before.min(HALF_DAY);
    if most == 0 {
        return None;
    }
    let fall = match random.below(3) {
        0 => 1,
        1 => most,
        _ => random.within(1, most as usize) as u32,
    };
    let mut text = sample.lines[timed[n]].text.clone();
    text[1..7].copy_from_slice(&clock(before - fall));
    Some(changed(sample, timed[n], text, 14, 2))
}

/// The seconds of a valid HHMMSS.
fn seconds(text: &[u8]) -> u32 {
    text.chunks(2).fold(0, |n, d| n * 60 + u32::from(d[0] - b'0') * 10 + u32::from(d[1] - b'0'))
}

/// A file that stops inside its declaration, or behind its first line; whole lines only.
fn early(random: &mut Random, sample: &Sample) -> Aimed {
    let keep = match find(random, sample, |l| l.role == Role::Point) {
        Some(point) if !random.once_in(4) => point,
        _ => 1,
    };
    (join(&sample.lines[..keep]), refused(16, keep, 0))
}

/// A signed file that stops before its first G line, behind its second line or later and not inside its declaration. The strict check refuses it so; the usual one accepts it.
pub fn unsealed(random: &mut Random, sample: &Sample) -> Aimed {
    let seal = sample.first(Role::Seal).unwrap();
    let places: Vec<usize> = (2..=seal).filter(|&keep| sample.lines[keep].role != Role::Point).collect();
    let keep = *random.pick(&places);
    (join(&sample.lines[..keep]), refused(16, keep, 0))
}
