//! One file held: each operation of the library asked, and its answer, with all that was lent, held against the reading's.

use std::collections::BTreeMap;
use std::fmt::Debug;

use crate::columns;
use crate::library::{self, ANSWER, FixValues, HeadValues, PositionValues, TimeValues, Told};
use outside::files::random::Random;
use outside::files::values::{spoil_position, spoil_text, to_write};
use outside::files::{reached_finer, reached_looks};
use outside::reading::fields::{EAST_WEST, NORTH_SOUTH};
use outside::reading::layouts::FAMILIES;
use outside::reading::refusals::{BAD_VALUE, NO_ROOM};
use outside::reading::{self, Answer, Date, Family, Fix, Head, Layout, Point, Position, Refusal};

pub type Held<T> = Result<T, String>;

/// How many answers of each operation were held, and with which numbers.
#[derive(Default)]
pub struct Tally {
    pub answers: BTreeMap<&'static str, u64>,
    pub refusals: BTreeMap<(&'static str, u32), u64>,
    pub looks: reached_looks::Reached,
    pub finer: reached_finer::Reached,
}

impl Tally {
    pub fn same<T: PartialEq + Debug>(&mut self, operation: &'static str, asked: &dyn Debug, number: u32, ours: T, theirs: T) -> Held<()> {
        *self.answers.entry(operation).or_default() += 1;
        *self.refusals.entry((operation, number)).or_default() += 1;
        if ours == theirs {
            return Ok(());
        }
        Err(format!("{operation} of {asked:?}:\n  the library: {ours:?}\n  the reading: {theirs:?}"))
    }
}

/// An answer of the reading as the library tells it.
pub fn told<T, const N: usize>(answer: &Answer<T>, values: impl Fn(&T) -> [u64; N]) -> Told {
    let mut told = Told { number: 0, answer: [0; ANSWER] };
    match answer {
        Ok(value) => told.answer[2..2 + N].copy_from_slice(&values(value)),
        Err(r) => {
            told.number = r.number;
            told.answer[0] = r.line;
            told.answer[1] = r.byte;
        }
    }
    told
}

/// A call that lends an answer of the wrong length, one such length after the other: 17, and neither the answer nor the list is changed.
pub fn unanswered<T: Clone + PartialEq + Debug>(
    tally: &mut Tally,
    operation: &'static str,
    turn: u64,
    list: &[T],
    call: impl FnOnce(&mut [T], &mut [u64]) -> u32,
) -> Held<()> {
    let length = [0, 1, ANSWER - 1, ANSWER + 1, 2 * ANSWER][(turn % 5) as usize];
    let (mut ours, mut answer) = (list.to_vec(), vec![library::BEFORE; length]);
    let number = call(&mut ours, &mut answer);
    let unchanged = (BAD_VALUE, list.to_vec(), vec![library::BEFORE; length]);
    tally.same(operation, &format!("an answer of {length}"), number, (number, ours, answer), unchanged)
}

fn date_values(d: &Date) -> [u64; 3] {
    [d.day.into(), d.month.into(), d.year.into()]
}

/// A position as C has it.
fn position_values(p: Position) -> PositionValues {
    PositionValues { count: p.count.count, letter: p.letter, decimals: p.count.decimals }
}

/// A fix as C has it.
pub fn fix_values(f: &Fix) -> FixValues {
    FixValues {
        time: TimeValues { count: f.time.count as u32, decimals: f.time.decimals },
        latitude: position_values(f.latitude),
        longitude: position_values(f.longitude),
        validity: f.validity,
        pressure: f.pressure,
        gnss: f.gnss,
    }
}

pub fn head_values(h: &Head) -> [u64; 9] {
    let [d, m, y] = date_values(&h.declared);
    let [fd, fm, fy] = date_values(&h.flight.unwrap_or_default());
    [d, m, y, h.time.into(), fd, fm, fy, h.task.into(), h.turns.into()]
}

fn point_values(p: &Point) -> [u64; ANSWER - 2] {
    let mut answer = [0; ANSWER];
    for (place, position) in [(library::POINT_LATITUDE, p.latitude), (library::POINT_LONGITUDE, p.longitude)] {
        (answer[place], answer[place + 1]) = (position.count.count, position.letter.into());
    }
    answer[2..].try_into().unwrap()
}

/// What hive_check, hive_check_strict and hive_count answer from answer[2] on.
pub fn checked_values(a: &reading::Accepted) -> [u64; ANSWER - 2] {
    let mut answer = [0; ANSWER];
    let [d, m, y] = date_values(&a.date);
    let [b, k, n] = FAMILIES.map(|family| a.layouts.of(family).length(family) as u64);
    for (place, value) in [
        (library::DAY, d),
        (library::MONTH, m),
        (library::YEAR, y),
        (library::LINES, a.lines),
        (library::B_LINES, a.b_lines),
        (library::K_LINES, a.k_lines),
        (library::N_LINES, a.n_lines),
        (library::B_LENGTH, b),
        (library::K_LENGTH, k),
        (library::N_LENGTH, n),
        (library::SIGNED, a.signed.into()),
    ] {
        answer[place] = value;
    }
    answer[2..].try_into().unwrap()
}

/// A check of the library, or one that it is measured against, by its name.
type Named = (&'static str, fn(&[u8], &mut [u32]) -> Told);

/// What a check answers with a table of so many entries, and the table afterwards.
type Checked = (Answer<reading::Accepted>, Vec<u32>);

/// The usual check, and the checks in C that it is measured against.
const USUAL: [Named; 4] = [
    ("hive_check", library::check_usual),
    ("bench/check.c", library::check_by_hand),
    ("bench/ahead.c", library::check_ahead),
    ("bench/rival.c", library::check_of_rival),
];

const STRICT: [Named; 1] = [("hive_check_strict", library::check_strict)];

pub fn check_usual(tally: &mut Tally, file: &[u8], entries: usize) -> Held<Checked> {
    check(tally, file, entries, reading::check_usual, &USUAL)
}

pub fn check_strict(tally: &mut Tally, file: &[u8], entries: usize) -> Held<Checked> {
    check(tally, file, entries, reading::check_strict, &STRICT)
}

/// Checks that must answer alike, with a table of so many entries, and every entry afterwards.
fn check(
    tally: &mut Tally,
    file: &[u8],
    entries: usize,
    read: fn(&[u8], &mut [u32]) -> Answer<reading::Accepted>,
    checks: &[Named],
) -> Held<Checked> {
    let lent: Vec<u32> = (0..entries as u32).map(|n| 0xDEAD_0000 ^ n).collect();
    let mut theirs = lent.clone();
    let answer = read(file, &mut theirs);
    for &(name, check) in checks {
        let mut ours = lent.clone();
        let raw = check(file, &mut ours);
        let asked = format!("a table of {entries} entries");
        tally.same(name, &asked, raw.number, raw, told(&answer, checked_values))?;
        let first = ours.iter().zip(&theirs).position(|(a, b)| a != b);
        tally.same(name, &"its table", raw.number, first.map(|n| (n, ours[n])), first.map(|n| (n, theirs[n])))?;
    }
    Ok((answer, theirs))
}

/// What the library must tell of words that are put into a text of so many dots, and the text afterwards: 17 where there are none, then 18 where they have no room.
fn put(words: Option<&str>, size: usize) -> (Told, Vec<u8>) {
    let mut text = vec![b'.'; size];
    let answer = match words {
        None => Err(Refusal::of(BAD_VALUE)),
        Some(words) if size < words.len() => Err(Refusal::of(NO_ROOM)),
        Some(words) => {
            text[..words.len()].copy_from_slice(words.as_bytes());
            Ok(words.len() as u64)
        }
    };
    (told(&answer, |&n| [n]), text)
}

/// The file's refusal in words, and another one, which the check did not give: into a text that has room, one that has just room, and one that is a byte short.
pub fn in_words(tally: &mut Tally, random: &mut Random, file: &[u8], answer: &Answer<reading::Accepted>) -> Held<()> {
    let met = answer.as_ref().err().copied().unwrap_or(Refusal::of(16));
    let other = Refusal { number: random.below(34) as u32, line: random.below(9) as u64, byte: random.below(300) as u64 };
    for r in [met, other] {
        let words = reading::explained(file, &r);
        let length = words.as_deref().map_or(0, str::len);
        for size in [400, length, length.saturating_sub(1)] {
            let mut text = vec![b'.'; size];
            let raw = library::explain(file, r.number, r.line as u32, r.byte as u32, &mut text);
            tally.same("hive_explain", &(r, size), raw.number, (raw, text), put(words.as_deref(), size))?;
        }
        for size in [10, 4] {
            let mut text = vec![b'.'; size];
            let raw = library::name(r.number, &mut text);
            tally.same("hive_name", &(r.number, size), raw.number, (raw, text), put(reading::name(r.number), size))?;
        }
    }
    Ok(())
}

fn bounds(found: &(usize, usize)) -> [u64; 2] {
    [found.0 as u64, (found.1 - found.0) as u64]
}

/// A line by its number, for each entry of the table, for 0 and past the table, and by a table of places that no check gave.
pub fn by_number(tally: &mut Tally, random: &mut Random, file: &[u8], table: &[u32]) -> Held<()> {
    let mut hold = |table: &[u32], n: usize| {
        let raw = library::line(file, table, n);
        let answer = reading::line(file, table, n as u64);
        tally.same("hive_line", &(n, table.get(n.wrapping_sub(1))), raw.number, raw, told(&answer, bounds))
    };
    for n in 0..=table.len() + 1 {
        hold(table, n)?;
    }
    hold(table, usize::MAX)?;
    // Places that no check gives: any place, the end, the first byte, and just past an LF with no CR before it.
    let lone = (1..file.len()).find(|&n| file[n] == b'\n' && file[n - 1] != b'\r').unwrap_or(0);
    let places = [random.below(file.len() + 3) as u32, file.len() as u32, 0, lone as u32 + 1];
    for n in 1..=places.len() {
        hold(&places, n)?;
    }
    Ok(())
}

/// Every line by stepping from 0, as the bounds of its text, until none is left or none can be found; and steps from places within and past the file.
pub fn by_stepping(tally: &mut Tally, random: &mut Random, file: &[u8]) -> Held<Vec<(usize, usize)>> {
    let mut hold = |place: usize| {
        let raw = library::step(file, place);
        let answer = reading::step(file, place);
        let values = |found: &Option<(usize, usize)>| match found {
            Some(found) => [found.0 as u64, (found.1 - found.0) as u64, found.1 as u64 + 2, 1],
            None => [0, 0, place as u64, 0],
        };
        tally.same("hive_step", &place, raw.number, raw, told(&answer, values))?;
        Ok::<_, String>(answer)
    };
    let mut lines = Vec::new();
    let mut place = 0;
    while let Ok(Some((start, end))) = hold(place)? {
        lines.push((start, end));
        place = end + 2;
    }
    for place in [random.below(file.len() + 1), file.len(), file.len() + 1, usize::MAX] {
        let _ = hold(place)?;
    }
    Ok(lines)
}

/// A file's layout lines, as texts; no text where there is none.
#[derive(Clone, Copy)]
pub struct Given<'a> {
    pub fixes: &'a [u8],
    pub extras: &'a [u8],
    pub unsigned: &'a [u8],
}

/// The first I, J and M lines among the lines found, whatever they say.
pub fn layouts<'a>(file: &'a [u8], lines: &[(usize, usize)]) -> Given<'a> {
    let first = |kind: u8| lines.iter().map(|&(a, b)| &file[a..b]).find(|l| l.first() == Some(&kind)).unwrap_or(&[]);
    Given { fixes: first(b'I'), extras: first(b'J'), unsigned: first(b'M') }
}

/// What the reading says by a layout given as text; 17 where that is none.
fn by_layout<T>(layout: &Option<Layout>, read: impl Fn(&Layout) -> Answer<T>) -> Answer<T> {
    layout.as_ref().map_or(Err(Refusal::of(BAD_VALUE)), read)
}

/// The readers of a line for the line's kind; now and then all readers, so that each meets lines of every kind.
pub fn line(tally: &mut Tally, random: &mut Random, line: &[u8], number: usize, given: Given) -> Held<()> {
    let all = random.once_in(40);
    let kind = line.first().copied().unwrap_or(b'?');
    if all || kind == b'B' {
        fix(tally, random, line, given.fixes)?;
    }
    if all || kind == b'K' {
        extra(tally, random, line, given.extras)?;
    }
    if all || kind == b'N' {
        extra(tally, random, line, given.unsigned)?;
    }
    if all || number == 2 {
        let raw = library::date(line);
        tally.same("hive_date", &line, raw.number, raw, told(&reading::read_date(line), date_values))?;
    }
    if all || kind == b'E' {
        let raw = library::event(line);
        tally.same("hive_event", &line, raw.number, raw, told(&reading::read_event(line), |&t| [t.into()]))?;
    }
    if all || kind == b'F' {
        let raw = library::satellites(line);
        tally.same("hive_satellites", &line, raw.number, raw, told(&reading::read_satellites(line), |&t| [t.into()]))?;
    }
    if all || kind == b'C' {
        declaration(tally, random, line)?;
    }
    if all || Family::told_by(line).is_some() {
        layout(tally, random, line)?;
    }
    if all {
        // The layouts of the other families; of K and N lines also where the two lines tell the same but for their first byte.
        for other in [given.extras, given.unsigned] {
            fix(tally, random, line, other)?;
        }
        for other in [given.fixes, given.extras, given.unsigned] {
            extra(tally, random, line, other)?;
        }
    }
    if (kind == b'K' || kind == b'N') && random.once_in(4) {
        let own = if kind == b'K' { given.extras } else { given.unsigned };
        let turned = own.iter().enumerate().map(|(n, &c)| if n == 0 { b'J' ^ b'M' ^ c } else { c }).collect::<Vec<u8>>();
        extra(tally, random, line, &turned)?;
    }
    Ok(())
}

/// A B line: its fix, its columns, its degrees, and the line written again.
fn fix(tally: &mut Tally, random: &mut Random, line: &[u8], given: &[u8]) -> Held<()> {
    let layout = reading::layout_given(given, Family::Fixes);
    let answer = by_layout(&layout, |y| reading::read_fix(line, y));
    columns::fix(tally, random, line, given, &answer)?;
    if let Some(layout) = &layout {
        tally.finer.add_line(line, layout, &answer);
    }
    if let (Ok(read), Some(layout)) = (answer, &layout) {
        degrees(tally, random, &read.said)?;
        write_fix(tally, random, read.said, &line[35..], given, layout)?;
    }
    Ok(())
}

/// The family that a reader of columns takes a line for: one with a layout of its own, or else any.
fn family_of(line: &[u8]) -> Family {
    Family::of_line(line).unwrap_or(Family::Extras)
}

/// A K line by a J line's text, or an N line by an M line's: its time, its columns, and the line written again.
fn extra(tally: &mut Tally, random: &mut Random, line: &[u8], given: &[u8]) -> Held<()> {
    let layout = reading::layout_given(given, family_of(line));
    let answer = by_layout(&layout, |y| reading::read_extra(line, y));
    columns::extra(tally, random, line, given, &answer)?;
    if let Ok(read) = answer {
        write_extra(tally, random, line[0], read.said, &line[7..], given)?;
    }
    Ok(())
}

/// An I, J or M line: each of its columns by its place, places that it has not, and the word of an I line.
fn layout(tally: &mut Tally, random: &mut Random, line: &[u8]) -> Held<()> {
    for n in (0..=14).chain([usize::MAX]) {
        let entry = reading::column_given(line, n);
        let raw = library::column_at(line, n);
        let values = told(&entry, |e| [e.code[0].into(), e.code[1].into(), e.code[2].into(), e.first as u64, e.last as u64]);
        tally.same("hive_column_at", &(line, n), raw.number, raw, values)?;
    }
    let answer = reading::layout_given(line, Family::Fixes).ok_or(Refusal::of(BAD_VALUE));
    let raw = library::presence(line);
    let word = told(&answer, |y| [y.presence().0.into(), y.presence().1.into()]);
    tally.same("hive_presence", &line, raw.number, raw, word)?;
    let (out, place) = output(random, line.len());
    let (mut ours, mut theirs) = (out.clone(), out);
    let raw = library::write_layout(line, place, &mut ours);
    let answer = reading::write_layout_given(line, place, &mut theirs);
    let expected = (told(&answer, |&after| [after as u64]), theirs);
    tally.same("hive_write_layout", &(line, place), raw.number, (raw, ours), expected)
}

/// A fix's position for the map, and one that is spoiled.
fn degrees(tally: &mut Tally, random: &mut Random, fix: &Fix) -> Held<()> {
    let mut hold = |a: Position, o: Position| {
        let raw = library::degrees(position_values(a), position_values(o));
        let expected = match reading::degrees(a, o) {
            Ok((x, y)) => (0, [x.to_bits(), y.to_bits()]),
            Err(r) => (r.number, [0, 0]),
        };
        tally.finer.add_degrees(a, o, expected.0);
        tally.same("hive_degrees", &(a, o), raw.0, raw, expected)
    };
    hold(fix.latitude, fix.longitude)?;
    if random.once_in(4) {
        let (mut a, mut o) = (fix.latitude, fix.longitude);
        let (spoiled, axis) = if random.once_in(2) { (&mut a, NORTH_SOUTH) } else { (&mut o, EAST_WEST) };
        spoil_position(random, spoiled, axis.most);
        hold(a, o)?;
    }
    Ok(())
}

/// A coordinate of a C point, which has no decimals, with its letter or its count changed.
fn spoil_point(random: &mut Random, p: &mut Position) {
    match random.below(3) {
        0 => p.letter = *random.pick(b"NSEWn\0\xFF"),
        1 => p.count.count = *random.pick(&[0, 5_400_000, 5_400_001, 10_800_000, 10_800_001, 1 << 32, u64::MAX]),
        _ => p.count.count = random.below(12_000_000) as u64,
    }
}

/// An output of a random length and a place in it, now and then past its end; filled, so that a byte written elsewhere shows.
fn output(random: &mut Random, length: usize) -> (Vec<u8>, usize) {
    let before = random.below(5);
    let room = match random.below(6) {
        0 => random.below(before + length + 3),
        1 => before + length + 1,
        2 => before + length + 2,
        _ => before + length + 2 + random.below(5),
    };
    let place = if random.once_in(50) { *random.pick(&[room, room + 1, usize::MAX]) } else { before };
    (vec![0xEE; room], place)
}

fn write_fix(tally: &mut Tally, random: &mut Random, fix: Fix, columns: &[u8], given: &[u8], layout: &Layout) -> Held<()> {
    let (fix, columns) = to_write(random, &fix, columns, layout);
    let values = fix_values(&fix);
    let (out, place) = output(random, 35 + columns.len());
    let (mut ours, mut theirs) = (out.clone(), out);
    let raw = library::write_fix(&values, &columns, given, place, &mut ours);
    let answer = reading::write_fix(&fix, &columns, layout, place, &mut theirs);
    tally.finer.add_write(&fix, &columns, layout, answer.map_or_else(|r| r.number, |_| 0));
    let expected = (told(&answer, |&after| [after as u64]), theirs);
    tally.same("hive_write_fix", &(values, columns, given, place), raw.number, (raw, ours), expected)
}

/// A K or an N line written by its own layout's text; now and then of the other letter, or of one that is neither, which is 17.
fn write_extra(tally: &mut Tally, random: &mut Random, kind: u8, time: u32, columns: &[u8], given: &[u8]) -> Held<()> {
    let (mut kind, mut time, mut columns) = (kind, time, columns.to_vec());
    match random.below(10) {
        0 => time = *random.pick(&[86_399, 86_400, 86_401, 360_000, u32::MAX]),
        1 | 2 => spoil_text(random, &mut columns),
        3 => kind = *random.pick(b"KNKNBEJMOkn\0\xFF"),
        _ => {}
    }
    let (out, place) = output(random, 7 + columns.len());
    let (mut ours, mut theirs) = (out.clone(), out);
    let raw = library::write_extra(kind, time, &columns, given, place, &mut ours);
    let answer = reading::write_extra_given(kind, time, &columns, given, place, &mut theirs);
    let expected = (told(&answer, |&after| [after as u64]), theirs);
    tally.same("hive_write_extra", &(kind, time, columns, given, place), raw.number, (raw, ours), expected)
}

/// A C line, by both of its readers and both of its writers.
fn declaration(tally: &mut Tally, random: &mut Random, line: &[u8]) -> Held<()> {
    let head = reading::read_head(line);
    let raw = library::head(line);
    tally.same("hive_head", &line, raw.number, raw, told(&head, head_values))?;
    let point = reading::read_point(line);
    let raw = library::point(line);
    tally.same("hive_point", &line, raw.number, raw, told(&point, point_values))?;
    if let Ok(head) = head {
        write_head(tally, random, head, &line[25..])?;
    }
    if let Ok(point) = point {
        write_point(tally, random, point, &line[18..])?;
    }
    Ok(())
}

fn spoil_date(random: &mut Random, date: &mut Date) {
    match random.below(4) {
        0 => date.day = *random.pick(&[0, 28, 29, 30, 31, 32, 255]),
        1 => date.month = *random.pick(&[0, 2, 12, 13, 255]),
        _ => date.year = *random.pick(&[0, 24, 1979, 1980, 2000, 2023, 2079, 2080, 2100, 65_535]),
    }
}

fn write_head(tally: &mut Tally, random: &mut Random, head: Head, text: &[u8]) -> Held<()> {
    let (mut head, mut text) = (head, text.to_vec());
    match random.below(12) {
        0 => spoil_date(random, &mut head.declared),
        1 => head.flight.iter_mut().for_each(|d| spoil_date(random, d)),
        2 => head.time = *random.pick(&[86_399, 86_400, 86_401, u32::MAX]),
        3 => head.task = *random.pick(&[9_999, 10_000, 65_535]),
        4 => head.turns = *random.pick(&[99, 100, 255]),
        5 | 6 => spoil_text(random, &mut text),
        _ => {}
    }
    // In C a flight date of zeros is one that is not given.
    head.flight = head.flight.filter(|d| *d != Date::default());
    let day = |d: Date| (d.day as u8, d.month as u8, d.year as u16);
    let values = HeadValues {
        declared: day(head.declared),
        seconds: head.time,
        flight: day(head.flight.unwrap_or_default()),
        task: head.task as u16,
        turns: head.turns as u8,
    };
    let (out, place) = output(random, 25 + text.len());
    let (mut ours, mut theirs) = (out.clone(), out);
    let raw = library::write_head(&values, &text, place, &mut ours);
    let answer = reading::write_head(&head, &text, place, &mut theirs);
    let expected = (told(&answer, |&after| [after as u64]), theirs);
    tally.same("hive_write_head", &(values, text, place), raw.number, (raw, ours), expected)
}

fn write_point(tally: &mut Tally, random: &mut Random, point: Point, text: &[u8]) -> Held<()> {
    let (mut point, mut text) = (point, text.to_vec());
    match random.below(8) {
        0 => spoil_point(random, &mut point.latitude),
        1 => spoil_point(random, &mut point.longitude),
        2 => spoil_text(random, &mut text),
        _ => {}
    }
    let [latitude, longitude] = [point.latitude, point.longitude].map(|p| (p.count.count, p.letter));
    let (out, place) = output(random, 18 + text.len());
    let (mut ours, mut theirs) = (out.clone(), out);
    let raw = library::write_point(latitude, longitude, &text, place, &mut ours);
    let answer = reading::write_point(&point, &text, place, &mut theirs);
    let expected = (told(&answer, |&after| [after as u64]), theirs);
    tally.same("hive_write_point", &(latitude, longitude, text, place), raw.number, (raw, ours), expected)
}
