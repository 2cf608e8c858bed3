//! Copies of one file with different notes, to be brought together: valid ones, ones of which one or both are refused, ones that differ in more than their notes; and what is
//! known of the result from how they were made.

use super::damage;
use super::filled::{filled, remarks};
use super::generate::{self, Line, Sample, text};
use super::random::Random;
use crate::reading::refusals::{NO_ROOM, NOT_SAME, TOO_LONG};
use crate::reading::{LIMIT, Role, Unmerged, Which};

/// What the maker of two copies knows of their result.
pub enum Known {
    Nothing,
    /// The bytes before the notes, and each note with how often it is kept.
    Result(Vec<u8>, Vec<(Vec<u8>, usize)>),
    Refused(Unmerged),
}

/// Two copies, and the length of the output lent with them.
pub struct Pair {
    pub first: Vec<u8>,
    pub second: Vec<u8>,
    pub room: usize,
    pub known: Known,
}

/// A note, and how often it stands in each copy.
pub struct Note<const N: usize> {
    text: Vec<u8>,
    times: [usize; N],
}

/// Texts of L lines, all different: any, none, many that are nearly the same, a text and what it begins with, the shortest and the longest.
fn texts(random: &mut Random) -> Vec<Vec<u8>> {
    let note = |random: &mut Random, most: usize| {
        let length = random.within(0, most);
        [b"L".to_vec(), text(random, b'L', length)].concat()
    };
    let mut texts: Vec<Vec<u8>> = match random.below(8) {
        0 => Vec::new(),
        1 => (0..random.within(1, 120)).map(|_| [b"L".to_vec(), random_of(random, b"AB", 6)].concat()).collect(),
        2 => {
            let whole = note(random, 98);
            let mut begins: Vec<Vec<u8>> = (1..=whole.len()).filter(|_| random.once_in(2)).map(|n| whole[..n].to_vec()).collect();
            begins.push(whole);
            let next: Vec<Vec<u8>> =
                begins.iter().filter(|b| b.len() < 99).map(|b| [b.clone(), vec![*random.pick(b" }A")]].concat()).collect();
            begins.into_iter().chain(next).collect()
        }
        3 => [1, 2, 98, 99].map(|n| vec![b'L'; n]).to_vec(),
        4 => b" \"#%&'()+-./09:;<=>?@AZ[]_`az{|}".iter().map(|&c| vec![b'L', c]).collect(),
        _ => (0..random.within(1, 12)).map(|_| note(random, 30)).collect(),
    };
    texts.sort();
    texts.dedup();
    texts
}

fn random_of(random: &mut Random, from: &[u8], most: usize) -> Vec<u8> {
    (0..random.within(0, most)).map(|_| *random.pick(from)).collect()
}

/// Notes with how often each copy has them: mostly once or not at all, now and then often; in no copy more rarely than in one.
fn notes<const N: usize>(random: &mut Random) -> Vec<Note<N>> {
    let one_for_all = random.once_in(6);
    let often = if random.once_in(4) { 4 } else { 1 };
    let times = |random: &mut Random| -> [usize; N] {
        let each = random.within(1, often);
        [(); N].map(|()| if one_for_all { each } else { random.within(0, often) })
    };
    let all = texts(random).into_iter().map(|text| Note { text, times: times(random) });
    all.filter(|note| note.times.iter().any(|&n| n > 0)).collect()
}

/// The lines of a valid file up to its last G line.
fn signed(random: &mut Random, body: usize) -> Sample {
    let mut sample = generate::signed(random, body);
    let seal = sample.lines.iter().rposition(|l| l.role == Role::Seal).unwrap();
    sample.lines.truncate(seal + 1);
    sample
}

/// The nth copy's notes, in any order, or as they are, or the other way round.
fn notes_of<const N: usize>(random: &mut Random, notes: &[Note<N>], n: usize) -> Vec<Line> {
    let line = |note: &Note<N>| Line { role: Role::Remark, text: note.text.clone() };
    let mut lines: Vec<Line> = notes.iter().flat_map(|note| vec![line(note); note.times[n]]).collect();
    match random.below(4) {
        0 => {}
        1 => lines.reverse(),
        _ => random.shuffle(&mut lines),
    }
    lines
}

fn with_notes(sample: &Sample, notes: Vec<Line>) -> Sample {
    let mut copy = sample.clone();
    copy.lines.extend(notes);
    copy
}

/// Valid copies of one file, as many as are asked for; and the bytes and the notes that the result of all of them has.
fn copies<const N: usize>(random: &mut Random, body: usize) -> ([Sample; N], Known) {
    let notes = notes(random);
    copies_with(random, body, notes)
}

fn copies_with<const N: usize>(random: &mut Random, body: usize, notes: Vec<Note<N>>) -> ([Sample; N], Known) {
    let sample = signed(random, body);
    let mut n = 0;
    let copies = [(); N].map(|()| {
        n += 1;
        with_notes(&sample, notes_of(random, &notes, n - 1))
    });
    let kept = notes.into_iter().map(|note| (note.text, note.times.into_iter().max().unwrap())).collect();
    (copies, Known::Result(sample.bytes(), kept))
}

/// Three valid copies of one file.
pub fn three(random: &mut Random, body: usize) -> [Vec<u8>; 3] {
    copies::<3>(random, body).0.map(|copy| copy.bytes())
}

/// Two copies for a run.
pub fn pair(random: &mut Random, body: usize, number: u64) -> Pair {
    let (copies, known) = copies::<2>(random, body);
    match number % 4 {
        0 => refused(random, copies),
        1 => differing(random, copies),
        _ => {
            let [first, second] = copies.map(|copy| copy.bytes());
            with_room(random, first, second, known)
        }
    }
}

/// Copies with so many different notes, of few letters, most of them in one copy; and two copies with one note so often, and less often, among others.
pub fn many(random: &mut Random, count: usize) -> [Pair; 2] {
    let mut texts: Vec<Vec<u8>> = (0..count).map(|_| [b"L".to_vec(), random_of(random, b"ab ", 40)].concat()).collect();
    texts.sort();
    texts.dedup();
    let different = texts.into_iter().map(|text| Note { text, times: *random.pick(&[[1, 0], [0, 1], [1, 1], [2, 1], [0, 3]]) }).collect();
    let one = |text: &[u8], times| Note { text: text.to_vec(), times };
    let repeated = vec![one(b"L", [1, 0]), one(b"La", [count, count / 3]), one(b"Lab", [count / 2, count]), one(b"Lb", [0, 1])];
    [different, repeated].map(|notes| {
        let (copies, known) = copies_with(random, 5, notes);
        let [first, second] = copies.map(|copy| copy.bytes());
        with_room(random, first, second, known)
    })
}

/// An output that has just room, is one byte short, is empty, has any length below, or a few bytes more.
fn with_room(random: &mut Random, first: Vec<u8>, second: Vec<u8>, known: Known) -> Pair {
    let Known::Result(signed, notes) = &known else {
        let room = random.below(first.len() + second.len() + 1);
        return Pair { first, second, room, known };
    };
    let length = signed.len() + notes.iter().map(|(text, times)| times * (text.len() + 2)).sum::<usize>();
    let room = match random.below(8) {
        0 => length - 1,
        1 => 0,
        2 => random.below(length),
        3 | 4 => length,
        _ => length + random.within(1, 20),
    };
    let known = if room < length { Known::Refused(Unmerged::of_both(NO_ROOM)) } else { known };
    Pair { first, second, room, known }
}

/// One copy damaged, or both; with damage at an aim the first refusal is known.
fn refused(random: &mut Random, copies: [Sample; 2]) -> Pair {
    let which = random.below(3);
    let mut known = Known::Nothing;
    let mut unknown = false;
    let files: Vec<Vec<u8>> = (0..2)
        .map(|n| {
            let copy = &copies[n];
            if which == 1 - n {
                return copy.bytes();
            }
            let number = *random.pick(&[3, 4, 5, 6, 7, 8, 9, 10, 11, 12, 13, 14, 16, 16, 16, 22, 23, 24, 25]);
            let aimed =
                if number == 16 && random.once_in(2) { Some(damage::unsealed(random, copy)) } else { damage::aimed(random, copy, number) };
            match aimed {
                Some((file, refusal)) if !random.once_in(4) => {
                    if matches!(known, Known::Nothing) && !unknown {
                        known = Known::Refused(Unmerged { of: Some([Which::First, Which::Second][n]), refusal });
                    }
                    file
                }
                _ => {
                    unknown |= matches!(known, Known::Nothing);
                    if random.once_in(8) { Vec::new() } else { damage::anywhere(random, copy) }
                }
            }
        })
        .collect();
    let [first, second] = files.try_into().unwrap();
    with_room(random, first, second, known)
}

/// Two copies that are accepted and differ before the end of the last G line, in one byte or in one line, before the first G line or among them.
fn differing(random: &mut Random, copies: [Sample; 2]) -> Pair {
    let changed = random.below(2);
    let mut copies = copies;
    let lines = &mut copies[changed].lines;
    let seals: Vec<usize> = (0..lines.len()).filter(|&n| lines[n].role == Role::Seal).collect();
    let (first, last) = (seals[0], *seals.last().unwrap());
    match random.below(6) {
        // One byte of a G line.
        0 | 1 => {
            let text = &mut lines[*random.pick(&seals)].text;
            let at = random.within(1, text.len() - 1);
            text[at] = if text[at] == b'A' { b'B' } else { b'A' };
        }
        // A G line more, so that one part begins the other.
        2 => lines.insert(last, lines[last].clone()),
        // A longer G line.
        3 => match lines[last].text.len() {
            255 => drop(lines[last].text.pop()),
            _ => lines[last].text.push(b'x'),
        },
        // An L line before the first G line, which is no evening note.
        4 => lines.insert(first, Line { role: Role::Remark, text: b"Lnote".to_vec() }),
        // An H line.
        _ => lines.insert(2, Line { role: Role::Header, text: b"HFPLTPILOT:DOE, JANE".to_vec() }),
    }
    let [first, second] = copies.map(|copy| copy.bytes());
    with_room(random, first, second, Known::Refused(Unmerged::of_both(NOT_SAME)))
}

/// Copies whose result has just as many bytes as a file may have, and one byte more, which is refused whether or not the output is short.
pub fn at_limit(random: &mut Random) -> [Pair; 3] {
    let mut sample = filled(random, LIMIT - 100, generate::signed);
    let seal = sample.lines.iter().rposition(|l| l.role == Role::Seal).unwrap();
    sample.lines.truncate(seal + 1);
    let note = Line { role: Role::Remark, text: b"LNOTE".to_vec() };
    let left = LIMIT - sample.bytes().len() - 7;
    let pair = |bytes: usize, room: usize| {
        let notes = remarks(bytes);
        let known = if bytes > left {
            Known::Refused(Unmerged::of_both(TOO_LONG))
        } else {
            let mut kept: Vec<(Vec<u8>, usize)> =
                notes.iter().map(|l| (l.text.clone(), notes.iter().filter(|other| other.text == l.text).count())).collect();
            kept.dedup();
            kept.push((note.text.clone(), 1));
            Known::Result(sample.bytes(), kept)
        };
        let first = with_notes(&sample, vec![note.clone()]).bytes();
        Pair { first, second: with_notes(&sample, notes).bytes(), room, known }
    };
    [pair(left, LIMIT), pair(left + 1, LIMIT + 1), pair(left + 1, 0)]
}

/// Whether one text comes before another, byte by byte; a text that begins another comes first.
fn before(a: &[u8], b: &[u8]) -> bool {
    match (a, b) {
        (_, []) => false,
        ([], _) => true,
        ([x, xs @ ..], [y, ys @ ..]) => x < y || x == y && before(xs, ys),
    }
}

impl Known {
    pub fn agrees(&self, answer: &Result<Vec<u8>, Unmerged>) -> Result<(), String> {
        let told = |known: &str| Err(format!("the reading itself: {answer:?}, yet the copies were made as {known}"));
        match (self, answer) {
            (Known::Nothing, _) => Ok(()),
            (Known::Refused(r), Err(refused)) if r == refused => Ok(()),
            (Known::Refused(r), _) => told(&format!("refused with {r:?}")),
            (Known::Result(..), Err(_)) => told("such that they can be brought together"),
            (Known::Result(signed, notes), Ok(result)) => {
                let Some(behind) = result.strip_prefix(&**signed) else { return told("with another part before the notes") };
                let lines: Vec<&[u8]> = behind.split_inclusive(|&c| c == b'\n').collect();
                let texts: Vec<&[u8]> = lines.iter().map(|l| l.strip_suffix(b"\r\n").unwrap_or(b"")).collect();
                let kept = |(text, times): &(Vec<u8>, usize)| texts.iter().filter(|t| *t == text).count() == *times;
                let in_order = texts.windows(2).all(|two| !before(two[1], two[0]));
                let all = notes.iter().map(|(_, times)| times).sum::<usize>() == texts.len();
                if notes.iter().all(kept) && in_order && all { Ok(()) } else { told("with other notes") }
            }
        }
    }
}
