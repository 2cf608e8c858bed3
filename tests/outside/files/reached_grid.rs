//! What has been asked of the columns of whole files in a run: each reason for a refusal, lists, rows, and each kind of number.

use super::counted::Counted;
use super::grids::{Ask, rows};
use crate::reading::layouts::FAMILIES;
use crate::reading::refusals::{ABSENT, BAD_VALUE, NO_ROOM};
use crate::reading::{Accepted, Answer, Family, Layout, MOST_ENTRIES, NO_NUMBER, lines_of};

/// What a run must reach.
const WANTED: [&str; 66] = [
    "the file's own refusal, and a list",
    "the file's own refusal, and no list",
    "the file's own refusal, and another letter",
    "the file's own refusal, and codes that are 17",
    "17 for a small letter",
    "17 for the letter of a layout",
    "17 for another letter",
    "17 for a letter, and a code is absent too",
    "17 for a letter, and the list is short too",
    "17 for no codes",
    "17 for 1 byte of codes",
    "17 for 2 bytes of codes",
    "17 for a byte less than codes, which are there",
    "17 for a byte more than codes, which are there",
    "17 for 40 bytes of codes",
    "17 for 41 bytes of codes",
    "17 for 42 bytes of codes, none twice",
    "17 for over 255 bytes of codes",
    "17 for a code twice, one behind the other",
    "17 for a code twice, others between",
    "17 for a code twice that is absent",
    "17 for a code twice, and another is absent",
    "17 for a code twice among 13",
    "17 for codes, and the list is short too",
    "19, and there is no such layout",
    "19 for the only code",
    "19 for the first code alone",
    "19 for the last code alone",
    "19 for one between",
    "19 for the last of 13",
    "19, and another layout has the code",
    "19, and a code differs by its first byte",
    "19, and a code differs by its second byte",
    "19, and a code differs by its third byte",
    "19, and the list is short too",
    "19, and there is no line",
    "18 for one number short",
    "18 for a row short, and others have room",
    "18 for no list",
    "B: no line",
    "B: one line",
    "B: more lines",
    "K: no line",
    "K: one line",
    "K: more lines",
    "N: no line",
    "N: one line",
    "N: more lines",
    "one code of several",
    "13 codes",
    "all codes in their order",
    "all codes in another order",
    "some codes",
    "a list just long enough",
    "a longer list",
    "no line, and no list",
    "rows of one number and of none",
    "a number below zero",
    "zero with a minus",
    "18 digits",
    "18 digits with a minus",
    "no number: 19 digits",
    "no number: 19 digits with a minus",
    "no number: a minus alone",
    "no number: a text",
    "over 1,000 rows",
];

pub struct Reached(Counted);

impl Default for Reached {
    fn default() -> Self {
        Reached(Counted::of(&WANTED))
    }
}

/// In how many bytes two codes differ, and the place of the last of these.
fn differs(a: &[u8; 3], b: &[u8; 3]) -> (usize, usize) {
    (0..3).filter(|&n| a[n] != b[n]).fold((0, 0), |(count, _), n| (count + 1, n))
}

impl Reached {
    pub fn told(&self) -> String {
        self.0.told()
    }

    pub fn never(&self) -> Vec<&'static str> {
        self.0.never()
    }

    /// What was asked of a file, and the answer; `list` is as it stands afterwards.
    pub fn add(&mut self, file: &[u8], said: &Answer<Accepted>, ask: &Ask, answer: &Answer<usize>, list: &[i64]) {
        let codes = ask.codes.as_chunks::<3>().0;
        let family = FAMILIES.into_iter().find(|family| family.kind() == ask.letter);
        let Ok(said) = said else {
            self.0.add_those([
                ("the file's own refusal, and a list", ask.room > 0),
                ("the file's own refusal, and no list", ask.room == 0),
                ("the file's own refusal, and another letter", family.is_none()),
                ("the file's own refusal, and codes that are 17", ask.codes.len() % 3 > 0 || codes.is_empty()),
            ]);
            return;
        };
        match (answer.as_ref().map_err(|r| r.number), family) {
            (Err(BAD_VALUE), None) => self.add_letter(said, ask, codes),
            (Err(BAD_VALUE), Some(family)) => self.add_codes(said, ask, codes, family),
            (Err(ABSENT), Some(family)) => self.add_absent(said, ask, codes, family),
            (Err(NO_ROOM), Some(family)) => self.add_short(ask, rows(said, family), codes.len()),
            (Ok(&lines), Some(family)) => {
                assert_eq!(lines, rows(said, family));
                self.add_good(ask, codes, said.layouts.of(family), lines);
                self.add_numbers(file, ask.letter, codes, said.layouts.of(family), list);
            }
            other => panic!("{other:?} of {ask:?}"),
        }
    }

    fn add_letter(&mut self, said: &Accepted, ask: &Ask, codes: &[[u8; 3]]) {
        let large = FAMILIES.into_iter().find(|family| family.kind() == ask.letter ^ 0x20);
        let is_layout = FAMILIES.iter().any(|family| family.layout_kind() == ask.letter);
        let lacks = |family: Family| codes.iter().any(|code| said.layouts.of(family).look_up(code).is_none());
        self.0.add_those([
            ("17 for a small letter", large.is_some()),
            ("17 for the letter of a layout", is_layout),
            ("17 for another letter", large.is_none() && !is_layout),
            ("17 for a letter, and a code is absent too", FAMILIES.into_iter().all(lacks)),
            ("17 for a letter, and the list is short too", large.is_some_and(|family| ask.room < rows(said, family) * codes.len())),
        ]);
    }

    fn add_codes(&mut self, said: &Accepted, ask: &Ask, codes: &[[u8; 3]], family: Family) {
        let (length, layout) = (ask.codes.len(), said.layouts.of(family));
        let again = |n: usize| codes[..n].iter().rposition(|code| *code == codes[n]).map(|before| n - before);
        let apart = (0..codes.len()).find_map(again);
        let twice = (0..codes.len()).find(|&n| again(n).is_some()).map(|n| codes[n]);
        let is_absent = |code: &[u8; 3]| layout.look_up(code).is_none();
        let all_there = !codes.is_empty() && !codes.iter().any(is_absent);
        self.0.add_those([
            ("17 for no codes", length == 0),
            ("17 for 1 byte of codes", length == 1),
            ("17 for 2 bytes of codes", length == 2),
            ("17 for a byte less than codes, which are there", all_there && length % 3 == 2 && length < 39),
            ("17 for a byte more than codes, which are there", all_there && length % 3 == 1 && length < 39),
            ("17 for 40 bytes of codes", length == 40),
            ("17 for 41 bytes of codes", length == 41),
            ("17 for 42 bytes of codes, none twice", length == 42 && apart.is_none()),
            ("17 for over 255 bytes of codes", length > 255),
            ("17 for a code twice, one behind the other", all_there && length <= 39 && apart == Some(1)),
            ("17 for a code twice, others between", all_there && length <= 39 && apart > Some(1)),
            ("17 for a code twice that is absent", length <= 39 && twice.as_ref().is_some_and(is_absent)),
            (
                "17 for a code twice, and another is absent",
                length <= 39 && twice.as_ref().is_some_and(|code| !is_absent(code) && !all_there),
            ),
            ("17 for a code twice among 13", length == 39 && apart.is_some()),
            ("17 for codes, and the list is short too", ask.room < rows(said, family) * codes.len()),
        ]);
    }

    fn add_absent(&mut self, said: &Accepted, ask: &Ask, codes: &[[u8; 3]], family: Family) {
        let layout = said.layouts.of(family);
        let lacking: Vec<usize> = (0..codes.len()).filter(|&n| layout.look_up(&codes[n]).is_none()).collect();
        let (first, count) = (lacking[0], codes.len());
        let alone = lacking.len() == 1 && count > 1;
        let code = codes[first];
        let nearly = |byte: usize| layout.entries.iter().any(|e| differs(&e.code, &code) == (1, byte));
        self.0.add_those([
            ("19, and there is no such layout", layout.entries.is_empty()),
            ("19 for the only code", count == 1 && !layout.entries.is_empty()),
            ("19 for the first code alone", alone && first == 0),
            ("19 for the last code alone", alone && first == count - 1),
            ("19 for one between", alone && 0 < first && first < count - 1),
            ("19 for the last of 13", alone && first == 12),
            ("19, and another layout has the code", FAMILIES.iter().any(|&other| said.layouts.of(other).look_up(&code).is_some())),
            ("19, and a code differs by its first byte", nearly(0)),
            ("19, and a code differs by its second byte", nearly(1)),
            ("19, and a code differs by its third byte", nearly(2)),
            ("19, and the list is short too", ask.room < rows(said, family) * count),
            ("19, and there is no line", rows(said, family) == 0),
        ]);
    }

    fn add_short(&mut self, ask: &Ask, rows: usize, row: usize) {
        self.0.add_those([
            ("18 for one number short", ask.room + 1 == rows * row),
            ("18 for a row short, and others have room", row > 1 && rows > 1 && ask.room + row == rows * row),
            ("18 for no list", ask.room == 0),
        ]);
    }

    fn add_good(&mut self, ask: &Ask, codes: &[[u8; 3]], layout: &Layout, rows: usize) {
        let (all, needed) = (layout.entries.len(), rows * codes.len());
        let in_order = layout.entries.iter().map(|e| &e.code).eq(codes);
        let [none, one, more] = match ask.letter {
            b'B' => ["B: no line", "B: one line", "B: more lines"],
            b'K' => ["K: no line", "K: one line", "K: more lines"],
            _ => ["N: no line", "N: one line", "N: more lines"],
        };
        self.0.add_those([
            (none, rows == 0),
            (one, rows == 1),
            (more, rows > 1),
            ("one code of several", codes.len() == 1 && all > 1),
            ("13 codes", codes.len() == MOST_ENTRIES),
            ("all codes in their order", all > 1 && in_order),
            ("all codes in another order", all > 1 && all == codes.len() && !in_order),
            ("some codes", 1 < codes.len() && codes.len() < all),
            ("a list just long enough", needed > 0 && ask.room == needed),
            ("a longer list", needed > 0 && ask.room > needed),
            ("no line, and no list", needed == 0 && ask.room == 0),
            ("over 1,000 rows", rows > 1_000),
        ]);
    }

    /// The columns of the first lines, and what became of them.
    fn add_numbers(&mut self, file: &[u8], letter: u8, codes: &[[u8; 3]], layout: &Layout, list: &[i64]) {
        let lines = lines_of(file).filter(|(_, line)| line[0] == letter).take(20);
        for ((_, line), row) in lines.zip(list.chunks(codes.len())) {
            let none = row.iter().filter(|&&number| number == NO_NUMBER).count();
            self.0.add_those([("rows of one number and of none", 0 < none && none < row.len())]);
            for (code, &number) in codes.iter().zip(row) {
                let text = layout.look_up(code).unwrap().text(line);
                let (minus, rest) = text.strip_prefix(b"-").map_or((false, text), |rest| (true, rest));
                let digits = rest.iter().all(u8::is_ascii_digit);
                let of = |count: usize, is_minus: bool| digits && rest.len() == count && minus == is_minus;
                self.0.add_those([
                    ("a number below zero", number < 0 && number != NO_NUMBER),
                    ("zero with a minus", number == 0 && minus),
                    ("18 digits", of(18, false)),
                    ("18 digits with a minus", of(18, true)),
                    ("no number: 19 digits", of(19, false)),
                    ("no number: 19 digits with a minus", of(19, true)),
                    ("no number: a minus alone", of(0, true)),
                    ("no number: a text", !digits),
                ]);
            }
        }
    }
}
