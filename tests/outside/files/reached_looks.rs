//! What the looks of a run have reached: each reason for a refusal alone, and before those that come later; and looks that find a column.

use super::looks::{Look, packed};
use crate::reading::refusals::{ABSENT, BAD_VALUE, NOT_NUMBER};
use crate::reading::{Answer, Entry, MOST_ENTRIES};
use std::collections::BTreeMap;

/// The reasons for 17.
const REASONS: [&str; 5] = ["14 entries", "a code twice", "first 0", "last past the line's end", "last before first"];

/// What a run must reach beside each reason alone, before 19 and before 20.
const WANTED: [&str; 26] = [
    "a code twice that is not looked for",
    "last one past the line's end",
    "the column found is good, another is past the line's end",
    "no entries",
    "absent, and an entry's code begins alike",
    "absent, and an unused entry has the code",
    "absent among 13",
    "found as the first",
    "found as the last of 13",
    "found, and an entry before begins alike",
    "found, and ends just at the line's end",
    "found, and another ends just at the line's end",
    "found, and the entries are out of order",
    "found, and the entries overlap",
    "found in a line that is no line of a file",
    "found in a line of over 255 bytes",
    "a number of 18 digits",
    "a number of 18 digits with a minus",
    "no number: 19 digits",
    "no number: 19 digits with a minus",
    "no number: a minus alone",
    "no number: a text",
    "minus zero",
    "a number below zero",
    "over what C holds: a code",
    "over what C holds: a byte inside the line",
];

#[derive(Default)]
pub struct Reached {
    branches: BTreeMap<String, u64>,
}

/// What a run must reach.
fn wanted() -> Vec<String> {
    let of_reason = |reason: &&str| ["alone", "before 19", "before 20"].map(|how| format!("{reason}, {how}"));
    REASONS.iter().flat_map(of_reason).chain(WANTED.map(str::to_string)).collect()
}

impl Reached {
    /// A look, with the entries that stand unused behind its own, and its answer as a number.
    pub fn add(&mut self, look: &Look, unused: &[Entry<u64>], answer: &Answer<i64>) {
        let reasons = reasons(look);
        let mut reached = match reasons.is_empty() {
            good if look.is_over() => of_over(look, good),
            true => of_good(look, unused, answer),
            false => of_bad(look, &reasons, answer),
        };
        reached.sort();
        reached.dedup();
        for branch in reached {
            *self.branches.entry(branch).or_default() += 1;
        }
    }

    pub fn told(&self) -> String {
        let each: Vec<String> = wanted().iter().map(|b| format!("{b}: {}", self.branches.get(b).copied().unwrap_or(0))).collect();
        each.join("; ")
    }

    /// What should have been reached and was not.
    pub fn never(&self) -> Vec<String> {
        wanted().into_iter().filter(|b| !self.branches.contains_key(b)).collect()
    }
}

/// Of these cases those that are so.
fn those<const N: usize>(cases: [(&'static str, bool); N]) -> Vec<String> {
    cases.into_iter().filter(|(_, reached)| *reached).map(|(branch, _)| branch.to_string()).collect()
}

/// How many entries have the code of this one.
fn alike(look: &Look, e: &Entry<u64>) -> usize {
    look.entries.iter().filter(|other| other.code == e.code).count()
}

/// Why a look is refused with 17.
fn reasons(look: &Look) -> Vec<&'static str> {
    let any = |is: &dyn Fn(&Entry<u64>) -> bool| look.entries.iter().any(is);
    let so = [
        look.entries.len() > MOST_ENTRIES,
        any(&|e| alike(look, e) > 1),
        any(&|e| e.first == 0),
        any(&|e| e.last > look.line.len()),
        any(&|e| e.last < e.first),
    ];
    REASONS.into_iter().zip(so).filter(|(_, so)| *so).map(|(reason, _)| reason).collect()
}

/// The entries whose code is looked for.
fn asked(look: &Look) -> Vec<&Entry<u64>> {
    look.entries.iter().filter(|e| e.code == packed(look.code)).collect()
}

/// Whether a byte of an entry inside the line is no digit and no minus, so that it is no number.
fn is_text(line: &[u8], e: &Entry<u64>) -> bool {
    e.first > 0 && line.get(e.first - 1..e.last).is_some_and(|text| text.iter().any(|c| !c.is_ascii_digit() && *c != b'-'))
}

/// What a look reaches that C refuses for its numbers, and the documents where it is not good.
fn of_over(look: &Look, good: bool) -> Vec<String> {
    let code = look.entries.iter().any(|e| e.code >> 32 > 0);
    those([("over what C holds: a code", good && code), ("over what C holds: a byte inside the line", good && !code)])
}

fn of_bad(look: &Look, reasons: &[&str], answer: &Answer<i64>) -> Vec<String> {
    assert_eq!(answer.as_ref().map_err(|r| r.number), Err(BAD_VALUE), "17 for {reasons:?}");
    let asked = asked(look);
    let mut reached = Vec::new();
    if let [reason] = reasons {
        let (absent, text) = (asked.is_empty(), asked.iter().any(|e| is_text(&look.line, e)));
        let hows = [("alone", true), ("before 19", absent), ("before 20", text)];
        reached.extend(hows.iter().filter(|(_, so)| *so).map(|(how, _)| format!("{reason}, {how}")));
    }
    let end = look.line.len();
    let good = |e: &&Entry<u64>| 0 < e.first && e.first <= e.last && e.last <= end;
    reached.extend(those([
        ("a code twice that is not looked for", reasons == ["a code twice"] && asked.len() == 1),
        ("last one past the line's end", reasons == ["last past the line's end"] && look.entries.iter().all(|e| e.last <= end + 1)),
        ("the column found is good, another is past the line's end", reasons == ["last past the line's end"] && asked.iter().any(good)),
    ]));
    reached
}

/// What a look reaches that is not refused with 17.
fn of_good(look: &Look, unused: &[Entry<u64>], answer: &Answer<i64>) -> Vec<String> {
    let (code, entries) = (packed(look.code), &look.entries);
    let begins_alike = |e: &Entry<u64>| e.code != code && e.code >> 8 == code >> 8;
    let Some(n) = entries.iter().position(|e| e.code == code) else {
        assert_eq!(answer.as_ref().map_err(|r| r.number), Err(ABSENT), "19 where no entry has the code");
        return those([
            ("no entries", entries.is_empty()),
            ("absent, and an entry's code begins alike", entries.iter().any(begins_alike)),
            ("absent, and an unused entry has the code", unused.iter().any(|e| e.code == code)),
            ("absent among 13", entries.len() == MOST_ENTRIES),
        ]);
    };
    assert!(answer.as_ref().err().is_none_or(|r| r.number == NOT_NUMBER), "20 alone where an entry has the code");
    let (end, found) = (look.line.len(), &entries[n]);
    let others = || entries.iter().filter(|e| e.code != code);
    let mut reached = those([
        ("found as the first", n == 0),
        ("found as the last of 13", n + 1 == MOST_ENTRIES),
        ("found, and an entry before begins alike", entries[..n].iter().any(begins_alike)),
        ("found, and ends just at the line's end", found.last == end),
        ("found, and another ends just at the line's end", others().any(|e| e.last == end)),
        ("found, and the entries are out of order", entries.windows(2).any(|two| two[1].last < two[0].first)),
        ("found, and the entries overlap", others().any(|e| e.first <= found.last && found.first <= e.last)),
        ("found in a line that is no line of a file", !look.line[0].is_ascii_uppercase()),
        ("found in a line of over 255 bytes", end > 255),
    ]);
    reached.extend(of_number(&look.line[found.first - 1..found.last], answer));
    reached
}

/// What the text of the column found reaches.
fn of_number(text: &[u8], answer: &Answer<i64>) -> Vec<String> {
    let minus = text[0] == b'-';
    let rest = &text[usize::from(minus)..];
    let (digits, number) = (rest.iter().all(u8::is_ascii_digit), answer.is_ok());
    let none = answer.as_ref().is_err_and(|r| r.number == NOT_NUMBER);
    those([
        ("a number of 18 digits", number && !minus && rest.len() == 18),
        ("a number of 18 digits with a minus", number && minus && rest.len() == 18),
        ("no number: 19 digits", none && digits && !minus && rest.len() == 19),
        ("no number: 19 digits with a minus", none && digits && minus && rest.len() == 19),
        ("no number: a minus alone", none && text == b"-"),
        ("no number: a text", none && !digits),
        ("minus zero", minus && *answer == Ok(0)),
        ("a number below zero", answer.is_ok_and(|n| n < 0)),
    ])
}
