//! The library as C has it (c/hivebasket.h), with nothing added: the number returned and everything that was lent, as it stands afterwards.

pub const ANSWER: usize = 16;

/// How many numbers the columns of a line are told in: how many there are, then code, first and last byte of each, up to 13.
pub const ENTRIES: usize = 40;

/// Places in the answer of hive_check and of hive_check_strict.
pub const DAY: usize = 2;
pub const MONTH: usize = 3;
pub const YEAR: usize = 4;
pub const LINES: usize = 5;
pub const B_LINES: usize = 6;
pub const K_LINES: usize = 7;
pub const B_LENGTH: usize = 8;
pub const K_LENGTH: usize = 9;
pub const N_LINES: usize = 10;
pub const N_LENGTH: usize = 11;
pub const SIGNED: usize = 12;

/// Places in the answer of hive_merge: the result's length; where a copy is refused, 1 for the first and 2 for the second.
pub const MERGED_LENGTH: usize = 2;
pub const REFUSED_COPY: usize = 3;

/// Places in the answer of hive_point: those that hive_fix has. The letter stands behind its count.
pub const POINT_LATITUDE: usize = 4;
pub const POINT_LONGITUDE: usize = 7;

/// Place in the answer of hive_track: the number of fixes.
pub const TRACK_COUNT: usize = 2;

/// Places in the answer of hive_declaration, behind those of hive_head.
pub const POINTS: usize = 11;
pub const HEAD_LINE: usize = 12;
pub const HEAD_TEXT: usize = 13;
pub const HEAD_TEXT_LENGTH: usize = 14;

/// What stands in lent memory before a call, so that an entry left unset shows.
pub const BEFORE: u64 = 0x5A5A_5A5A_5A5A_5A5A;

/// A number returned and an answer.
#[derive(Clone, Copy, PartialEq, Eq, Debug)]
pub struct Told {
    pub number: u32,
    pub answer: [u64; ANSWER],
}

/// A record of hive_track. Its fields are told; the bytes between them are not.
#[repr(C)]
#[derive(Clone, Copy, PartialEq, Eq, Debug)]
pub struct Record {
    pub line: u32,
    pub day: u32,
    pub fix: FixValues,
}

/// A fix as a record has it, and as hive_write_fix is given it.
#[repr(C)]
#[derive(Clone, Copy, PartialEq, Eq, Debug)]
pub struct FixValues {
    pub time: TimeValues,
    pub latitude: PositionValues,
    pub longitude: PositionValues,
    pub validity: u8,
    pub pressure: i32,
    pub gnss: i32,
}

/// A count of seconds, and its extra decimals.
#[repr(C)]
#[derive(Clone, Copy, PartialEq, Eq, Debug)]
pub struct TimeValues {
    pub count: u32,
    pub decimals: u8,
}

/// A count of thousandths of a minute, its letter, and its extra decimals.
#[repr(C)]
#[derive(Clone, Copy, PartialEq, Eq, Debug)]
pub struct PositionValues {
    pub count: u64,
    pub letter: u8,
    pub decimals: u8,
}

impl FixValues {
    /// The values of hive_fix, from answer[2] on.
    pub fn answered(&self) -> [u64; 9] {
        let (t, a, o) = (self.time, self.latitude, self.longitude);
        let place = |p: PositionValues| [p.count, p.letter.into(), p.decimals.into()];
        let ([a, al, ad], [o, ol, od]) = (place(a), place(o));
        [t.count.into(), t.decimals.into(), a, al, ad, o, ol, od, self.validity.into()]
    }

    /// Its heights.
    pub fn heights(&self) -> [i32; 2] {
        [self.pressure, self.gnss]
    }
}

/// Where the fields of a record stand, and how long one is.
const _: () = {
    use std::mem::offset_of;
    assert!(offset_of!(Record, line) == 0 && offset_of!(Record, day) == 4);
    assert!(offset_of!(Record, fix.time.count) == 8 && offset_of!(Record, fix.time.decimals) == 12);
    assert!(offset_of!(Record, fix.latitude.count) == 16 && offset_of!(Record, fix.latitude.letter) == 24);
    assert!(offset_of!(Record, fix.latitude.decimals) == 25 && offset_of!(Record, fix.longitude.decimals) == 41);
    assert!(offset_of!(Record, fix.longitude.count) == 32 && offset_of!(Record, fix.longitude.letter) == 40);
    assert!(offset_of!(Record, fix.validity) == 48 && offset_of!(Record, fix.pressure) == 52 && offset_of!(Record, fix.gnss) == 56);
    assert!(size_of::<Record>() == 64);
};

mod c {
    use super::Record;

    unsafe extern "C" {
        pub fn hive_check(f: *const u8, fl: usize, t: *mut u32, tl: usize, a: *mut u64, al: usize) -> u32;
        pub fn hive_check_strict(f: *const u8, fl: usize, t: *mut u32, tl: usize, a: *mut u64, al: usize) -> u32;
        pub fn hive_line(f: *const u8, fl: usize, t: *const u32, tl: usize, n: usize, a: *mut u64, al: usize) -> u32;
        pub fn hive_step(f: *const u8, fl: usize, place: usize, a: *mut u64, al: usize) -> u32;
        pub fn hive_fix(
            s: *const u8,
            sl: usize,
            y: *const u8,
            yl: usize,
            a: *mut u64,
            al: usize,
            h: *mut i32,
            hl: usize,
            e: *mut u64,
            el: usize,
        ) -> u32;
        pub fn hive_extra(s: *const u8, sl: usize, y: *const u8, yl: usize, a: *mut u64, al: usize, e: *mut u64, el: usize) -> u32;
        pub fn hive_look(s: *const u8, sl: usize, e: *const u64, el: usize, c0: u8, c1: u8, c2: u8, a: *mut u64, al: usize) -> u32;
        pub fn hive_look_number(
            s: *const u8,
            sl: usize,
            e: *const u64,
            el: usize,
            c0: u8,
            c1: u8,
            c2: u8,
            a: *mut u64,
            al: usize,
            n: *mut i64,
            nl: usize,
        ) -> u32;
        pub fn hive_column_at(y: *const u8, yl: usize, n: usize, a: *mut u64, al: usize) -> u32;
        pub fn hive_presence(y: *const u8, yl: usize, a: *mut u64, al: usize) -> u32;
        pub fn hive_degrees(lat: u64, latl: u8, latd: u8, lon: u64, lonl: u8, lond: u8, d: *mut f64, dl: usize) -> u32;
        pub fn hive_write_fix(
            time: u32,
            timed: u8,
            lat: u64,
            latl: u8,
            latd: u8,
            lon: u64,
            lonl: u8,
            lond: u8,
            validity: u8,
            pressure: i32,
            gnss: i32,
            c: *const u8,
            cl: usize,
            y: *const u8,
            yl: usize,
            place: usize,
            o: *mut u8,
            ol: usize,
            a: *mut u64,
            al: usize,
        ) -> u32;
        pub fn hive_write_extra(
            kind: u8,
            seconds: u32,
            c: *const u8,
            cl: usize,
            y: *const u8,
            yl: usize,
            place: usize,
            o: *mut u8,
            ol: usize,
            a: *mut u64,
            al: usize,
        ) -> u32;
        pub fn hive_write_layout(y: *const u8, yl: usize, place: usize, o: *mut u8, ol: usize, a: *mut u64, al: usize) -> u32;
        pub fn hive_date(s: *const u8, sl: usize, a: *mut u64, al: usize) -> u32;
        pub fn hive_event(s: *const u8, sl: usize, a: *mut u64, al: usize) -> u32;
        pub fn hive_satellites(s: *const u8, sl: usize, a: *mut u64, al: usize) -> u32;
        pub fn hive_head(s: *const u8, sl: usize, a: *mut u64, al: usize) -> u32;
        pub fn hive_point(s: *const u8, sl: usize, a: *mut u64, al: usize) -> u32;
        pub fn hive_write_head(
            day: u8,
            month: u8,
            year: u16,
            seconds: u32,
            flight_day: u8,
            flight_month: u8,
            flight_year: u16,
            task: u16,
            turns: u8,
            t: *const u8,
            tl: usize,
            place: usize,
            o: *mut u8,
            ol: usize,
            a: *mut u64,
            al: usize,
        ) -> u32;
        pub fn hive_write_point(
            lat: u64,
            latl: u8,
            lon: u64,
            lonl: u8,
            t: *const u8,
            tl: usize,
            place: usize,
            o: *mut u8,
            ol: usize,
            a: *mut u64,
            al: usize,
        ) -> u32;
        pub fn hive_merge(f: *const u8, fl: usize, s: *const u8, sl: usize, o: *mut u8, ol: usize, a: *mut u64, al: usize) -> u32;
        pub fn hive_track(f: *const u8, fl: usize, r: *mut Record, rl: usize, a: *mut u64, al: usize) -> u32;
        pub fn hive_columns(
            f: *const u8,
            fl: usize,
            letter: u8,
            c: *const u8,
            cl: usize,
            n: *mut i64,
            nl: usize,
            a: *mut u64,
            al: usize,
        ) -> u32;
        pub fn hive_count(f: *const u8, fl: usize, a: *mut u64, al: usize) -> u32;
        pub fn hive_kinds(f: *const u8, fl: usize, k: *mut u8, kl: usize, a: *mut u64, al: usize) -> u32;
        pub fn hive_declaration(f: *const u8, fl: usize, p: *mut u64, pl: usize, a: *mut u64, al: usize) -> u32;
        pub fn hive_header(s: *const u8, sl: usize, a: *mut u64, al: usize) -> u32;
        pub fn hive_listed(n: u32, a: *mut u64, al: usize) -> u32;
        pub fn hive_summary(f: *const u8, fl: usize, old: u32, n: *mut i32, nl: usize, a: *mut u64, al: usize) -> u32;
        pub fn hive_shelf_add(s: *mut u8, sl: usize, number: u32, f: *const u8, fl: usize, a: *mut u64, al: usize) -> u32;
        pub fn hive_shelf_ask(s: *const u8, sl: usize, number: u32, a: *mut u64, al: usize) -> u32;
        pub fn hive_shelf_remove(s: *mut u8, sl: usize, number: u32, a: *mut u64, al: usize) -> u32;
        pub fn hive_shelf_pack(s: *mut u8, sl: usize, a: *mut u64, al: usize) -> u32;
        pub fn hive_name(number: u32, t: *mut u8, tl: usize, a: *mut u64, al: usize) -> u32;
        pub fn hive_explain(
            f: *const u8,
            fl: usize,
            number: u32,
            line: u32,
            byte: u32,
            t: *mut u8,
            tl: usize,
            a: *mut u64,
            al: usize,
        ) -> u32;
    }
}

/// The answer of the checks in C that the library is measured against (bench/check.h); its values are those of hive_check, in the same order.
#[repr(C)]
struct ByHand {
    number: u32,
    place: [u32; 2],
    values: [u32; 11],
}

unsafe extern "C" {
    fn check(file: *const u8, length: usize, table: *mut u32, entries: usize) -> ByHand;
    fn ahead(file: *const u8, length: usize, table: *mut u32, entries: usize) -> ByHand;
    fn rival(file: *const u8, length: usize, table: *mut u32, entries: usize) -> ByHand;
}

/// A check in C, told as the library tells its own.
fn by_hand(said: ByHand) -> Told {
    let mut answer = [0; ANSWER];
    for (n, value) in said.place.into_iter().chain(said.values).enumerate() {
        answer[n] = value.into();
    }
    Told { number: said.number, answer }
}

pub fn check_by_hand(file: &[u8], table: &mut [u32]) -> Told {
    by_hand(unsafe { check(file.as_ptr(), file.len(), table.as_mut_ptr(), table.len()) })
}

pub fn check_ahead(file: &[u8], table: &mut [u32]) -> Told {
    by_hand(unsafe { ahead(file.as_ptr(), file.len(), table.as_mut_ptr(), table.len()) })
}

pub fn check_of_rival(file: &[u8], table: &mut [u32]) -> Told {
    by_hand(unsafe { rival(file.as_ptr(), file.len(), table.as_mut_ptr(), table.len()) })
}

/// One call with an answer lent to it.
fn told(call: impl FnOnce(*mut u64, usize) -> u32) -> Told {
    let mut answer = [BEFORE; ANSWER];
    let number = call(answer.as_mut_ptr(), ANSWER);
    Told { number, answer }
}

/// The usual check.
pub fn check_usual(file: &[u8], table: &mut [u32]) -> Told {
    told(|a, al| unsafe { c::hive_check(file.as_ptr(), file.len(), table.as_mut_ptr(), table.len(), a, al) })
}

/// The strict check.
pub fn check_strict(file: &[u8], table: &mut [u32]) -> Told {
    told(|a, al| unsafe { c::hive_check_strict(file.as_ptr(), file.len(), table.as_mut_ptr(), table.len(), a, al) })
}

/// The usual check with an answer of any length, which the library must refuse where it is not the one it asks for.
pub fn check_usual_answering(file: &[u8], table: &mut [u32], answer: &mut [u64]) -> u32 {
    unsafe { c::hive_check(file.as_ptr(), file.len(), table.as_mut_ptr(), table.len(), answer.as_mut_ptr(), answer.len()) }
}

/// The strict check with an answer of any length.
pub fn check_strict_answering(file: &[u8], table: &mut [u32], answer: &mut [u64]) -> u32 {
    unsafe { c::hive_check_strict(file.as_ptr(), file.len(), table.as_mut_ptr(), table.len(), answer.as_mut_ptr(), answer.len()) }
}

pub fn line(file: &[u8], table: &[u32], number: usize) -> Told {
    told(|a, al| unsafe { c::hive_line(file.as_ptr(), file.len(), table.as_ptr(), table.len(), number, a, al) })
}

pub fn step(file: &[u8], place: usize) -> Told {
    told(|a, al| unsafe { c::hive_step(file.as_ptr(), file.len(), place, a, al) })
}

/// What a call returns, and all that was lent to it for writing, of any length: the answer, the heights, the entries, the number.
#[derive(Clone, PartialEq, Eq, Debug)]
pub struct Lent {
    pub number: u32,
    pub answer: Vec<u64>,
    pub heights: Vec<i32>,
    pub entries: Vec<u64>,
    pub value: Vec<i64>,
}

impl Lent {
    /// What is lent for a call: so many numbers each, none of which a call gives.
    pub fn of(answer: usize, heights: usize, entries: usize, value: usize) -> Lent {
        Lent {
            number: 0,
            answer: vec![BEFORE; answer],
            heights: vec![0x5A5A_5A5A; heights],
            entries: vec![BEFORE; entries],
            value: vec![BEFORE as i64; value],
        }
    }
}

/// A fix and its columns.
pub fn fix(line: &[u8], layout: &[u8], mut lent: Lent) -> Lent {
    let (a, al) = (lent.answer.as_mut_ptr(), lent.answer.len());
    let (h, hl) = (lent.heights.as_mut_ptr(), lent.heights.len());
    let (e, el) = (lent.entries.as_mut_ptr(), lent.entries.len());
    lent.number = unsafe { c::hive_fix(line.as_ptr(), line.len(), layout.as_ptr(), layout.len(), a, al, h, hl, e, el) };
    lent
}

/// The time of a K or an N line, and its columns.
pub fn extra(line: &[u8], layout: &[u8], mut lent: Lent) -> Lent {
    let (a, al) = (lent.answer.as_mut_ptr(), lent.answer.len());
    let (e, el) = (lent.entries.as_mut_ptr(), lent.entries.len());
    lent.number = unsafe { c::hive_extra(line.as_ptr(), line.len(), layout.as_ptr(), layout.len(), a, al, e, el) };
    lent
}

/// The look for a column in any entries.
pub fn look(line: &[u8], entries: &[u64], code: [u8; 3], mut lent: Lent) -> Lent {
    let [x, y, z] = code;
    let (a, al) = (lent.answer.as_mut_ptr(), lent.answer.len());
    lent.number = unsafe { c::hive_look(line.as_ptr(), line.len(), entries.as_ptr(), entries.len(), x, y, z, a, al) };
    lent
}

/// The same as a number.
pub fn look_number(line: &[u8], entries: &[u64], code: [u8; 3], mut lent: Lent) -> Lent {
    let [x, y, z] = code;
    let (a, al) = (lent.answer.as_mut_ptr(), lent.answer.len());
    let (n, nl) = (lent.value.as_mut_ptr(), lent.value.len());
    lent.number = unsafe { c::hive_look_number(line.as_ptr(), line.len(), entries.as_ptr(), entries.len(), x, y, z, a, al, n, nl) };
    lent
}

pub fn column_at(layout: &[u8], n: usize) -> Told {
    told(|a, al| unsafe { c::hive_column_at(layout.as_ptr(), layout.len(), n, a, al) })
}

pub fn presence(layout: &[u8]) -> Told {
    told(|a, al| unsafe { c::hive_presence(layout.as_ptr(), layout.len(), a, al) })
}

/// The bits of both degrees, so that minus zero is not taken for zero.
pub fn degrees(a: PositionValues, o: PositionValues) -> (u32, [u64; 2]) {
    let mut degrees = [f64::from_bits(BEFORE); 2];
    let number = unsafe { c::hive_degrees(a.count, a.letter, a.decimals, o.count, o.letter, o.decimals, degrees.as_mut_ptr(), 2) };
    (number, degrees.map(f64::to_bits))
}

/// A line reader that takes no layout.
pub fn date(line: &[u8]) -> Told {
    told(|a, al| unsafe { c::hive_date(line.as_ptr(), line.len(), a, al) })
}

pub fn event(line: &[u8]) -> Told {
    told(|a, al| unsafe { c::hive_event(line.as_ptr(), line.len(), a, al) })
}

pub fn satellites(line: &[u8]) -> Told {
    told(|a, al| unsafe { c::hive_satellites(line.as_ptr(), line.len(), a, al) })
}

pub fn head(line: &[u8]) -> Told {
    told(|a, al| unsafe { c::hive_head(line.as_ptr(), line.len(), a, al) })
}

pub fn point(line: &[u8]) -> Told {
    told(|a, al| unsafe { c::hive_point(line.as_ptr(), line.len(), a, al) })
}

/// Two copies of a file brought together, at the start of an output.
pub fn merge(first: &[u8], second: &[u8], out: &mut [u8]) -> Told {
    let (o, ol) = (out.as_mut_ptr(), out.len());
    told(|a, al| unsafe { c::hive_merge(first.as_ptr(), first.len(), second.as_ptr(), second.len(), o, ol, a, al) })
}

/// All fixes of a file, at the start of a list.
pub fn track(file: &[u8], list: &mut [Record]) -> Told {
    told(|a, al| unsafe { c::hive_track(file.as_ptr(), file.len(), list.as_mut_ptr(), list.len(), a, al) })
}

/// The track with an answer of any length, which the library must refuse where it is not the one it asks for.
pub fn track_answering(file: &[u8], list: &mut [Record], answer: &mut [u64]) -> u32 {
    unsafe { c::hive_track(file.as_ptr(), file.len(), list.as_mut_ptr(), list.len(), answer.as_mut_ptr(), answer.len()) }
}

/// The numbers of some columns of a file, at the start of a list, with an answer of any length. The answer's value is the number of lines.
pub fn columns(file: &[u8], letter: u8, codes: &[u8], list: &mut [i64], answer: &mut [u64]) -> u32 {
    let (n, nl, a, al) = (list.as_mut_ptr(), list.len(), answer.as_mut_ptr(), answer.len());
    unsafe { c::hive_columns(file.as_ptr(), file.len(), letter, codes.as_ptr(), codes.len(), n, nl, a, al) }
}

/// The usual check without a table, with an answer of any length.
pub fn count(file: &[u8], answer: &mut [u64]) -> u32 {
    unsafe { c::hive_count(file.as_ptr(), file.len(), answer.as_mut_ptr(), answer.len()) }
}

/// What each line of a file is, at the start of a list, with an answer of any length. The answer's value is the number of lines.
pub fn kinds(file: &[u8], list: &mut [u8], answer: &mut [u64]) -> u32 {
    unsafe { c::hive_kinds(file.as_ptr(), file.len(), list.as_mut_ptr(), list.len(), answer.as_mut_ptr(), answer.len()) }
}

/// The declaration of a file, its points at the start of a list, with an answer of any length.
pub fn declaration(file: &[u8], points: &mut [u64], answer: &mut [u64]) -> u32 {
    unsafe { c::hive_declaration(file.as_ptr(), file.len(), points.as_mut_ptr(), points.len(), answer.as_mut_ptr(), answer.len()) }
}

/// An H line taken apart, with an answer of any length.
pub fn header(line: &[u8], answer: &mut [u64]) -> u32 {
    unsafe { c::hive_header(line.as_ptr(), line.len(), answer.as_mut_ptr(), answer.len()) }
}

/// A listed code by its number, with an answer of any length.
pub fn listed(n: u32, answer: &mut [u64]) -> u32 {
    unsafe { c::hive_listed(n, answer.as_mut_ptr(), answer.len()) }
}

/// The summary of a file in a list, by an update that is told an old number of fixes. The answer's value is the number of runs.
pub fn summary(file: &[u8], old: u32, list: &mut [i32]) -> Told {
    told(|a, al| unsafe { c::hive_summary(file.as_ptr(), file.len(), old, list.as_mut_ptr(), list.len(), a, al) })
}

/// The summary with an answer of any length.
pub fn summary_answering(file: &[u8], old: u32, list: &mut [i32], answer: &mut [u64]) -> u32 {
    unsafe { c::hive_summary(file.as_ptr(), file.len(), old, list.as_mut_ptr(), list.len(), answer.as_mut_ptr(), answer.len()) }
}

/// A file added to a shelf, with an answer of any length. The answer's value is the start of its body.
pub fn shelf_add(shelf: &mut [u8], number: u32, file: &[u8], answer: &mut [u64]) -> u32 {
    let (a, al) = (answer.as_mut_ptr(), answer.len());
    unsafe { c::hive_shelf_add(shelf.as_mut_ptr(), shelf.len(), number, file.as_ptr(), file.len(), a, al) }
}

/// A flight of a shelf asked for. The answer's values are the start and the length of its body.
pub fn shelf_ask(shelf: &[u8], number: u32, answer: &mut [u64]) -> u32 {
    unsafe { c::hive_shelf_ask(shelf.as_ptr(), shelf.len(), number, answer.as_mut_ptr(), answer.len()) }
}

/// A flight removed from a shelf.
pub fn shelf_remove(shelf: &mut [u8], number: u32, answer: &mut [u64]) -> u32 {
    unsafe { c::hive_shelf_remove(shelf.as_mut_ptr(), shelf.len(), number, answer.as_mut_ptr(), answer.len()) }
}

/// A shelf packed.
pub fn shelf_pack(shelf: &mut [u8], answer: &mut [u64]) -> u32 {
    unsafe { c::hive_shelf_pack(shelf.as_mut_ptr(), shelf.len(), answer.as_mut_ptr(), answer.len()) }
}

/// The name of a number, at the start of a text.
pub fn name(number: u32, text: &mut [u8]) -> Told {
    told(|a, al| unsafe { c::hive_name(number, text.as_mut_ptr(), text.len(), a, al) })
}

/// A refusal of a file explained, at the start of a text.
pub fn explain(file: &[u8], number: u32, line: u32, byte: u32, text: &mut [u8]) -> Told {
    let (t, tl) = (text.as_mut_ptr(), text.len());
    told(|a, al| unsafe { c::hive_explain(file.as_ptr(), file.len(), number, line, byte, t, tl, a, al) })
}

pub fn write_fix(v: &FixValues, columns: &[u8], layout: &[u8], place: usize, out: &mut [u8]) -> Told {
    told(|a, al| unsafe {
        c::hive_write_fix(
            v.time.count,
            v.time.decimals,
            v.latitude.count,
            v.latitude.letter,
            v.latitude.decimals,
            v.longitude.count,
            v.longitude.letter,
            v.longitude.decimals,
            v.validity,
            v.pressure,
            v.gnss,
            columns.as_ptr(),
            columns.len(),
            layout.as_ptr(),
            layout.len(),
            place,
            out.as_mut_ptr(),
            out.len(),
            a,
            al,
        )
    })
}

pub fn write_layout(text: &[u8], place: usize, out: &mut [u8]) -> Told {
    told(|a, al| unsafe { c::hive_write_layout(text.as_ptr(), text.len(), place, out.as_mut_ptr(), out.len(), a, al) })
}

/// A K or an N line, by its letter.
pub fn write_extra(kind: u8, seconds: u32, columns: &[u8], layout: &[u8], place: usize, out: &mut [u8]) -> Told {
    told(|a, al| unsafe {
        c::hive_write_extra(
            kind,
            seconds,
            columns.as_ptr(),
            columns.len(),
            layout.as_ptr(),
            layout.len(),
            place,
            out.as_mut_ptr(),
            out.len(),
            a,
            al,
        )
    })
}

/// A date as day, month and year.
pub type Day = (u8, u8, u16);

/// What a declaration's head is written from; a flight date of zeros is one that is not given.
#[derive(Clone, Copy, Debug)]
pub struct HeadValues {
    pub declared: Day,
    pub seconds: u32,
    pub flight: Day,
    pub task: u16,
    pub turns: u8,
}

pub fn write_head(v: &HeadValues, text: &[u8], place: usize, out: &mut [u8]) -> Told {
    told(|a, al| unsafe {
        c::hive_write_head(
            v.declared.0,
            v.declared.1,
            v.declared.2,
            v.seconds,
            v.flight.0,
            v.flight.1,
            v.flight.2,
            v.task,
            v.turns,
            text.as_ptr(),
            text.len(),
            place,
            out.as_mut_ptr(),
            out.len(),
            a,
            al,
        )
    })
}

pub fn write_point(latitude: (u64, u8), longitude: (u64, u8), text: &[u8], place: usize, out: &mut [u8]) -> Told {
    told(|a, al| unsafe {
        c::hive_write_point(
            latitude.0,
            latitude.1,
            longitude.0,
            longitude.1,
            text.as_ptr(),
            text.len(),
            place,
            out.as_mut_ptr(),
            out.len(),
            a,
            al,
        )
    })
}

/// Every operation that a run must have asked.
pub const OPERATIONS: [&str; 36] = [
    "hive_check",
    "hive_check_strict",
    "hive_line",
    "hive_step",
    "hive_fix",
    "hive_extra",
    "hive_look",
    "hive_look_number",
    "hive_column_at",
    "hive_presence",
    "hive_degrees",
    "hive_write_fix",
    "hive_write_extra",
    "hive_write_layout",
    "hive_date",
    "hive_event",
    "hive_satellites",
    "hive_head",
    "hive_point",
    "hive_write_head",
    "hive_write_point",
    "hive_merge",
    "hive_track",
    "hive_columns",
    "hive_count",
    "hive_kinds",
    "hive_declaration",
    "hive_header",
    "hive_listed",
    "hive_summary",
    "hive_shelf_add",
    "hive_shelf_ask",
    "hive_shelf_remove",
    "hive_shelf_pack",
    "hive_name",
    "hive_explain",
];

/// The refusals of a file where no table is lent.
const OF_FILES: &[u32] = &[1, 2, 3, 4, 5, 6, 7, 8, 9, 10, 11, 12, 13, 14, 16, 22, 23, 24, 25];

/// Operations with the numbers that each can return beside 0, every one of which a run must have met, and no other: those of a file where it takes one, and these.
pub const RETURNED: [(&str, &[u32], &[u32]); 6] = [
    ("hive_columns", OF_FILES, &[17, 18, 19]),
    ("hive_count", OF_FILES, &[17]),
    ("hive_kinds", OF_FILES, &[17, 18]),
    ("hive_declaration", OF_FILES, &[17, 18]),
    ("hive_header", &[], &[7, 8, 9, 17]),
    ("hive_listed", &[], &[17]),
];
