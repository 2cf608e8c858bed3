//! What the program `try_inputs` must print: each file that its args name listed, each other arg read as a line, files at the size limit checked, and the writes by
//! layouts that no line tells.
//!
//! The files are in its `data`. a9.igc is source document 000's A9 without its spaces and notes, its date line in our form; declaration.igc its A3.5.4.1; old_sample.igc
//! is source document 001's sample up to its first fixes, whose date line has no FDTE and whose I line counts from 30, and old_sample_dated.igc the same with a date line.
//! bytes_65536.igc, bytes_65537.igc and table_full.igc stand at the listing's own limits. The lines are those of each kind in turn: good, at its limits and past them, each
//! field broken, its first and last byte invalid; then layouts, each with lines by it.

use super::{args, data, writes};
use outside::reading::lines::{Role, differential, header, recorder, text_line};
use outside::reading::listing::{fix, listing, refusal};
use outside::reading::refusals::BAD_VALUE;
use outside::reading::{
    Answer, Family, LIMIT, Layouts, Read, Refusal, check_usual, read_date, read_event, read_extra, read_fix, read_head, read_layout,
    read_point, read_satellites,
};

pub fn printed() -> Vec<u8> {
    let mut told = Layouts::default();
    let mut out = String::new();
    for word in args("try_inputs") {
        if word.ends_with(b".igc") {
            let file = std::fs::read(data("try_inputs", &word)).expect("a file of data");
            out += &format!("{}\n{}", String::from_utf8_lossy(&word), listing(&file));
        } else {
            out += &line(&word, &mut told);
        }
    }
    out += &[LIMIT + 1, LIMIT].map(large).concat();
    [out.into_bytes(), writes::by_layouts_that_no_line_tells()].concat()
}

/// The verdict on so many bytes without a line end.
fn large(bytes: usize) -> String {
    refusal(&check_usual(&vec![b'A'; bytes], &mut [0; 4]).unwrap_err())
}

fn said<T>(answer: Answer<T>) -> String {
    answer.map_or_else(|r| refusal(&r), |_| "PASS\n".to_string())
}

/// A line that has no reader of its own.
fn checked<T>(read: Read<T>) -> String {
    said(read.map_err(|fault| fault.at(0)))
}

/// A line by the readers of its kind; a good I, J or M line tells the layout of those after it. An H line is read as a date line and as another, a C line as a head and as a
/// point. A line of no kind is 17 for any reader.
fn line(line: &[u8], told: &mut Layouts) -> String {
    match line[0] {
        b'A' => checked(recorder(line)),
        b'B' => read_fix(line, &told.fixes).map_or_else(|r| refusal(&r), |read| fix(0, line, &read)),
        b'C' => said(read_head(line)) + &said(read_point(line)),
        b'D' => checked(differential(line)),
        b'E' => said(read_event(line)),
        b'F' => said(read_satellites(line)),
        b'G' => checked(text_line(line, Role::Seal)),
        b'H' => said(read_date(line)) + &checked(header(line)),
        b'I' => layout(line, Family::Fixes, told),
        b'J' => layout(line, Family::Extras, told),
        b'K' => said(read_extra(line, &told.extras)),
        b'L' => checked(text_line(line, Role::Remark)),
        b'M' => layout(line, Family::Unsigned, told),
        b'N' => said(read_extra(line, &told.unsigned)),
        b'O'..=b'Z' => checked(text_line(line, Role::Other)),
        _ => refusal(&Refusal::of(BAD_VALUE)),
    }
}

fn layout(line: &[u8], family: Family, told: &mut Layouts) -> String {
    let answer = read_layout(line, family);
    if let Ok(layout) = &answer {
        *told.of_mut(family) = layout.clone();
    }
    said(answer)
}
