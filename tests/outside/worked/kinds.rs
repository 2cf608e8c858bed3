//! What each line is: by hand, and of any file.

use super::*;
use outside::files::Run;
use outside::files::reached_kinds::{Reached, rooms};
use outside::reading::{kinds, kinds_into};

fn told<L: AsRef<[u8]>>(lines: &[L]) -> String {
    String::from_utf8(kinds(&file(lines)).unwrap()).unwrap()
}

#[test]
fn letters() {
    let top = [A, DATE, "HFPLTX", I2, "J00", "M00", "LX"];
    let body = ["E120000PEV", "F120000", B40, "K120000", "N120000", "D1ABCD", "L", "O", "PX", "Z"];
    let all = [&top[..], &[HEAD], &times(4, POINT), &body, &[G, "GX", "LNOTE", "L"]].concat();
    assert_eq!(told(&all), "AHHIJMLCCCCCEFBKNDLOPZGGll");
    assert_eq!(told(&[A, DATE]), "AH");
    assert_eq!(told(&[A, DATE, G]), "AHG");
}

#[test]
fn notes() {
    // without a G line there are none, wherever L lines stand
    assert_eq!(told(&[A, DATE, "LX"]), "AHL");
    assert_eq!(told(&[A, DATE, "LX", B35, "LX", "LX"]), "AHLBLL");
    // before the G lines there are none
    assert_eq!(told(&[A, DATE, "LX", G]), "AHLG");
    assert_eq!(told(&[A, DATE, "LX", G, "GX", "GX"]), "AHLGGG");
    // behind the last one all are, whatever they say
    assert_eq!(told(&[A, DATE, G, "LX"]), "AHGl");
    assert_eq!(told(&[A, DATE, "LX", G, "GX", "L", "LGX", "LX"]), "AHLGGlll");
}

#[test]
fn lists() {
    let put = |file: &[u8], length: usize| {
        let mut list = vec![b'?'; length];
        (kinds_into(file, &mut list), String::from_utf8(list).unwrap())
    };
    let four = file(&[A, DATE, G, "LX"]);
    assert_eq!(put(&four, 4), (Ok(4), "AHGl".to_string()));
    assert_eq!(put(&four, 6), (Ok(4), "AHGl??".to_string()));
    for length in 0..4 {
        assert_eq!(put(&four, length), (no(18, 0), "?".repeat(length)));
    }
    // the file's own before 18, with its line and byte
    for (file, number, line, byte) in [
        (file(&[A, DATE, G, "LX", G]), 6, 5, 1),
        (file(&[A, DATE, G, B35]), 6, 4, 1),
        (file(&[A, DATE, "LX", "L!"]), 8, 4, 2),
        (file(&[A, DATE, HEAD, POINT]), 16, 5, 0),
        (file(&[A]), 16, 2, 0),
        (b"".to_vec(), 1, 0, 0),
        (vec![b'A'; 16_777_217], 2, 0, 0),
    ] {
        for length in [0, 1, 9] {
            assert_eq!(put(&file, length), (Err(Refusal { number, line, byte }), "?".repeat(length)), "{number}");
        }
    }
}

#[test]
fn no_table() {
    let many = [&[A, DATE], &*times(20_000, "LX"), &[G], &*times(3, "LX")].concat();
    let kinds = told(&many);
    assert_eq!((kinds.len(), &kinds[20_000..]), (20_006, "LLGlll"));
}

#[test]
fn of_any_file() {
    let run = Run::new(14, 20);
    let mut reached = Reached::default();
    for n in 0..8_000 {
        let made = run.make(&mut run.random(n), n);
        let answer = kinds(&made.file);
        rooms(n, &answer).into_iter().for_each(|room| reached.add(&answer, room));
        let said = check_usual(&made.file, &mut vec![0; made.file.len() / 3 + 1]);
        assert_eq!(said.as_ref().err(), answer.as_ref().err(), "file {n}");
        let (Ok(said), Ok(kinds)) = (said, answer) else { continue };
        let of = |kind: u8| kinds.iter().filter(|&&k| k == kind).count() as u64;
        assert_eq!((kinds.len() as u64, of(b'B'), of(b'K'), of(b'N')), (said.lines, said.b_lines, said.k_lines, said.n_lines), "file {n}");
        assert_eq!(of(b'G') > 0, said.signed, "file {n}");
        // Behind a G line there are G lines, then notes; a note is behind one.
        let behind = kinds.iter().position(|&k| k == b'G').map_or(&b""[..], |first| &kinds[first..]);
        let notes = behind.iter().position(|&k| k == b'l').map_or(&b""[..], |first| &behind[first..]);
        assert_eq!(notes.len() as u64, of(b'l'), "file {n}");
        assert_eq!((behind.len() - notes.len()) as u64, of(b'G'), "file {n}");
    }
    println!("{}", reached.told());
    assert_eq!(reached.never(), Vec::<String>::new(), "never met");
}
