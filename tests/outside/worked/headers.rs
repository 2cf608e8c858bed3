//! H lines taken apart, and the listed codes by their numbers.

use super::*;
use outside::files::Run;
use outside::files::headers::damaged;
use outside::files::reached_headers::Reached;
use outside::reading::{Header, Part, listed_at, read_header};

fn read(line: &str) -> Answer<Header> {
    read_header(line.as_bytes())
}

/// The source, the code, and how many bytes of text.
fn header(source: u8, code: &[u8; 3], length: usize) -> Answer<Header> {
    Ok(Header { source, code: *code, text: Part { start: 5, length } })
}

#[test]
fn good_ones() {
    // the second line keeps this rule too
    assert_eq!(read(DATE), header(b'F', b"DTE", 6));
    assert_eq!(read("HFPLTPILOT:DOE, JANE"), header(b'F', b"PLT", 15));
    assert_eq!(read("HOXYZ"), header(b'O', b"XYZ", 0));
    assert_eq!(read("HF012,"), header(b'F', b"012", 1));
    assert_eq!(read("HODTE "), header(b'O', b"DTE", 1));
    // what is a date line nowhere: a date that is none, and more behind it
    assert_eq!(read("HFDTE290223"), header(b'F', b"DTE", 6));
    assert_eq!(read("HFDTEDATE:150724,01"), header(b'F', b"DTE", 14));
    assert_eq!(read(&format!("HFGTY{}", x(250))), header(b'F', b"GTY", 250));
}

#[test]
fn refused_ones() {
    for other in ["", "h", "hFPLT", "I", "AXYZ001", "GFPLT", "LFPLT", B35, " HFPLT", "\0FPLT"] {
        assert_eq!(read(other), no(17, 0), "{other}");
    }
    assert_eq!(read(&format!("GFPLT{}", x(251))), no(17, 0));
    for (line, number, byte) in [
        ("H", 7, 0),
        ("HF", 7, 0),
        ("HFPL", 7, 0),
        ("HPL!", 7, 0),
        ("H!PLT", 8, 2),
        ("HFPL!", 8, 5),
        ("HFPLT~", 8, 6),
        ("HFPLT\r", 8, 6),
        ("HFPLTX\n", 8, 7),
        ("HPPLT!", 8, 6),
        ("HFp!T", 8, 4),
        ("HPPLT", 9, 2),
        ("HfPLT", 9, 2),
        ("H,PLT", 9, 2),
        ("HPplt", 9, 2),
        ("HFpLT", 9, 3),
        ("HFPlT", 9, 3),
        ("HFPLt", 9, 3),
        ("HFPL,", 9, 3),
        ("HO-LT", 9, 3),
        ("HOPL TEXT", 9, 3),
    ] {
        assert_eq!(read(line), no(number, byte), "{line}");
    }
    assert_eq!(read(&format!("HFPLT{}", x(251))), no(7, 0));
    assert_eq!(read(&format!("HPPLT{}!", x(250))), no(7, 0));
}

#[test]
fn of_any_file() {
    let run = Run::new(16, 20);
    let mut reached = Reached::default();
    for n in 0..8_000 {
        let mut random = run.random(n);
        let made = run.make(&mut random, n);
        let lines: Vec<&[u8]> = made.file.split(|&c| c == b'\n').map(|l| l.strip_suffix(b"\r").unwrap_or(l)).collect();
        let good = check_usual(&made.file, &mut vec![0; lines.len()]).is_ok();
        for (at, line) in (0..).zip(&lines) {
            let (answer, spoiled) = (read_header(line), damaged(&mut random, n / 4 + at, line));
            reached.add(line, at == 1, &answer);
            reached.add(&spoiled, false, &read_header(&spoiled));
            // Of an accepted file every H line is good, and no other is.
            assert!(!good || answer.is_ok() == line.starts_with(b"H"), "file {n}");
            if let Ok(Header { source, code, text }) = answer {
                assert_eq!([&[b'H', source], &code[..], &line[text.start..text.start + text.length]].concat(), *line, "file {n}");
            }
        }
    }
    println!("{}", reached.told());
    assert_eq!(reached.never(), Vec::<&str>::new(), "never met");
}

#[test]
fn listed_codes() {
    let rows = [
        (b"FXA", 3, 3, false),
        (b"SIU", 2, 2, false),
        (b"ENL", 3, 3, false),
        (b"MOP", 3, 3, false),
        (b"IAS", 3, 3, false),
        (b"FLP", 3, 3, true),
        (b"HDM", 3, 6, false),
        (b"HDT", 3, 6, false),
        (b"TRM", 3, 6, false),
        (b"TRT", 3, 6, false),
        (b"TDS", 1, 3, false),
        (b"LAD", 1, 4, false),
        (b"LOD", 1, 4, false),
        (b"DAE", 2, 6, true),
        (b"DAN", 2, 6, true),
    ];
    for (n, (code, least, most, minus)) in (0..).zip(rows) {
        let l = listed_at(n).unwrap();
        assert_eq!((l.code, l.least, l.most, l.signed), (code, least, most, minus), "number {n}");
    }
    for n in [15, 16, 20, 255, 256, 270, 65_536, 1 << 31, u32::MAX] {
        assert_eq!(listed_at(n).err(), Some(Refusal::of(17)), "{n}");
    }
}
