//! M and N lines: where they may come, their layout, their columns, the time order, the readers, the writers, the listing.

use super::*;
use outside::files::examples::UNSIGNED;
use outside::reading::listing::listing;
use outside::reading::{Family, column_given, layout_given, read_layout, write_extra, write_layout, write_layout_given};

/// HRT at 8 to 10, OXY at 11 to 13: what M2 tells.
const M2: &str = "M020810HRT1113OXY";
const N13: &str = "N120000112098";

fn heart() -> Layout {
    layout(&[(8, 10, "HRT"), (11, 13, "OXY")])
}

#[test]
fn the_standards_own() {
    assert_eq!(UNSIGNED, file(&[A, DATE, M2, N13, G]));
    let mut table = [7; 6];
    let said = check_usual(UNSIGNED, &mut table).unwrap();
    assert_eq!((said.lines, said.b_lines, said.k_lines, said.n_lines), (5, 0, 0, 1));
    assert_eq!((said.layouts.fixes, said.layouts.extras, said.layouts.unsigned), (layout(&[]), layout(&[]), heart()));
    // 9 bytes, 13, 19, 15
    assert_eq!(table, [0, 9, 22, 41, 56, 7]);
    assert_eq!(listing(UNSIGNED), "OK 5 0 0 35 7 1 13\n");
    assert_eq!(number(N13, &heart(), b"HRT"), Ok(112));
    assert_eq!(number(N13, &heart(), b"OXY"), Ok(98));
}

#[test]
fn where_m_may_come() {
    for good in [
        &["M00"][..],
        &["HFABC", "M00"],
        &["I00", "M00"],
        &["J00", "M00"],
        &["I00", "J00", "M00"],
        &["HFABC", "I00", "J00", "M00", B35, "K120000", "N120000"],
        &["M00", "N120000", "N120000"],
    ] {
        assert_eq!(body(good), OK, "{good:?}");
    }
    for wrong in ["HFABC", "I00", "J00", "M00"] {
        assert_eq!(body(&["M00", wrong]), (6, 4, 1), "{wrong} after M");
    }
    for first in [B35, "C", "D1ABCD", "E120000PEV", "F120000", "K120000", "N120000", "L", "O"] {
        if first == "C" {
            assert_eq!(body(&[&[HEAD], &*times(4, POINT), &["M00"]].concat()), (6, 8, 1), "M after a declaration");
        } else {
            assert_eq!(body(&[first, "M00"]), (6, 4, 1), "M after {first}");
        }
    }
    // inside a declaration
    assert_eq!(body(&[HEAD, "N120000"]), (6, 4, 1));
    assert_eq!(body(&[HEAD, "M00"]), (6, 4, 1));
    assert_eq!(verdict(&file(&["M00"])), (6, 1, 1));
    assert_eq!(verdict(&file(&[A, "M00"])), (6, 2, 1));
    assert_eq!(verdict(&file(&[A, "N120000"])), (6, 2, 1));
    // 6 comes before 7 to 12
    assert_eq!(body(&["M00", "M"]), (6, 4, 1));
    assert_eq!(body(&["M00", "J"]), (6, 4, 1));
    assert_eq!(verdict(&file(&[A, DATE, G, "N"])), (6, 4, 1));
    assert_eq!(verdict(&file(&[A, DATE, G, "M00"])), (6, 4, 1));
}

#[test]
fn other_lines() {
    // O to Z are carried, with any text of 1 to 255 bytes; M and N no longer
    for kind in 'O'..='Z' {
        assert_eq!(body(&[format!("{kind}")]), OK, "{kind}");
        assert_eq!(body(&[format!("{kind}{}", x(254))]), OK, "{kind} of 255");
    }
    assert_eq!(body(&["M"]), (7, 3, 0));
    assert_eq!(body(&["MX"]), (7, 3, 0));
    assert_eq!(body(&["MXYZ"]), (9, 3, 2));
    assert_eq!(body(&["N"]), (7, 3, 0));
    assert_eq!(body(&["NX"]), (7, 3, 0));
    assert_eq!(body(&["NXXXXXX"]), (22, 3, 2));
}

#[test]
fn m_lines() {
    let m = |text: &str| read_layout(format!("M{text}").as_bytes(), Family::Unsigned);
    assert_eq!(m("00"), Ok(layout(&[])));
    assert_eq!(m("020810HRT1113OXY"), Ok(heart()));
    assert_eq!(m("010899ZZZ"), Ok(layout(&[(8, 99, "ZZZ")])));
    for (text, number, byte) in [
        ("0", 7, 0),
        ("0A", 9, 2),
        ("01", 9, 2),
        ("010810HRT0", 9, 2),
        ("01,810HRT", 8, 4),
        ("01A810HRT", 9, 4),
        ("0108A0HRT", 9, 6),
        ("010810HrT", 9, 8),
        // the first start is 8, as J's
        ("010710HRT", 10, 4),
        ("010910HRT", 10, 4),
        ("013638FXA", 10, 4),
        ("010807HRT", 10, 4),
        ("020810HRT1213OXY", 10, 11),
        ("020810HRT1113HRT", 11, 11),
        ("010809FXA", 12, 4),
        ("020810HRT1113SIU", 12, 11),
        // 10 before 11 before 12
        ("020810FXA1213FXA", 10, 11),
        ("020810FXA1114FXA", 11, 11),
    ] {
        assert_eq!(m(text), no(number, byte), "M{text}");
        assert_eq!(body(&[format!("M{text}")]), (number, 3, byte), "M{text} in a file");
    }
    assert_eq!(body(&[format!("M{}", "0".repeat(98))]), (9, 3, 2));
    assert_eq!(body(&[format!("M{}", "0".repeat(99))]), (7, 3, 0));
    // each line tells its own layout: one code may be in all three
    assert_eq!(body(&["I013638HDT", "J010813HDT", "M010811HDT", &format!("{B35}001"), "K120000000001", "N1200000001"]), OK);
    // of another kind
    assert_eq!(read_layout(b"M00", Family::Extras), no(17, 0));
    assert_eq!(read_layout(b"M00", Family::Fixes), no(17, 0));
    assert_eq!(read_layout(b"J00", Family::Unsigned), no(17, 0));
    assert_eq!(read_layout(b"I00", Family::Unsigned), no(17, 0));
    assert_eq!(read_layout(b"", Family::Unsigned), no(17, 0));
    assert_eq!(column_given(M2.as_bytes(), 2).map(|e| (e.first, e.last)), Ok((11, 13)));
    assert_eq!(column_given(M2.as_bytes(), 3), no(17, 0));
    assert_eq!(column_given(b"M010710HRT", 1), no(10, 4));
    assert_eq!(column_given(b"N00", 1), no(17, 0));
}

#[test]
fn n_lines() {
    // without M, and with M00: 7 bytes
    assert_eq!(body(&["N120000"]), OK);
    assert_eq!(body(&["N12000"]), (7, 3, 0));
    assert_eq!(body(&["N1200000"]), (7, 3, 0));
    assert_eq!(body(&["M00", "N120000"]), OK);
    assert_eq!(body(&["M00", "N1200001"]), (7, 4, 0));
    // by M, and not by J or I
    assert_eq!(body(&[M2, N13]), OK);
    assert_eq!(body(&[M2, "N12000011209"]), (7, 4, 0));
    assert_eq!(body(&[M2, "N1200001120980"]), (7, 4, 0));
    assert_eq!(body(&[M2, "N120000"]), (7, 4, 0));
    assert_eq!(body(&["J020810HRT1113OXY", "N120000"]), OK);
    assert_eq!(body(&["J020810HRT1113OXY", N13]), (7, 4, 0));
    assert_eq!(body(&[M2, "K120000"]), OK);
    assert_eq!(body(&[M2, "K120000112098"]), (7, 4, 0));
    assert_eq!(body(&["J010808ZZZ", M2, "K120000a", N13]), OK);
    assert_eq!(body(&["M010899ZZZ", &format!("N120000{}", "}".repeat(92))]), OK);
    assert_eq!(body(&["M010899ZZZ", &format!("N120000{}", "}".repeat(93))]), (7, 4, 0));
    // 7 before 8 before 22 before 13 before 14
    assert_eq!(body(&["N12000!0"]), (7, 3, 0));
    assert_eq!(body(&["N26000!"]), (8, 3, 7));
    assert_eq!(body(&[M2, "N12000011209,"]), (8, 4, 13));
    for wrong in ["240000", "126000", "120060", "12000 ", "-20000"] {
        assert_eq!(body(&[format!("N{wrong}")]), (22, 3, 2), "{wrong}");
    }
    let columns = |text: &str| body(&["M030810FXA1112ZZZ1314DAE", &format!("N120000{text}")]);
    assert_eq!(columns("012ab-1"), OK);
    assert_eq!(columns("01-ab-1"), (13, 4, 8));
    assert_eq!(columns("-12ab-1"), (13, 4, 8));
    assert_eq!(columns("012ab--"), (13, 4, 13));
    assert_eq!(columns("012ab1-"), (13, 4, 13));
    assert_eq!(columns("01xab--"), (13, 4, 8));
    let after = |line: &str| body(&["M010810FXA", "E120000PEV", line]);
    assert_eq!(after("N11600001x"), (22, 5, 2));
    assert_eq!(after("N11000001x"), (13, 5, 8));
    assert_eq!(after("N110000012"), (14, 5, 2));
    assert_eq!(after("N120000012"), OK);
}

#[test]
fn in_the_time_order() {
    let at = |kind: char, time: &str| match kind {
        'B' => b(Parts { time, ..PARTS }),
        'E' => format!("E{time}PEV"),
        _ => format!("{kind}{time}"),
    };
    for kind in ['B', 'E', 'F', 'K', 'N'] {
        assert_eq!(body(&[at(kind, "120000"), at('N', "120000")]), OK, "{kind} and N");
        assert_eq!(body(&[at(kind, "120001"), at('N', "120000")]), (14, 4, 2), "{kind} before N");
        assert_eq!(body(&[at('N', "120001"), at(kind, "120000")]), (14, 4, 2), "N before {kind}");
        // a fall of 43,200 and of 43,201
        assert_eq!(body(&[at(kind, "120000"), at('N', "000000")]), (14, 4, 2), "{kind} and N at midnight");
        assert_eq!(body(&[at(kind, "120001"), at('N', "000000")]), OK, "{kind} and N past midnight");
        assert_eq!(body(&[at('N', "120001"), at(kind, "000000")]), OK, "N and {kind} past midnight");
        // it is N that counts, with nothing timed between
        assert_eq!(body(&[at(kind, "100000"), at('N', "110000"), "L".to_string(), at(kind, "105959")]), (14, 6, 2), "N among {kind}");
    }
    // an other line is not in it
    assert_eq!(body(&["N120000", "O110000", "N120000"]), OK);
}

#[test]
fn the_table() {
    let data = file(&[A, DATE, M2, N13, G]);
    assert_eq!(verdict_with(2, &data), (15, 3, 0));
    assert_eq!(verdict_with(3, &data), (15, 4, 0));
    assert_eq!(verdict_with(2, &file(&[A, DATE, "M010710HRT"])), (10, 3, 4));
    assert_eq!(verdict_with(3, &file(&[A, DATE, M2, "N12000011209"])), (7, 4, 0));
    assert_eq!(verdict_with(4, &file(&[A, DATE, M2, N13])), OK);
}

#[test]
fn listings() {
    let data = file(&[A, DATE, "J010809ZZZ", M2, "K000000ab", "N000000112098", "N000001112098", "K000002cd", "N000002112098", G]);
    assert_eq!(listing(&data), "OK 10 0 2 35 9 3 13\n");
    assert_eq!(listing(&file(&[A, DATE, "M00", "N000000", G])), "OK 5 0 0 35 7 1 7\n");
    assert_eq!(listing(&file(&[A, DATE, M2, G])), "OK 4 0 0 35 7 0 13\n");
    assert_eq!(listing(&file(&[A, DATE, "M020810HRT1213OXY", G])), "REFUSED 10 3 11\n");
}

#[test]
fn readers() {
    let (none, of_i) = (Layout::default(), layout(&[(36, 38, "FXA")]));
    assert_eq!(time_of(b"N000100", &none), Ok(60));
    assert_eq!(time_of(N13.as_bytes(), &heart()), Ok(43_200));
    assert_eq!(time_of(b"K120000112098", &heart()), Ok(43_200));
    assert_eq!(time_of(N13.as_bytes(), &none), no(7, 0));
    assert_eq!(time_of(N13.as_bytes(), &of_i), no(17, 0));
    assert_eq!(time_of(b"N", &of_i), no(17, 0));
    assert_eq!(time_of(b"N126000", &none), no(22, 2));
    for other in ["M000000", "O000000", "E000000PEV", "B000000", "J000000", "n000000", ""] {
        assert_eq!(time_of(other.as_bytes(), &none), no(17, 0), "{other}");
    }
    assert_eq!(columns_of(N13, &heart()), Ok(entries(&[(8, 10, "HRT"), (11, 13, "OXY")])));
    assert_eq!(columns_of("N000100", &none), Ok(vec![]));
    assert_eq!(text(N13, &heart(), b"OXY"), Ok("098".to_string()));
    assert_eq!(text(N13, &heart(), b"ENL"), no(19, 0));
    assert_eq!(text(N13, &of_i, b"FXA"), no(17, 0));
    assert_eq!(text(B35, &heart(), b"HRT"), no(17, 0));
    assert_eq!(text("O120000112098", &heart(), b"HRT"), no(17, 0));
    assert_eq!(text("N12000011209", &heart(), b"HRT"), no(7, 0));
    assert_eq!(number("N120000 12-98", &heart(), b"HRT"), no(20, 0));
    assert_eq!(number("N120000 12-98", &heart(), b"OXY"), Ok(-98));
    assert_eq!(number("N120000 12-98", &heart(), b"ENL"), no(19, 0));
    assert_eq!(number("N120000-12", &layout(&[(8, 10, "FXA")]), b"ENL"), no(13, 8));
    // given as a text, a layout has its kind: of J for K lines, of M for N lines
    assert_eq!(layout_given(M2.as_bytes(), Family::Unsigned), Some(heart()));
    assert_eq!(layout_given(M2.as_bytes(), Family::Extras), None);
    assert_eq!(layout_given(b"J020810HRT1113OXY", Family::Unsigned), None);
    assert_eq!(layout_given(b"", Family::Unsigned), Some(none));
}

#[test]
fn writers() {
    // Each written line with its CR LF, from place 1 on, in an output of 24 dots.
    let put = |write: &dyn Fn(&mut [u8]) -> Answer<usize>| {
        let mut out = [b'.'; 24];
        let answer = write(&mut out).map_err(|r| r.number);
        (answer, String::from_utf8(out.to_vec()).unwrap())
    };
    let dots = ".".repeat(24);
    let extra = |kind: u8, time: u32, tail: &str, y: &Layout| put(&|out| write_extra(kind, time, tail.as_bytes(), y, 1, out));
    let none = Layout::default();
    assert_eq!(extra(b'N', 43_200, "112098", &heart()), (Ok(16), ".N120000112098\r\n........".to_string()));
    assert_eq!(extra(b'K', 43_200, "112098", &heart()), (Ok(16), ".K120000112098\r\n........".to_string()));
    assert_eq!(extra(b'N', 86_399, "", &none), (Ok(10), ".N235959\r\n..............".to_string()));
    for (kind, time, tail) in [(b'N', 43_200, "11209"), (b'N', 43_200, "1120980"), (b'N', 43_200, "11209,"), (b'N', 100_000, "112098")] {
        assert_eq!(extra(kind, time, tail, &heart()), (Err(17), dots.clone()), "{tail}");
    }
    assert_eq!(extra(b'N', 0, "01x", &layout(&[(8, 10, "FXA")])), (Err(17), dots.clone()));
    assert_eq!(extra(b'N', 0, "012", &layout(&[(36, 38, "FXA")])), (Err(17), dots.clone()));
    for kind in [b'B', b'E', b'J', b'M', b'O', b'n', 0, 255] {
        assert_eq!(extra(kind, 0, "", &none), (Err(17), dots.clone()), "{kind}");
    }
    let told = |family: Family, y: &Layout| put(&|out| write_layout(y, family, 1, out));
    assert_eq!(told(Family::Unsigned, &heart()), (Ok(20), ".M020810HRT1113OXY\r\n....".to_string()));
    assert_eq!(told(Family::Extras, &heart()), (Ok(20), ".J020810HRT1113OXY\r\n....".to_string()));
    assert_eq!(told(Family::Unsigned, &none), (Ok(6), ".M00\r\n..................".to_string()));
    assert_eq!(told(Family::Unsigned, &two_columns()), (Err(17), dots.clone()));
    assert_eq!(told(Family::Unsigned, &layout(&[(8, 9, "FXA")])), (Err(17), dots.clone()));
    assert_eq!(told(Family::Unsigned, &layout(&[(8, 8, "ZZZ"), (9, 9, "ZZZ")])), (Err(17), dots.clone()));
    let given = |text: &str, place: usize| put(&|out| write_layout_given(text.as_bytes(), place, out));
    assert_eq!(given(M2, 5), (Ok(24), format!(".....{M2}\r\n")));
    assert_eq!(given(M2, 6), (Err(18), dots.clone()));
    assert_eq!(given("M020810HRT1213OXY", 25), (Err(17), dots.clone()));
    assert_eq!(given("N00", 0), (Err(17), dots));
}
