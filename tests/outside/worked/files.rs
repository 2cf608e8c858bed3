//! Whole files: line ends, kinds, the order, declarations, times, the table.

use super::*;
use outside::reading::Date;

#[test]
fn accepted() {
    let lines = [
        A,
        DATE,
        "HFPLTPILOT:DOE, JANE",
        I2,
        "J010812ZZZ",
        HEAD,
        POINT,
        &format!("{POINT}start"),
        POINT,
        POINT,
        "K115959 abcd",
        B40,
        B40,
        G,
        G,
        "LX",
    ];
    let mut table = [7; 20];
    let said = check_usual(&file(&lines), &mut table).unwrap();
    assert_eq!(said.date, Date { day: 15, month: 7, year: 2024 });
    assert_eq!(said.layouts.fixes, two_columns());
    assert_eq!(said.layouts.extras, layout(&[(8, 12, "ZZZ")]));
    assert_eq!((said.lines, said.b_lines, said.k_lines, said.signed), (16, 2, 1, true));
    assert_eq!(table[..4], [0, 9, 22, 44]);
    assert_eq!(table[16..], [7; 4]);
}

#[test]
fn smallest() {
    assert_eq!(verdict(b""), (1, 0, 0));
    assert_eq!(verdict_with(3, &file(&[A, DATE, "GX"])), OK);
    assert_eq!(verdict(&file(&[A])), (16, 2, 0));
    assert_eq!(verdict_with(2, &file(&[A, DATE])), OK);
    let mut table = [7, 7];
    assert!(check_strict(&file(&[A, DATE]), &mut table).is_err());
    assert_eq!(table, [0, 9]);
}

#[test]
fn line_end() {
    let good = file(&[A, DATE, G]);
    let end = good.len();
    assert_eq!(verdict(&good[..end - 2]), (3, 3, 5));
    assert_eq!(verdict(&good[..end - 1]), (3, 3, 5));
    assert_eq!(verdict(&good[..end - 4]), (3, 3, 3));
    assert_eq!(verdict(b"\n"), (3, 1, 1));
    assert_eq!(verdict(b"\r"), (3, 1, 1));
    assert_eq!(verdict(b"A"), (3, 1, 2));
    let rest = file(&[DATE, G]);
    assert_eq!(verdict(&[b"AXYZ001\n", &*rest].concat()), (3, 1, 8));
    assert_eq!(verdict(&[b"AXYZ001\n\r", &*rest].concat()), (3, 1, 8));
    assert_eq!(verdict(&[b"AXYZ001\r\r\n", &*rest].concat()), (3, 1, 8));
    assert_eq!(verdict(&[b"AX\rZ001\r\n", &*rest].concat()), (3, 1, 3));
    // 3 comes before 5 and 4
    assert_eq!(verdict(b"axyz001\n"), (3, 1, 8));
    assert_eq!(verdict(&[&*good, b"\r"].concat()), (3, 4, 1));
}

#[test]
fn empty_line_and_kind() {
    assert_eq!(verdict(&file(&["", A])), (4, 1, 1));
    assert_eq!(verdict(&file(&[A, "", DATE])), (4, 2, 1));
    assert_eq!(verdict(&file(&[A, DATE, G, ""])), (4, 4, 1));
    for first in *b"@[a0 \x00\xff," {
        assert_eq!(body(&[[first, b'X']]), (5, 3, 1));
    }
    assert_eq!(verdict(b"a\r\n"), (5, 1, 1));
}

#[test]
fn order() {
    assert_eq!(verdict(&file(&[DATE, A])), (6, 1, 1));
    assert_eq!(verdict(&file(&[A, A])), (6, 2, 1));
    assert_eq!(verdict(&file(&[A, "LX"])), (6, 2, 1));
    assert_eq!(verdict(&file(&[A, G])), (6, 2, 1));
    assert_eq!(body(&[A]), (6, 3, 1));
    assert_eq!(body(&["HFABC", "HOABCx,y", "I00", "J00"]), OK);
    for (first, second) in
        [("I00", "HFABC"), ("J00", "HFABC"), ("LX", "HFABC"), ("I00", "I00"), ("J00", "J00"), ("J00", "I00"), ("LX", "I00"), ("LX", "J00")]
    {
        assert_eq!(body(&[first, second]), (6, 4, 1), "{second} after {first}");
    }
    assert_eq!(body(&["J00", "LX"]), OK);
    // a G after an L after a G
    assert_eq!(body(&[G, "LX", "LX"]), (6, 6, 1));
    assert_eq!(verdict(&file(&[A, DATE, G, G, "LX", "LY"])), OK);
    assert_eq!(verdict(&file(&[A, DATE, "LX", G])), OK);
    let in_body = ["D1ABCD", "E120000PEV", "F120000", B35, "K120000", "N120000", "O", "Z"];
    for line in [A, DATE, "I00", "J00", "M00", HEAD].into_iter().chain(in_body) {
        assert_eq!(verdict(&file(&[A, DATE, G, line])), (6, 4, 1), "{line} after G");
        assert_eq!(verdict(&file(&[A, DATE, G, "L", line])), (6, 5, 1), "{line} after G and L");
    }
    for line in in_body.into_iter().chain(["L"]) {
        assert_eq!(body(&[line]), OK, "{line}");
    }
    // 6 comes before 7
    assert_eq!(verdict(&file(&["H"])), (6, 1, 1));
}

#[test]
fn declaration() {
    let four = times(4, POINT);
    let with = |parts: &[&[&str]]| body(&parts.concat());
    assert_eq!(with(&[&[HEAD], &four]), OK);
    assert_eq!(with(&[&[HEAD], &four, &[B35]]), OK);
    assert_eq!(with(&[&["K120000", "D1ABCD", HEAD], &four]), OK);
    assert_eq!(with(&[&[B35, HEAD], &four]), (6, 4, 1));
    assert_eq!(with(&[&[HEAD], &four, &[HEAD], &four]), (6, 8, 1));
    assert_eq!(with(&[&[HEAD], &four, &[POINT]]), (6, 8, 1));
    assert_eq!(with(&[&[HEAD], &four[..3]]), (6, 7, 1));
    assert_eq!(with(&[&[HEAD, POINT, "LX"], &four[..3]]), (6, 5, 1));
    assert_eq!(body(&[HEAD]), (6, 4, 1));
    assert_eq!(verdict(&file(&[A, DATE, HEAD])), (16, 4, 0));
    assert_eq!(verdict(&file(&[&[A, DATE, HEAD], &four[..3]].concat())), (16, 7, 0));
    assert_eq!(verdict(&file(&[&[A, DATE, HEAD], &*four].concat())), OK);
    let (two_turns, many) = (format!("{}02", &HEAD[..23]), format!("{}99", &HEAD[..23]));
    assert_eq!(with(&[&[&two_turns], &times(6, POINT)]), OK);
    assert_eq!(with(&[&[&two_turns], &times(5, POINT)]), (6, 9, 1));
    // the table has 100 entries
    assert_eq!(with(&[&[&many], &times(103, POINT)]), (15, 101, 0));
    let of_99 = |points: usize| verdict_with(107, &file(&[&[A, DATE, &many], &*times(points, POINT), &[G]].concat()));
    assert_eq!(of_99(103), OK);
    assert_eq!(of_99(102), (6, 106, 1));
}

#[test]
fn time_order() {
    // whichever kinds, in the file's order
    assert_eq!(body(&["E120000PEV", &b(Parts { time: "115959", ..PARTS })]), (14, 4, 2));
    assert_eq!(body(&["F120000", "K115959"]), (14, 4, 2));
    assert_eq!(body(&["K120000", "E115959PEV"]), (14, 4, 2));
    assert_eq!(body(&["E120000PEV", "F115959"]), (14, 4, 2));
    assert_eq!(body(&["K120000", "LX", "D1ABCD", "F120000"]), OK);
    // the one before, not the latest so far
    assert_eq!(body(&["K235959", "K000000", "K100000"]), OK);
    assert_eq!(body(&["K235959", "K000000", "K000000", "K120000", "K000001"]), (14, 7, 2));
    // a fall of 43,200, and of 43,201
    assert_eq!(body(&["K235959", "K115959"]), (14, 4, 2));
    assert_eq!(body(&["K235959", "K115958"]), OK);
    assert_eq!(body(&["K000000", "K235959"]), OK);
    // a time against its rule is no time of the order: 22, and the next line is not reached
    assert_eq!(body(&["K120000", "K106000", "K110000"]), (22, 4, 2));
    // a declaration's time takes no part
    assert_eq!(body(&[&["E120000PEV", HEAD], &*times(4, POINT), &["F120000"]].concat()), OK);
}

#[test]
fn table() {
    let data = file(&[A, DATE, B35, G]);
    assert_eq!(verdict_with(4, &data), OK);
    assert_eq!(verdict_with(3, &data), (15, 4, 0));
    assert_eq!(verdict_with(1, &data), (15, 2, 0));
    assert_eq!(verdict_with(0, &data), (15, 1, 0));
    // a line that is not good has its own refusal
    assert_eq!(verdict_with(3, &file(&[A, DATE, "K120000", "K126000"])), (22, 4, 2));
    assert_eq!(verdict_with(1, &file(&[A, "HFDTE290223"])), (25, 2, 6));
    assert_eq!(verdict_with(3, &file(&[A, DATE, "K120000", "K110000"])), (14, 4, 2));
    assert_eq!(verdict_with(3, &file(&[A, DATE, HEAD])), (16, 4, 0));
    assert_eq!(verdict_with(2, &file(&[A, DATE, HEAD])), (15, 3, 0));
    assert_eq!(verdict_with(3, &file(&[A, DATE, B35])), OK);
    assert_eq!(verdict_with(2, &file(&[A, DATE, B35])), (15, 3, 0));
    let after = |data: &[u8]| {
        let mut table = [1, 2, 3, 4, 5];
        let _ = check_usual(data, &mut table);
        table
    };
    assert_eq!(after(&data), [0, 9, 22, 59, 5]);
    assert_eq!(after(&data[..data.len() - 1]), [0, 9, 22, 4, 5]);
}
