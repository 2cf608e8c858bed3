//! Flights without a signature: the usual check and the strict one, what "signed" answers, and the badge list.

use super::*;
use outside::reading::listing::listing;
use outside::reading::{badge, check_strict_alone, check_usual_alone};

/// What the usual check says of a file that it accepts: lines, B lines, and whether it is signed.
fn accepted(lines: &[&str]) -> (u64, u64, bool) {
    let said = check_usual_alone(&file(lines)).unwrap();
    (said.lines, said.b_lines, said.signed)
}

/// Both verdicts.
fn both(lines: &[&str]) -> (Verdict, Verdict) {
    let data = file(lines);
    (verdict(&data), strict_verdict(&data))
}

#[test]
fn no_g_line() {
    // the listing's five lines, with G and without
    assert_eq!(both(&[A, DATE, I2, B40, G]), (OK, OK));
    assert_eq!(accepted(&[A, DATE, I2, B40, G]), (5, 1, true));
    assert_eq!(both(&[A, DATE, I2, B40]), (OK, (16, 5, 0)));
    assert_eq!(accepted(&[A, DATE, I2, B40]), (4, 1, false));
    // everything else that the usual check says is as with a G line
    let [with, without] = [&[A, DATE, I2, B40, G][..], &[A, DATE, I2, B40]].map(|lines| check_usual_alone(&file(lines)).unwrap());
    assert_eq!((with.date, with.layouts, with.k_lines, with.n_lines), (without.date, without.layouts, without.k_lines, without.n_lines));
    // where a file may end now: behind any line from the second on
    for last in ["HFABC", "I00", "J00", "M00", B35, "D1ABCD", "E120000PEV", "F120000", "K120000", "N120000", "L", "O", "Z"] {
        assert_eq!(both(&[A, DATE, last]), (OK, (16, 4, 0)), "{last}");
        assert_eq!(accepted(&[A, DATE, last]), (3, u64::from(last == B35), false), "{last}");
    }
}

#[test]
fn the_first_two_lines() {
    assert_eq!(both(&[A]), ((16, 2, 0), (16, 2, 0)));
    assert_eq!(both(&[A, DATE]), (OK, (16, 3, 0)));
    assert_eq!(accepted(&[A, DATE]), (2, 0, false));
    assert_eq!(both(&[A, DATE, G]), (OK, OK));
    // line 2 must still be H, and the date line
    for second in [G, "LX", B35, "I00"] {
        assert_eq!(both(&[A, second]), ((6, 2, 1), (6, 2, 1)), "{second}");
    }
    assert_eq!(both(&[A, "HFABC"]), ((7, 2, 0), (7, 2, 0)));
    assert_eq!(both(&["HFDTE150724"]), ((6, 1, 1), (6, 1, 1)));
    assert_eq!(verdict(b""), (1, 0, 0));
    assert_eq!(strict_verdict(b""), (1, 0, 0));
}

#[test]
fn inside_a_declaration() {
    let declared = |points: usize, more: &[&str]| both(&[&[A, DATE, HEAD], &*times(points, POINT), more].concat());
    for points in 0..4 {
        let early = (16, points as u64 + 4, 0);
        assert_eq!(declared(points, &[]), (early, early), "{points} points");
        // a G line does not finish it
        let order = (6, points as u64 + 4, 1);
        assert_eq!(declared(points, &[G]), (order, order), "{points} points and G");
    }
    assert_eq!(declared(4, &[]), (OK, (16, 8, 0)));
    assert_eq!(declared(4, &[G]), (OK, OK));
    assert_eq!(declared(5, &[]), ((6, 8, 1), (6, 8, 1)));
    // two turn points: 6 points
    let two = format!("{}02", &HEAD[..23]);
    let of_two = |points: usize| both(&[&[A, DATE, &two], &*times(points, POINT)].concat());
    assert_eq!(of_two(5), ((16, 9, 0), (16, 9, 0)));
    assert_eq!(of_two(6), (OK, (16, 10, 0)));
}

#[test]
fn signed_exactly_with_a_g_line() {
    for (lines, signed) in [
        (&[A, DATE, "GX"][..], true),
        (&[A, DATE, G, G], true),
        (&[A, DATE, G, "LX"], true),
        (&[A, DATE, "LX", G], true),
        (&[A, DATE, "LX", G, "LX", "LX"], true),
        // no G line, though a G stands in other lines
        (&[A, DATE, "LGABC"], false),
        (&[A, DATE, "LX", "LG"], false),
        (&["AGGG001", DATE, "HFGPSG"], false),
        (&[A, DATE, "OGABC", "E120000GGG"], false),
    ] {
        let said = check_usual_alone(&file(lines)).unwrap();
        assert_eq!(said.signed, signed, "{lines:?}");
        assert_eq!(
            check_strict_alone(&file(lines)),
            if signed { Ok(said) } else { Err(Refusal { number: 16, line: lines.len() as u64 + 1, byte: 0 }) }
        );
    }
}

#[test]
fn the_order_is_as_before() {
    // after the first G only G or L, after an L that follows a G only L, in both checks
    for line in [A, DATE, "I00", "J00", "M00", HEAD, B35, "D1ABCD", "E120000PEV", "F120000", "K120000", "N120000", "O"] {
        assert_eq!(both(&[A, DATE, G, line]), ((6, 4, 1), (6, 4, 1)), "{line} after G");
        assert_eq!(both(&[A, DATE, G, "L", line]), ((6, 5, 1), (6, 5, 1)), "{line} after G and L");
    }
    assert_eq!(both(&[A, DATE, G, "L", G]), ((6, 5, 1), (6, 5, 1)));
    // an L with no G before it is one of the body
    assert_eq!(both(&[A, DATE, "L", B35, "L"]), (OK, (16, 6, 0)));
    assert_eq!(both(&[A, DATE, "L", "HFABC"]), ((6, 4, 1), (6, 4, 1)));
}

#[test]
fn other_refusals_are_the_same() {
    for (lines, wanted) in [
        (&[A, DATE, "K120000", "K110000"][..], (14, 4, 2)),
        (&[A, DATE, "K126000"], (22, 3, 2)),
        (&[A, "HFDTE290223"], (25, 2, 6)),
        (&[A, DATE, "I013639FXA"], (12, 3, 4)),
        (&[A, DATE, ""], (4, 3, 1)),
    ] {
        assert_eq!(both(lines), (wanted, wanted), "{lines:?}");
    }
    // a last line without its CR LF
    let cut = &file(&[A, DATE, B35])[..57];
    assert_eq!((verdict(cut), strict_verdict(cut)), ((3, 3, 36), (3, 3, 36)));
}

#[test]
fn with_a_table() {
    let after = |check: fn(&[u8], &mut [u32]) -> Answer<outside::reading::Accepted>, data: &[u8], room: usize| {
        let mut table = vec![7; room];
        let verdict = check(data, &mut table).err().map_or(OK, |r| (r.number, r.line, r.byte));
        (verdict, table)
    };
    // 9 bytes and 13; the table has entries for all lines, also where 16 is given
    let data = file(&[A, DATE, B35]);
    assert_eq!(after(check_usual, &data, 4), (OK, vec![0, 9, 22, 7]));
    assert_eq!(after(check_strict, &data, 4), ((16, 4, 0), vec![0, 9, 22, 7]));
    assert_eq!(after(check_usual, &data, 3), (OK, vec![0, 9, 22]));
    assert_eq!(after(check_strict, &data, 3), ((16, 4, 0), vec![0, 9, 22]));
    assert_eq!(after(check_usual, &data, 2), ((15, 3, 0), vec![0, 9]));
    assert_eq!(after(check_strict, &data, 2), ((15, 3, 0), vec![0, 9]));
    assert_eq!(after(check_usual, &file(&[A]), 1), ((16, 2, 0), vec![0]));
    assert_eq!(after(check_usual, &file(&[A]), 0), ((15, 1, 0), vec![]));
}

#[test]
fn listed() {
    let place = "3090000 N 15000 W A 100 120";
    assert_eq!(listing(&file(&[A, DATE, I2, B40])), format!("OK 4 1 0 40 7 0 7\nFIX 4 43200 {place}\nCOL FXA 012\nCOL SIU 08\n"));
    assert_eq!(listing(&file(&[A, DATE])), "OK 2 0 0 35 7 0 7\n");
    assert_eq!(listing(&file(&[A])), "REFUSED 16 2 0\n");
    assert_eq!(listing(&file(&[A, DATE, HEAD, POINT])), "REFUSED 16 5 0\n");
}

#[test]
fn badges() {
    assert_eq!(badge(&file(&[A, DATE, I2, B40, G])), "2024-07-15, recorder XYZ001, fixes 1, signed\n");
    // the maker and the serial, without the text behind them; a year before 2000, a day and a month of one digit
    assert_eq!(badge(&file(&["AZ9QWA7club", "HFDTE010280", B35, B35, G, "LX"])), "1980-02-01, recorder Z9QWA7, fixes 2, signed\n");
    assert_eq!(badge(&file(&[A, DATE, G])), "2024-07-15, recorder XYZ001, fixes 0, signed\n");
    // a file without G, which the usual check accepts, is not fit for a claim
    let why = "end inside a declaration, before line 2, or in the strict check without G";
    assert_eq!(badge(&file(&[A, DATE, I2, B40])), format!("REFUSED 16 ENDS_EARLY, line 5: {why}\n"));
    assert_eq!(badge(&file(&[A, DATE])), format!("REFUSED 16 ENDS_EARLY, line 3: {why}\n"));
    assert_eq!(badge(b""), "REFUSED 1 EMPTY: no bytes\n");
    let text = "K126000";
    assert_eq!(badge(&file(&[A, DATE, text])), format!("REFUSED 22 TIME, line 3, byte 2: time field against its rule\n{text}\n ^\n"));
    // 15 is not met
    assert_eq!(badge(&file(&[&[A, DATE], &*times(20_000, B35), &[G]].concat())), "2024-07-15, recorder XYZ001, fixes 20000, signed\n");
}
