//! What the listing prints, and what igc says of a refusal.

use super::*;
use outside::reading::listing::listing;
use outside::reading::{Refusal, explained, name};

#[test]
fn listings() {
    assert_eq!(listing(b""), "REFUSED 1 0 0\n");
    assert_eq!(listing(&[b'x'; 65_536]), "REFUSED 3 1 65537\n");
    assert_eq!(listing(&[b'x'; 65_537]), "REFUSED 21 0 0\n");
    assert_eq!(listing(&file(&[A, DATE, "I013636FXA"])), "REFUSED 12 3 4\n");
    for (wrong, expected) in [
        (b(Parts { time: "235961", ..PARTS }), "REFUSED 22 3 2\n"),
        (b(Parts { lat: "9000001N", ..PARTS }), "REFUSED 23 3 8\n"),
        (b(Parts { validity: "X", ..PARTS }), "REFUSED 9 3 25\n"),
        (b(Parts { pressure: "-0000", ..PARTS }), "REFUSED 24 3 26\n"),
    ] {
        assert_eq!(listing(&file(&[A, DATE, &wrong, G])), expected);
    }
    assert_eq!(listing(&file(&[A, "HFDTE290223", G])), "REFUSED 25 2 6\n");
    let remarks = |count: usize| listing(&file(&[&[A, DATE], &*times(count, "L"), &["GX"]].concat()));
    assert_eq!(remarks(16_381), "OK 16384 0 0 35 7 0 7\n");
    assert_eq!(remarks(16_382), "REFUSED 15 16385 0\n");
    let south = "B0000000000000S00000000WV-0012-9999";
    let data = file(&[A, DATE, "J010809ZZZ", "K000000 -", south, "B0000010000001S00000001EV0000099999", "GX"]);
    assert_eq!(listing(&data), "OK 7 2 1 35 9 0 7\nFIX 5 0 0 S 0 W V -12 -9999\nFIX 6 1 1 S 1 E V 0 99999\n");
    let data = file(&[A, DATE, "I013638ZZZ", &format!("{B35} x "), "GX"]);
    assert!(listing(&data).ends_with("COL ZZZ  x \n"));
}

#[test]
fn explanations() {
    assert_eq!(
        [0, 1, 9, 21, 22, 25, 26, 32].map(name),
        [None, Some("EMPTY"), Some("FORM"), Some("INPUT_OVER"), Some("TIME"), Some("DATE"), Some("NOT_SAME"), None]
    );
    assert_eq!([27, 28, 29, 30, 31].map(name), [Some("SHELF"), Some("ID"), Some("ENTRIES"), Some("NO_RUN"), Some("NOT_FOUND")]);
    let of = |file: &[u8], number, line, byte| explained(file, &Refusal { number, line, byte });
    assert_eq!(of(b"", 32, 0, 0), None);
    assert_eq!(of(b"", 1, 0, 0).unwrap(), "REFUSED 1 EMPTY: no bytes\n");
    let data = b"AB\r\nC\x00D\nE\r\nF";
    assert_eq!(of(data, 7, 1, 0).unwrap(), "REFUSED 7 LENGTH, line 1: outside its limits\nAB\n");
    assert_eq!(of(data, 8, 2, 2).unwrap(), "REFUSED 8 CHARACTER, line 2, byte 2: first invalid one\nC?D\n ^\n");
    // line 2 does not end with CR LF, so that nothing is known of a line 3
    assert_eq!(
        of(data, 16, 3, 0).unwrap(),
        "REFUSED 16 ENDS_EARLY, line 3: end inside a declaration, before line 2, or in the strict check without G\n"
    );
    assert_eq!(of(data, 6, 3, 1).unwrap(), "REFUSED 6 ORDER, line 3, byte 1: kind not allowed here\n\n^\n");
    let long: Vec<u8> = (0..200u8).map(|n| b'0' + n % 10).collect();
    let wanted = format!(
        "REFUSED 9 FORM, line 1, byte 81: first field against its rule (text from byte 41)\n{}\n{}^\n",
        "0123456789".repeat(8),
        " ".repeat(40)
    );
    assert_eq!(of(&long, 9, 1, 81).unwrap(), wanted);
}
