//! The listing's five lines with one field against its rule: the number says which field is bad, and line and byte where it stands.

use super::*;

/// The verdict on the five lines with one of them changed.
fn with(line: usize, text: &str) -> Verdict {
    let mut lines = [A, DATE, I2, B40, G];
    lines[line - 1] = text;
    verdict(&file(&lines))
}

#[test]
fn untouched() {
    assert_eq!(with(2, DATE), OK);
    assert_eq!(with(4, B40), OK);
}

#[test]
fn time() {
    for wrong in ["240000", "126000", "120060", "12000 ", "-20000"] {
        assert_eq!(with(4, &B40.replace("120000", wrong)), (22, 4, 2), "{wrong}");
    }
}

#[test]
fn position() {
    for wrong in ["9000001N", "4560000N", "5130000E", "5130000n", "513000 N"] {
        assert_eq!(with(4, &B40.replace("5130000N", wrong)), (23, 4, 8), "{wrong}");
    }
    for wrong in ["18000001W", "00060000W", "00015000S", "00015000w", "000150 0W"] {
        assert_eq!(with(4, &B40.replace("00015000W", wrong)), (23, 4, 16), "{wrong}");
    }
}

#[test]
fn altitude() {
    for wrong in ["-0000", "+0100", "0-100", "0010 "] {
        assert_eq!(with(4, &B40.replace("A00100", &format!("A{wrong}"))), (24, 4, 26), "{wrong}");
        assert_eq!(with(4, &B40.replace("00120", wrong)), (24, 4, 31), "{wrong}");
    }
}

#[test]
fn date() {
    for wrong in ["290223", "310424", "000724", "151324", "150024", "000000", "15 724"] {
        assert_eq!(with(2, &DATE.replace("150724", wrong)), (25, 2, 6), "{wrong}");
    }
}

#[test]
fn every_other_field() {
    for (line, text, byte) in [
        (1, "AXyZ001", 2),
        (1, "AXYZ00-", 5),
        (2, "HODTE150724", 2),
        (3, "I0x3638FXA3940SIU", 2),
        (3, "I033638FXA3940SIU", 2),
        (3, "I02x638FXA3940SIU", 4),
        (3, "I0236x8FXA3940SIU", 6),
        (3, "I023638FxA3940SIU", 8),
        (4, "B1200005130000N00015000WX001000012001208", 25),
    ] {
        assert_eq!(with(line, text), (9, line as u64, byte), "{text}");
    }
}
