//! The characters of a line.

/// "Valid characters (000, A6): hex 20 to 7D without 21, 24, 2A, 5C, 5E." The comma "is valid in H lines only".
pub fn is_valid(c: u8, kind: u8) -> bool {
    match c {
        0x21 | 0x24 | 0x2A | 0x5C | 0x5E => false,
        b',' => kind == b'H',
        _ => (0x20..=0x7D).contains(&c),
    }
}

/// ""Code" characters are A to Z and 0 to 9."
pub fn is_code(c: u8) -> bool {
    c.is_ascii_uppercase() || c.is_ascii_digit()
}
