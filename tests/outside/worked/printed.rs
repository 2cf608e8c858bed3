//! The table of the characters as docs/RULES.md prints it for the records officer: each of its 256 numbers is what the reading says of that byte in an L line and in an H line.

use super::*;

const PAGE: &str = include_str!("../../../docs/RULES.md");

/// The rows of the printed table: those whose head is a hex digit and a low line.
fn rows() -> Vec<(u8, Vec<u8>)> {
    let row = |line: &'static str| {
        let (head, numbers) = line.strip_prefix("| ")?.split_once("_ | ")?;
        let numbers = numbers.strip_suffix(" |")?.split(" | ").map(|n| n.parse().unwrap()).collect();
        Some((u8::from_str_radix(head, 16).ok()?, numbers))
    };
    PAGE.lines().filter_map(row).collect()
}

/// What is said of a byte at the end of a line. CR and LF end the line there, with 3.
fn said(before: &str, byte: u8) -> Verdict {
    body(&[[before.as_bytes(), &[byte]].concat()])
}

#[test]
fn sixteen_rows_of_sixteen() {
    let rows = rows();
    assert_eq!(rows.iter().map(|row| row.0).collect::<Vec<u8>>(), (0..16).collect::<Vec<u8>>());
    for (row, numbers) in rows {
        assert_eq!(numbers.len(), 16, "row {row:X}_");
        for (column, number) in (0..).zip(numbers) {
            let byte = 16 * row + column;
            let never = if byte == b'\r' || byte == b'\n' { 3 } else { 8 };
            let (in_l, in_h) = match number {
                0 => ((never, 3, 2), (never, 3, 6)),
                1 => (OK, OK),
                2 => ((8, 3, 2), OK),
                _ => panic!("{byte:02X} has the number {number}"),
            };
            assert_eq!(said("L", byte), in_l, "{byte:02X} in an L line");
            assert_eq!(said("HFABC", byte), in_h, "{byte:02X} in an H line");
        }
    }
}
