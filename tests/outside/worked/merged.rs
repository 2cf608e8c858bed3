//! Evening notes brought together: answers worked out by hand, and what must hold of any copies.

use super::*;
use outside::files::pairs;
use outside::files::random::Random;
use outside::files::reached_pairs::Reached;
use outside::reading::listing::listing;
use outside::reading::{LIMIT, Unmerged, Which, check_strict_alone, merge, merge_into};

/// A, the date line, G, and these notes.
fn copy(notes: &[&str]) -> Vec<u8> {
    file(&[&[A, DATE, G], notes].concat())
}

/// The notes of the result of two copies with these notes; behind A, the date line and G.
fn notes(first: &[&str], second: &[&str]) -> String {
    let result = merge(&copy(first), &copy(second), 10_000).unwrap();
    let (signed, behind) = result.split_at(28);
    assert_eq!(signed, copy(&[]));
    String::from_utf8(behind.to_vec()).unwrap()
}

fn both(number: u32) -> Result<Vec<u8>, Unmerged> {
    Err(Unmerged { of: None, refusal: Refusal { number, line: 0, byte: 0 } })
}

fn of(which: Which, number: u32, line: u64, byte: u64) -> Result<Vec<u8>, Unmerged> {
    Err(Unmerged { of: Some(which), refusal: Refusal { number, line, byte } })
}

#[test]
fn kept_notes() {
    assert_eq!(copy(&[]).len(), 28);
    assert_eq!(notes(&[], &[]), "");
    assert_eq!(notes(&["Lday"], &[]), "Lday\r\n");
    assert_eq!(notes(&[], &["Lday"]), "Lday\r\n");
    assert_eq!(notes(&["Lday"], &["Lday"]), "Lday\r\n");
    assert_eq!(notes(&["Lday"], &["Levening"]), "Lday\r\nLevening\r\n");
    assert_eq!(notes(&["Levening"], &["Lday"]), "Lday\r\nLevening\r\n");
    // as often as in the copy that has it more often: neither once nor all of them
    assert_eq!(notes(&["LA", "LA", "LB"], &["LB", "LA"]), "LA\r\nLA\r\nLB\r\n");
    assert_eq!(notes(&["LA", "LB"], &["LB", "LA", "LB", "LB"]), "LA\r\nLB\r\nLB\r\nLB\r\n");
    assert_eq!(notes(&["LA", "LA"], &["LA", "LA"]), "LA\r\nLA\r\n");
    // one copy's notes are sorted too
    assert_eq!(notes(&["LC", "LA", "LB"], &[]), "LA\r\nLB\r\nLC\r\n");
    assert_eq!(notes(&["LC", "LA", "LA"], &["LA", "LC"]), "LA\r\nLA\r\nLC\r\n");
}

#[test]
fn order_of_notes() {
    // a line that begins another comes first; a space goes on where the line before it ends
    assert_eq!(notes(&["LAB", "LA", "L", "LABC"], &["LA "]), "L\r\nLA\r\nLA \r\nLAB\r\nLABC\r\n");
    // by byte value: digits, capitals, small letters; 9 before A, Z before a; as texts and not as numbers or by length
    assert_eq!(notes(&["La", "LZ", "L9", "L10"], &["L}", "L ", "L-"]), "L \r\nL-\r\nL10\r\nL9\r\nLZ\r\nLa\r\nL}\r\n");
    let (long, longer) = (format!("L{}", x(97)), format!("L{}", x(98)));
    assert_eq!(notes(&[&longer, "Ly"], &[&long, "Lw"]), format!("Lw\r\n{long}\r\n{longer}\r\nLy\r\n"));
}

#[test]
fn lines_before_the_last_g() {
    // L lines before a G line are no evening notes: they stay where they are, sorted or not, and must be the same
    let signed = [A, DATE, "LZ", "LA", B35, "LZ", "GA", "GB"];
    let with = |notes: &[&str]| file(&[&signed[..], notes].concat());
    assert_eq!(merge(&with(&["LB", "LZ"]), &with(&["LA"]), 1_000), Ok(with(&["LA", "LB", "LZ"])));
    let without = |n: usize| file(&[&signed[..n], &signed[n + 1..]].concat());
    for n in [2, 3, 4, 6, 7] {
        assert_eq!(merge(&with(&[]), &without(n), 1_000), both(26), "without line {}", n + 1);
        assert_eq!(merge(&without(n), &with(&["LA"]), 1_000), both(26), "without line {}", n + 1);
    }
    // one common part begins the other
    assert_eq!(merge(&file(&[A, DATE, "GA"]), &file(&[A, DATE, "GA", "GA"]), 1_000), both(26));
    assert_eq!(merge(&file(&[A, DATE, "GA", "L"]), &file(&[A, DATE, "GAB", "L"]), 1_000), both(26));
}

#[test]
fn refusals_in_their_order() {
    let (good, other) = (copy(&["LA"]), file(&[A, "HFDTE160724", G]));
    let (bad, worse) = (copy(&["L,"]), file(&[A, DATE, "X"]));
    assert_eq!(merge(&good, &other, 1_000), both(26));
    assert_eq!(merge(&good, &other, 0), both(26));
    assert_eq!(merge(&bad, &other, 0), of(Which::First, 8, 4, 2));
    assert_eq!(merge(&other, &bad, 0), of(Which::Second, 8, 4, 2));
    assert_eq!(merge(&bad, &worse, 0), of(Which::First, 8, 4, 2));
    assert_eq!(merge(&worse, &bad, 0), of(Which::First, 16, 4, 0));
    assert_eq!(merge(b"", &bad, 0), of(Which::First, 1, 0, 0));
    assert_eq!(merge(&good, b"", 0), of(Which::Second, 1, 0, 0));
    let long = vec![b'A'; LIMIT + 1];
    assert_eq!(merge(&good, &long, 0), of(Which::Second, 2, 0, 0));
    assert_eq!(merge(&long, &good, 0), of(Which::First, 2, 0, 0));
    // copies without a G line, which the usual check accepts, alone and before other refusals
    let unsigned = file(&[A, DATE, "LA"]);
    assert_eq!(merge(&unsigned, &unsigned, 1_000), of(Which::First, 16, 4, 0));
    assert_eq!(merge(&unsigned, &good, 0), of(Which::First, 16, 4, 0));
    assert_eq!(merge(&good, &unsigned, 0), of(Which::Second, 16, 4, 0));
    assert_eq!(merge(&unsigned, &bad, 0), of(Which::First, 16, 4, 0));
    assert_eq!(merge(&bad, &unsigned, 0), of(Which::First, 8, 4, 2));
    // two files that are the same and refused
    assert_eq!(merge(&bad, &bad, 1_000), of(Which::First, 8, 4, 2));
}

#[test]
fn no_table() {
    // 15 is not met, however many lines there are
    let many = copy(&times(20_000, "L"));
    assert_eq!(merge(&many, &copy(&[]), 100_000), Ok(many.clone()));
    assert_eq!(check_strict_alone(&many).map(|said| said.lines), Ok(20_003));
}

#[test]
fn into_an_output() {
    let (first, second) = (copy(&["LB"]), copy(&["LA"]));
    let put = |room: usize| {
        let mut out = vec![b'.'; room];
        let answer = merge_into(&first, &second, &mut out).map_err(|u| u.refusal.number);
        (answer, String::from_utf8(out).unwrap())
    };
    let result = "AXYZ001\r\nHFDTE150724\r\nGABC\r\nLA\r\nLB\r\n";
    assert_eq!(result.len(), 36);
    assert_eq!(put(36), (Ok(36), result.to_string()));
    assert_eq!(put(39), (Ok(36), format!("{result}...")));
    assert_eq!(put(35), (Err(18), ".".repeat(35)));
    assert_eq!(put(0), (Err(18), String::new()));
    // 26 before 18, and no byte is changed
    let mut out = [b'.'; 9];
    assert_eq!(merge_into(&first, &file(&[A, DATE, "GX"]), &mut out).map_err(|u| u.refusal.number), Err(26));
    assert_eq!(out, [b'.'; 9]);
}

/// A valid file of `size` bytes, filled up by L lines before its G line.
fn full(size: usize) -> Vec<u8> {
    let left = size - 28;
    // Lines of 90 bytes with their CR LF, one of 80, and one of 10 to 99 with what is left.
    let (whole, rest) = (left / 90 - 1, left % 90 + 10);
    let [long, a, b] = [90, 80, rest].map(|bytes| file(&[format!("L{}", x(bytes - 3))]));
    let bytes = [file(&[A, DATE]), long.repeat(whole), a, b, file(&[G])].concat();
    assert_eq!(bytes.len(), size);
    bytes
}

#[test]
fn at_the_size_limit() {
    let signed = full(LIMIT - 10);
    let with = |notes: &[&str]| [signed.clone(), file(notes)].concat();
    let (first, second, longer) = (with(&["LAA"]), with(&["LBB"]), with(&["LBBB"]));
    assert_eq!(merge(&first, &second, LIMIT).map(|r| r.len()), Ok(LIMIT));
    assert_eq!(merge(&first, &second, LIMIT - 1), both(18));
    // one byte over the limit is 2, before 18; the two files alone are accepted
    assert_eq!(merge(&first, &longer, LIMIT + 1), both(2));
    assert_eq!(merge(&first, &longer, 0), both(2));
    assert_eq!(merge(&longer, &longer, LIMIT).map(|r| r.len()), Ok(LIMIT - 4));
    // the sum would be over the limit, the result is not
    assert_eq!(merge(&first, &with(&["LAA"]), LIMIT), Ok(first));
}

#[test]
fn of_any_copies() {
    let mut reached = Reached::default();
    for n in 0..4_000 {
        let mut random = Random::new(n * 77_003);
        let pair = pairs::pair(&mut random, 12, n);
        let answer = merge(&pair.first, &pair.second, pair.room);
        let swapped = merge(&pair.second, &pair.first, pair.room);
        if let Err(difference) = pair.known.agrees(&answer) {
            panic!("pair {n}: {difference}\n{}\n{}", pair.first.escape_ascii(), pair.second.escape_ascii());
        }
        reached.add(&pair, &answer, &swapped);
        let Ok(result) = answer else { continue };
        // "The order of the two copies changes no byte".
        assert_eq!(swapped.as_ref(), Ok(&result), "pair {n}");
        // The result is accepted, and reads as each copy does but for its notes.
        let [said, ours, theirs] = [&result, &pair.first, &pair.second].map(|f| check_strict_alone(f).unwrap());
        assert_eq!(
            (said.date, &said.layouts, said.b_lines, said.k_lines, said.n_lines),
            (ours.date, &ours.layouts, ours.b_lines, ours.k_lines, ours.n_lines)
        );
        assert!(said.lines >= ours.lines.max(theirs.lines) && said.lines <= ours.lines + theirs.lines, "pair {n}");
        let fixes = |f: &[u8]| listing(f).lines().skip(1).map(str::to_string).collect::<Vec<_>>();
        assert_eq!(fixes(&result), fixes(&pair.first), "pair {n}");
        // Brought together once more with a copy, or with itself, nothing changes.
        for again in [&pair.first, &pair.second, &result] {
            assert_eq!(merge(&result, again, result.len()).as_ref(), Ok(&result), "pair {n}");
        }
    }
    println!("{} brought together, {} refused; {}", reached.merged, reached.refused, reached.told());
    assert_eq!(reached.never(false), Vec::<&str>::new(), "never met");
}

#[test]
fn of_three_copies() {
    for n in 0..600 {
        let [a, b, c] = pairs::three(&mut Random::new(n * 9_001), 8);
        let two = |x: &[u8], y: &[u8]| merge(x, y, LIMIT).unwrap();
        // "Nor does the pairing of three where no step is refused".
        let all = two(&two(&a, &b), &c);
        assert_eq!(two(&a, &two(&b, &c)), all, "three copies {n}");
        assert_eq!(two(&two(&c, &a), &b), all, "three copies {n}");
    }
}

#[test]
fn copies_with_many_notes() {
    for count in [200, 2_000] {
        for pair in pairs::many(&mut Random::new(count as u64), count) {
            pair.known.agrees(&merge(&pair.first, &pair.second, pair.room)).unwrap();
        }
    }
}

#[test]
fn copies_at_the_size_limit() {
    let mut reached = Reached::default();
    for pair in pairs::at_limit(&mut Random::new(5)) {
        let answer = merge(&pair.first, &pair.second, pair.room);
        pair.known.agrees(&answer).unwrap();
        reached.add(&pair, &answer, &merge(&pair.second, &pair.first, pair.room));
    }
    assert_eq!((reached.merged, reached.refused), (1, 2));
}
