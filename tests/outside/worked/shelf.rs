//! A shelf of flights: small shelves written out byte by byte with the answers worked out by hand, and what must hold of any calls.

use super::*;
use outside::files::random::Random;
use outside::files::reached_shelves::Reached;
use outside::files::shelf_runs;
use outside::reading::LIMIT;
use outside::reading::shelf::{Held, add, ask, contents, pack, remove};

/// The smallest file, of 22 bytes, which is hex 16.
const SMALL: &[u8] = b"AXYZ001\r\nHFDTE150724\r\n";

/// One of 25 bytes, hex 19, and one of 28, hex 1C, which is signed.
const NOTED: &[u8] = b"AXYZ002\r\nHFDTE150724\r\nL\r\n";
const SIGNED: &[u8] = b"AXYZ003\r\nHFDTE150724\r\nGABC\r\n";

/// A shelf with these entries first, the others free, and these bytes behind the table.
fn shelf(entries: &[[u8; 12]], behind: &[u8]) -> Vec<u8> {
    let mut table = entries.concat();
    table.resize(768, 0);
    [table, behind.to_vec()].concat()
}

const FREE: [u8; 12] = [0; 12];

/// An entry by its numbers, where their bytes are not what is tested.
fn entry(number: u32, start: u32, length: u32) -> [u8; 12] {
    let bytes = |n: u32| [n % 256, n / 256 % 256, n / 65_536 % 256, n / 16_777_216].map(|byte| byte as u8);
    [bytes(number), bytes(start), bytes(length)].concat().try_into().unwrap()
}

/// What a call answers, and the shelf behind it.
fn after<T>(shelf: &[u8], call: impl FnOnce(&mut [u8]) -> Answer<T>) -> (Answer<T>, Vec<u8>) {
    let mut shelf = shelf.to_vec();
    (call(&mut shelf), shelf)
}

/// A call is refused with this number, line 0 and byte 0, and the shelf is as it was.
fn refused<T: PartialEq + std::fmt::Debug>(number: u32, shelf: &[u8], call: impl FnOnce(&mut [u8]) -> Answer<T>) {
    assert_eq!(after(shelf, call), (no(number, 0), shelf.to_vec()));
}

fn held(number: u32, start: usize, length: usize) -> Answer<Held> {
    Ok(Held { number, start, length })
}

/// Adding to an empty shelf. Fails where a number is put with its high byte first, the entry's parts stand elsewhere, the start is counted from the bodies, or another byte is changed.
#[test]
fn added_to_an_empty_one() {
    assert_eq!((SMALL.len(), NOTED.len(), SIGNED.len()), (22, 25, 28));
    let empty = shelf(&[], &[b'.'; 30]);
    let expected = shelf(&[[7, 0, 0, 0, 0x00, 3, 0, 0, 0x16, 0, 0, 0]], b"AXYZ001\r\nHFDTE150724\r\n........");
    assert_eq!(after(&empty, |s| add(s, 7, SMALL)), (Ok(768), expected.clone()));
    // a number that needs all four bytes, behind the first: 768 + 22 is hex 316
    let empty = shelf(&[], &[b'.'; 48]);
    let (_, one) = after(&empty, |s| add(s, 7, SMALL));
    let expected = shelf(
        &[[7, 0, 0, 0, 0x00, 3, 0, 0, 0x16, 0, 0, 0], [0x04, 0x03, 0x02, 0x01, 0x16, 3, 0, 0, 0x19, 0, 0, 0]],
        b"AXYZ001\r\nHFDTE150724\r\nAXYZ002\r\nHFDTE150724\r\nL\r\n.",
    );
    assert_eq!(after(&one, |s| add(s, 16_909_060, NOTED)), (Ok(790), expected));
    // the greatest number
    let expected = shelf(&[[255, 255, 255, 255, 0x00, 3, 0, 0, 0x16, 0, 0, 0]], SMALL);
    assert_eq!(after(&shelf(&[], &[0; 22]), |s| add(s, u32::MAX, SMALL)), (Ok(768), expected));
}

/// Room for a file, and for all but its last byte. Fails where a run of just the length is refused, or one that is a byte short is taken.
#[test]
fn room() {
    assert_eq!(after(&shelf(&[], &[b'.'; 22]), |s| add(s, 7, SMALL)).0, Ok(768));
    refused(30, &shelf(&[], &[b'.'; 21]), |s| add(s, 7, SMALL));
    refused(30, &shelf(&[], b""), |s| add(s, 7, SMALL));
    // a file that is longer than the whole buffer
    let long = file(&[&[A, DATE][..], &times(300, "LX")].concat());
    refused(30, &shelf(&[], &[b'.'; 100]), |s| add(s, 7, &long));
    // between two bodies, of 22 bytes: just that long, and a byte short
    let two = |gap: u32| shelf(&[entry(1, 768, 1), entry(2, 769 + gap, 1)], &vec![b'.'; gap as usize + 2]);
    assert_eq!(after(&two(22), |s| add(s, 3, SMALL)).0, Ok(769));
    refused(30, &two(21), |s| add(s, 3, SMALL));
    // two runs that are long enough together alone: 11 before, 11 behind
    refused(30, &shelf(&[entry(1, 779, 1)], &[b'.'; 23]), |s| add(s, 3, SMALL));
    // no free byte
    refused(30, &shelf(&[entry(1, 768, 23)], &[b'.'; 23]), |s| add(s, 3, SMALL));
}

/// The smallest start, and not the run that is closest, longest, last, or next behind the last add. Fails where the runs are taken in the order of the entries.
#[test]
fn smallest_start() {
    // bodies at 798 to 799, 822 to 823 and 873 to 874; runs of 30 from 768 on, 22 from 800, 49 from 824, 100 from 875
    let three = shelf(&[entry(9, 873, 2), entry(8, 798, 2), entry(7, 822, 2)], &[b'.'; 207]);
    let of = |length: usize| after(&three, |s| add(s, 1, &file(&[A, DATE, &format!("L{}", x(length - 25))]))).0;
    assert_eq!(of(25), Ok(768));
    assert_eq!(of(30), Ok(768));
    assert_eq!(of(31), Ok(824));
    assert_eq!(of(49), Ok(824));
    assert_eq!(of(50), Ok(875));
    assert_eq!(of(100), Ok(875));
    assert_eq!(of(101), no(30, 0));
    // the first run is a byte short, the next one has just the length
    let two = shelf(&[entry(8, 789, 2), entry(7, 813, 2)], &[b'.'; 47]);
    assert_eq!(after(&two, |s| add(s, 1, SMALL)).0, Ok(791));
}

/// The first free entry, whatever is taken behind it. Fails where the entry behind the last flight is taken, or the last free one.
#[test]
fn first_free_entry() {
    let behind = &[b'.'; 100];
    let taken = [entry(5, 768, 1), FREE, entry(6, 769, 1), FREE];
    let expected = [entry(5, 768, 1), entry(9, 770, 22), entry(6, 769, 1), FREE];
    let (answer, made) = after(&shelf(&taken, behind), |s| add(s, 9, SMALL));
    assert_eq!((answer, &made[..768]), (Ok(770), &shelf(&expected, b"")[..]));
    let mut last = vec![entry(5, 768, 1)];
    last.resize(63, FREE);
    last[1..].copy_from_slice(&(1..63).map(|n| entry(100 + n, 768 + n, 1)).collect::<Vec<_>>());
    let (answer, made) = after(&shelf(&last, behind), |s| add(s, 9, SMALL));
    assert_eq!((answer, &made[756..768]), (Ok(831), &entry(9, 831, 22)[..]));
}

/// Asking and removing. Fails where removing leaves a byte of the entry or clears the body, or where a number is found by some of its bytes.
#[test]
fn asked_and_removed() {
    let entries = [[7, 0, 0, 0, 0x00, 3, 0, 0, 0x16, 0, 0, 0], [0x04, 0x03, 0x02, 0x01, 0x16, 3, 0, 0, 0x19, 0, 0, 0]];
    let bodies = b"AXYZ001\r\nHFDTE150724\r\nAXYZ002\r\nHFDTE150724\r\nL\r\n.";
    let two = shelf(&entries, bodies);
    assert_eq!(ask(&two, 7), held(7, 768, 22));
    assert_eq!(ask(&two, 16_909_060), held(16_909_060, 790, 25));
    for number in [0, 1, 4, 8, 0x0700_0000, 0x0302_0104, 0x0102_0004, 0x0403_0201, 263, 65_543, u32::MAX] {
        refused(31, &two, |s| ask(s, number));
        refused(31, &two, |s| remove(s, number));
    }
    assert_eq!(after(&two, |s| remove(s, 7)), (Ok(()), shelf(&[FREE, entries[1]], bodies)));
    assert_eq!(after(&two, |s| remove(s, 16_909_060)), (Ok(()), shelf(&[entries[0], FREE], bodies)));
    refused(31, &shelf(&[], bodies), |s| ask(s, 7));
    refused(31, &shelf(&[], b""), |s| remove(s, 7));
    // removed, and a file added under the same number, at its place, in its entry; what it does not cover stays
    let (_, one) = after(&two, |s| remove(s, 16_909_060));
    let expected = shelf(
        &[entries[0], [0x04, 0x03, 0x02, 0x01, 0x16, 3, 0, 0, 0x16, 0, 0, 0]],
        b"AXYZ001\r\nHFDTE150724\r\nAXYZ001\r\nHFDTE150724\r\nL\r\n.",
    );
    assert_eq!(after(&one, |s| add(s, 16_909_060, SMALL)), (Ok(790), expected));
}

/// Packing. Fails where bodies are moved in the order of the entries or of the numbers, entries change places, a body is copied over another that is still to be moved, or the bytes behind are cleared.
#[test]
fn packed() {
    // bodies by start: "abc" at 770, "DE" at 773, "fghij" at 777; in the table the other way round, and by their numbers in neither order
    let before = shelf(&[entry(1, 777, 5), FREE, entry(9, 773, 2), entry(2, 770, 3)], b"..abcDE..fghij,,");
    let expected = shelf(&[entry(1, 773, 5), FREE, entry(9, 771, 2), entry(2, 768, 3)], b"abcDEfghijghij,,");
    assert_eq!(after(&before, pack), (Ok(()), expected.clone()));
    assert_eq!(after(&expected, pack), (Ok(()), expected.clone()));
    // moved by more bytes than it has: what stood between stays
    let before = shelf(&[entry(1, 774, 2)], b"......ab..");
    assert_eq!(after(&before, pack), (Ok(()), shelf(&[entry(1, 768, 2)], b"ab....ab..")));
    // moved by one byte
    let before = shelf(&[entry(1, 769, 9)], b".abcdefghi");
    assert_eq!(after(&before, pack), (Ok(()), shelf(&[entry(1, 768, 9)], b"abcdefghii")));
    // the first stays, the others move
    let before = shelf(&[entry(4, 772, 1), entry(1, 768, 2), entry(300, 775, 1)], b"ab..c..d");
    assert_eq!(after(&before, pack), (Ok(()), shelf(&[entry(4, 770, 1), entry(1, 768, 2), entry(300, 771, 1)], b"abcdc..d")));
    // nothing to move
    for still in
        [shelf(&[], b""), shelf(&[], b"...."), shelf(&[entry(1, 768, 4)], b"abcd"), shelf(&[entry(2, 770, 2), entry(1, 768, 2)], b"abcd")]
    {
        assert_eq!(after(&still, pack), (Ok(()), still.clone()));
    }
}

/// The rules of a shelf at their limits: shelves that are sound. Fails where a limit is a byte narrower.
#[test]
fn sound() {
    let is_sound = |shelf: Vec<u8>| assert!(contents(&shelf).is_ok(), "{:?}", &shelf[..36]);
    is_sound(shelf(&[], b""));
    is_sound(shelf(&[entry(1, 768, 1)], b"a"));
    is_sound(shelf(&[entry(1, 768, 10)], b"0123456789"));
    is_sound(shelf(&[entry(1, 777, 1)], b"0123456789"));
    // bodies that touch, either way round; numbers that have bytes in common
    is_sound(shelf(&[entry(1, 768, 5), entry(257, 773, 5)], b"0123456789"));
    is_sound(shelf(&[entry(65_536, 773, 5), entry(256, 768, 5), entry(u32::MAX, 778, 1)], b"0123456789a"));
    // a number whose low byte is 0 is no free entry, and neither is one that has its highest byte alone
    assert_eq!(ask(&shelf(&[[0, 1, 0, 0, 0, 3, 0, 0, 1, 0, 0, 0]], b"a"), 256), held(256, 768, 1));
    assert_eq!(ask(&shelf(&[[0, 0, 0, 1, 0, 3, 0, 0, 1, 0, 0, 0]], b"a"), 16_777_216), held(16_777_216, 768, 1));
    // a length of 256, whose low byte is 0; a start of 65,536 and one of 65,792
    assert_eq!(ask(&shelf(&[[1, 0, 0, 0, 0, 3, 0, 0, 0, 1, 0, 0]], &[b'.'; 256]), 1), held(1, 768, 256));
    let large = vec![b'.'; 66_000];
    let entries = [[1, 0, 0, 0, 0, 0, 1, 0, 0, 1, 0, 0], [2, 0, 0, 0, 0, 1, 1, 0, 2, 0, 0, 0]];
    assert_eq!(ask(&shelf(&entries, &large), 1), held(1, 65_536, 256));
    assert_eq!(ask(&shelf(&entries, &large), 2), held(2, 65_792, 2));
}

/// A shelf that breaks one rule: 27 of each call, before all else. Fails where the rule is not looked at.
#[test]
fn not_sound() {
    let ten = b"0123456789";
    let mut broken: Vec<Vec<u8>> = vec![Vec::new(), vec![0], vec![0; 12], vec![0; 767], vec![0; LIMIT + 1]];
    // a free entry with another byte: each of its eight, and in the last entry
    for byte in 4..12 {
        let mut stray = FREE;
        stray[byte] = 1;
        broken.push(shelf(&[entry(1, 768, 1), stray], ten));
        broken.push(shelf(&[vec![FREE; 63], vec![stray]].concat(), ten));
    }
    for entries in [
        // number 0 with a body, though it would lie well
        &[entry(0, 768, 1)][..],
        // no byte: at a good place, at the end, at 0
        &[entry(1, 770, 0)],
        &[entry(1, 778, 0)],
        &[entry(1, 0, 0)],
        // not in the part from 768
        &[entry(1, 767, 1)],
        &[entry(1, 767, 2)],
        &[entry(1, 0, 768)],
        &[entry(1, 0, 778)],
        &[entry(1, 766, 1)],
        // past the buffer, which has 778 bytes
        &[entry(1, 768, 11)],
        &[entry(1, 777, 2)],
        &[entry(1, 778, 1)],
        &[entry(1, 779, 1)],
        &[entry(1, 768, 65_536)],
        &[entry(1, 65_536, 1)],
        // start and length together are 2^32, or 2^32 and a little more: 768, 778, 770
        &[entry(1, u32::MAX, 1)],
        &[entry(1, 768, u32::MAX - 767)],
        &[entry(1, u32::MAX, 769)],
        &[entry(1, u32::MAX - 9, 788)],
        &[entry(1, 772, u32::MAX - 1)],
        &[entry(1, 768, u32::MAX)],
        &[entry(1, u32::MAX, u32::MAX)],
        // a byte in common, either way round; one inside the other; the same start, the same end, the same
        &[entry(1, 768, 5), entry(2, 772, 5)],
        &[entry(2, 772, 5), entry(1, 768, 5)],
        &[entry(1, 768, 10), entry(2, 770, 1)],
        &[entry(2, 770, 1), entry(1, 768, 10)],
        &[entry(1, 768, 5), entry(2, 768, 4)],
        &[entry(1, 768, 5), entry(2, 770, 3)],
        &[entry(1, 768, 5), entry(2, 768, 5)],
        &[entry(1, 768, 1), FREE, entry(3, 769, 1), entry(2, 768, 1)],
        // a number twice
        &[entry(1, 768, 1), entry(1, 769, 1)],
        &[entry(1, 768, 1), entry(2, 769, 1), FREE, entry(1, 777, 1)],
        &[entry(u32::MAX, 768, 1), entry(u32::MAX, 769, 1)],
    ] {
        broken.push(shelf(entries, ten));
    }
    let (first, last) = (entry(1, 768, 5), entry(2, 772, 5));
    broken.push(shelf(&[vec![first], vec![FREE; 62], vec![last]].concat(), ten));
    for shelf in &broken {
        for number in [0, 1, 9, u32::MAX] {
            refused(27, shelf, |s| add(s, number, SMALL));
            refused(27, shelf, |s| add(s, number, b"not a file"));
            refused(27, shelf, |s| ask(s, number));
            refused(27, shelf, |s| remove(s, number));
        }
        refused(27, shelf, pack);
    }
}

/// 27, the file's own, 28, 29, 30. Fails where another order is kept.
#[test]
fn refusals_in_their_order() {
    let all: Vec<[u8; 12]> = (0..64).map(|n| entry(n + 1, 768 + n, 1)).collect();
    let (full, no_byte) = (shelf(&all, &[b'.'; 200]), shelf(&all, &[b'.'; 64]));
    let room = shelf(&all[..63], &[b'.'; 200]);
    let bad = file(&[A, DATE, "K126000"]);
    let own = |file: &[u8], number: u32, line: u64, byte: u64| {
        for shelf in [&full, &no_byte, &room] {
            for id in [0, 1, 99] {
                let expected = (Err(Refusal { number, line, byte }), shelf.clone());
                assert_eq!(after(shelf, |s| add(s, id, file)), expected);
            }
        }
    };
    own(&bad, 22, 3, 2);
    own(b"", 1, 0, 0);
    own(&vec![b'A'; LIMIT + 1], 2, 0, 0);
    own(b"AXYZ001\r\n", 16, 2, 0);
    for number in [0, 1, 64] {
        refused(28, &full, |s| add(s, number, SMALL));
        refused(28, &no_byte, |s| add(s, number, SMALL));
    }
    refused(29, &full, |s| add(s, 65, SMALL));
    refused(29, &no_byte, |s| add(s, 65, SMALL));
    refused(28, &room, |s| add(s, 63, SMALL));
    assert_eq!(after(&room, |s| add(s, 64, SMALL)).0, Ok(831));
    refused(30, &shelf(&all[..63], &[b'.'; 84]), |s| add(s, 64, SMALL));
    refused(28, &shelf(&all[..63], &[b'.'; 84]), |s| add(s, 0, SMALL));
}

/// The usual check, without a table; and bodies that are no files. Fails where the strict check is asked for, 15 is met, or a body is looked at again.
#[test]
fn files_and_bodies() {
    let empty = shelf(&[], &vec![b'.'; 70_000]);
    for file in [SMALL, NOTED, SIGNED] {
        assert_eq!(after(&empty, |s| add(s, 1, file)).0, Ok(768));
    }
    let many = file(&[&[A, DATE][..], &times(20_000, "L")].concat());
    let (answer, made) = after(&empty, |s| add(s, 1, &many));
    assert_eq!((answer, ask(&made, 1)), (Ok(768), held(1, 768, 60_022)));
    // 60,022 is hex EA76
    assert_eq!(made[..12], [1, 0, 0, 0, 0, 3, 0, 0, 0x76, 0xEA, 0, 0]);
    let (answer, made) = after(&shelf(&[entry(5, 770, 4)], &[vec![0; 2], vec![255; 30]].concat()), |s| add(s, 1, SMALL));
    assert_eq!((answer, ask(&made, 5)), (Ok(774), held(5, 770, 4)));
    // the same file under two numbers
    let (_, one) = after(&empty, |s| add(s, 1, SMALL));
    assert_eq!(after(&one, |s| add(s, 2, SMALL)).0, Ok(790));
}

#[test]
fn of_any_calls() {
    let mut reached = Reached::default();
    for n in 0..400 {
        let mut random = Random::new(n * 50_021);
        let held = shelf_runs::any(&mut random, &mut reached, &mut |_, _, _, _| Ok(()));
        let held = held
            .and_then(|()| if n % 4 == 0 { shelf_runs::on_spoiled(&mut random, &mut reached, &mut |_, _, _, _| Ok(())) } else { Ok(()) });
        if let Err(broken) = held {
            panic!("shelf {n}: {}", broken.difference);
        }
    }
    println!("{} good, {} refused; {}", reached.good, reached.refused, reached.told());
    assert_eq!(reached.never(false), Vec::<String>::new(), "never met");
}

#[test]
fn at_the_size_limit() {
    let mut reached = Reached::default();
    let held = shelf_runs::at_limit(&mut Random::new(3), &mut reached, &mut |_, _, _, _| Ok(()));
    assert!(held.is_ok(), "{}", held.unwrap_err().difference);
    // of the calls on the shelf of the most bytes 5 are refused, on the one of a byte more 4
    assert_eq!((reached.good, reached.refused), (14, 9));
}
