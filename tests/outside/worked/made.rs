//! Generated files: each is answered as it was made, by both checks, and every refusal of a file is met, in every field that a refusal names, every branch of the rules on
//! layouts, every byte value as a character of an H line and of another, and every way to end, signed or not.

use outside::files::Run;
use outside::files::reached::Reached;
use outside::files::reached_signed;
use outside::reading::{check_strict, check_usual};

#[test]
fn answered_as_made() {
    let run = Run::new(11, 20);
    let (mut reached, mut ends) = (Reached::default(), reached_signed::Reached::default());
    for n in 0..14_000 {
        let made = run.make(&mut run.random(n), n);
        let [usual, strict] = [check_usual, check_strict].map(|check| check(&made.file, &mut vec![0; made.entries]));
        let held = made.known.agrees(&usual).and_then(|()| made.known.strictly().agrees(&strict));
        if let Err(difference) = held.and_then(|()| ends.add(&made.file, &usual, &strict)) {
            panic!("file {n}: {difference}\n{}", String::from_utf8_lossy(&made.file));
        }
        reached.add(&made.file, &usual);
    }
    println!("{} accepted; {}; {}; {}", reached.accepted, reached.by_number(), reached.by_field(), reached.by_branch());
    println!("byte values reached as characters: {}", reached.by_character());
    println!("{}", ends.told());
    assert_ne!(reached.accepted, 0);
    // 1 and 2 are no file of a run
    assert_eq!(reached.never(&[1, 2]), Vec::<String>::new(), "never met");
    assert_eq!(ends.never(), Vec::<&str>::new(), "never met");
    assert_eq!(reached.strange(), Vec::<String>::new(), "met where it cannot be");
}
