//! What the program `igc` must print of the files that tests/igc/args names, in tests/igc/data: listed, checked, their tracks and their summaries; what the program `badge` must print of them;
//! and what both must say on standard error, each time, of those that they cannot read. A name without a file, and a folder, are among them.

use super::words;
use outside::reading::explained::explained;
use outside::reading::listing::flight;
use outside::reading::{Accepted, Answer, badge, check_usual, outlined, track, tracked};
use std::path::Path;

/// The most lines that a file can have: a byte and CR LF each.
const ENTRIES: usize = 5_592_405;

/// What became of a file that a word names.
enum Fate {
    Read { file: Vec<u8>, table: Vec<u32>, said: Answer<Accepted> },
    Unread(&'static str),
}

fn named() -> Vec<(String, Fate)> {
    let names = words("tests/igc/args").into_iter().map(|name| String::from_utf8(name).expect("a file's name"));
    names.map(|name| (name.clone(), fate(&format!("tests/igc/data/{name}")))).collect()
}

fn fate(path: &str) -> Fate {
    if Path::new(path).is_dir() {
        return Fate::Unread("cannot be read to its end");
    }
    let Ok(file) = std::fs::read(path) else { return Fate::Unread("cannot be opened: No such file or directory") };
    let mut table = vec![0; ENTRIES];
    let said = check_usual(&file, &mut table);
    Fate::Read { file, table, said }
}

/// Each file's name, and behind it what is made of the file where it is accepted, or why it is refused.
fn below_names(make: fn(&[u8], &[u32], &Accepted) -> String) -> Vec<u8> {
    let told = |fate: &Fate| match fate {
        Fate::Read { file, table, said: Ok(said) } => make(file, table, said),
        Fate::Read { file, said: Err(refused), .. } => explained(file, refused).unwrap(),
        Fate::Unread(_) => String::new(),
    };
    named().iter().map(|(name, fate)| format!("== {name}\n{}", told(fate))).collect::<String>().into_bytes()
}

/// Each file's name, and behind it its listing or why it is refused.
pub fn listed() -> Vec<u8> {
    below_names(flight)
}

/// Each file's name, and behind it its track or why it is refused.
pub fn tracks() -> Vec<u8> {
    below_names(|file, _, _| tracked(&track(file).unwrap()))
}

/// One line of an accepted file; of another why it is refused.
pub fn checked() -> Vec<u8> {
    let check = |(name, fate): &(String, Fate)| match fate {
        Fate::Read { said: Ok(said), .. } => format!("{name}: {}", accepted(said)),
        Fate::Read { file, said: Err(refused), .. } => format!("{name}: {}", explained(file, refused).unwrap()),
        Fate::Unread(_) => String::new(),
    };
    named().iter().map(check).collect::<String>().into_bytes()
}

fn accepted(said: &Accepted) -> String {
    let d = said.date;
    let date = format!("{}-{:02}-{:02}", d.year, d.month, d.day);
    let counts = format!("lines {}, fixes {}, K lines {}, N lines {}", said.lines, said.b_lines, said.k_lines, said.n_lines);
    format!("accepted, {date}, {counts}, {}\n", if said.signed { "signed" } else { "not signed" })
}

/// One line of an accepted file, with its name at the end; of another why it is refused.
pub fn summaries() -> Vec<u8> {
    let line = |(name, fate): &(String, Fate)| match fate {
        Fate::Read { file, said: Ok(said), .. } => format!("{} {name}\n", outlined(&said.date, &track(file).unwrap())),
        Fate::Read { file, said: Err(refused), .. } => format!("{name}: {}", explained(file, refused).unwrap()),
        Fate::Unread(_) => String::new(),
    };
    named().iter().map(line).collect::<String>().into_bytes()
}

/// The badge list: each file's name, and behind it its date, recorder and fixes, or why the strict check refuses it.
pub fn badges() -> Vec<u8> {
    let list = |(name, fate): &(String, Fate)| match fate {
        Fate::Read { file, .. } => format!("{name}: {}", badge(file)),
        Fate::Unread(_) => String::new(),
    };
    named().iter().map(list).collect::<String>().into_bytes()
}

/// What is said on standard error.
pub fn said() -> Vec<u8> {
    let say = |(name, fate): (String, Fate)| if let Fate::Unread(why) = fate { format!("{name}: {why}\n") } else { String::new() };
    named().into_iter().map(say).collect::<String>().into_bytes()
}
