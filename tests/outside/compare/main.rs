//! Holds the library against the independent reading of documents 01 and 02 on generated files, valid and damaged:
//!     compare [--seed N] [--files N] [--out FILE]
//! Stops at the first difference, with that file's bytes, or both copies', or a shelf's and the file's, in FILE. Fails too where some refusal of
//! a file was never met, or some field that a refusal names, or some branch of a call, or some number that it can return, or some operation never asked.

mod columns;
mod count;
mod declaration;
mod grid;
mod headers;
mod hold;
mod kinds;
#[path = "../library.rs"]
mod library;
mod listed;
mod pairs;
mod shelf;
mod summary;
mod track;

use hold::{Held, Tally};
use outside::files::filled::filled;
use outside::files::flights::{any, grown};
use outside::files::generate;
use outside::files::pairs::{Pair, at_limit, many, pair};
use outside::files::random::Random;
use outside::files::reached::Reached;
use outside::files::reached_declared;
use outside::files::reached_grid;
use outside::files::reached_headers;
use outside::files::reached_kinds;
use outside::files::reached_pairs;
use outside::files::reached_shelves;
use outside::files::reached_signed;
use outside::files::reached_summary;
use outside::files::reached_track;
use outside::files::shelf_runs::{self, Broken};
use outside::files::wide::wide;
use outside::files::{Known, Run, examples};
use outside::options::Options;
use outside::reading::{LIMIT, Refusal, check_usual_alone};

/// What was met in a run.
#[derive(Default)]
struct Met {
    tally: Tally,
    reached: Reached,
    ends: reached_signed::Reached,
    pairs: reached_pairs::Reached,
    tracks: reached_track::Reached,
    summaries: reached_summary::Reached,
    shelves: reached_shelves::Reached,
    grids: reached_grid::Reached,
    kinds: reached_kinds::Reached,
    declared: reached_declared::Reached,
    headers: reached_headers::Reached,
    lines: u64,
    aimed: u64,
    /// Counted on with each file: which cases of the calls on a whole file it has.
    turn: u64,
}

/// The calls that tell of a whole file at once, and those on its H lines, which have these bounds.
fn hold_whole(met: &mut Met, file: &[u8], lines: &[(usize, usize)]) -> Held<()> {
    let (tally, turn, said) = (&mut met.tally, met.turn, check_usual_alone(file));
    met.turn += 1;
    grid::file(tally, &mut met.grids, turn, file, &said)?;
    count::file(tally, turn, file, &said)?;
    kinds::file(tally, &mut met.kinds, turn, file)?;
    declaration::file(tally, &mut met.declared, turn, file)?;
    headers::file(tally, &mut met.headers, turn, file, lines)
}

/// Every operation over one file. `thinned`: the readers of a line are asked for one line in so many.
fn hold_file(met: &mut Met, random: &mut Random, file: &[u8], entries: usize, known: Known, thinned: usize) -> Held<()> {
    let (answer, table) = hold::check_usual(&mut met.tally, file, entries)?;
    known.agrees(&answer)?;
    let (strict, _) = hold::check_strict(&mut met.tally, file, entries)?;
    known.strictly().agrees(&strict)?;
    met.ends.add(file, &answer, &strict)?;
    met.aimed += u64::from(matches!(known, Known::Refused(_)));
    met.reached.add(file, &answer);
    met.tally.finer.add_file(file, &answer);
    hold::in_words(&mut met.tally, random, file, &answer)?;
    hold::by_number(&mut met.tally, random, file, &table)?;
    track::file(&mut met.tally, &mut met.tracks, random, file)?;
    summary::file(&mut met.tally, &mut met.summaries, random, file)?;
    let lines = hold::by_stepping(&mut met.tally, random, file)?;
    met.lines += lines.len() as u64;
    hold_whole(met, file, &lines)?;
    let given = hold::layouts(file, &lines);
    for (n, &(start, end)) in lines.iter().enumerate() {
        if n < 200 || random.once_in(thinned) {
            hold::line(&mut met.tally, random, &file[start..end], n + 1, given)?;
        }
    }
    Ok(())
}

/// A check, of either kind, that lends an answer of the wrong length changes nothing.
fn wrong_answers(met: &mut Met, file: &[u8]) -> Held<()> {
    type Answering = fn(&[u8], &mut [u32], &mut [u64]) -> u32;
    let checks: [(&str, Answering); 2] =
        [("hive_check", library::check_usual_answering), ("hive_check_strict", library::check_strict_answering)];
    for (name, check) in checks {
        for length in [0, 1, library::ANSWER - 1, library::ANSWER + 1] {
            let (mut table, mut answer) = ([7; 9], vec![library::BEFORE; length]);
            let number = check(file, &mut table, &mut answer);
            let unchanged = (17, [7; 9], vec![library::BEFORE; length]);
            met.tally.same(name, &format!("an answer of {length}"), number, (number, table, answer), unchanged)?;
        }
    }
    Ok(())
}

/// The listing's file, source document 000's M and N lines, the marked lines, the empty file, a few long ones, one at the limit and one a byte over it.
fn ends(met: &mut Met, seed: u64, out: &str) {
    let mut random = Random::new(seed ^ 0xE4D5);
    for (file, b_lines, n_lines) in [(examples::FIVE, 1, 0), (examples::UNSIGNED, 0, 1)] {
        let known = Known::Counts { lines: 5, b_lines, k_lines: 0, n_lines, signed: true };
        let held = hold_file(met, &mut random, file, 16_384, known, 1);
        stop_at(held, file, out);
    }
    for line in examples::MARKED {
        let held = hold::line(&mut met.tally, &mut random, line, 2, hold::Given { fixes: b"", extras: b"", unsigned: b"" });
        stop_at(held, line, out);
    }
    let nothing = hold_file(met, &mut random, b"", 3, Known::Refused(Refusal::of(1)), 1);
    stop_at(nothing, b"", out);
    for size in [300_000, 1_500_000, LIMIT] {
        let sample = filled(&mut random, size, generate::sample);
        let file = sample.bytes();
        assert_eq!(file.len(), size);
        let held = hold_file(met, &mut random, &file, sample.lines.len() + 3, Known::of(&sample), 50);
        stop_at(held, &file, out);
    }
    let sample = filled(&mut random, LIMIT + 1, generate::sample);
    let over = sample.bytes();
    let held = hold_file(met, &mut random, &over, sample.lines.len(), Known::Refused(Refusal::of(2)), 1000);
    stop_at(held, &over, out);
}

/// Copies of a file, a quarter as many pairs as there are files; then some with many notes, and some at the size limit.
fn copies(met: &mut Met, options: &Options) {
    let mut hold = |pair: &Pair, told: &str| {
        let held = pairs::pair(&mut met.tally, &mut met.pairs, pair);
        let both = [&*pair.first, b"== AND ==", &*pair.second].concat();
        stop_at(held.map_err(|d| format!("pair {told} of seed {}: {d}", options.seed)), &both, &options.out);
    };
    for n in 0..options.files / 4 {
        let mut random = Random::new(options.seed.wrapping_mul(1_000_033).wrapping_add(n));
        hold(&pair(&mut random, 20, n), &n.to_string());
    }
    let mut random = Random::new(options.seed ^ 0x107E5);
    for count in [200, 700, 1_500, 4_000] {
        many(&mut random, count).iter().for_each(|pair| hold(pair, &format!("of {count} notes")));
    }
    at_limit(&mut random).iter().for_each(|pair| hold(pair, "at the limit"));
}

/// Flights with many fixes, and older files that B lines were put into: one of each for so many files.
fn flights(met: &mut Met, options: &Options) {
    for n in 0..options.files / 30 {
        let mut random = Random::new(options.seed.wrapping_mul(1_000_037).wrapping_add(n));
        let flight = any(&mut random);
        let held = summary::flight(&mut met.tally, &mut met.summaries, &flight);
        stop_at(held.map_err(|d| format!("flight {n} of seed {}: {d}", options.seed)), &flight.file, &options.out);
        let grown = grown(&mut random);
        let held = summary::grown(&mut met.tally, &mut met.summaries, &grown);
        stop_at(held.map_err(|d| format!("grown flight {n} of seed {}: {d}", options.seed)), &grown.newer, &options.out);
    }
}

/// Files with wide columns, one for so many files; the first of them with many lines.
fn columned(met: &mut Met, options: &Options) {
    for n in 0..options.files / 40 {
        let rows = if n < 7 { 1_500 } else { 4 };
        let file = wide(&mut Random::new(options.seed.wrapping_mul(1_000_081).wrapping_add(n)), rows);
        let said = check_usual_alone(&file);
        let held = grid::file(&mut met.tally, &mut met.grids, n, &file, &said);
        stop_at(held.map_err(|d| format!("file {n} with wide columns of seed {}: {d}", options.seed)), &file, &options.out);
    }
}

/// Runs of calls on shelves, one for so many files; for every fourth of them calls on shelves that are spoiled in each way; then calls on shelves at the size limit.
fn shelves(met: &mut Met, options: &Options) {
    let Met { tally, shelves, .. } = met;
    let stop = |held: Result<(), Broken>, told: &str| {
        if let Err(broken) = held {
            let both = [&*broken.shelf, b"== AND ==", &*broken.file].concat();
            stop_at(Err(format!("shelf {told} of seed {}: {}", options.seed, broken.difference)), &both, &options.out);
        }
    };
    for n in 0..options.files / 30 {
        let mut random = Random::new(options.seed.wrapping_mul(1_000_039).wrapping_add(n));
        let mut hold = |shelf: &[u8], call: &_, answer: &_, after: &[u8]| shelf::call(tally, shelf, call, answer, after);
        stop(shelf_runs::any(&mut random, shelves, &mut hold), &n.to_string());
        if n % 4 == 0 {
            stop(shelf_runs::on_spoiled(&mut random, shelves, &mut hold), &format!("spoiled behind {n}"));
            stop(shelf::wrong_answers(tally, &mut random), &format!("with wrong answers behind {n}"));
        }
    }
    let mut hold = |shelf: &[u8], call: &_, answer: &_, after: &[u8]| shelf::call(tally, shelf, call, answer, after);
    stop(shelf_runs::at_limit(&mut Random::new(options.seed ^ 0x5E1F), shelves, &mut hold), "at the limit");
}

/// Ends the run at a difference, with the file kept.
fn stop_at(held: Held<()>, file: &[u8], out: &str) {
    if let Err(difference) = held {
        std::fs::write(out, file).expect("the file of the difference can be kept");
        println!("A DIFFERENCE, in the file of {} bytes kept in {out}:\n{difference}", file.len());
        std::process::exit(1);
    }
}

fn main() {
    let options = Options::given(24_000, "difference.igc");
    let mut met = Met::default();
    stop_at(listed::all(&mut met.tally), b"", &options.out);
    ends(&mut met, options.seed, &options.out);
    let run = Run::new(options.seed, 40);
    for n in 0..options.files {
        let mut random = run.random(n);
        let made = run.make(&mut random, n);
        let held = hold_file(&mut met, &mut random, &made.file, made.entries, made.known, 4);
        let held = held.and_then(|()| wrong_answers(&mut met, &made.file)).and_then(|()| track::wrong_answers(&mut met.tally, &made.file));
        stop_at(held.map_err(|d| format!("file {n} of seed {}: {d}", options.seed)), &made.file, &options.out);
    }
    copies(&mut met, &options);
    flights(&mut met, &options);
    columned(&mut met, &options);
    shelves(&mut met, &options);
    tell(&met, &options);
}

/// What was held and reached; fails where something that a run must reach was not.
fn tell(met: &Met, options: &Options) {
    let (accepted, refused) = (met.reached.accepted, met.reached.refused());
    println!(
        "outside: {} files of seed {} ({} lines) answered alike: {accepted} accepted, {refused} refused",
        accepted + refused,
        options.seed,
        met.lines
    );
    println!("outside: {} of the refusals were also known from how the file was made, number, line and byte", met.aimed);
    println!("outside: refusals by number: {}", met.reached.by_number());
    println!("outside: fields that a refusal names, by number, kind of line and byte: {}", met.reached.by_field());
    println!("outside: branches of the rules on layouts: {}", met.reached.by_branch());
    println!("outside: byte values reached as characters: {}", met.reached.by_character());
    println!("outside: where files end: {}", met.ends.told());
    println!("outside: tracks: {}", met.tracks.told());
    println!("outside: summaries: {}", met.summaries.told());
    println!("outside: columns of whole files: {}", met.grids.told());
    println!("outside: kinds of lines: {}", met.kinds.told());
    println!("outside: declarations: {}", met.declared.told());
    println!("outside: H lines: {}", met.headers.told());
    println!("outside: looks: {}", met.tally.looks.told());
    println!("outside: refined fixes: {}", met.tally.finer.told());
    println!("outside: {} pairs of copies brought together, {} refused: {}", met.pairs.merged, met.pairs.refused, met.pairs.told());
    println!("outside: {} calls on shelves good, {} refused: {}", met.shelves.good, met.shelves.refused, met.shelves.told());
    for (operation, count) in &met.tally.answers {
        let numbers: Vec<String> =
            met.tally.refusals.iter().filter(|((o, _), _)| o == operation).map(|((_, n), c)| format!("{n}: {c}")).collect();
        println!("outside: {operation}: {count} answers held ({})", numbers.join(", "));
    }
    let unasked: Vec<&str> = library::OPERATIONS.into_iter().filter(|o| !met.tally.answers.contains_key(o)).collect();
    let (mut never, mut strange) = (met.reached.never(&[]), met.reached.strange());
    let others = [met.pairs.never(true), met.tracks.never(), met.summaries.never(), met.ends.never()];
    never.extend([met.grids.never(), met.declared.never(), met.headers.never()].concat().into_iter().map(str::to_string));
    never.extend(met.kinds.never());
    let (unmet, others_met) = returned(&met.tally);
    never.extend(unmet);
    strange.extend(others_met);
    never.extend(others.concat().into_iter().map(str::to_string));
    never.extend(met.shelves.never(true));
    never.extend(met.tally.looks.never());
    never.extend(met.tally.finer.never());
    if !never.is_empty() || !strange.is_empty() || !unasked.is_empty() || accepted == 0 {
        println!("outside: FAILED: accepted {accepted} files, never met {never:?}, met {strange:?}, never asked {unasked:?}");
        std::process::exit(1);
    }
}

/// Numbers that an operation should have returned and did not, and those that it did and should never.
fn returned(tally: &Tally) -> (Vec<String>, Vec<String>) {
    let (mut never, mut strange) = (Vec::new(), Vec::new());
    for (operation, of_file, own) in library::RETURNED {
        let wanted = [&[0], of_file, own].concat();
        let met: Vec<u32> = tally.refusals.keys().filter(|(o, _)| *o == operation).map(|(_, number)| *number).collect();
        let told = |number: &u32| format!("{number} by {operation}");
        never.extend(wanted.iter().filter(|number| !met.contains(number)).map(told));
        strange.extend(met.iter().filter(|number| !wanted.contains(number)).map(told));
    }
    (never, strange)
}
