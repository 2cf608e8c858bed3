//! Small generated files and the reading's answers on them, by the usual check and by the strict one, as theorems for the prover to compute:
//!     theorems [--seed N] [--files N] [--out FILE]
//! Writes them to FILE, each below a comment that tells its file and answer, and prints how many files of each number there are, and of each field that a refusal names.

use outside::files::Run;
use outside::files::reached::Reached;
use outside::options::Options;
use outside::reading::layouts::FAMILIES;
use outside::reading::{Accepted, Answer, check_strict, check_usual};

/// What every entry of the lent table holds.
const LENT: u32 = 7;

/// No file is longer, and half of those over the lower size are left out, so that the prover has little to compute.
const MOST_BYTES: usize = 700;
const MOSTLY_UNDER: usize = 400;

const TOP: &str = "-- Generated files and the answers expected on them, computed.
use Prim.Native.Nat.{ℕ}
use mathlib.Core.Bool.{Bool, true, false, ◌&&◌}
use mathlib.Core.List.{List, [], ◌∷◌}
use Rattle.std.specs.Prelude.{Some}
use mathlib.Core.Path.{◌≡◌, refl}
use lib.Dec.{eqb}
use lib.ListN.{replicate}
use Rattle.rules.specs.Refusals.{Said, says, refuses}
use Rattle.rules.specs.Layouts.{line_length}
use Rattle.rules.specs.Files.{verdict, table_after}
use Rattle.rules.specs.declared.Flight.{Flight}
use Rattle.rules.specs.declared.Seal.TheVariants as seal
use Rattle.rules.proofs.Computed.{everything}

unfoldable one_if : Bool → ℕ
one_if true = 1
one_if false = 0

unfoldable numbers_of : Said Flight → List ℕ
unfolding line_length one_if
numbers_of (says f) =
    0 ∷ f.lines ∷ f.counts.b ∷ f.counts.k ∷ f.counts.n ∷ f.date.day ∷ f.date.month ∷ f.date.year
        ∷ line_length 36 f.layouts.b ∷ line_length 8 f.layouts.k ∷ line_length 8 f.layouts.n ∷ one_if f.signed ∷ []
numbers_of (refuses n l b) = n ∷ l ∷ b ∷ []

unfoldable same : List ℕ → List ℕ → Bool
same [] [] = true
same [] (y ∷ ys) = false
same (x ∷ xs) [] = false
same (x ∷ xs) (y ∷ ys) = eqb x y && same xs ys
";

/// The numbers that `numbers_of` gives of the same answer.
fn numbers(answer: &Answer<Accepted>) -> Vec<u64> {
    match answer {
        Ok(a) => {
            let [b, k, n] = FAMILIES.map(|family| a.layouts.of(family).length(family) as u64);
            let [day, month, year] = [a.date.day, a.date.month, a.date.year].map(u64::from);
            vec![0, a.lines, a.b_lines, a.k_lines, a.n_lines, day, month, year, b, k, n, a.signed.into()]
        }
        Err(r) => vec![r.number.into(), r.line, r.byte],
    }
}

fn list<T: ToString>(numbers: &[T]) -> String {
    numbers.iter().map(|n| n.to_string() + " ∷ ").collect::<String>() + "[]"
}

/// The theorem that `verdict` and `table_after` give the reading's answers on file k: by the usual check, and by the strict one where that answer is asked for too.
fn theorem(k: u64, file: &[u8], usual: &[u64], strict: Option<&[u64]>, table: &[u32]) -> String {
    let (room, shown) = (table.len(), file.escape_ascii());
    let verdict = |seal: &str, answer: &[u64]| format!("same (numbers_of (verdict seal.{seal} file-{k} (Some {room}))) ({})", list(answer));
    let after = |seal: &str| format!("same (table_after seal.{seal} file-{k} (replicate {room} {LENT})) ({})", list(table));
    let mut held = vec![verdict("Usual", usual), after("Usual")];
    held.extend(strict.into_iter().flat_map(|strict| [verdict("Strict", strict), after("Strict")]));
    format!(
        "
-- file {k}: \"{shown}\", a table of {room} entries: {usual:?}, strictly {strict:?}
file-{k} : List ℕ
file-{k} = {}

held-{k} : ({}) ≡ true
unfolding everything numbers_of same file-{k}
held-{k} = refl
",
        list(file),
        held.join(" && ")
    )
}

fn main() {
    let options = Options::given(300, "Held.antt");
    let run = Run::new(options.seed, 5);
    let mut reached = Reached::default();
    let mut text = TOP.to_string();
    let (mut number, mut kept, mut strictly) = (0, 0, 0);
    while kept < options.files {
        let mut random = run.random(number);
        let made = run.make(&mut random, number);
        number += 1;
        if made.file.len() > MOST_BYTES || made.file.len() > MOSTLY_UNDER && random.once_in(2) {
            continue;
        }
        // The two checks leave the same table. Of those that answer alike one in four is asked for its strict answer too.
        let mut table = vec![LENT; made.entries];
        let [answer, strict] = [check_usual, check_strict].map(|check| check(&made.file, &mut table));
        let strict = (strict != answer || kept % 4 == 0).then(|| numbers(&strict));
        text += &theorem(kept, &made.file, &numbers(&answer), strict.as_deref(), &table);
        reached.add(&made.file, &answer);
        strictly += u64::from(strict.is_some());
        kept += 1;
    }
    std::fs::write(&options.out, text).expect("the theorems can be written");
    println!("{kept} files of seed {}: {} accepted; refused by number: {}", options.seed, reached.accepted, reached.by_number());
    println!("{strictly} of them by the strict check too");
    println!("fields that a refusal names, by number, kind of line and byte: {}", reached.by_field());
}
