//! The badge list: the records officer's list of files fit for a claim, as the program `badge` prints it.

use super::explained::explained;
use super::file::check_strict_alone;

/// What the list says of a file, behind its name: its date, its recorder, the number of its fixes, and that it is signed; or why the strict check, which it asks for "by
/// name", refuses it. "A: 3 code characters for the maker, 3 for the serial": bytes 2 to 7 of line 1.
pub fn badge(file: &[u8]) -> String {
    match check_strict_alone(file) {
        Err(refused) => explained(file, &refused).unwrap(),
        Ok(said) => {
            let (d, recorder) = (said.date, String::from_utf8_lossy(&file[1..7]));
            format!("{}-{:02}-{:02}, recorder {recorder}, fixes {}, signed\n", d.year, d.month, d.day, said.b_lines)
        }
    }
}
