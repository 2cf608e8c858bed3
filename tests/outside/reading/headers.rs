//! An H line taken apart, by the rule of those behind the second line.

use super::lines::header;
use super::places::Part;
use super::readers::reader;
use super::refusals::Answer;

/// "F or O, 3 code characters, text."
#[derive(Clone, Copy, PartialEq, Eq, Debug)]
pub struct Header {
    pub source: u8,
    pub code: [u8; 3],
    pub text: Part,
}

/// The second line, with its FDTE, keeps this rule too.
pub fn read_header(line: &[u8]) -> Answer<Header> {
    reader(line, b'H', true, header)?;
    let text = Part { start: 5, length: line.len() - 5 };
    Ok(Header { source: line[1], code: [line[2], line[3], line[4]], text })
}
