//! The refusals: document 01's table, document 02's new numbers, and how an answer carries one.

/// A row for each refusal: its number, its name, and when it is given. 22 to 25 say which field is bad, "all with 9's line, byte and place in the order".
macro_rules! refusals {
    ($($number:literal $name:ident $given_when:literal)*) => {
        $(pub const $name: u32 = $number;)*
        pub const REFUSALS: &[(u32, &str, &str)] = &[$(($number, stringify!($name), $given_when)),*];
    };
}

refusals! {
    1 EMPTY "no bytes"
    2 TOO_LONG "over the limit"
    3 LINE_END "first CR or LF is not CR LF, or none comes"
    4 EMPTY_LINE "length 0"
    5 KIND "first byte not A to Z"
    6 ORDER "kind not allowed here"
    7 LENGTH "outside its limits"
    8 CHARACTER "first invalid one"
    9 FORM "first field against its rule"
    10 TILE "SS or FF wrong"
    11 TWICE "code again"
    12 WIDTH "listed code, wrong width"
    13 COLUMN "listed column against its rule"
    14 BACK "time falls"
    15 TABLE_FULL "good line, no entry left"
    16 ENDS_EARLY "end inside a declaration, before line 2, or in the strict check without G"
    17 BAD_VALUE "value, layout, line number or place given is not allowed"
    18 NO_ROOM "output shorter than place + length + 2"
    19 ABSENT "code (any 3 bytes) not in the layout"
    20 NOT_NUMBER "column is no such number"
    21 INPUT_OVER "program's input over 65,536 bytes"
    22 TIME "time field against its rule"
    23 POSITION "latitude or longitude against its rule"
    24 ALTITUDE "altitude against its rule"
    25 DATE "date against its rule"
    26 NOT_SAME "files differ before the end of the last G line"
    27 SHELF "buffer breaks the rules of a shelf"
    28 ID "flight number is 0 or in use"
    29 ENTRIES "no entry is free"
    30 NO_RUN "no free run is long enough"
    31 NOT_FOUND "flight number is 0 or not held"
}

#[derive(Clone, Copy, PartialEq, Eq, Debug)]
pub struct Refusal {
    pub number: u32,
    pub line: u64,
    pub byte: u64,
}

pub type Answer<T> = Result<T, Refusal>;

impl Refusal {
    /// A refusal of no line: line 0, byte 0.
    pub const fn of(number: u32) -> Refusal {
        Refusal { number, line: 0, byte: 0 }
    }
}

/// What is wrong in a line: the number and the byte. Which line it is, is known to who asks.
#[derive(Clone, Copy, PartialEq, Eq, Debug)]
pub struct Fault {
    pub number: u32,
    pub byte: usize,
}

pub type Read<T> = Result<T, Fault>;

impl Fault {
    pub fn at(self, line: u64) -> Refusal {
        Refusal { number: self.number, line, byte: self.byte as u64 }
    }
}

pub fn refuse<T>(number: u32, byte: usize) -> Read<T> {
    Err(Fault { number, byte })
}
