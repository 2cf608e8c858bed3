//! The rules of document 01, with the requests of document 02 that have landed, read independently, in plain Rust: what a file, a line, a column says, or which refusal it
//! meets. Written from the documents and from the list of open points alone, so that a mistake in the library's own definitions is not made here again. A sentence in
//! quotation marks is a document's. Where document 01 says "7 to 13", 22 to 25 stand in 9's place.
//!
//! What no document asks for, grid, kinds, declared, headers and numbered, is written from the words of c/hivebasket.h on hive_columns, hive_kinds, hive_declaration,
//! hive_header and hive_listed, and quotes these.

pub mod badge;
pub mod characters;
pub mod declared;
pub mod degrees;
pub mod explained;
pub mod fields;
pub mod file;
pub mod finer;
pub mod given;
pub mod grid;
pub mod headers;
pub mod kinds;
pub mod layouts;
pub mod lines;
pub mod listing;
pub mod look;
pub mod merge;
pub mod numbered;
pub mod outlined;
pub mod places;
pub mod readers;
pub mod refusals;
pub mod shelf;
pub mod summary;
pub mod track;
pub mod tracked;
pub mod writers;

pub use badge::badge;
pub use declared::{Declared, declared, declared_into};
pub use degrees::degrees;
pub use explained::{explained, name};
pub use fields::{Date, Position};
pub use file::{Accepted, LIMIT, check_strict, check_strict_alone, check_usual, check_usual_alone};
pub use finer::Finer;
pub use given::{column_given, layout_given, write_extra_given, write_layout_given};
pub use grid::{NO_NUMBER, grid, grid_into};
pub use headers::{Header, read_header};
pub use kinds::{NOTE, kinds, kinds_into};
pub use layouts::{Entry, Family, LISTED, Layout, Layouts, Listed};
pub use lines::{Fix, Head, Point, Role};
pub use look::{MOST_ENTRIES, look, look_number};
pub use merge::{Unmerged, Which, merge, merge_into};
pub use numbered::listed_at;
pub use outlined::outlined;
pub use places::{Part, line, lines_of, step};
pub use readers::{WithColumns, read_date, read_event, read_extra, read_fix, read_head, read_layout, read_point, read_satellites};
pub use refusals::{Answer, Fault, Read, Refusal};
pub use summary::{summary, summary_into};
pub use track::{Record, track, track_into};
pub use tracked::tracked;
pub use writers::{write_extra, write_fix, write_head, write_layout, write_point};
