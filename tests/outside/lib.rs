//! The independent reading of documents 01 and 02, and files to try it on. Uses the standard library alone, and no part of Hivebasket.
//!
//!     reading/    the rules, a concern to a file
//!     files/      files to try it on: valid, damaged, at the limits, with refined fixes, with many fixes; copies of a file with different notes; looks into any entries;
//!                 shelves, sound and spoiled, and calls on them; what is asked of the columns of a whole file, and files with wide ones; damaged H lines; and what a
//!                 run must reach
//!
//! Programs over it, a folder each (tests/outside/build):
//!
//!     worked/     its answers worked out by hand from the document
//!     expected/   what the programs must print (tests/make-expected)
//!     theorems/   generated files as theorems about the definitions (tests/hold-rules)
//!     compare/    the C library held against it (tests/outside/run)
//!     gpsbabel/   the C library beside gpsbabel (tests/outside/with-gpsbabel)

pub mod files;
pub mod options;
pub mod reading;
