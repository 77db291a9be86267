//! Tests the tool-log library from outside: documents 01 and 02, as far as R-9, in plain Rust,
//! apart from the library (`oracle`, `writing`, `supplemental`, `losses`, `credited`, `joined`, `packed`), a seeded generator of logs, of
//! runs of calls that write them, of lookups in them, of benchmarks, of pairs to join and of logs to pack, and the comparison with the linked library.

pub mod answer;
pub mod arguments;
pub mod credited;
pub mod draft;
pub mod generator;
pub mod joined;
pub mod joined_comparison;
pub mod joins;
pub mod losses;
pub mod oracle;
pub mod packed;
pub mod packed_comparison;
pub mod packings;
pub mod prng;
pub mod records;
pub mod said;
pub mod supplemental;
pub mod tally;
pub mod tiny;
pub mod writing;

#[cfg(feature = "library")]
pub mod comparison;
#[cfg(feature = "library")]
pub mod library;
#[cfg(feature = "library")]
pub mod writing_comparison;
