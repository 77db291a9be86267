//! Plain Rust programs that make a whole report, write a log, join two or pack one, to measure the library against.

pub mod joining;
pub mod logs;
pub mod packing;
mod parts;
pub mod sorted;
pub mod walk;
pub mod writing;
