//! A second implementation of `benchrun`, written from `docs/RULES.md` alone.
//!
//! It exists to check the first one: both read the same sheets, and what they
//! print is compared. It is written to be read next to the rules, so each
//! module follows one of their chapters, and each check carries the number
//! that the rules give it.
//!
//! - [`words`]: integers, capabilities, groups of eight bytes, the orders;
//! - [`instructions`]: the twenty instructions and how an integer holds one;
//! - [`machine`]: one step, and runs;
//! - [`survey`]: what a hand reaches in a memory;
//! - [`sheet`]: what the program reads and prints;
//! - [`stream`]: many sheets in one file, each behind its length;
//! - [`draw`]: sheets drawn at random from a seed.

pub mod draw;
pub mod instructions;
pub mod machine;
pub mod sheet;
pub mod stream;
pub mod survey;
pub mod words;
