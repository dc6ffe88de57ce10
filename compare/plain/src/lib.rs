//! A plain port kernel of document 01 (the law), with the readings of docs/DECISIONS.md.
//!
//! It is written apart from the proved kernel, to be compared with it: nothing is proved here,
//! and nothing is assumed but these two pages.
//!
//! - `judge`: the verdict on tables, refusals 20 to 26
//! - `tables`: accepted tables parsed once into rows
//! - `state`: the state, its stores, test 29, sameness
//! - `codes`: event codes, return codes, doers, and what each code needs
//! - `services`: codes 1 to 12
//! - `kernel`: one step, a run, the reader of answers
//! - `runner`: the runner program
//! - `make`: tables, event lists and states to test with

pub mod bytes;
pub mod codes;
pub mod judge;
pub mod kernel;
pub mod make;
pub mod runner;
pub mod services;
pub mod state;
pub mod tables;

pub use judge::{judge, Verdict};
pub use kernel::{run, step, stretch};
pub use state::{in_range, same, Port, State};
pub use tables::Prepared;
