//! Makes what tests run on: tables sound and damaged, event lists, states. All of it follows
//! from a seed, so a failure can be made again.
//!
//! - `dice`: the numbers
//! - `plan`, `tables`, `edges`: sound tables
//! - `records`, `faults`, `channel_ends`, `damage`: damaged tables
//! - `events`, `tested_run`: event records and lists of them
//! - `states`: states in range and out of it

pub mod damage;
pub mod dice;
pub mod edges;
mod ends;
pub mod events;
pub mod faults;
pub mod lists;
pub mod plan;
mod records;
pub mod states;
pub mod tables;

pub use damage::{any_byte, damaged_tables, each_fault, raw_tables};
pub use dice::Dice;
pub use edges::{edge_tables, full_channels, full_tables, window_tables};
pub use lists::{
    fill_list, made_list, mixed_list, near_raw_list, played_list, raw_list, steady_list,
};
pub use plan::Plan;
pub use states::{broken_states, state_in_range, state_near_end, state_out_of_range, turned_state};
pub use tables::valid_tables;
