//! The linked kernel beside the plain one: the same calls on the same bytes, compared.
//!
//! - `layout`: a state of the plain kernel as the bytes of include/mueanphrai.h
//! - `guarded`: buffers with watched bytes around them
//! - `outcome`: what a call gives, and how two outcomes differ
//! - `trial`: one case, with a compared call of each kind
//! - `families`: the cases
//! - `seen`: which answers the cases met
//! - `loads`, `measure`, `stack`: what the benchmark runs, and how it measures
//!
//! Where the two differ, either may be wrong: 01 decides.

pub mod families;
pub mod guarded;
pub mod layout;
pub mod loads;
pub mod measure;
pub mod outcome;
pub mod seen;
pub mod stack;
pub mod trial;
