//! Random cases: programs, traces, tables, records, archives and rings, sound and damaged.

mod beside;
pub mod bodies;
mod callees;
mod chains;
pub mod counters;
pub mod damage;
pub mod elsewhere;
mod exact;
pub mod loops;
pub mod mixes;
mod preview;
pub mod programs;
pub mod records;
pub mod rings;
pub mod targets;
pub mod traces;
pub mod wide;
mod writer;
