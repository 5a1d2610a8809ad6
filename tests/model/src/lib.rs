//! An independent model of document 01: sheets, saves and nodes, with the requests of document 02.
//!
//! It is written for reading, not for speed: a queue is a vector of entries, a save is a struct,
//! and every rule of the paper stands in one place. The engine is compared with it, so it shares
//! no code with the engine.

pub mod answers;
pub mod causes;
pub mod command;
pub mod counters;
pub mod demand3;
pub mod engine;
pub mod generate;
pub mod lists;
pub mod neighbours;
pub mod prng;
pub mod report;
pub mod room;
pub mod serial;
pub mod session;
pub mod state_laws;
pub mod state_lines;
pub mod state_text;
pub mod states;
pub mod unchanged;
pub mod wide;
pub mod writing;

#[cfg(test)]
mod answers_cases;
#[cfg(test)]
mod cases;
#[cfg(test)]
mod causes_cases;
#[cfg(test)]
mod counters_cases;
#[cfg(test)]
mod neighbours_cases;
#[cfg(test)]
mod state_laws_cases;
#[cfg(test)]
mod state_text_cases;
#[cfg(test)]
mod unchanged_cases;
#[cfg(test)]
mod wide_cases;
#[cfg(test)]
mod writing_cases;
