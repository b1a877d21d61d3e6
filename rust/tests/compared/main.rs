//! Every call on many inputs, compared with document 01 written once more in Rust.
//!
//! CERAHUPO_SEED repeats a run, CERAHUPO_ROUNDS multiplies the number of inputs.

mod agreed;
mod bits;
mod books;
mod checks;
mod compiling;
mod inputs;
mod listings;
mod program;
mod reference;
mod same_lines;
mod samples;
mod tally;
mod traverses;
mod worked;

#[path = "../../benches/ratios/optimised/mod.rs"]
mod optimised;
