//! The independent second program: all that document 01 describes, on bytes,
//! in plain Rust. It is written to be read beside document 01 and believed;
//! where document 01 leaves a point open it follows READINGS.
//!
//! From below: `names`; `script_form`, `script`, `net_form`, `net` (bytes and
//! their form); `rule` (the forward rules); `dependence`; `accept` (the
//! clauses of acceptance); `step`, `rollback`, `machine` (steps, rollback,
//! checks, finder, helpers); `program` (`rewind`). Beside them: `text_read` and `text_write` (the
//! language of `make` and `show`), `dot`, `gen`, `claims`, `against`, `form_cases`, `trials`
//! with `trial_stream` above `trial_nets`, `trial_changes` and `trial_requests`, and `calls`
//! with `call_stream` above `call_nets`.
#![forbid(unsafe_code)]

pub mod accept;
pub mod against;
pub mod answer;
pub mod arbitrary;
pub mod call_nets;
pub mod call_stream;
pub mod calls;
pub mod cases;
pub mod claims;
pub mod crc32;
pub mod damage;
pub mod dependence;
pub mod dot;
pub mod fault;
#[cfg(test)]
mod fault_tests;
pub mod form_cases;
pub mod gen;
pub mod machine;
pub mod names;
pub mod net;
pub mod net_form;
pub mod program;
pub mod random;
pub mod recipes;
pub mod request;
pub mod rollback;
pub mod rule;
pub mod script;
pub mod script_form;
pub mod step;
pub mod tally;
pub mod text_read;
pub mod text_write;
pub mod trial_changes;
mod trial_edits;
pub mod trial_nets;
pub mod trial_requests;
mod trial_site;
pub mod trial_stream;
pub mod trials;
pub mod walk;
