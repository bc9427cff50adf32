//! Child module of the unchanged qdec.rs, so that its private functions and fields can be reached.
// The parent allows dead code for the Rust's sake; the driver does not need that.
#![warn(dead_code)]

pub mod frame;
pub mod layers;
pub mod outcome;
pub mod selfcheck;
pub mod state;
