//! Test oracle: OxideAV/oxideav-g7231's fixed-point decoder, unchanged, behind a driver.

mod calls;
mod commands;
mod frames;
mod numbers;
#[allow(dead_code)]
mod places;
mod random;
mod record;
mod stubs;
#[cfg(test)]
mod tests;
mod written;

// The five files take `bitreader` and `tables` from the crate's root, and the error type from the
// core crate; the oracle answers to that crate's name itself.
extern crate self as oxideav_core;
pub use stubs::core::{Error, Result};
use stubs::{bitreader, tables};

// The five files, found by build.rs, and `SOURCES`, their bytes.
include!(concat!(env!("OUT_DIR"), "/modules.rs"));

/// Hands over to the commands.
fn main() -> std::process::ExitCode {
    commands::run()
}
