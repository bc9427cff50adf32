//! Compares three decoders: the Rust, ours, and a second one in C.
//!
//!   compare frames [--frames N] [--states N] [--seconds S] [--seed X]
//!   compare lines [--lines N] [--seconds S] [--seed X] [--keep DIRECTORY] NAME=COMMAND NAME=COMMAND..
//!
//! `frames` compares in process: numbers, outcomes, samples and whole states. `lines` runs programs `frames` over the same
//! text; the first program named is the one that the others are compared with. A difference ends either with the smallest thing
//! that differs and status 1.

#[allow(dead_code)]
#[path = "../../oracle/src/numbers.rs"]
mod numbers;
#[allow(dead_code)]
#[path = "../../oracle/src/places.rs"]
mod places;
#[allow(dead_code)]
#[path = "../../oracle/src/random.rs"]
mod random;
#[allow(dead_code)]
#[path = "../../oracle/src/record.rs"]
mod record;
#[path = "../../oracle/src/stubs/mod.rs"]
mod stubs;

mod calls;
mod decoders;
mod faults;
mod frames;
mod lines;
mod options;
mod ours;
mod programs;
mod records;
mod second;
mod states;
mod tally;
mod workers;

use std::process::ExitCode;

// The five files take `bitreader` and `tables` from the crate's root, and the error type from the
// core crate; this crate answers to that crate's name itself.
extern crate self as oxideav_core;
pub use stubs::core::{Error, Result};
use stubs::{bitreader, tables};

// The five files, found by the oracle's build script, and `SOURCES`, their bytes.
include!(concat!(env!("OUT_DIR"), "/modules.rs"));

use options::Options;

fn main() -> ExitCode {
    let mut words = std::env::args().skip(1);
    let command = words.next().unwrap_or_default();
    let done = match (command.as_str(), Options::read(words)) {
        ("frames", Some(options)) => frames::run(&options),
        ("lines", Some(options)) => lines::run(&options),
        _ => {
            eprintln!("usage: compare frames|lines [--OPTION VALUE].. [NAME=COMMAND]..");
            return ExitCode::from(2);
        }
    };
    match done {
        Ok(text) => {
            println!("{text}");
            ExitCode::SUCCESS
        }
        Err(difference) => {
            println!("compare: {difference}");
            ExitCode::FAILURE
        }
    }
}
