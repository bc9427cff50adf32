//! Times our code beside the Rust on the same inputs, after comparing their answers.
//!
//!   bench layers                      the functions of a subframe and the packing of slots, those of layers.rt.in
//!   bench decode SAMPLES              decode alone, through the door of tests/compare/ours.rt.in
//!   bench programs SAMPLES LINES OURS whole programs: OURS, and this one's `frames`; LINES is a directory for their input
//!   bench frames                      document 01's program over the Rust

#[allow(dead_code)]
#[path = "../../tests/oracle/src/numbers.rs"]
mod numbers;
#[path = "../../tests/compare/src/ours.rs"]
mod ours;
#[allow(dead_code)]
#[path = "../../tests/oracle/src/places.rs"]
mod places;
#[allow(dead_code)]
#[path = "../../tests/oracle/src/random.rs"]
mod random;
#[path = "../../tests/oracle/src/record.rs"]
mod record;
#[path = "../../tests/oracle/src/stubs/mod.rs"]
mod stubs;

mod calls;
mod decode;
mod frames;
mod programs;
mod rounds;

// The five files take `bitreader` and `tables` from the crate's root, and the error type from the
// core crate; the bench answers to that crate's name itself.
extern crate self as oxideav_core;
pub use stubs::core::{Error, Result};
use stubs::{bitreader, tables};

// The five files, found by the oracle's build script, and `SOURCES`, their bytes.
include!(concat!(env!("OUT_DIR"), "/modules.rs"));

fn main() -> std::process::ExitCode {
    let words: Vec<String> = std::env::args().skip(1).collect();
    let words: Vec<&str> = words.iter().map(String::as_str).collect();
    let done = match words.as_slice() {
        ["layers"] => {
            println!("timed: {} Rust files beside layers.rt.in", SOURCES.len());
            qdec::driver::run();
            Ok(())
        }
        ["decode", samples] => decode::run(samples),
        ["programs", samples, lines, ours] => programs::run(samples, lines, ours),
        ["frames"] => frames::run().map_err(|error| error.to_string()),
        _ => Err("usage: bench layers | decode SAMPLES | programs SAMPLES LINES OURS | frames".to_string()),
    };
    match done {
        Ok(()) => std::process::ExitCode::SUCCESS,
        Err(message) => {
            eprintln!("bench: {message}");
            std::process::ExitCode::FAILURE
        }
    }
}
