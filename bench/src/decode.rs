//! Decode alone: bytes of a record to samples, for both with the tests of numbers 2 to 10 and without text. Ours is called
//! through a door that copies the state in and out for every frame, and says what stabilising did; the Rust changes its own in
//! place, and is timed without the outcome, which it does not say.

use std::hint::black_box;
use std::time::Instant;

use crate::calls::{self, Records};
use crate::numbers::Numbers;
use crate::ours::Ours;
use crate::places::FRAME;
use crate::qdec::QSynthesis;
use crate::qdec::driver::state;
use crate::{record, rounds};

/// Records from a state, as its numbers.
struct Run {
    start: Vec<i128>,
    records: Records,
}

pub fn run(samples: &str) -> Result<(), String> {
    println!("decode alone, a frame; ours copies its state in and out:");
    for (name, records) in calls::all(samples)? {
        let runs = if name == "erased" { losses(&records) } else { vec![Run { start: fresh(), records }] };
        check(name, &runs)?;
        let count = runs.iter().map(|run| run.records.len()).sum();
        rounds::compare(name, count, || ours_time(&runs), || rust_time(&runs));
    }
    Ok(())
}

fn fresh() -> Vec<i128> {
    state::to_numbers(&state::fresh(true))
}

fn rust_state(run: &Run) -> QSynthesis {
    state::from_numbers(&mut Numbers::from(run.start.clone())).expect("a state")
}

/// The erased frames alone, from the states in which the received frames before them leave the Rust.
fn losses(records: &Records) -> Vec<Run> {
    let mut current = state::fresh(true);
    let mut runs: Vec<Run> = Vec::new();
    for bytes in records {
        if bytes.len() > 1 {
            runs.push(Run { start: Vec::new(), records: Records::new() });
        }
        record::decode(&mut current, bytes).expect("an accepted record");
        let run = runs.last_mut().expect("a received frame first");
        if bytes.len() > 1 {
            run.start = state::to_numbers(&current);
        } else {
            run.records.push(bytes.clone());
        }
    }
    runs
}

/// Both give equal outcomes and samples.
fn check(name: &str, runs: &[Run]) -> Result<(), String> {
    for run in runs {
        let (mut ours, mut rust) = (Ours::from_numbers(&run.start), rust_state(run));
        for (i, bytes) in run.records.iter().enumerate() {
            let mut samples = [0; FRAME];
            let (number, outcome) = ours.decode(bytes, &mut samples);
            let wanted = record::decode_with_outcome(&mut rust, bytes).map(|(outcome, samples)| (outcome as u8, samples));
            if number != 0 || wanted != Ok((outcome, samples)) {
                return Err(format!("{name}: record {i} has another outcome or other samples, or number {number}"));
            }
        }
        if ours.to_numbers() != state::to_numbers(&rust) {
            return Err(format!("{name}: the states differ"));
        }
    }
    Ok(())
}

/// Seconds for all runs, without setting up their states.
fn ours_time(runs: &[Run]) -> f64 {
    let mut states: Vec<Ours> = runs.iter().map(|run| Ours::from_numbers(&run.start)).collect();
    let mut samples = [0; FRAME];
    let start = Instant::now();
    for (state, run) in states.iter_mut().zip(runs) {
        for bytes in &run.records {
            black_box(state.decode(black_box(bytes), &mut samples));
            black_box(&samples);
        }
    }
    start.elapsed().as_secs_f64()
}

fn rust_time(runs: &[Run]) -> f64 {
    let mut states: Vec<QSynthesis> = runs.iter().map(rust_state).collect();
    let start = Instant::now();
    for (state, run) in states.iter_mut().zip(runs) {
        for bytes in &run.records {
            let _ = black_box(record::decode(state, black_box(bytes)));
        }
    }
    start.elapsed().as_secs_f64()
}
