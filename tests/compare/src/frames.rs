//! In process: numbers, outcomes, samples and whole states.
//!
//! Records in calls of up to 40 from fresh states, and records from a state each with every field free within the bounds of
//! number 2, now and then just outside.

use std::sync::Mutex;
use std::time::Instant;

use crate::decoders::{self, Decoder};
use crate::options::Options;
use crate::places::{AT_POSTFILTER, FRAME, LEAST, LENGTHS, MOST, NOT_A_RECORD, STATE_NUMBERS, SUBFRAME};
use crate::qdec::driver::outcome::NO_OUTCOME;
use crate::qdec::driver::state;
use crate::random::Random;
use crate::records::{self, Class};
use crate::second::Second;
use crate::{SOURCES, states, workers};

/// Frames or states of a piece of work.
const PIECE: u64 = 500;
/// The outcomes that a frame can have.
const OUTCOMES: usize = NO_OUTCOME as usize;

/// Frames by kind and outcome, and what else was met.
#[derive(Default)]
struct Counts {
    frames: u64,
    states: u64,
    kinds: [[u64; OUTCOMES]; LENGTHS.len()],
    numbers: [u64; NOT_A_RECORD as usize],
    postfilter_off: u64,
}

/// What a decoder hands back.
struct Answer {
    number: u8,
    outcome: u8,
    samples: Vec<i64>,
    state: Vec<i128>,
}

/// Compares the given counts, or until the seconds are over.
pub fn run(options: &Options) -> Result<String, String> {
    let (end, seed, start) = (options.end()?, options.seed()?, Instant::now());
    let default = |count| if end.is_some() { u64::MAX } else { count };
    let frames = options.number("frames")?.unwrap_or(default(20_000));
    let states = options.number("states")?.unwrap_or(default(5_000));
    fresh_states_agree()?;
    let counts = Mutex::new(Counts::default());
    workers::each(|piece| {
        let done = PIECE * (piece / 2);
        if done >= frames.max(states) || end.is_some_and(|end| Instant::now() >= end) {
            return Ok(false);
        }
        let all = if piece % 2 == 0 { frames } else { states };
        let count = PIECE.min(all.saturating_sub(done));
        let mut random = Random(Random(seed.wrapping_add(piece)).next());
        let met = if piece % 2 == 0 { calls(&mut random, count) } else { single(&mut random, count) };
        counts.lock().unwrap().add(&met.map_err(|text| format!("seed {seed}, piece {piece}: {text}"))?);
        Ok(true)
    })?;
    Ok(counts.into_inner().unwrap().text(start.elapsed().as_secs_f64()))
}

/// The second decoder has a fresh state of its own.
fn fresh_states_agree() -> Result<(), String> {
    for postfilter in [false, true] {
        if Second::fresh(postfilter).to_numbers() != state::to_numbers(&state::fresh(postfilter)) {
            return Err(format!("the second's fresh state differs from the Rust's, postfilter {postfilter}"));
        }
    }
    Ok(())
}

/// So many records in calls from fresh states.
fn calls(random: &mut Random, count: u64) -> Result<Counts, String> {
    let mut counts = Counts { frames: count, ..Counts::default() };
    let mut left = count;
    while left > 0 {
        let length = left.min(1 + u64::from(random.below(40)));
        let fresh = state::to_numbers(&state::fresh(random.below(4) > 0));
        one_call(random, fresh, length, &mut counts)?;
        left -= length;
    }
    Ok(counts)
}

/// So many records from states of their own.
fn single(random: &mut Random, count: u64) -> Result<Counts, String> {
    let mut counts = Counts { states: count, ..Counts::default() };
    for _ in 0..count {
        let mut list = states::arbitrary(random);
        if random.below(32) == 0 {
            states::leave_bounds(random, &mut list);
        }
        one_call(random, list, 1, &mut counts)?;
    }
    Ok(counts)
}

/// All decoders from the same state over `length` records; the first difference.
fn one_call(random: &mut Random, list: Vec<i128>, length: u64, counts: &mut Counts) -> Result<(), String> {
    let mut rust = decoders::rust(&list);
    let mut others = decoders::others(&list);
    let mut before = list;
    let mut erased = false;
    for _ in 0..length {
        let class = records::next_class(random, erased);
        erased = class == Class::Erased;
        let record = records::record(random, class);
        let given = samples(random);
        let wanted = answer(&mut rust, &record, &given);
        for (name, other) in &mut others {
            if let Some(text) = difference(&answer(other.as_mut(), &record, &given), &wanted) {
                return Err(format!("{name}: {text}\nrecord {record:?}\nsamples {}\nstate {before:?}", given.len()));
            }
        }
        counts.count(&record, &wanted, before[AT_POSTFILTER] == 0);
        before = wanted.state;
    }
    Ok(())
}

/// Samples before the call: a frame of one value, now and then more or fewer.
fn samples(random: &mut Random) -> Vec<i64> {
    let count = match random.below(64) {
        0 => [0, 1, SUBFRAME, FRAME - 1, FRAME + 1, 2 * FRAME][random.below(6) as usize],
        _ => FRAME,
    };
    vec![random.within(LEAST, MOST); count]
}

fn answer(decoder: &mut dyn Decoder, record: &[u8], given: &[i64]) -> Answer {
    let mut samples = given.to_vec();
    let (number, outcome) = decoder.decode(record, &mut samples);
    Answer { number, outcome, samples, state: decoder.numbers() }
}

/// The first thing that differs from the Rust's answer.
fn difference(got: &Answer, wanted: &Answer) -> Option<String> {
    if got.number != wanted.number {
        return Some(format!("number {}, the Rust {}", got.number, wanted.number));
    }
    if got.outcome != wanted.outcome {
        return Some(format!("outcome {}, the Rust {}", got.outcome, wanted.outcome));
    }
    let (a, b) = (&got.samples, &wanted.samples);
    if let Some(i) = (0..b.len()).find(|&i| a[i] != b[i]) {
        return Some(format!("sample {i}: {}, the Rust {}", a[i], b[i]));
    }
    let (a, b) = (&got.state, &wanted.state);
    let first = (0..STATE_NUMBERS).find(|&i| a[i] != b[i]);
    first.map(|i| format!("state number {i}: {}, the Rust {}", a[i], b[i]))
}

impl Counts {
    fn count(&mut self, record: &[u8], answer: &Answer, postfilter_off: bool) {
        self.numbers[usize::from(answer.number)] += 1;
        self.postfilter_off += u64::from(postfilter_off);
        if answer.number == 0 {
            self.kinds[usize::from(record[0])][usize::from(answer.outcome)] += 1;
        }
    }

    fn add(&mut self, other: &Self) {
        self.frames += other.frames;
        self.states += other.states;
        self.postfilter_off += other.postfilter_off;
        self.kinds.as_flattened_mut().iter_mut().zip(other.kinds.as_flattened()).for_each(|(a, b)| *a += b);
        self.numbers.iter_mut().zip(other.numbers).for_each(|(a, b)| *a += b);
    }

    fn text(&self, seconds: f64) -> String {
        let kind = |lsps: [u64; OUTCOMES]| {
            let [untouched, moved, previous] = lsps;
            format!("{} (LSPs untouched {untouched}, moved {moved}, previous {previous})", lsps.iter().sum::<u64>())
        };
        let [erased, high, low, high_index, low_index] = self.kinds.map(kind);
        let refused: Vec<String> = (1..11).map(|n| format!("{n}: {}", self.numbers[n])).collect();
        format!(
            "compare: {} records in calls and {} from arbitrary states, ours and the second equal with the {} Rust files: \
             High {high}, Low {low}, High by index {high_index}, Low by index {low_index}, erased {erased}, with postfilter \
             off {}; refusals by number {}; {:.0} a second",
            self.frames,
            self.states,
            SOURCES.len(),
            self.postfilter_off,
            refused.join(", "),
            (self.frames + self.states) as f64 / seconds
        )
    }
}
