//! Child module of the unchanged qdec.rs, so that its private functions can be timed, with the oracle's frame and state.

#[path = "../../../tests/oracle/src/driver/frame.rs"]
pub mod frame;
mod layers;
#[allow(dead_code)]
#[path = "../../../tests/oracle/src/driver/outcome.rs"]
pub mod outcome;
#[allow(dead_code)]
#[path = "../../../tests/oracle/src/driver/state.rs"]
pub mod state;

use std::cell::RefCell;
use std::collections::BTreeSet;
use std::hint::black_box;
use std::time::{Duration, Instant};

use super::*;
use crate::places::{HISTORY, LEAST, LONGEST_LAG, MOST, PULSES, SHORTEST_LAG, SLOTS};
use crate::random::Random;
use crate::spec_tables::fcbk_pack_positions;
use layers::*;

const INPUTS: usize = 2000;
const ROUNDS: usize = 15;

/// What a subframe is asked with. The signal and `hist` with `frame` hold the same samples.
struct Input {
    signal: [i16; SIGNAL],
    hist: [i32; HISTORY],
    frame: [i32; FRAME_SIZE_SAMPLES],
    number: usize,
    lag: i32,
    rate: PackedRate,
    taps: [i16; ACB_TAPS],
    fixed: [i32; SUBFRAME_SIZE],
    a: [i16; LPC_ORDER],
    mem: [i16; LPC_ORDER],
    y: [i16; SUBFRAME_SIZE],
    u: [i32; SUBFRAME_SIZE],
}

/// A voiced or an unvoiced stretch at a random level, with what else a subframe takes.
fn input(random: &mut Random) -> Input {
    let lag = (SHORTEST_LAG + random.below(LONGEST_LAG + 1 - SHORTEST_LAG)) as i32;
    let level = 1 << (4 + random.below(10));
    let voiced = random.below(4) > 0;
    let mut noise = |size: i32| random.below(2 * size as u32 + 1) as i32 - size;
    let mut signal = [0i16; SIGNAL];
    for i in 0..SIGNAL {
        let past = match i.checked_sub(lag as usize) {
            Some(before) if voiced => signal[before] as i32 * 7 / 8,
            _ => 0,
        };
        signal[i] = (past + noise(level)).clamp(LEAST as i32, MOST as i32) as i16;
    }
    let wide = signal.map(i32::from);
    Input {
        signal,
        hist: wide[..HISTORY].try_into().unwrap(),
        frame: wide[HISTORY..].try_into().unwrap(),
        taps: std::array::from_fn(|_| noise(6000) as i16),
        fixed: std::array::from_fn(|_| noise(level)),
        a: std::array::from_fn(|k| noise(9000 >> (k / 2)) as i16),
        mem: std::array::from_fn(|_| noise(level) as i16),
        y: std::array::from_fn(|_| noise(level) as i16),
        u: std::array::from_fn(|_| noise(level)),
        number: random.below(SUBFRAMES_PER_FRAME as u32) as usize,
        rate: [PackedRate::High, PackedRate::Low][random.below(2) as usize],
        lag,
    }
}

/// A set of five or six slots in ascending order.
fn slots(random: &mut Random) -> Vec<usize> {
    let count = PULSES[random.below(2) as usize];
    let mut set = BTreeSet::new();
    while set.len() < count as usize {
        set.insert(random.below(SLOTS as u32) as usize);
    }
    set.into_iter().collect()
}

/// The time that a function takes over all inputs.
fn elapsed<I, T>(inputs: &[I], f: &impl Fn(&I) -> T) -> Duration {
    let start = Instant::now();
    for input in inputs {
        black_box(f(black_box(input)));
    }
    start.elapsed()
}

/// Compares both functions' answers, then times them in turn; a line with the shortest times and their ratio.
fn compare<I, T: PartialEq>(
    name: &str,
    inputs: &[I],
    ours: impl Fn(&I) -> T,
    rust: impl Fn(&I) -> T,
) {
    for (i, input) in inputs.iter().enumerate() {
        assert!(ours(input) == rust(input), "{name}: input {i}");
    }
    let mut best = [Duration::MAX; 2];
    for _ in 0..ROUNDS {
        best[0] = best[0].min(elapsed(inputs, &ours));
        best[1] = best[1].min(elapsed(inputs, &rust));
    }
    let [ours, rust] = best.map(|time| time.as_nanos() as f64 / inputs.len() as f64);
    println!(
        "{name:22} ours {ours:6.0} ns, the Rust {rust:6.0} ns, {:.2} times its speed",
        rust / ours
    );
}

/// Times each function.
pub fn run() {
    let mut random = Random(7231);
    let inputs: Vec<Input> = (0..INPUTS).map(|_| input(&mut random)).collect();

    // Ours reads the history before subframe 0 of the signal.
    compare(
        "acb_contribution",
        &inputs,
        |i| {
            let mut u = [0; SUBFRAME_SIZE];
            layer_acb_contribution(&i.signal, 0, i.lag, &i.taps, &mut u);
            u
        },
        |i| acb_contribution(&i.hist, i.lag, &i.taps),
    );
    let signal = RefCell::new([0; SIGNAL]);
    let state = RefCell::new(QSynthesis::new());
    compare(
        "push_excitation",
        &inputs,
        |i| ours_pushed(&mut signal.borrow_mut(), i),
        |i| rust_pushed(&mut state.borrow_mut(), i),
    );
    compare(
        "synthesis_subframe",
        &inputs,
        ours_synthesised,
        rust_synthesised,
    );
    compare(
        "pitch_postfilter",
        &inputs,
        |i| {
            let mut out = [0; SUBFRAME_SIZE];
            let low = i.rate == PackedRate::Low;
            layer_pitch_postfilter(&i.signal, i.number as u8, i.lag, low, &mut out);
            out
        },
        |i| pitch_postfilter(&i.hist, &i.frame, i.number * SUBFRAME_SIZE, i.lag, i.rate),
    );
    compare(
        "formant_agc_subframe",
        &inputs,
        ours_filtered,
        rust_filtered,
    );
    let sets: Vec<Vec<usize>> = (0..INPUTS).map(|_| slots(&mut random)).collect();
    compare(
        "fcbk_pack_positions",
        &sets,
        |set| layer_pack(set),
        |set| fcbk_pack_positions(set).unwrap_or(u32::MAX),
    );
}

/// The sum of both vectors, pushed to a signal that is kept from call to call.
fn ours_pushed(signal: &mut [i16; SIGNAL], i: &Input) -> [i16; SUBFRAME_SIZE] {
    layer_push_excitation(signal, 0, &i.u, &i.fixed);
    signal[HISTORY..HISTORY + SUBFRAME_SIZE].try_into().unwrap()
}

/// The lines of `decode_params` between the adaptive part and the push, and the push.
fn rust_pushed(state: &mut QSynthesis, i: &Input) -> [i16; SUBFRAME_SIZE] {
    let mut exc = [0; SUBFRAME_SIZE];
    for n in 0..SUBFRAME_SIZE {
        let e = i.u[n].saturating_add(i.fixed[n]);
        exc[n] = e.clamp(-EXC_RAIL - 1, EXC_RAIL);
    }
    state.push_excitation(&exc);
    std::array::from_fn(|n| state.exc_hist[EXC_HIST - SUBFRAME_SIZE + n] as i16)
}

/// The subframe and the memory after it.
fn ours_synthesised(i: &Input) -> ([i16; SUBFRAME_SIZE], [i32; LPC_ORDER]) {
    let mut mem = i.mem;
    let mut out = [0; SUBFRAME_SIZE];
    layer_synthesis_subframe(&i.a, &i.fixed, &mut mem, &mut out);
    (out, mem.map(i32::from))
}

fn rust_synthesised(i: &Input) -> ([i16; SUBFRAME_SIZE], [i32; LPC_ORDER]) {
    let mut mem = i.mem.map(i32::from);
    let mut out = [0; SUBFRAME_SIZE];
    synthesis_subframe(&i.a, &i.fixed, &mut mem, &mut out, true);
    (out, mem)
}

type Filtered = (
    [i16; SUBFRAME_SIZE],
    [i16; LPC_ORDER],
    [i16; LPC_ORDER],
    [i16; 2],
    i32,
);

/// The subframe and the memory after it.
fn ours_filtered(i: &Input) -> Filtered {
    let (mut num, mut den, mut tilt, mut gain) = (i.mem, i.mem, [i.mem[0], 9000], [4096]);
    let mut out = [0; SUBFRAME_SIZE];
    layer_formant_agc_subframe(
        &mut num, &mut den, &mut tilt, &mut gain, &i.a, &i.y, &mut out,
    );
    (out, num, den, tilt, gain[0])
}

fn rust_filtered(i: &Input) -> Filtered {
    let mut pf = PostfilterState::new();
    (pf.num_mem, pf.den_mem, pf.tilt_prev, pf.tilt_k1) = (i.mem, i.mem, i.mem[0], 9000);
    let mut out = [0; SUBFRAME_SIZE];
    pf.formant_agc_subframe(&i.a, &i.y, &mut out);
    (
        out,
        pf.num_mem,
        pf.den_mem,
        [pf.tilt_prev, pf.tilt_k1],
        pf.agc_gain_q12,
    )
}
