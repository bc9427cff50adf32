//! Shows that the driver's frame is `decode_params`, and so is the frame's record by LSP index:
//! samples and states over random runs of frames.

use super::super::*;
use super::frame::{Fixed, Frame, lags};
use super::outcome::{erased_outcome, received_outcome};
use super::state;
use crate::numbers::Numbers;
use crate::places::{
    self, LAG_CODE_MOST, LEAST, LONGEST_LAG, MOST, STATE_NUMBERS, TRAIN_LAG, lag_code,
};
use crate::random::Random;
use crate::{record, written};

const SEED: u64 = 7231;

/// What was compared. Pairs count frames with the postfilter off and on, threes by outcome.
#[derive(Default)]
struct Counts {
    runs: u64,
    given_states: u64,
    high: [u64; 2],
    low: [u64; 2],
    erased: [u64; 2],
    high_by_index: u64,
    low_by_index: u64,
    trains: u64,
    codes_without_slots: u64,
    low_past_16_bits: u64,
    received_lsps: [u64; 3],
    erased_lsps: [u64; 3],
    voiced: u64,
    muted: u64,
}

/// Compares `count` received frames and the erased ones between them; the counts, or the first
/// difference.
pub fn run(count: u64) -> Result<String, String> {
    let mut random = Random(SEED);
    let mut counts = Counts::default();
    while received(&counts) < count {
        let left = count - received(&counts);
        one_run(&mut random, &mut counts, left)?;
    }
    Ok(counts.text())
}

/// Received frames so far.
fn received(counts: &Counts) -> u64 {
    counts.high.iter().chain(&counts.low).sum()
}

/// One run from a fresh or a given state: the Rust on one side, on the other the driver by frames,
/// and by records.
fn one_run(random: &mut Random, counts: &mut Counts, most: u64) -> Result<(), String> {
    let numbers = starting_state(random, counts);
    let build = || state::from_numbers(&mut Numbers::from(numbers.clone()));
    let [mut rust, mut driver, mut reader] =
        [(); 3].map(|()| build().expect("the state is in bounds"));
    counts.runs += 1;
    let mut erased = false;
    for _ in 0..most.min(1 + u64::from(random.below(40))) {
        loop {
            erased = random.below(8) < if erased { 5 } else { 1 };
            if !erased {
                break;
            }
            counts.erased(&rust);
            let samples = [
                rust.decode_erased(),
                driver.decode_erased(),
                accepted(&mut reader, &[places::ERASED])?,
            ];
            same("erased", counts, samples, [&rust, &driver, &reader])?;
        }
        let params = random_params(random);
        let frame = looked_up(&params, &driver.prev_lsp);
        let record = record_by_index(&params, &frame);
        counts.received(&frame, &record, rust.postfilter);
        let samples = [
            rust.decode_params(&params),
            driver.decode_frame(&frame),
            match record {
                Some(bytes) => accepted(&mut reader, &bytes)?,
                None => reader.decode_frame(&frame),
            },
        ];
        same("received", counts, samples, [&rust, &driver, &reader])?;
    }
    Ok(())
}

/// The samples of a record, which must not be refused.
fn accepted(state: &mut QSynthesis, bytes: &[u8]) -> Result<[i16; FRAME_SIZE_SAMPLES], String> {
    record::decode(state, bytes).map_err(|number| format!("{bytes:?} is refused with {number}"))
}

/// A fresh state, or one with every field random within the bounds of number 2.
fn starting_state(random: &mut Random, counts: &mut Counts) -> Vec<i128> {
    let postfilter = random.below(2) == 1;
    if random.below(2) == 0 {
        return state::to_numbers(&state::fresh(postfilter));
    }
    counts.given_states += 1;
    let loudness = [0, 9, 900, MOST][random.below(4) as usize];
    let lowest = [0, LEAST][random.below(2) as usize];
    let mut list: Vec<i64> = (0..LPC_ORDER)
        .map(|_| random.within(lowest, MOST))
        .collect();
    if random.below(4) > 0 {
        list.sort();
    }
    list.extend((0..EXC_HIST + 3 * LPC_ORDER).map(|_| random.within(-loudness - 1, loudness)));
    list.extend((0..2).map(|_| random.within(LEAST, MOST)));
    let single = [
        places::GAIN,
        places::LAST_LAG,
        places::BASE_LAG,
        places::TAP_SUM,
        places::UNVOICED_GAIN,
    ];
    list.extend(single.map(|(low, high)| random.within(low, high)));
    list.extend((0..places::TAIL).map(|_| random.within(-loudness - 1, loudness)));
    let run = random.mostly_below(6, &[0, u32::MAX - 1, u32::MAX]);
    list.extend([i64::from(run), i64::from(postfilter)]);
    list.into_iter().map(i128::from).collect()
}

/// A frame of either rate, its words random or at their ends, positions also past the limit.
fn random_params(random: &mut Random) -> SpecFrameParams {
    if random.below(64) == 0 {
        return loudest_low();
    }
    let rate = [PackedRate::High, PackedRate::Low][random.below(2) as usize];
    let [six, five] = [1 << places::PULSES[0], 1 << places::PULSES[1]];
    let mut p = SpecFrameParams::zeroed(rate);
    p.lsp_index = random.mostly_below(1 << 24, &[0, 0xFF_FFFF]);
    for s in 0..SUBFRAMES_PER_FRAME {
        p.acl[s] = match s % 2 {
            0 => random.mostly_below(u32::from(LAG_CODE_MOST) + 1, &lag_codes()),
            _ => random.below(u32::from(places::STEP_MOST) + 1),
        };
        p.gain[s] = random.mostly_below(4096, &[0, 23, 2039, 2047, 2048, 4079, 4080, 4095]);
        p.grid[s] = random.below(2) as u8;
        (p.pos[s], p.psig[s]) = match rate {
            PackedRate::High => {
                let limit = crate::spec_tables::MPMLQ_MAX_POSITION[s];
                let ends = [0, limit - 1, limit, limit + 1, 0xFF_FFFF];
                let pos = random.mostly_below(limit, &ends);
                (pos, random.mostly_below(six, &[0, five - 1, five, six - 1]))
            }
            PackedRate::Low => (
                random.mostly_below(4096, &[0, 4095]),
                random.mostly_below(16, &[0, 15]),
            ),
        };
    }
    p
}

/// Base lag codes at both ends, around the first lag that has no train, and from the longest lag on.
fn lag_codes() -> Vec<u32> {
    let (train, longest) = (lag_code(TRAIN_LAG), lag_code(LONGEST_LAG));
    let above = (train - 1..=train + 1).chain(longest..=LAG_CODE_MOST);
    [0].into_iter().chain(above).map(u32::from).collect()
}

/// A Low frame whose vector leaves 16 bits: pulses at 0, 18, 36 and 54, all positive, with the
/// largest gain and lag 18, so that each adds to the next almost whole.
fn loudest_low() -> SpecFrameParams {
    SpecFrameParams {
        acl: [0, 1, 0, 1],
        gain: [97 * crate::spec_tables::GAIN_TABLE_SIZE + u32::from(places::GAIN_MOST);
            SUBFRAMES_PER_FRAME],
        pos: [2 << 3 | 4 << 6 | 6 << 9; SUBFRAMES_PER_FRAME],
        psig: [15; SUBFRAMES_PER_FRAME],
        ..SpecFrameParams::zeroed(PackedRate::Low)
    }
}

/// The same frame for the driver, its indices looked up by the Rust's own functions.
fn looked_up(p: &SpecFrameParams, prev_lsp: &[i16; LPC_ORDER]) -> Frame {
    let lags = lags(&p.acl);
    let gains: [QGainInfo; SUBFRAMES_PER_FRAME] =
        std::array::from_fn(|s| gain_decode(p.rate, lags[s / 2 * 2], p.gain[s]));
    Frame {
        rate: p.rate,
        candidate: lsp_decode(p.lsp_index, prev_lsp),
        acl: p.acl,
        taps: gains.map(|g| g.taps),
        gain_index: gains.map(|g| g.mgindex as u8),
        fixed: std::array::from_fn(|s| fixed(p, s, lags[s], &gains[s])),
    }
}

/// The frame's record with its LSP index; none where a sign or a value does not fit.
fn record_by_index(p: &SpecFrameParams, frame: &Frame) -> Option<Vec<u8>> {
    let fits = |(fixed, pulses): (&Fixed, u32)| match fixed {
        Fixed::Pulses { psig, .. } => psig >> pulses == 0,
        Fixed::Vector(v) => in_16_bits(v),
    };
    if !frame.fixed.iter().zip(places::PULSES).all(fits) {
        return None;
    }
    let kind = match p.rate {
        PackedRate::High => places::HIGH_INDEX,
        PackedRate::Low => places::LOW_INDEX,
    };
    let index = &p.lsp_index.to_be_bytes()[1..];
    Some(written::record(kind, index, frame))
}

/// Whether a Low vector can stand in a record.
fn in_16_bits(v: &[i32; SUBFRAME_SIZE]) -> bool {
    v.iter().all(|x| i16::try_from(*x).is_ok())
}

/// Pulses as they are; at the low rate the finished vector.
fn fixed(p: &SpecFrameParams, s: usize, lag: i32, g: &QGainInfo) -> Fixed {
    match p.rate {
        PackedRate::High => Fixed::Pulses {
            pos: p.pos[s],
            psig: p.psig[s],
            grid: p.grid[s],
            train: g.train,
        },
        PackedRate::Low => {
            let mut v = acelp_fixed_vector(p.pos[s], p.psig[s], p.grid[s], g.fcb_gain);
            acelp_pitch_enhance(&mut v, lag, g.pgindex);
            Fixed::Vector(v)
        }
    }
}

/// The first difference between the Rust, which stands first, and the driver by frame and by
/// record, if there is one.
fn same(
    kind: &str,
    counts: &Counts,
    samples: [[i16; FRAME_SIZE_SAMPLES]; 3],
    states: [&QSynthesis; 3],
) -> Result<(), String> {
    for (i, by) in [(1, "frame"), (2, "record")] {
        let pair = [(&samples[0], states[0]), (&samples[i], states[i])];
        if let Some(first) = difference(pair) {
            return Err(format!("{kind} {by}, after {}: {first}", counts.text()));
        }
    }
    Ok(())
}

/// The first difference of two frames' samples and of the states after them.
fn difference(pair: [(&[i16; FRAME_SIZE_SAMPLES], &QSynthesis); 2]) -> Option<String> {
    let [a, b] = pair.map(|(samples, _)| samples);
    if let Some(i) = (0..FRAME_SIZE_SAMPLES).find(|&i| a[i] != b[i]) {
        return Some(format!("sample {i}: {} and {}", a[i], b[i]));
    }
    let [a, b] = pair.map(|(_, state)| state::to_numbers(state));
    if let Some(i) = (0..STATE_NUMBERS).find(|&i| a[i] != b[i]) {
        return Some(format!("state number {i}: {} and {}", a[i], b[i]));
    }
    let clamped = pair.iter().all(|(_, state)| state::clamps(state));
    (!clamped).then(|| "the synthesis memory is not clamped".to_string())
}

impl Counts {
    /// Counts an erased frame, from the state before it.
    fn erased(&mut self, state: &QSynthesis) {
        self.erased[usize::from(state.postfilter)] += 1;
        self.erased_lsps[erased_outcome(state) as usize] += 1;
        self.voiced += u64::from(state.classify_erasure_voicing().0);
        self.muted += u64::from(state.erased_run >= crate::tables::ERASURE_MUTE_AFTER_FRAMES);
    }

    /// Counts a received frame, and its record where it has one.
    fn received(&mut self, frame: &Frame, record: &Option<Vec<u8>>, postfilter: bool) {
        let (kind, by_index) = match frame.rate {
            PackedRate::High => (&mut self.high, &mut self.high_by_index),
            PackedRate::Low => (&mut self.low, &mut self.low_by_index),
        };
        kind[usize::from(postfilter)] += 1;
        *by_index += u64::from(record.is_some());
        self.received_lsps[received_outcome(frame) as usize] += 1;
        for (s, fixed) in frame.fixed.iter().enumerate() {
            match fixed {
                Fixed::Pulses { pos, train, .. } => {
                    self.trains += u64::from(*train);
                    let limit = crate::spec_tables::MPMLQ_MAX_POSITION[s];
                    self.codes_without_slots += u64::from(*pos >= limit);
                }
                Fixed::Vector(v) => self.low_past_16_bits += u64::from(!in_16_bits(v)),
            }
        }
    }

    /// All counts in one line.
    fn text(&self) -> String {
        let kind = |pair: [u64; 2]| {
            let [off, on] = pair;
            format!("{} ({on} with postfilter, {off} without)", on + off)
        };
        let lsps = |[untouched, moved, previous]: [u64; 3]| {
            format!("untouched {untouched}, moved {moved}, previous {previous}")
        };
        format!(
            "{}: High {}, Low {}, erased {}; as records High by index {}, Low by index {}; runs {}, \
             {} from given states; trains {}, codes without slots {}, Low vectors past 16 bits {}; \
             received LSPs {}, erased LSPs {}; erased voiced {}, muted {}",
            received(self) + self.erased.iter().sum::<u64>(),
            kind(self.high),
            kind(self.low),
            kind(self.erased),
            self.high_by_index,
            self.low_by_index,
            self.runs,
            self.given_states,
            self.trains,
            self.codes_without_slots,
            self.low_past_16_bits,
            lsps(self.received_lsps),
            lsps(self.erased_lsps),
            self.voiced,
            self.muted
        )
    }
}
