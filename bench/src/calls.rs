//! The calls that are timed, all of speech: the message in samples/, and calls made of its frames.

use std::fs;

use crate::places::*;
use crate::qdec::mpmlq_fixed_vector;
use crate::random::Random;
use crate::record::{three_bytes, words};
use crate::spec_lsp::{lsp_dc_freq, quantise_lsp_freq};
use crate::spec_tables::fixed_codebook_gain;

pub type Records = Vec<Vec<u8>>;

/// Passes over the message that a call is made of.
const PASSES: usize = 5;

/// Each class with its call.
pub fn all(samples: &str) -> Result<Vec<(&'static str, Records)>, String> {
    let message = read(&format!("{samples}/message.hex"))?;
    let lost = read(&format!("{samples}/message-lost.hex"))?;
    let random = &mut Random(7231);
    let repeated = |call: &Records| -> Records { call.iter().cycle().take(PASSES * call.len()).cloned().collect() };
    let high: Records = repeated(&message).iter().map(|record| other_pulses(random, record)).collect();
    let low: Records = high.iter().map(|record| to_low(record)).collect();
    let mixed = mix(random, &high, &low);
    let (high_index, low_index) = (by_index(&high), by_index(&low));
    Ok(vec![
        ("High", high),
        ("Low", low),
        ("High by index", high_index),
        ("Low by index", low_index),
        ("mixed", mixed),
        ("erased", message.iter().flat_map(|record| [record.clone(), vec![ERASED], vec![ERASED], vec![ERASED]]).collect()),
        ("message", repeated(&message)),
        ("message lost", repeated(&lost)),
    ])
}

/// The records of a file of lines.
fn read(file: &str) -> Result<Records, String> {
    let text = fs::read_to_string(file).map_err(|error| format!("{file}: {error}"))?;
    let byte = |line: &str, at: usize| u8::from_str_radix(line.get(at..at + 2)?, 16).ok();
    let record = |line: &str| (0..line.len()).step_by(2).map(|at| byte(line, at)).collect::<Option<Vec<u8>>>();
    text.lines().map(record).collect::<Option<Records>>().ok_or(format!("{file}: not lines of digit pairs"))
}

/// The frame with other pulses of the same gains: its positions and signs are drawn anew.
fn other_pulses(random: &mut Random, record: &[u8]) -> Vec<u8> {
    let mut out = record.to_vec();
    for s in 0..SUBFRAMES {
        let block = &mut fields(&mut out)[block_place(HIGH, s)..][..HIGH_BLOCK];
        block[BLOCK_SIGNS] = random.below(1 << PULSES[s]) as u8;
        block[BLOCK_CODE..].copy_from_slice(&random.below(CODE_LIMITS[s]).to_be_bytes()[1..]);
    }
    out
}

/// The same frame at the low rate: its fixed vectors as sixty values each.
fn to_low(record: &[u8]) -> Vec<u8> {
    let (head, fields) = record.split_at(HEAD_VALUES);
    let mut out = [head, &fields[..FIELD_BLOCKS]].concat();
    out[0] = LOW;
    for s in 0..SUBFRAMES {
        let block = &fields[block_place(HIGH, s)..][..HIGH_BLOCK];
        let gain = fixed_codebook_gain(block[BLOCK_GAIN]).expect("the gain index has a gain") << 1;
        let code = three_bytes(&block[BLOCK_CODE..]);
        let (grid, train) = (block[BLOCK_FLAGS] & GRID, block[BLOCK_FLAGS] & TRAIN != 0);
        let lag = i32::from(fields[lag_place(s)]) + FIRST_LAG as i32;
        let signs = u32::from(block[BLOCK_SIGNS]);
        let vector = mpmlq_fixed_vector(code, signs, grid, PULSES[s] as usize, gain, train, lag);
        out.extend(&block[..BLOCK_VALUES]);
        out.extend(vector.iter().flat_map(|x| (*x as i16).to_be_bytes()));
    }
    out
}

/// The same frames with an LSP index each, by the Rust's own search. It allows for the share of the LSPs before that is added,
/// and so finds those that the message was made of, but for the first of a repetition.
fn by_index(call: &Records) -> Records {
    let mut before = lsp_dc_freq();
    let mut out = Records::new();
    for record in call {
        let (head, fields) = record.split_at(HEAD_VALUES);
        let lsps = words(&head[BYTE_LSPS..]).map(f32::from);
        let (index, found) = quantise_lsp_freq(&lsps, &before);
        before = found;
        let kind = if head[0] == HIGH { HIGH_INDEX } else { LOW_INDEX };
        out.push([&[kind], &index.to_be_bytes()[1..], fields].concat());
    }
    out
}

/// Stretches of both rates, with losses in runs.
fn mix(random: &mut Random, high: &Records, low: &Records) -> Records {
    let (mut is_low, mut erased) = (false, false);
    let mut out = Records::new();
    for i in 0..high.len() {
        is_low ^= random.below(20) == 0;
        erased = random.below(8) < if erased { 5 } else { 1 };
        out.push(match (erased, is_low) {
            (true, _) => vec![ERASED],
            (false, true) => low[i].clone(),
            (false, false) => high[i].clone(),
        });
    }
    out
}
