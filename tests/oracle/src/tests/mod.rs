//! Tests of the record, its refusals, program `frames`, the single layers and the outcomes.

mod layers;
mod lines;
mod outcomes;
mod records;

use crate::frames;
use crate::numbers::Numbers;
use crate::places::*;
use crate::qdec::QSynthesis;
use crate::qdec::driver::state;
use crate::spec_tables::{
    LSP_CODEBOOK_BAND0_Q13, LSP_CODEBOOK_BAND1_Q13, LSP_CODEBOOK_BAND2_Q13,
    LSP_DC_PREDICTED_FREQ_Q15,
};

const MEAN: [i16; LSPS] = LSP_DC_PREDICTED_FREQ_Q15;
/// The kinds of each rate, with LSPs and by index, and all kinds that are received.
const HIGHS: [u8; 2] = [HIGH, HIGH_INDEX];
const LOWS: [u8; 2] = [LOW, LOW_INDEX];
const RECEIVED: [u8; 4] = [HIGH, LOW, HIGH_INDEX, LOW_INDEX];

/// A High record of zeros; its mean LSPs are given.
fn high() -> Vec<u8> {
    record(HIGH)
}

/// A Low record of zeros; its mean LSPs are given.
fn low() -> Vec<u8> {
    record(LOW)
}

/// A received record of zeros, but for its kind and, where it has LSPs, the mean ones.
fn record(kind: u8) -> Vec<u8> {
    let mut bytes = vec![0; LENGTHS[usize::from(kind)]];
    bytes[0] = kind;
    if head(kind) == HEAD_VALUES {
        bytes[BYTE_LSPS..HEAD_VALUES].copy_from_slice(&lsp_bytes(&MEAN));
    }
    bytes
}

/// LSPs as a record has them.
fn lsp_bytes(lsps: &[i16; LSPS]) -> Vec<u8> {
    lsps.iter().flat_map(|lsp| lsp.to_be_bytes()).collect()
}

/// The candidates of the rows of an LSP index, in the words of document 02, E1. The distance is the
/// one number that can leave 16 bits.
fn candidates(rows: [u8; INDEX_BYTES], prev_lsp: &[i16; LSPS]) -> [i16; LSPS] {
    let row = |book: &[i16], width, band: usize| {
        book[width * usize::from(rows[band])..][..width].to_vec()
    };
    let entries = [
        row(&LSP_CODEBOOK_BAND0_Q13, 3, 0),
        row(&LSP_CODEBOOK_BAND1_Q13, 3, 1),
        row(&LSP_CODEBOOK_BAND2_Q13, 4, 2),
    ]
    .concat();
    std::array::from_fn(|i| {
        let mean = i64::from(MEAN[i]);
        let distance = (i64::from(prev_lsp[i]) - mean).max(LEAST);
        let value = mean + ((distance * 12_288) >> 15) + i64::from(entries[i]);
        i16::try_from(value).expect("the sum stays in 16 bits")
    })
}

/// A copy with the byte at a place of its fields set.
fn with(bytes: &[u8], place: usize, value: u8) -> Vec<u8> {
    let mut changed = bytes.to_vec();
    fields(&mut changed)[place] = value;
    changed
}

/// A record as a line of lowercase hexadecimal.
fn hexadecimal(bytes: &[u8]) -> String {
    bytes.iter().map(|byte| format!("{byte:02x}")).collect()
}

/// What `frames` prints from a fresh state.
fn printed(input: impl AsRef<[u8]>) -> String {
    printed_from(state::fresh(true), input, false)
}

/// What `frames` prints from a given state.
fn printed_from(start: QSynthesis, input: impl AsRef<[u8]>, show_state: bool) -> String {
    let mut output = Vec::new();
    frames::run(input.as_ref(), &mut output, start, show_state).unwrap();
    String::from_utf8(output).unwrap()
}

/// A fresh state with one of its numbers set.
fn state_with(place: usize, value: i128) -> QSynthesis {
    let mut list = state::to_numbers(&state::fresh(true));
    list[place] = value;
    state::from_numbers(&mut Numbers::from(list)).unwrap()
}

/// A fresh state with these previous LSPs.
fn state_with_lsps(lsps: &[i16; LSPS]) -> QSynthesis {
    let mut list = state::to_numbers(&state::fresh(true));
    list[AT_LSPS..][..LSPS].copy_from_slice(&lsps.map(i128::from));
    state::from_numbers(&mut Numbers::from(list)).unwrap()
}
