//! Document 01's record, with the kinds of document 02, E1, and its refusals, numbers 2 to 10.
//! Number 1 cannot arise: the samples are an array.

use crate::linepack::PackedRate;
use crate::places::*;
use crate::qdec::driver::frame::{Fixed, Frame};
use crate::qdec::driver::outcome::{Outcome, erased_outcome, received_outcome};
use crate::qdec::driver::state::{in_bounds, prev_lsp};
use crate::qdec::{QSynthesis, lsp_decode};

/// A record without fault.
#[derive(Debug, PartialEq)]
pub enum Record {
    Erased,
    Received(Box<Frame>),
}

/// One record's samples, or the number of the first refusal that applies; then the state stays.
pub fn decode(state: &mut QSynthesis, bytes: &[u8]) -> Result<[i16; FRAME], u8> {
    let record = accepted(state, bytes)?;
    Ok(samples(state, &record))
}

/// The same with the outcome before the samples. It is not in `decode`, which is timed, because the
/// LSPs are stabilised once more for it.
pub fn decode_with_outcome(
    state: &mut QSynthesis,
    bytes: &[u8],
) -> Result<(Outcome, [i16; FRAME]), u8> {
    let record = accepted(state, bytes)?;
    let outcome = match &record {
        Record::Erased => erased_outcome(state),
        Record::Received(frame) => received_outcome(frame),
    };
    Ok((outcome, samples(state, &record)))
}

/// Numbers 2 to 10, then the record.
fn accepted(state: &QSynthesis, bytes: &[u8]) -> Result<Record, u8> {
    refuse(2, !in_bounds(state))?;
    read(bytes, prev_lsp(state))
}

/// The samples of a record without fault, and the state after it.
fn samples(state: &mut QSynthesis, record: &Record) -> [i16; FRAME] {
    match record {
        Record::Erased => state.decode_erased(),
        Record::Received(frame) => state.decode_frame(frame),
    }
}

/// Numbers 3 to 10 in their order, each over all subframes, then the frame. The previous LSPs are
/// for an LSP index.
pub fn read(bytes: &[u8], prev_lsp: &[i16; LSPS]) -> Result<Record, u8> {
    refuse(3, bytes.is_empty())?;
    let kind = bytes[0];
    refuse(4, kind > LOW_INDEX)?;
    refuse(5, bytes.len() != LENGTHS[usize::from(kind)])?;
    if kind == ERASED {
        return Ok(Record::Erased);
    }
    let high = is_high(kind);
    let fields = &bytes[head(kind)..];
    let codes = [FIELD_LAG_A, FIELD_STEP_1, FIELD_LAG_B, FIELD_STEP_3].map(|place| fields[place]);
    let blocks: [&[u8]; SUBFRAMES] =
        std::array::from_fn(|s| &fields[block_place(kind, s)..][..block_size(kind)]);
    refuse(6, codes[0] > LAG_CODE_MOST || codes[2] > LAG_CODE_MOST)?;
    refuse(7, codes[1] > STEP_MOST || codes[3] > STEP_MOST)?;
    refuse(8, blocks.iter().any(|block| block[BLOCK_GAIN] > GAIN_MOST))?;
    refuse(
        9,
        high && (0..SUBFRAMES).any(|s| bad_flags(blocks[s], codes[s / 2 * 2])),
    )?;
    refuse(
        10,
        high && (0..SUBFRAMES).any(|s| blocks[s][BLOCK_SIGNS] >> PULSES[s] != 0),
    )?;
    let frame = frame(bytes, prev_lsp, codes, blocks);
    Ok(Record::Received(Box::new(frame)))
}

/// Gives the number where its condition holds.
fn refuse(number: u8, applies: bool) -> Result<(), u8> {
    if applies { Err(number) } else { Ok(()) }
}

/// Number 9 for one block: flags that do not exist, or a train at a long base lag.
fn bad_flags(block: &[u8], base_code: u8) -> bool {
    let flags = block[BLOCK_FLAGS];
    flags > FLAGS_MOST || (flags & TRAIN != 0 && u32::from(base_code) + FIRST_LAG >= TRAIN_LAG)
}

/// The frame of a record that passed every test.
fn frame(
    bytes: &[u8],
    prev_lsp: &[i16; LSPS],
    codes: [u8; SUBFRAMES],
    blocks: [&[u8]; SUBFRAMES],
) -> Frame {
    let high = is_high(bytes[0]);
    Frame {
        rate: if high {
            PackedRate::High
        } else {
            PackedRate::Low
        },
        candidate: candidate(bytes, prev_lsp),
        acl: codes.map(u32::from),
        taps: blocks.map(words),
        gain_index: blocks.map(|block| block[BLOCK_GAIN]),
        fixed: blocks.map(|block| if high { pulses(block) } else { values(block) }),
    }
}

/// The candidate LSPs of a received record: those in its head, or those of its index.
fn candidate(bytes: &[u8], prev_lsp: &[i16; LSPS]) -> [i16; LSPS] {
    let lsps = &bytes[BYTE_LSPS..];
    match bytes[0] {
        HIGH | LOW => words(lsps),
        _ => lsp_decode(three_bytes(lsps), prev_lsp),
    }
}

/// The pulses of a High block.
fn pulses(block: &[u8]) -> Fixed {
    Fixed::Pulses {
        pos: three_bytes(&block[BLOCK_CODE..]),
        psig: u32::from(block[BLOCK_SIGNS]),
        grid: block[BLOCK_FLAGS] & GRID,
        train: block[BLOCK_FLAGS] & TRAIN != 0,
    }
}

/// The sixty values of a Low block.
fn values(block: &[u8]) -> Fixed {
    Fixed::Vector(words(&block[BLOCK_VALUES..]).map(i32::from))
}

/// The first three bytes as a number, big-endian: a position code, or an LSP index, whose first byte
/// is then the row of band 0.
pub fn three_bytes(bytes: &[u8]) -> u32 {
    u32::from_be_bytes([0, bytes[0], bytes[1], bytes[2]])
}

/// The first `N` 16-bit values, big-endian two's complement.
pub fn words<const N: usize>(bytes: &[u8]) -> [i16; N] {
    std::array::from_fn(|i| i16::from_be_bytes([bytes[2 * i], bytes[2 * i + 1]]))
}
