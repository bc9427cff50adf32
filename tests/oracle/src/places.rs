//! Document 01's counts, places and limits: of a record, of a state as its numbers, and of a line. The comparison and the
//! bench take them from here too.

use crate::tables;

/// The ends of 16 bits.
pub const LEAST: i64 = -32_768;
pub const MOST: i64 = 32_767;

pub const LSPS: usize = tables::LPC_ORDER;
pub const SUBFRAMES: usize = tables::SUBFRAMES_PER_FRAME;
pub const SUBFRAME: usize = tables::SUBFRAME_SIZE;
pub const FRAME: usize = tables::FRAME_SIZE_SAMPLES;
pub const TAPS: usize = 5;
pub const SLOTS: usize = 30;
/// The excitation history, and the output that voicing reads.
pub const HISTORY: usize = 146;
pub const TAIL: usize = tables::ERASURE_CLASSIFIER_HISTORY_LEN;
pub const SHORTEST_LAG: u32 = tables::PITCH_MIN as u32;
pub const LONGEST_LAG: u32 = tables::PITCH_MAX as u32;

/// The kinds of a record: erased, or received with its LSPs as values or by an index (document 02, E1).
pub const ERASED: u8 = 0;
pub const HIGH: u8 = 1;
pub const LOW: u8 = 2;
pub const HIGH_INDEX: u8 = 3;
pub const LOW_INDEX: u8 = 4;

/// A received record's head, after which its fields begin: the kind, and ten LSPs or the bytes of an index.
pub const BYTE_LSPS: usize = 1;
pub const INDEX_BYTES: usize = 3;
pub const HEAD_VALUES: usize = BYTE_LSPS + 2 * LSPS;
pub const HEAD_INDEX: usize = BYTE_LSPS + INDEX_BYTES;

/// Places in the fields.
pub const FIELD_LAG_A: usize = 0;
pub const FIELD_STEP_1: usize = 1;
pub const FIELD_LAG_B: usize = 2;
pub const FIELD_STEP_3: usize = 3;
pub const FIELD_BLOCKS: usize = 4;

/// Places in a block; Low values stand where High flags do.
pub const BLOCK_GAIN: usize = 10;
pub const BLOCK_FLAGS: usize = 11;
pub const BLOCK_SIGNS: usize = 12;
pub const BLOCK_CODE: usize = 13;
pub const BLOCK_VALUES: usize = 11;

pub const HIGH_BLOCK: usize = 16;
pub const LOW_BLOCK: usize = 131;
pub const HIGH_FIELDS: usize = FIELD_BLOCKS + SUBFRAMES * HIGH_BLOCK;
pub const LOW_FIELDS: usize = FIELD_BLOCKS + SUBFRAMES * LOW_BLOCK;
/// Bytes of a record of each kind.
pub const LENGTHS: [usize; 5] = [
    1,
    HEAD_VALUES + HIGH_FIELDS,
    HEAD_VALUES + LOW_FIELDS,
    HEAD_INDEX + HIGH_FIELDS,
    HEAD_INDEX + LOW_FIELDS,
];

pub const LAG_CODE_MOST: u8 = 127;
pub const STEP_MOST: u8 = 3;
pub const GAIN_MOST: u8 = 23;
pub const FLAGS_MOST: u8 = 3;
/// The bits of the flags.
pub const GRID: u8 = 1;
pub const TRAIN: u8 = 2;
/// The base lag of code 0, and the least one at which a train is refused.
pub const FIRST_LAG: u32 = 18;
pub const TRAIN_LAG: u32 = 58;
/// Pulses of each High subframe, and where its position codes end.
pub const PULSES: [u32; SUBFRAMES] = [6, 5, 6, 5];
pub const CODE_LIMITS: [u32; SUBFRAMES] = [593_775, 142_506, 593_775, 142_506];

/// Whether a kind of received record is High.
pub const fn is_high(kind: u8) -> bool {
    kind == HIGH || kind == HIGH_INDEX
}

/// Bytes of the head of a kind of received record.
pub const fn head(kind: u8) -> usize {
    if kind < HIGH_INDEX {
        HEAD_VALUES
    } else {
        HEAD_INDEX
    }
}

/// The fields of a received record.
pub fn fields(record: &mut [u8]) -> &mut [u8] {
    let (_, fields) = record.split_at_mut(head(record[0]));
    fields
}

/// Bytes of a block of a kind of received record.
pub const fn block_size(kind: u8) -> usize {
    if is_high(kind) { HIGH_BLOCK } else { LOW_BLOCK }
}

/// Where in the fields of a kind of received record the block of a subframe begins.
pub const fn block_place(kind: u8, s: usize) -> usize {
    FIELD_BLOCKS + s * block_size(kind)
}

/// The code of a base lag.
pub const fn lag_code(lag: u32) -> u8 {
    (lag - FIRST_LAG) as u8
}

/// Where in the fields the base lag code of a subframe stands.
pub const fn lag_place(s: usize) -> usize {
    if s < 2 { FIELD_LAG_A } else { FIELD_LAG_B }
}

/// Places in the numbers of a state, and how many they are.
pub const AT_LSPS: usize = 0;
pub const AT_EXCITATION: usize = AT_LSPS + LSPS;
pub const AT_SYNTHESIS: usize = AT_EXCITATION + HISTORY;
pub const AT_ZEROS: usize = AT_SYNTHESIS + LSPS;
pub const AT_POLES: usize = AT_ZEROS + LSPS;
pub const AT_TILT: usize = AT_POLES + LSPS;
pub const AT_GAIN: usize = AT_TILT + 2;
pub const AT_LAG: usize = AT_GAIN + 1;
pub const AT_BASE_LAG: usize = AT_LAG + 1;
pub const AT_TAP_SUM: usize = AT_BASE_LAG + 1;
pub const AT_UNVOICED_GAIN: usize = AT_TAP_SUM + 1;
pub const AT_TAIL: usize = AT_UNVOICED_GAIN + 1;
pub const AT_RUN: usize = AT_TAIL + TAIL;
pub const AT_POSTFILTER: usize = AT_RUN + 1;
pub const STATE_NUMBERS: usize = AT_POSTFILTER + 1;
/// Those of the formant, tilt and gain memory.
pub const POSTFILTER_NUMBERS: usize = AT_LAG - AT_ZEROS;

/// The bounds of number 2.
pub const WORD: (i64, i64) = (LEAST, MOST);
pub const GAIN: (i64, i64) = (0, 1_048_576);
pub const LAST_LAG: (i64, i64) = (17, 147);
pub const BASE_LAG: (i64, i64) = (18, 145);
pub const TAP_SUM: (i64, i64) = (0, 32_767);
pub const UNVOICED_GAIN: (i64, i64) = (0, 13_246);
/// The fields that number 2 tests: place, count and bounds.
pub const BOUNDED: [(usize, usize, (i64, i64)); 7] = [
    (AT_EXCITATION, HISTORY, WORD),
    (AT_SYNTHESIS, LSPS, WORD),
    (AT_GAIN, 1, GAIN),
    (AT_LAG, 1, LAST_LAG),
    (AT_BASE_LAG, 1, BASE_LAG),
    (AT_TAP_SUM, 1, TAP_SUM),
    (AT_UNVOICED_GAIN, 1, UNVOICED_GAIN),
];

/// The longest line that can be a record, and the number of a line that is none.
pub const LONGEST_LINE: usize = 1_098;
pub const NOT_A_RECORD: u8 = 11;
