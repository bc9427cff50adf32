//! Numbers 2 to 10, each at its edge, and their order.

use super::*;
use crate::linepack::PackedRate;
use crate::qdec::driver::frame::{Fixed, Frame};
use crate::random::Random;
use crate::{record, written};

/// The number that a record is refused with, 0 for none.
fn number(bytes: &[u8]) -> u8 {
    record::read(bytes, &MEAN).err().unwrap_or(0)
}

#[test]
fn plain_records_are_accepted() {
    assert_eq!(number(&[ERASED]), 0);
    for kind in RECEIVED {
        assert_eq!(number(&record(kind)), 0);
    }
}

#[test]
fn number_2_at_both_ends_of_each_bound() {
    let ends = BOUNDED.map(|(at, count, bounds)| [(at, bounds), (at + count - 1, bounds)]);
    for (place, (low, high)) in ends.into_iter().flatten() {
        for (value, expected) in [(low - 1, 2), (low, 0), (high, 0), (high + 1, 2)] {
            let answer = record::decode(&mut state_with(place, value.into()), &[ERASED]);
            assert_eq!(answer.err().unwrap_or(0), expected, "{place} {value}");
        }
    }
}

#[test]
fn number_2_bounds_nothing_else() {
    let bounded = |place| {
        BOUNDED
            .iter()
            .any(|&(at, count, _)| (at..at + count).contains(&place))
    };
    for place in (0..AT_RUN).filter(|&place| !bounded(place)) {
        for value in [LEAST, MOST] {
            for bytes in HIGHS.map(record) {
                assert!(record::decode(&mut state_with(place, value.into()), &bytes).is_ok());
            }
        }
    }
    for run in [0, i128::from(u32::MAX)] {
        assert!(record::decode(&mut state_with(AT_RUN, run), &[ERASED]).is_ok());
    }
}

#[test]
fn number_2_comes_before_number_3() {
    let least = i128::from(LAST_LAG.0);
    assert_eq!(
        record::decode(&mut state_with(AT_LAG, least - 1), &[]),
        Err(2)
    );
    assert_eq!(record::decode(&mut state_with(AT_LAG, least), &[]), Err(3));
}

#[test]
fn numbers_3_and_4() {
    assert_eq!(number(&[]), 3);
    for kind in 5..=255 {
        assert_eq!(number(&[kind]), 4);
    }
}

#[test]
fn number_5_for_the_length_of_another_kind_and_sizes_one_off() {
    let lengths = [1, 89, 549, 72, 532];
    let near = lengths
        .into_iter()
        .flat_map(|length| [length - 1, length, length + 1]);
    for length in near.filter(|length| *length > 0) {
        for (kind, own) in (0..).zip(lengths) {
            let mut bytes = vec![0; length];
            bytes[0] = kind;
            assert_eq!(
                number(&bytes),
                if length == own { 0 } else { 5 },
                "{kind} {length}"
            );
        }
    }
}

#[test]
fn the_places_of_records_by_index() {
    // Place, value and number; the value below is accepted.
    let check = |kind, faults: &[(usize, u8, u8)]| {
        for &(place, value, expected) in faults {
            for (value, expected) in [(value, expected), (value - 1, 0)] {
                let mut bytes = record(kind);
                bytes[place] = value;
                assert_eq!(number(&bytes), expected, "{kind} {place} {value}");
            }
        }
    };
    for kind in [HIGH_INDEX, LOW_INDEX] {
        check(kind, &[(4, 128, 6), (5, 4, 7), (6, 128, 6), (7, 4, 7)]);
    }
    check(HIGH_INDEX, &[(18, 24, 8), (19, 4, 9), (20, 64, 10)]);
    check(HIGH_INDEX, &[(66, 24, 8), (67, 4, 9), (68, 32, 10)]);
    check(LOW_INDEX, &[(18, 24, 8), (411, 24, 8)]);
}

#[test]
fn numbers_6_and_7_at_their_edges() {
    for bytes in RECEIVED.map(record) {
        for place in [FIELD_LAG_A, FIELD_LAG_B] {
            assert_eq!(number(&with(&bytes, place, LAG_CODE_MOST)), 0);
            assert_eq!(number(&with(&bytes, place, LAG_CODE_MOST + 1)), 6);
        }
        for place in [FIELD_STEP_1, FIELD_STEP_3] {
            assert_eq!(number(&with(&bytes, place, STEP_MOST)), 0);
            assert_eq!(number(&with(&bytes, place, STEP_MOST + 1)), 7);
        }
    }
}

#[test]
fn number_8_at_its_edge() {
    for kind in RECEIVED {
        for s in 0..SUBFRAMES {
            let gain = block_place(kind, s) + BLOCK_GAIN;
            assert_eq!(number(&with(&record(kind), gain, GAIN_MOST)), 0);
            assert_eq!(number(&with(&record(kind), gain, GAIN_MOST + 1)), 8);
        }
    }
}

#[test]
fn number_9_for_flags_and_trains() {
    let (last, first) = (lag_code(TRAIN_LAG - 1), lag_code(TRAIN_LAG));
    for (kind, s) in subframes(HIGHS) {
        let flags = block_place(kind, s) + BLOCK_FLAGS;
        assert_eq!(number(&with(&record(kind), flags, FLAGS_MOST)), 0);
        assert_eq!(number(&with(&record(kind), flags, FLAGS_MOST + 1)), 9);
        // The other pair's code plays no part.
        let (own, other) = (lag_place(s), lag_place(SUBFRAMES - 1 - s));
        let train = with(&with(&record(kind), flags, TRAIN), other, LAG_CODE_MOST);
        assert_eq!(number(&with(&train, own, last)), 0);
        assert_eq!(number(&with(&train, own, first)), 9);
        assert_eq!(number(&with(&with(&train, flags, GRID), own, first)), 0);
    }
}

#[test]
fn number_9_reads_the_base_lag_not_the_own_lag() {
    for kind in HIGHS {
        let flags = block_place(kind, 1) + BLOCK_FLAGS;
        let train = with(&record(kind), flags, TRAIN);
        let lagged = |lag, step| {
            let based = with(&train, FIELD_LAG_A, lag_code(lag));
            with(&based, FIELD_STEP_1, step)
        };
        // Base lag 57 and own lag 59; base lag 58 and own lag 57.
        assert_eq!(number(&lagged(TRAIN_LAG - 1, STEP_MOST)), 0);
        assert_eq!(number(&lagged(TRAIN_LAG, 0)), 9);
    }
}

#[test]
fn number_10_for_sign_bits_past_the_pulses() {
    for (kind, s) in subframes(HIGHS) {
        let signs = block_place(kind, s) + BLOCK_SIGNS;
        for bit in 0..8 {
            let expected = if bit < PULSES[s] { 0 } else { 10 };
            assert_eq!(number(&with(&record(kind), signs, 1 << bit)), expected);
        }
    }
}

#[test]
fn numbers_9_and_10_are_for_high_records_only() {
    for (kind, s) in subframes(LOWS) {
        let values = block_place(kind, s) + BLOCK_VALUES;
        let full = with(&with(&record(kind), values, 255), values + 1, 255);
        assert_eq!(number(&with(&full, FIELD_LAG_A, LAG_CODE_MOST)), 0);
    }
}

/// Each subframe of records of these kinds.
fn subframes(kinds: [u8; 2]) -> impl Iterator<Item = (u8, usize)> {
    kinds
        .into_iter()
        .flat_map(|kind| (0..SUBFRAMES).map(move |s| (kind, s)))
}

#[test]
fn lsps_taps_values_and_codes_are_free() {
    for kind in RECEIVED {
        for value in [0x00, 0x7F, 0x80, 0xFF] {
            let mut full = record(kind);
            full[BYTE_LSPS..head(kind)].fill(value);
            let rest = if is_high(kind) {
                BLOCK_CODE
            } else {
                BLOCK_VALUES
            };
            for s in 0..SUBFRAMES {
                let block = &mut fields(&mut full)[block_place(kind, s)..][..block_size(kind)];
                block[..BLOCK_GAIN].fill(value);
                block[rest..].fill(value);
            }
            assert!(record::decode(&mut state::fresh(true), &full).is_ok());
        }
    }
}

#[test]
fn a_number_is_tested_over_all_subframes_before_the_next() {
    for kind in HIGHS {
        let mut bytes = record(kind);
        // Each fault stands in an earlier subframe than the one with the lower number.
        let faults = [
            (FIELD_LAG_B, LAG_CODE_MOST + 1),
            (FIELD_STEP_3, STEP_MOST + 1),
            (block_place(kind, 3) + BLOCK_GAIN, GAIN_MOST + 1),
            (block_place(kind, 1) + BLOCK_FLAGS, FLAGS_MOST + 1),
            (block_place(kind, 0) + BLOCK_SIGNS, 1 << PULSES[0]),
        ];
        for (place, value) in faults {
            fields(&mut bytes)[place] = value;
        }
        let mut shorter = bytes[..bytes.len() - 1].to_vec();
        assert_eq!(number(&shorter), 5);
        shorter[0] = LOW_INDEX + 1;
        assert_eq!(number(&shorter), 4);
        for (expected, (place, _)) in (6..).zip(faults) {
            assert_eq!(number(&bytes), expected);
            fields(&mut bytes)[place] = 0;
        }
        assert_eq!(number(&bytes), 0);
    }
}

#[test]
fn a_refusal_keeps_the_state() {
    let mut state = state_with(AT_LSPS, 77);
    let before = state::to_numbers(&state);
    for plain in HIGHS.map(record) {
        let refused = [
            vec![],
            vec![LOW_INDEX + 1],
            vec![plain[0]],
            with(&plain, FIELD_LAG_A, LAG_CODE_MOST + 1),
            with(&plain, FIELD_STEP_1, STEP_MOST + 1),
            with(&plain, FIELD_BLOCKS + BLOCK_GAIN, GAIN_MOST + 1),
            with(&plain, FIELD_BLOCKS + BLOCK_FLAGS, FLAGS_MOST + 1),
            with(&plain, FIELD_BLOCKS + BLOCK_SIGNS, 1 << PULSES[0]),
        ];
        for (i, bytes) in refused.iter().enumerate() {
            assert_eq!(record::decode(&mut state, bytes), Err(3 + i as u8));
            assert_eq!(state::to_numbers(&state), before);
        }
    }
}

/// A frame of a kind with every field random within the record's limits.
fn random_frame(random: &mut Random, kind: u8) -> Frame {
    let rate = if is_high(kind) {
        PackedRate::High
    } else {
        PackedRate::Low
    };
    // Base lags at which a train is accepted.
    let most = [lag_code(TRAIN_LAG - 1), STEP_MOST];
    Frame {
        rate,
        candidate: random_words(random),
        acl: std::array::from_fn(|s| random.below(u32::from(most[s % 2]) + 1)),
        taps: std::array::from_fn(|_| random_words(random)),
        gain_index: std::array::from_fn(|_| random.below(u32::from(GAIN_MOST) + 1) as u8),
        fixed: PULSES.map(|pulses| random_fixed(random, rate, pulses)),
    }
}

/// Pulses or values, random within the record's limits.
fn random_fixed(random: &mut Random, rate: PackedRate, pulses: u32) -> Fixed {
    match rate {
        PackedRate::High => Fixed::Pulses {
            pos: random.below(1 << 24),
            psig: random.below(1 << pulses),
            grid: random.below(2) as u8,
            train: random.below(2) == 1,
        },
        PackedRate::Low => Fixed::Vector(random_words(random).map(i32::from)),
    }
}

/// 16-bit values.
fn random_words<const N: usize>(random: &mut Random) -> [i16; N] {
    std::array::from_fn(|_| random.next() as i16)
}

/// The rows of an LSP index.
fn random_rows(random: &mut Random) -> [u8; INDEX_BYTES] {
    std::array::from_fn(|_| random.next() as u8)
}

#[test]
fn every_field_is_read_from_its_place() {
    let mut random = Random(1);
    for i in 0..4_000 {
        let kind = RECEIVED[i % RECEIVED.len()];
        let mut frame = random_frame(&mut random, kind);
        let prev_lsp = random_words(&mut random);
        let lsps = if head(kind) == HEAD_VALUES {
            lsp_bytes(&frame.candidate)
        } else {
            let rows = random_rows(&mut random);
            frame.candidate = candidates(rows, &prev_lsp);
            rows.to_vec()
        };
        let answer = record::read(&written::record(kind, &lsps, &frame), &prev_lsp);
        assert_eq!(answer, Ok(record::Record::Received(Box::new(frame))));
    }
}

#[test]
fn index_0_from_a_fresh_state_yields_the_mean_lsps() {
    for kind in [HIGH_INDEX, LOW_INDEX] {
        let mut state = state::fresh(true);
        assert!(record::decode(&mut state, &record(kind)).is_ok());
        assert_eq!(*state::prev_lsp(&state), MEAN);
    }
}

#[test]
fn a_record_by_index_is_answered_as_one_with_its_candidates() {
    let mut random = Random(2);
    for lsps in [MEAN, [i16::MIN; LSPS], [0; LSPS], [i16::MAX; LSPS]] {
        let [mut by_index, mut by_values] = [(); 2].map(|()| state_with_lsps(&lsps));
        for i in 0..200 {
            let [values, index] = [HIGHS, LOWS][i % 2];
            let frame = random_frame(&mut random, values);
            let rows = random_rows(&mut random);
            let written_out = lsp_bytes(&candidates(rows, state::prev_lsp(&by_values)));
            let mut records = [
                written::record(index, &rows, &frame),
                written::record(values, &written_out, &frame),
            ];
            // Lost frames change the previous LSPs too.
            if random.below(3) == 0 {
                records = [(); 2].map(|()| vec![ERASED]);
            }
            let answer = record::decode(&mut by_index, &records[0]);
            assert!(answer.is_ok());
            assert_eq!(answer, record::decode(&mut by_values, &records[1]));
            let [a, b] = [&by_index, &by_values].map(state::to_numbers);
            assert_eq!(a, b);
        }
    }
}
