//! The values of document 01 through the single layers, and questions that are none.

use super::*;
use crate::numbers::text;
use crate::qdec::driver::layers::answer;
use crate::spec_tables::fcbk_unpk_positions;

/// Compares each question's answer with what is expected.
fn asked(cases: &[(&str, &str)]) {
    for (question, expected) in cases {
        assert_eq!(answer(question), *expected, "{question}");
    }
}

#[test]
fn values_to_check_against() {
    asked(&[
        ("cos_q14 -5", "16384"),
        ("cos_q14 0", "16384"),
        ("cos_q14 64", "16383"),
        ("cos_q14 32767", "-16384"),
        (
            "lsp_stability 256 1000 1100 2000 3000 4000 5000 6000 7000 8000 9000",
            "1 922 1178 2000 3000 4000 5000 6000 7000 8000 9000",
        ),
        ("isqrt64 15", "3"),
        ("isqrt64 16", "4"),
        ("fcbk_unpk_positions 0 6", "0 1 2 3 4 5"),
        ("fcbk_unpk_positions 118754 6", "0 25 26 27 28 29"),
        ("fcbk_unpk_positions 118755 6", "1 2 3 4 5 6"),
        ("fcbk_unpk_positions 593774 6", "24 25 26 27 28 29"),
        ("fcbk_unpk_positions 593775 6", "none"),
        ("fcbk_unpk_positions 142505 5", "25 26 27 28 29"),
        ("fcbk_pack_positions 6 0 1 2 3 4 5 9 9", "0 0"),
        ("fcbk_pack_positions 6 0 25 26 27 28 29 9 9", "0 118754"),
        ("fcbk_pack_positions 6 1 2 3 4 5 6 9 9", "0 118755"),
        ("fcbk_pack_positions 6 24 25 26 27 28 29 9 9", "0 593774"),
        ("fcbk_pack_positions 5 25 26 27 28 29 9 9 9", "0 142505"),
        ("mult -32768 -32768", "32767"),
        ("mult -1 1", "-1"),
        (
            "lsp_decode 0 0 0 3131 4721 7690 10806 13872 16495 19752 22260 25484 27718",
            "3131 4721 7690 10806 13872 16495 19752 22260 25484 27718",
        ),
    ]);
}

#[test]
fn the_pulse_train_of_document_01() {
    let vector = answer("mpmlq_fixed_vector 0 0 0 5 0 1 18");
    let stands = |j| {
        j % 2 == 0
            && [0..=8, 18..=26, 36..=44, 54..=58]
                .iter()
                .any(|r| r.contains(&j))
    };
    let expected: Vec<&str> = (0..SUBFRAME)
        .map(|j| if stands(j) { "2" } else { "0" })
        .collect();
    assert_eq!(vector, expected.join(" "));
    assert_eq!(expected.iter().filter(|value| **value == "2").count(), 18);
}

/// The slots of a position code by document 01's walk over slots 0 to 29.
fn walk(mut code: u64, pulses: u64) -> Vec<usize> {
    let choose = |n: u64, k: u64| (0..k).fold(1, |ways, i| ways * n.saturating_sub(i) / (i + 1));
    let mut wanted = pulses;
    let mut slots = Vec::new();
    let last = SLOTS as u64 - 1;
    for slot in 0..=last {
        if wanted == 0 {
            break;
        }
        let weight = choose(last - slot, wanted - 1);
        if code < weight {
            slots.push(slot as usize);
            wanted -= 1;
        } else {
            code -= weight;
        }
    }
    slots
}

#[test]
fn the_walk_of_document_01_gives_the_same_slots_for_every_code() {
    for (pulses, limit) in PULSES.into_iter().zip(CODE_LIMITS).take(2) {
        for code in 0..limit {
            let slots = fcbk_unpk_positions(code, pulses as usize);
            assert_eq!(slots, Some(walk(u64::from(code), pulses.into())));
        }
        assert_eq!(fcbk_unpk_positions(limit, pulses as usize), None);
    }
}

#[test]
fn slots_that_are_turned_away() {
    asked(&[
        ("fcbk_pack_positions 0 0 1 2 3 4 5 6 7", "12"),
        ("fcbk_pack_positions 4 0 1 2 30 4 5 6 7", "12"),
        ("fcbk_pack_positions 7 0 1 2 3 4 5 6 7", "12"),
        ("fcbk_pack_positions 5 0 1 2 3 30 5 6 7", "13"),
        ("fcbk_pack_positions 5 0 1 2 3 3 5 6 7", "13"),
        ("fcbk_pack_positions 5 0 1 3 2 4 5 6 7", "13"),
        ("fcbk_pack_positions 6 0 1 2 3 4 18446744073709551615 6 7", "13"),
    ]);
}

/// The question of an LSP index with these previous LSPs.
fn index_question(rows: [u8; INDEX_BYTES], prev_lsp: &[i16; LSPS]) -> String {
    let [band0, band1, band2] = rows;
    format!("lsp_decode {band0} {band1} {band2} {}", text(prev_lsp))
}

#[test]
fn the_rows_of_an_lsp_index() {
    // Each entry once, then the order of the bytes; previous LSPs at the mean and as far off as can be.
    let orders = [[1, 2, 3], [3, 2, 1]];
    for prev_lsp in [MEAN, [i16::MIN; LSPS], [i16::MAX; LSPS]] {
        for rows in (0..=255).map(|row| [row; INDEX_BYTES]).chain(orders) {
            let expected = text(candidates(rows, &prev_lsp));
            assert_eq!(answer(&index_question(rows, &prev_lsp)), expected);
        }
    }
}

#[test]
fn the_distance_of_a_previous_lsp_saturates() {
    let zero = |prev_lsp| answer(&index_question([0; INDEX_BYTES], &prev_lsp));
    // A distance of -32768, the least one.
    let first = MEAN.map(|lsp| (i64::from(lsp) + LEAST) as i16);
    let least = text(MEAN.map(|lsp| lsp - 12_288));
    assert_ne!(zero(first.map(|lsp| lsp + 3)), least);
    assert_eq!(zero(first), least);
    assert_eq!(zero(first.map(|lsp| lsp - 1)), least);
    assert_eq!(zero([i16::MIN; LSPS]), least);
}

#[test]
fn the_noise_word_starts_at_7ce538a8() {
    let most = i128::from(UNVOICED_GAIN.1);
    let mut state = state_with(AT_UNVOICED_GAIN, most);
    state.decode_erased();
    let level = (most * 24_576) >> 15;
    let mut word = 0x7CE5_38A8u32;
    let noise: Vec<i128> = (0..FRAME)
        .map(|_| {
            word = word.wrapping_mul(1_664_525).wrapping_add(1_013_904_223);
            let value = i128::from((word >> 8) & 0xFFFF) - 32_768;
            (level * value) >> 15
        })
        .collect();
    let history = &state::to_numbers(&state)[AT_EXCITATION..AT_SYNTHESIS];
    assert_eq!(history, &noise[FRAME - HISTORY..]);
}

#[test]
fn the_gain_moves_by_the_floored_sixteenth() {
    // Silence leaves the target at 4096; the sixty steps of one subframe.
    let zeros = |count| "0 ".repeat(count);
    let memory = POSTFILTER_NUMBERS - 1;
    for start in [0, 1, 5, 4096, 4112, GAIN.1] {
        let gain = (0..SUBFRAME).fold(start, |gain, _| gain + ((4096 - gain) >> 4));
        let question = format!(
            "formant_agc_subframe {}{start}",
            zeros(LSPS + SUBFRAME + memory)
        );
        let expected = format!("{}{gain}", zeros(SUBFRAME + memory));
        assert_eq!(answer(&question), expected);
    }
}

#[test]
fn overflow_where_the_rust_panics() {
    asked(&[
        ("shl 1 -2147483648", "overflow"),
        ("shr 1 -2147483648", "overflow"),
        ("shl 1 -2147483647", "0"),
        ("shr 1 -2147483647", "32767"),
        ("wide_shift 0 1 128", "0 0"),
        ("wide_shift 0 1 127", "9223372036854775808 0"),
    ]);
    let square = format!(
        "pitch_postfilter 1 0 60 {}",
        "1048576 ".repeat(HISTORY + FRAME)
    );
    assert_eq!(answer(&square), "overflow");
}

#[test]
fn wide_pairs() {
    let top = u64::MAX;
    asked(&[
        (
            &format!("wide_product {top} {top}"),
            "18446744073709551614 1",
        ),
        ("wide_product 0 5", "0 0"),
        (
            &format!("wide_times {top} {top} 2"),
            &format!("{top} {}", top - 1),
        ),
        ("wide_less 0 5 1 0", "1"),
        ("wide_less 1 0 0 5", "0"),
        ("wide_less 1 5 1 5", "0"),
        ("wide_divide 1 0 0 3", "0 6148914691236517205"),
        ("wide_divide 7 7 0 0", "0 0"),
    ]);
}

#[test]
fn what_is_no_question() {
    for question in [
        "",
        " ",
        "add",
        "add 1",
        "add 1 2 3",
        "add 1 x",
        "add 1 2.0",
        "nothing 1",
        "ADD 1 2",
        "add 1 32768",
        "isqrt64 -1",
        "wide_product -1 0",
        "mpmlq_fixed_vector 0 0 0 5 24 1 18",
        "mpmlq_fixed_vector 0 0 0 5 0 2 18",
        "lsp_interpolate -1",
        "lsp_decode 0 0 0",
        "lsp_decode 0 0 0 0 0 0 0 0 0 0 0",
        "lsp_decode 256 0 0 0 0 0 0 0 0 0 0 0 0",
        "lsp_decode 0 0 -1 0 0 0 0 0 0 0 0 0 0",
        "shl 1 -2147483648 0",
        "fcbk_pack_positions 5 0 1 2 3 4",
        "fcbk_pack_positions 9 0 1 2 3 4 5 6 7",
        "fcbk_pack_positions 5 0 1 2 3 18446744073709551616 5 6 7",
    ] {
        assert_eq!(answer(question), "?", "{question:?}");
    }
}

#[test]
fn an_erased_frame_as_a_question() {
    let list = state::to_numbers(&state_with(AT_UNVOICED_GAIN, 500));
    let question = format!("decode_erased {}", text(&list));
    let mut state = state_with(AT_UNVOICED_GAIN, 500);
    let samples = state.decode_erased().map(i128::from).into_iter();
    let expected = text(samples.chain(state::to_numbers(&state)));
    assert_eq!(answer(&question), expected);
}
