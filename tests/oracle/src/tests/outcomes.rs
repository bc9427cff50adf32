//! What stabilising says (document 02, E2): single functions, frames, and the column of `calls`.

use super::*;
use crate::calls;
use crate::numbers::text;
use crate::qdec::driver::layers::answer;
use crate::qdec::driver::outcome::Outcome;
use crate::qdec::lsp_extrapolate;
use crate::random::Random;
use crate::record::{self, Record};

/// One pass moves the first pair.
const ONE_PASS: [i16; LSPS] = [1000, 1100, 2000, 3000, 4000, 5000, 6000, 7000, 8000, 9000];
/// All ten passes move some, and the gaps are met then.
const TEN_PASSES: [i16; LSPS] = [
    5053, 6614, 7004, 9275, 9801, 15491, 15507, 15573, 15920, 21501,
];
/// Every gap is at the minimum.
const AT_MINIMUM: [i16; LSPS] = [0, 256, 512, 768, 1024, 1280, 1536, 1792, 2048, 2304];
/// Ten passes are not enough.
const EQUAL: [i16; LSPS] = [0; LSPS];

#[test]
fn each_outcome_of_both_functions() {
    let moved = [922, 1178, 2000, 3000, 4000, 5000, 6000, 7000, 8000, 9000];
    let met = [
        5053, 6614, 7004, 9275, 9801, 15235, 15491, 15747, 16003, 21501,
    ];
    let left = [-693, -520, -377, -250, -126, 9, 166, 353, 575, 831];
    // The candidate, the outcome, what the passes leave, and what is used.
    let cases = [
        (ONE_PASS, 1, moved, moved),
        (TEN_PASSES, 1, met, met),
        (AT_MINIMUM, 0, AT_MINIMUM, AT_MINIMUM),
        (EQUAL, 2, left, MEAN),
    ];
    for (cand, outcome, left, used) in cases {
        let cand = text(cand);
        assert_eq!(
            answer(&format!("lsp_stability 256 {cand}")),
            format!("{outcome} {}", text(left))
        );
        assert_eq!(
            answer(&format!("lsp_check_or_previous 256 {cand} {}", text(MEAN))),
            format!("{outcome} {}", text(used))
        );
    }
}

#[test]
fn previous_lsps_that_equal_the_candidate() {
    let zeros = text(EQUAL);
    assert_eq!(
        answer(&format!("lsp_check_or_previous 256 {zeros} {zeros}")),
        format!("2 {zeros}")
    );
}

/// LSPs in order, with two neighbours swapped, or in no order.
fn random_lsps(random: &mut Random) -> [i16; LSPS] {
    let mut lsps: [i16; LSPS] = std::array::from_fn(|_| random.next() as i16);
    let way = random.below(3);
    if way > 0 {
        lsps.sort();
    }
    if way > 1 {
        let i = random.below(LSPS as u32 - 1) as usize;
        lsps.swap(i, i + 1);
    }
    lsps
}

/// A record of a kind with random LSPs, or a random index.
fn random_record(random: &mut Random, kind: u8) -> Vec<u8> {
    if kind == ERASED {
        return vec![ERASED];
    }
    let mut bytes = record(kind);
    let lsps = lsp_bytes(&random_lsps(random));
    bytes[BYTE_LSPS..head(kind)].copy_from_slice(&lsps[..head(kind) - BYTE_LSPS]);
    bytes
}

/// Whether every gap is at least the minimum.
fn spaced(lsps: &[i16; LSPS], minimum: i32) -> bool {
    let gap = |pair: &[i16]| i32::from(pair[1]) - i32::from(pair[0]);
    lsps.windows(2).all(|pair| gap(pair) >= minimum)
}

/// The outcome of a random record of a kind, which the LSPs of the next state have to bear out.
fn borne_out(random: &mut Random, kind: u8) -> Outcome {
    let before = random_lsps(random);
    let bytes = random_record(random, kind);
    let (candidate, minimum) = match record::read(&bytes, &before).unwrap() {
        Record::Erased => (lsp_extrapolate(&before), 512),
        Record::Received(frame) => (frame.candidate, 256),
    };
    let mut state = state_with_lsps(&before);
    let (outcome, _) = record::decode_with_outcome(&mut state, &bytes).unwrap();
    let after = state::prev_lsp(&state);
    assert_eq!(outcome == Outcome::Untouched, spaced(&candidate, minimum));
    assert!(match outcome {
        Outcome::Untouched => *after == candidate,
        Outcome::Moved => spaced(after, minimum),
        Outcome::Previous => *after == before,
    });
    outcome
}

#[test]
fn each_outcome_of_each_kind() {
    let mut random = Random(3);
    for kind in [ERASED, HIGH, LOW, HIGH_INDEX, LOW_INDEX] {
        let mut met = [0; 3];
        for _ in 0..2_000 {
            met[borne_out(&mut random, kind) as usize] += 1;
        }
        assert!(met.iter().all(|count| *count > 0), "{kind}: {met:?}");
    }
}

/// The line of `calls` for a record with so many samples.
fn call_line(samples: usize, bytes: &[u8]) -> String {
    format!(
        "D{samples:04X}0000{:04X}{}\n",
        bytes.len(),
        hexadecimal(bytes)
    )
}

#[test]
fn the_column_of_calls() {
    let with_lsps = |lsps| {
        let mut bytes = high();
        bytes[BYTE_LSPS..HEAD_VALUES].copy_from_slice(&lsp_bytes(lsps));
        call_line(FRAME, &bytes)
    };
    let zeros = format!(
        "S00000000{:04X}{}\n",
        4 * STATE_NUMBERS,
        "0".repeat(8 * STATE_NUMBERS)
    );
    let refused = call_line(FRAME, &[LOW_INDEX + 1]);
    // Each line with the number and the outcome that it is answered with.
    let cases = [
        (call_line(FRAME, &[ERASED]), "0 0"),
        (with_lsps(&ONE_PASS), "0 1"),
        (refused.clone(), "4 3"),
        (with_lsps(&EQUAL), "0 2"),
        (call_line(FRAME - 1, &high()), "1 3"),
        (with_lsps(&MEAN), "0 0"),
        ("F000100000000\n".to_string(), "0 3"),
        (with_lsps(&TEN_PASSES), "0 1"),
        (zeros, "0 3"),
        // The state of zeros is out of bounds.
        (refused, "2 3"),
    ];
    let (lines, expected): (Vec<String>, Vec<&str>) = cases.into_iter().unzip();
    let mut output = Vec::new();
    calls::run(lines.concat().as_bytes(), &mut output).unwrap();
    let answers = String::from_utf8(output).unwrap();
    let columns = |line: &str| line.split(' ').take(2).collect::<Vec<_>>().join(" ");
    assert_eq!(answers.lines().map(columns).collect::<Vec<_>>(), expected);
}
