//! Whole calls over a state that goes on from line to line. A line has a letter, three fields of four hexadecimal digits, and
//! as many bytes, two digits each, as the third field says:
//!
//! ```text
//! F   a fresh state, with the postfilter if the first field is 1
//! S   a state: the numbers of state.rs, four bytes each
//! D   a record: the first field is the length of the samples, each of which is the second field before
//! ```
//!
//! The answer is a number, 0 but for a record that was refused, the outcome of outcome.rs, 3 where no frame was decoded, and
//! the checksums of the samples and of the state: a polynomial in 1000003 modulo the prime 2^43 - 57, so that each number and
//! its place count.

use std::io::{self, BufRead, Write};

use crate::numbers::Numbers;
use crate::places::{AT_RUN, FRAME};
use crate::qdec::QSynthesis;
use crate::qdec::driver::outcome::NO_OUTCOME;
use crate::qdec::driver::state;
use crate::record;

/// What a line is answered with, but for the state: the samples are what they then hold.
struct Answer {
    number: u8,
    outcome: u8,
    samples: Vec<i16>,
}

/// Answers each line of the input; `?` for what is none.
pub fn run(input: impl BufRead, mut output: impl Write) -> io::Result<()> {
    let mut current = state::fresh(true);
    for line in input.lines() {
        match answer(&mut current, &line?) {
            Some(answer) => {
                let (number, outcome) = (answer.number, answer.outcome);
                let samples = checksum(answer.samples.into_iter().map(i128::from));
                let state = checksum(state::to_numbers(&current));
                writeln!(output, "{number} {outcome} {samples} {state}")?;
            }
            None => writeln!(output, "?")?,
        }
    }
    output.flush()
}

/// The answer to a line; none for what is no line.
fn answer(current: &mut QSynthesis, line: &str) -> Option<Answer> {
    let field = |at: usize| u16::from_str_radix(line.get(at..at + 4)?, 16).ok();
    let (first, second, count) = (field(1)?, field(5)?, field(9)?);
    let bytes = bytes(line.get(13..)?)?;
    if bytes.len() != usize::from(count) {
        return None;
    }
    match line.get(..1)? {
        "F" => *current = state::fresh(first == 1),
        "S" => *current = state::from_numbers(&mut image(&bytes))?,
        "D" => return Some(decode(current, first, second as i16, &bytes)),
        _ => return None,
    }
    Some(without_frame(0, Vec::new()))
}

/// The answer where no frame was decoded.
fn without_frame(number: u8, samples: Vec<i16>) -> Answer {
    Answer {
        number,
        outcome: NO_OUTCOME,
        samples,
    }
}

/// Number 1 here, the others by `record`.
fn decode(current: &mut QSynthesis, length: u16, mark: i16, bytes: &[u8]) -> Answer {
    let decoded = match usize::from(length) {
        FRAME => record::decode_with_outcome(current, bytes),
        _ => Err(1),
    };
    match decoded {
        Ok((outcome, samples)) => Answer {
            number: 0,
            outcome: outcome as u8,
            samples: samples.to_vec(),
        },
        Err(number) => without_frame(number, vec![mark; usize::from(length)]),
    }
}

/// The bytes of pairs of digits.
fn bytes(text: &str) -> Option<Vec<u8>> {
    (0..text.len())
        .step_by(2)
        .map(|at| u8::from_str_radix(text.get(at..at + 2)?, 16).ok())
        .collect()
}

/// The numbers of a state. The run of erased frames is the one without a sign.
fn image(bytes: &[u8]) -> Numbers {
    let words = bytes
        .chunks_exact(4)
        .map(|b| u32::from_be_bytes(b.try_into().unwrap()));
    let signed = |(i, n): (usize, u32)| {
        if i == AT_RUN {
            i128::from(n)
        } else {
            i128::from(n as i32)
        }
    };
    Numbers::from(words.enumerate().map(signed).collect::<Vec<i128>>())
}

fn checksum(list: impl IntoIterator<Item = i128>) -> i128 {
    list.into_iter().fold(0, |sum, n| {
        (sum * 1_000_003 + n + (1 << 31)) % ((1 << 43) - 57)
    })
}
