//! Document 01's program `frames`.

use std::io::{self, BufRead, Write};

use crate::numbers::text;
use crate::places::{FRAME, LONGEST_LINE, NOT_A_RECORD};
use crate::qdec::QSynthesis;
use crate::qdec::driver::state;
use crate::record;

/// Answers each line of the input, then prints the counts of the numbers seen, in ascending order.
pub fn run(
    mut input: impl BufRead,
    mut output: impl Write,
    mut state: QSynthesis,
    show_state: bool,
) -> io::Result<()> {
    let mut counts = [0u64; NOT_A_RECORD as usize + 1];
    let mut line = Vec::new();
    while input.read_until(b'\n', &mut line)? > 0 {
        if line.last() == Some(&b'\n') {
            line.pop();
        }
        match answer(&mut state, &line) {
            Ok(samples) => writeln!(output, "{}", hexadecimal(&samples))?,
            Err(number) => {
                counts[usize::from(number)] += 1;
                writeln!(output, "R{number:02}")?;
            }
        }
        if show_state {
            writeln!(output, "S {}", text(state::to_numbers(&state)))?;
        }
        line.clear();
    }
    for (number, count) in counts.iter().enumerate().filter(|(_, count)| **count > 0) {
        writeln!(output, "N{number:02} {count}")?;
    }
    output.flush()
}

/// The samples for one line without its newline, or the number of the refusal.
fn answer(state: &mut QSynthesis, line: &[u8]) -> Result<[i16; FRAME], u8> {
    let bytes = digit_pairs(line).ok_or(NOT_A_RECORD)?;
    record::decode(state, &bytes)
}

/// The bytes of a line of hexadecimal digit pairs; none for any other line or one that is too long.
fn digit_pairs(line: &[u8]) -> Option<Vec<u8>> {
    if line.len() > LONGEST_LINE || line.len() % 2 != 0 {
        return None;
    }
    let digit = |c: u8| char::from(c).to_digit(16);
    line.chunks(2)
        .map(|pair| Some((digit(pair[0])? * 16 + digit(pair[1])?) as u8))
        .collect()
}

/// Samples as four uppercase digits each, two's complement, with nothing between.
fn hexadecimal(samples: &[i16]) -> String {
    samples
        .iter()
        .map(|x| format!("{:04X}", *x as u16))
        .collect()
}
