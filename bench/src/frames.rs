//! Document 01's program `frames` over the Rust, with tables of digits and whole buffers, for whole programs to be timed
//! beside: the oracle's own prints each sample with `format!`.

use std::io::{self, BufRead, BufReader, BufWriter, Write};

use crate::places::{FRAME, LONGEST_LINE, NOT_A_RECORD};
use crate::qdec::QSynthesis;
use crate::qdec::driver::state;
use crate::record;

/// Four digits a sample and the newline.
const ANSWER: usize = 4 * FRAME + 1;
const BUFFER: usize = 1 << 16;
/// What is no digit.
const NONE: u8 = 255;
const DIGITS: &[u8; 16] = b"0123456789ABCDEF";

pub fn run() -> io::Result<()> {
    let mut input = BufReader::with_capacity(BUFFER, io::stdin().lock());
    let mut output = BufWriter::with_capacity(BUFFER, io::stdout().lock());
    let (values, pairs) = (values(), pairs());
    let mut state = state::fresh(true);
    let mut counts = [0u64; NOT_A_RECORD as usize + 1];
    let mut line = Vec::new();
    while input.read_until(b'\n', &mut line)? > 0 {
        if line.last() == Some(&b'\n') {
            line.pop();
        }
        match answer(&mut state, &line, &values) {
            Ok(samples) => output.write_all(&text(&samples, &pairs))?,
            Err(number) => {
                counts[usize::from(number)] += 1;
                writeln!(output, "R{number:02}")?;
            }
        }
        line.clear();
    }
    for (number, count) in counts.iter().enumerate().filter(|(_, count)| **count > 0) {
        writeln!(output, "N{number:02} {count}")?;
    }
    output.flush()
}

/// The value of each byte that is a digit.
fn values() -> [u8; 256] {
    let mut table = [NONE; 256];
    for (value, digit) in DIGITS.iter().enumerate() {
        table[usize::from(*digit)] = value as u8;
        table[usize::from(digit.to_ascii_lowercase())] = value as u8;
    }
    table
}

/// The two digits of each byte.
fn pairs() -> [[u8; 2]; 256] {
    std::array::from_fn(|byte| [DIGITS[byte >> 4], DIGITS[byte & 15]])
}

/// The samples for one line without its newline, or the number of the refusal.
fn answer(state: &mut QSynthesis, line: &[u8], values: &[u8; 256]) -> Result<[i16; FRAME], u8> {
    let mut bytes = [0; LONGEST_LINE / 2];
    if line.len() > LONGEST_LINE || line.len() % 2 != 0 {
        return Err(NOT_A_RECORD);
    }
    for (byte, pair) in bytes.iter_mut().zip(line.chunks_exact(2)) {
        let (high, low) = (values[usize::from(pair[0])], values[usize::from(pair[1])]);
        if high == NONE || low == NONE {
            return Err(NOT_A_RECORD);
        }
        *byte = high << 4 | low;
    }
    record::decode(state, &bytes[..line.len() / 2])
}

/// The line of a frame.
fn text(samples: &[i16; FRAME], pairs: &[[u8; 2]; 256]) -> [u8; ANSWER] {
    let mut out = [b'\n'; ANSWER];
    for (digits, sample) in out.chunks_exact_mut(4).zip(samples) {
        let [high, low] = sample.to_be_bytes().map(|byte| pairs[usize::from(byte)]);
        digits[..2].copy_from_slice(&high);
        digits[2..].copy_from_slice(&low);
    }
    out
}
