//! Calls as text for programs `frames`: lines by class, each call from a seed of its own.

use crate::faults;
use crate::places::LONGEST_LINE;
use crate::random::Random;
use crate::records::{self, Class};

/// What the lines of a call are.
#[derive(Clone, Copy, PartialEq)]
pub enum Kind {
    High,
    Low,
    /// Long losses, a few frames between them.
    Erased,
    /// Both rates, with losses in runs.
    Mixed,
    /// Refusals 3 to 10, and records that show that the state stayed.
    Refused,
    /// What is a line and what is a digit.
    Text,
    /// The same in a few lines, or none, so that ends of the input come often.
    Short,
}

pub const KINDS: [(Kind, &str); 7] = [
    (Kind::High, "High"),
    (Kind::Low, "Low"),
    (Kind::Erased, "erased"),
    (Kind::Mixed, "mixed"),
    (Kind::Refused, "refused"),
    (Kind::Text, "text"),
    (Kind::Short, "short"),
];

pub struct Call {
    pub seed: u64,
    /// Its place in `KINDS`.
    pub kind: usize,
    pub input: Vec<u8>,
    pub lines: usize,
}

/// The call of a number. A short one follows each long one: they cost little.
pub fn call(seed: u64, number: u64) -> Call {
    let kind = if number % 2 == 1 { 6 } else { (number / 2 % 6) as usize };
    let seed = Random(seed.wrapping_add(number)).next();
    let mut random = Random(seed);
    let lines = if KINDS[kind].0 == Kind::Short { random.below(7) } else { 1500 + random.below(2000) } as usize;
    let mut input = Vec::with_capacity(lines * (LONGEST_LINE + 2));
    let mut erased = false;
    for _ in 0..lines {
        erased = line(&mut random, KINDS[kind].0, erased, &mut input);
        input.push(b'\n');
    }
    // Without its newline an empty line is none.
    if !input.ends_with(b"\n\n") && input.len() > 1 && random.below(2) == 0 {
        input.pop();
    }
    Call { seed, kind, input, lines }
}

/// One line without its newline; whether it is a loss.
fn line(random: &mut Random, kind: Kind, erased: bool, out: &mut Vec<u8>) -> bool {
    let class = match kind {
        Kind::High => Class::High,
        Kind::Low => Class::Low,
        Kind::Erased if random.below(8) > 0 => Class::Erased,
        Kind::Erased => [Class::High, Class::Low][random.below(2) as usize],
        _ => match records::next_class(random, erased) {
            Class::Faulty if kind == Kind::Mixed => Class::High,
            class => class,
        },
    };
    let record = match kind {
        Kind::Refused if random.below(4) > 0 => {
            let number = 3 + random.below(8) as u8;
            faults::refused(random, number)
        }
        _ => records::record(random, class),
    };
    let from = out.len();
    digits(random, &record, out);
    if matches!(kind, Kind::Text | Kind::Short) && random.below(3) > 0 {
        spoil(random, from, out);
    }
    class == Class::Erased
}

/// The record's digits: capitals, small letters or both.
fn digits(random: &mut Random, record: &[u8], out: &mut Vec<u8>) {
    let case = random.below(3);
    for bytes in record.chunks(32) {
        let mut small = [0, u64::MAX, random.next()][case as usize];
        for byte in bytes {
            for value in [byte >> 4, byte & 15] {
                let letter = if small & 1 == 1 { b'a' } else { b'A' };
                out.push(if value < 10 { b'0' + value } else { letter + value - 10 });
                small >>= 1;
            }
        }
    }
}

/// Bytes that are no digits: what ends lines elsewhere, the neighbours of digits, signs, bytes above 127.
const WRONG: [u8; 22] = [
    b'\r', 0, b' ', b'\t', 0x80, 0xC3, 0xFF, b'/', b':', b'@', b'G', b'`', b'g', b'+', b'-', b'x', b'_', b'.', 0x0B, 0x1A,
    0x7F, 0xB0,
];

/// Makes the line from `from` on another one.
fn spoil(random: &mut Random, from: usize, out: &mut Vec<u8>) {
    let length = out.len() - from;
    let wrong = WRONG[random.below(22) as usize];
    match random.below(10) {
        0 => out.truncate(from),
        1 => out.truncate(from + length.saturating_sub(1)),
        2 => out.push(b'0'),
        3 => out.push(b'\r'),
        4 => out.insert(from + random.below(length as u32 + 1) as usize, wrong),
        5 if length > 0 => out[from + random.below(length as u32) as usize] = wrong,
        6 => {
            out.truncate(from);
            (0..random.below(9)).for_each(|_| out.push(any_byte(random)));
        }
        7 if random.below(12) == 0 => {
            let long = [65_535, 65_536, 65_537, 100_000, 131_072][random.below(5) as usize];
            fill(random, from + long, out);
        }
        8 => {
            let longest = LONGEST_LINE;
            let near = [longest - 2, longest - 1, longest, longest + 1, longest + 2, 2_048][random.below(6) as usize];
            fill(random, from + near, out);
        }
        _ => near_low(random, from, out),
    }
}

/// Lengthens or shortens the last line, so that the text ends at `end`; now and then one byte is no digit.
fn fill(random: &mut Random, end: usize, out: &mut Vec<u8>) {
    let from = out.len().min(end);
    out.resize(end, b"0123456789abcdefABCDEF"[random.below(22) as usize]);
    if random.below(4) == 0 && from < end {
        let at = from + random.below((end - from) as u32) as usize;
        out[at] = WRONG[random.below(22) as usize];
    }
}

/// A Low record's digits, some more or some less.
fn near_low(random: &mut Random, from: usize, out: &mut Vec<u8>) {
    out.truncate(from);
    let record = records::record(random, Class::Low);
    digits(random, &record, out);
    let near = [0, 1, 2, 2, 2, 3, 4][random.below(7) as usize];
    out.resize(out.len() - 2 + near, b'0');
}

/// Any byte but the newline.
fn any_byte(random: &mut Random) -> u8 {
    match random.below(256) as u8 {
        b'\n' => b'0',
        byte => byte,
    }
}
