//! Records that are refused, by the number they get, often with later faults as well: the first that applies is given.

use crate::places::*;
use crate::random::Random;
use crate::records::{Class, record};

/// A record that gets `number`, 3 to 10.
pub fn refused(random: &mut Random, number: u8) -> Vec<u8> {
    if number == 3 {
        return Vec::new();
    }
    let high = number > 8 || random.below(2) == 0;
    let mut out = record(random, if high { Class::High } else { Class::Low });
    for later in (number + 1..=10).rev() {
        if random.below(4) == 0 {
            put(random, &mut out, later);
        }
    }
    put(random, &mut out, number);
    out
}

/// Makes the record faulty by one number. Its kind and length, numbers 4 and 5, are made faulty last.
fn put(random: &mut Random, out: &mut Vec<u8>, number: u8) {
    match number {
        4 => out[0] = above(random, LOW_INDEX),
        5 => other_length(random, out),
        6 => fields(out)[[FIELD_LAG_A, FIELD_LAG_B][random.below(2) as usize]] = above(random, LAG_CODE_MOST),
        7 => fields(out)[[FIELD_STEP_1, FIELD_STEP_3][random.below(2) as usize]] = above(random, STEP_MOST),
        8 => {
            let index = above(random, GAIN_MOST);
            block(random, out).1[BLOCK_GAIN] = index;
        }
        9 if is_high(out[0]) => bad_flags(random, out),
        10 if is_high(out[0]) => {
            let (s, block) = block(random, out);
            block[BLOCK_SIGNS] |= 1 << (PULSES[s] + random.below(8 - PULSES[s]));
        }
        _ => (),
    }
}

/// A byte above `most`, the next one half the time.
fn above(random: &mut Random, most: u8) -> u8 {
    if random.below(2) == 0 {
        return most + 1;
    }
    most + 1 + random.below(255 - u32::from(most)) as u8
}

/// A subframe and its block.
fn block<'a>(random: &mut Random, out: &'a mut [u8]) -> (usize, &'a mut [u8]) {
    let (kind, s) = (out[0], random.below(SUBFRAMES as u32) as usize);
    (s, &mut fields(out)[block_place(kind, s)..][..block_size(kind)])
}

/// Flags that do not exist, or a train at a long base lag.
fn bad_flags(random: &mut Random, out: &mut [u8]) {
    let train = random.below(2) == 0;
    if train {
        let code = [lag_code(TRAIN_LAG), lag_code(TRAIN_LAG + 1), LAG_CODE_MOST][random.below(3) as usize];
        let fields = fields(out);
        (fields[FIELD_LAG_A], fields[FIELD_LAG_B]) = (code, code);
    }
    let flags = if train { TRAIN + random.below(2) as u8 } else { above(random, FLAGS_MOST) };
    block(random, out).1[BLOCK_FLAGS] = flags;
}

/// A byte more, some less, the length of another kind, or a kind that does not suit the length.
fn other_length(random: &mut Random, out: &mut Vec<u8>) {
    let length = out.len();
    let kinds = LENGTHS.len() as u32;
    let other = (u32::from(out[0]) + 1 + random.below(kinds - 1)) % kinds;
    match random.below(6) {
        0 => out.push(random.below(256) as u8),
        1 => out.truncate(length - 1),
        2 => out.truncate(1 + random.below(length as u32 - 1) as usize),
        3 => out.resize(LENGTHS[other as usize], 0),
        _ => out[0] = other as u8,
    }
}
