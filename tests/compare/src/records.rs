//! Random records: speech-like ones, loud ones, every field at its ends, and faulty ones. Of those received half have their LSPs
//! and half an LSP index.

use crate::faults;
use crate::places::*;
use crate::random::Random;

#[derive(Clone, Copy, PartialEq)]
pub enum Class {
    Erased,
    High,
    Low,
    Faulty,
}

pub const MEAN: [i64; LSPS] = [
    3131, 4721, 7690, 10806, 13872, 16495, 19752, 22260, 25484, 27718,
];

/// Losses come in runs.
pub fn next_class(random: &mut Random, erased: bool) -> Class {
    if random.below(8) < if erased { 5 } else { 1 } {
        return Class::Erased;
    }
    match random.below(32) {
        0 => Class::Faulty,
        n if n % 2 == 0 => Class::High,
        _ => Class::Low,
    }
}

pub fn record(random: &mut Random, class: Class) -> Vec<u8> {
    match class {
        Class::Erased => vec![ERASED],
        Class::High => received(random, true),
        Class::Low => received(random, false),
        Class::Faulty if random.below(2) == 0 => faulty(random),
        Class::Faulty => {
            let number = 3 + random.below(8) as u8;
            faults::refused(random, number)
        }
    }
}

/// A record that is accepted.
fn received(random: &mut Random, high: bool) -> Vec<u8> {
    let mut out = if random.below(2) == 0 { values_head(random, high) } else { index_head(random, high) };
    let shortest = random.below(2) == 0;
    let [train, longest] = [TRAIN_LAG, LONGEST_LAG].map(|lag| u32::from(lag_code(lag)));
    let most = u32::from(LAG_CODE_MOST);
    let ends = [0, train - 1, train, longest, longest + 1, most - 1, most];
    let code = |random: &mut Random| random.mostly_below(if shortest { train } else { most + 1 }, &ends) as u8;
    let (a, b) = (code(random), code(random));
    let step = |random: &mut Random| random.below(u32::from(STEP_MOST) + 1) as u8;
    out.extend([a, step(random), b, step(random)]);
    let level = random.below(4);
    let voiced = random.below(3) > 0;
    let loudness = [0, 60, 3000, MOST][random.below(4) as usize];
    for s in 0..SUBFRAMES {
        words(&mut out, taps(random, voiced));
        let gains = u32::from(GAIN_MOST) + 1;
        let gain = [random.below(gains), random.below(gains / 2), 0, gains - 1][level as usize];
        out.push(gain as u8);
        if high {
            pulses(random, &mut out, s, [a, b][s / 2]);
        } else {
            let dense = random.below(4) == 0;
            words(&mut out, (0..SUBFRAME).map(|_| if dense || random.below(12) == 0 { random.within(-loudness, loudness) } else { 0 }).collect());
        }
    }
    out
}

/// The kind and ten LSPs.
fn values_head(random: &mut Random, high: bool) -> Vec<u8> {
    let mut out = vec![if high { HIGH } else { LOW }];
    words(&mut out, lsps(random));
    out
}

/// The kind and the bytes of an LSP index, each often its first or last row.
fn index_head(random: &mut Random, high: bool) -> Vec<u8> {
    let mut out = vec![if high { HIGH_INDEX } else { LOW_INDEX }];
    out.extend((0..INDEX_BYTES).map(|_| random.mostly_below(256, &[0, 255]) as u8));
    out
}

/// Flags, signs and position code of a High block, with a train where its base lag code allows one.
fn pulses(random: &mut Random, out: &mut Vec<u8>, s: usize, code: u8) {
    let train = random.below(2) == 1 && code < lag_code(TRAIN_LAG);
    out.push(random.below(2) as u8 + TRAIN * u8::from(train));
    out.push(random.below(1 << PULSES[s]) as u8);
    let limit = CODE_LIMITS[s];
    let position = random.mostly_below(limit, &[0, limit - 1, limit, limit + 1, 0xFF_FFFF]);
    out.extend(&position.to_be_bytes()[1..]);
}

/// Ten LSPs: near the mean, in order, in no order, or close together.
fn lsps(random: &mut Random) -> Vec<i64> {
    let mut list: Vec<i64> = match random.below(8) {
        0 => (0..LSPS).map(|_| random.within(LEAST, MOST)).collect(),
        1 => (0..LSPS).map(|_| random.within(LEAST, MOST)).collect(),
        2 => {
            let low = random.within(LEAST, 30_000);
            (0..LSPS as i64).map(|k| (low + k * i64::from(random.below(600))).min(MOST)).collect()
        }
        _ => MEAN.map(|m| m + random.within(-700, 700)).to_vec(),
    };
    if random.below(8) > 0 {
        list.sort();
    }
    list
}

/// Five taps: a strong middle, random, or at their ends.
fn taps(random: &mut Random, voiced: bool) -> Vec<i64> {
    match random.below(8) {
        0 => (0..TAPS).map(|_| random.within(LEAST, MOST)).collect(),
        1 => vec![[LEAST, 0, MOST][random.below(3) as usize]; TAPS],
        _ => {
            let middle = if voiced { random.within(6000, 16_000) } else { random.within(-900, 900) };
            let mut list: Vec<i64> = (0..TAPS).map(|_| random.within(-1500, 1500)).collect();
            list[2] = middle;
            list
        }
    }
}

/// A record with a byte changed, cut short or with a byte too many, or any bytes.
fn faulty(random: &mut Random) -> Vec<u8> {
    let high = random.below(2) == 0;
    let mut out = received(random, high);
    match random.below(8) {
        0 => out.truncate(random.below(out.len() as u32) as usize),
        1 => out.push(random.below(256) as u8),
        2 => out[0] = random.below(256) as u8,
        3 => out = (0..random.below(100)).map(|_| random.below(256) as u8).collect(),
        _ => {
            for _ in 0..1 + random.below(3) {
                let block = block_place(out[0], random.below(SUBFRAMES as u32) as usize);
                let [gain, flags, signs] = [BLOCK_GAIN, BLOCK_FLAGS, BLOCK_SIGNS].map(|place| block + place);
                let places = [FIELD_LAG_A, FIELD_STEP_1, FIELD_LAG_B, FIELD_STEP_3, gain, flags, signs];
                let at = places[random.below(7) as usize];
                fields(&mut out)[at] = random.below(256) as u8;
            }
        }
    }
    out
}

/// 16-bit values, big-endian.
fn words(out: &mut Vec<u8>, list: Vec<i64>) {
    for value in list {
        out.extend((value as i16).to_be_bytes());
    }
}
