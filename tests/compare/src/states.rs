//! Arbitrary states: every field free within the bounds of number 2, and such that leave them.

use crate::places::*;
use crate::random::Random;
use crate::records::MEAN;

/// The numbers of a state, in the order of the oracle's state.rs.
pub fn arbitrary(random: &mut Random) -> Vec<i128> {
    let loudness = [0, 9, 900, MOST][random.below(4) as usize];
    let mut list = lsps(random);
    let period = (SHORTEST_LAG + random.below(110)) as usize;
    let repeats = random.below(2) == 0;
    let within = |random: &mut Random, (low, high): (i64, i64)| random.within(low, high);
    signal(random, &mut list, HISTORY, loudness, repeats.then_some(period));
    signal(random, &mut list, AT_TILT - AT_SYNTHESIS, loudness, None);
    list.extend((0..2).map(|_| random.within(LEAST, MOST)));
    list.push(within(random, GAIN));
    list.push(within(random, LAST_LAG));
    list.push(if repeats { period as i64 } else { within(random, BASE_LAG) });
    list.push(within(random, TAP_SUM));
    list.push(within(random, UNVOICED_GAIN));
    signal(random, &mut list, TAIL, loudness, repeats.then_some(period));
    let run = random.mostly_below(6, &[0, u32::MAX - 1, u32::MAX]);
    list.extend([i64::from(run), i64::from(random.below(2))]);
    list.into_iter().map(i128::from).collect()
}

/// Previous LSPs, often below the mean less 32768, where the distance that `lsp_decode` forms saturates.
fn lsps(random: &mut Random) -> Vec<i64> {
    if random.below(8) == 0 {
        return near_minimum(random);
    }
    let mut list: Vec<i64> = (0..LSPS).map(|_| random.within(LEAST, MOST)).collect();
    if random.below(2) == 0 {
        list.sort();
    }
    list
}

/// Previous LSPs of which an erased frame has candidates with gaps near its minimum: any number of passes moves some, all ten
/// too, which hardly happens by chance.
fn near_minimum(random: &mut Random) -> Vec<i64> {
    let low = random.within(-8_000, 20_000);
    let candidates: Vec<i64> = (0..LSPS as i64).map(|k| low + 512 * k + random.within(-20, 20)).collect();
    // 23 of 32 parts of their distance from the mean are kept.
    candidates.iter().zip(MEAN).map(|(lsp, mean)| (mean + (lsp - mean) * 32 / 23).clamp(LEAST, MOST)).collect()
}

/// Puts a number of a field that number 2 tests out of its bounds, mostly just.
pub fn leave_bounds(random: &mut Random, list: &mut [i128]) {
    let (from, count, (low, high)) = BOUNDED[random.below(BOUNDED.len() as u32) as usize];
    let at = from + random.below(count as u32) as usize;
    let far = [i64::from(i32::MIN), i64::from(i32::MAX)];
    list[at] = [low - 1, high + 1, low - 1, high + 1, far[0], far[1]][random.below(6) as usize].into();
}

/// Appends `count` values of one loudness, which repeat where there is a period.
fn signal(random: &mut Random, list: &mut Vec<i64>, count: usize, loudness: i64, period: Option<usize>) {
    let start = list.len();
    for i in 0..count {
        let value = match period {
            Some(p) if i >= p => list[start + i - p],
            _ => random.within(-loudness - i64::from(loudness == MOST), loudness),
        };
        list.push(value);
    }
}
