//! Questions to single functions: a name and numbers in a line, numbers in the answer.
//!
//! The operators take their parameters in the Rust's order. The others, with the count of a list in
//! brackets, STATE for the numbers of state.rs and the outcome as outcome.rs numbers it:
//!
//! ```text
//! wide_product a b                        hi lo
//! wide_times hi lo b                      hi lo, modulo 2^128
//! wide_shift hi lo n                      hi lo, shifted left modulo 2^128
//! wide_less hi lo hi lo                   0 or 1
//! wide_divide hi lo hi lo                 hi lo, floored; 0 0 for a division by 0
//! lsp_stability min p(10)                 outcome p(10), as the passes leave them
//! lsp_check_or_previous min cand(10) prev(10)      outcome p(10)
//! lsp_extrapolate prev(10)                p(10)
//! lsp_decode b0 b1 b2 prev(10)            p(10); the bytes of the index as in a record
//! lsp_interpolate k prev(10) cur(10)      p(10)
//! lsp_to_lpc_q13 p(10)                    a(10)
//! frame_lpc_q13 prev(10) cur(10)          a(40)
//! fcbk_unpk_positions code n              slots, or `none`
//! fcbk_pack_positions n p(8)              0 and the code of the first n, or the number, 12 or 13
//! mpmlq_fixed_vector code signs grid n gain_index train lag      v(60)
//! acb_contribution lag taps(5) hist(146)  u(60)
//! excitation_subframe s lag taps(5) v(60) hist(146)             hist(146), after the subframe
//! record_last_frame taps(5) gain_index gain_index               tap sum, unvoiced gain
//! synthesis_subframe a(10) x(60) mem(10)  out(60) mem(10)
//! pitch_postfilter kind start lag hist(146) frame(240)           out(60); kind 1 High, 2 Low
//! formant_agc_subframe a(10) sy(60) num(10) den(10) tilt_prev tilt_k1 gain
//!                                         out(60) num(10) den(10) tilt_prev tilt_k1 gain
//! classify_erasure_voicing last_lag2 pcm(120)                   0, or 1 and the lag where voiced
//! noise_start run                         the noise word at the start of an erased frame
//! decode_erased STATE                     samples(240) STATE
//! ```

use std::panic::{AssertUnwindSafe, catch_unwind};

use super::super::*;
use super::frame::{Fixed, Frame, doubled_gain};
use super::outcome::outcome;
use super::state;
use crate::numbers::{Numbers, text};
use crate::places::{self, INDEX_BYTES, POSTFILTER_NUMBERS, PULSES, STATE_NUMBERS, TAIL};
use crate::record::three_bytes;
use crate::spec_tables::{fcbk_pack_positions, fcbk_unpk_positions};

/// The numbers of a row of slots.
const SLOT_ROW: usize = 8;

/// Answers from the numbers of a question; none where one of them does not fit its parameter.
type Layer = fn(&mut Numbers) -> Option<String>;

/// Each layer with the count of its numbers. All are taken before the function is called.
const LAYERS: [(&str, usize, Layer); 38] = [
    ("saturate", 1, |q| one(saturate(q.one()?))),
    ("add", 2, |q| one(add(q.one()?, q.one()?))),
    ("sub", 2, |q| one(sub(q.one()?, q.one()?))),
    ("mult", 2, |q| one(mult(q.one()?, q.one()?))),
    ("shl", 2, |q| one(shl(q.one()?, q.one()?))),
    ("shr", 2, |q| one(shr(q.one()?, q.one()?))),
    ("l_add", 2, |q| one(l_add(q.one()?, q.one()?))),
    ("l_mult", 2, |q| one(l_mult(q.one()?, q.one()?))),
    ("l_mac", 3, |q| one(l_mac(q.one()?, q.one()?, q.one()?))),
    ("extract_h", 1, |q| one(extract_h(q.one()?))),
    ("round16", 1, |q| one(round16(q.one()?))),
    ("sat32", 1, |q| one(sat32(q.one()?))),
    ("isqrt64", 1, |q| one(isqrt64(q.one()?))),
    ("wide_product", 2, wide_product),
    ("wide_times", 3, |q| pair(wide(q)?.wrapping_mul(word(q)?))),
    ("wide_shift", 3, |q| pair(wide(q)?.checked_shl(q.one()?).unwrap_or(0))),
    ("wide_less", 4, |q| one(u8::from(wide(q)? < wide(q)?))),
    ("wide_divide", 4, wide_divide),
    ("cos_q14", 1, |q| one(cos_q14(q.one()?))),
    ("lsp_stability", 1 + LPC_ORDER, stability),
    ("lsp_check_or_previous", 1 + 2 * LPC_ORDER, check_or_previous),
    ("lsp_extrapolate", LPC_ORDER, |q| {
        list(lsp_extrapolate(&q.array()?))
    }),
    ("lsp_decode", INDEX_BYTES + LPC_ORDER, candidates),
    ("lsp_interpolate", 1 + 2 * LPC_ORDER, interpolate),
    ("lsp_to_lpc_q13", LPC_ORDER, |q| {
        list(lsp_to_lpc_q13(&q.array()?))
    }),
    ("frame_lpc_q13", 2 * LPC_ORDER, frame_lpc),
    ("fcbk_unpk_positions", 2, positions),
    ("fcbk_pack_positions", 1 + SLOT_ROW, packed),
    ("mpmlq_fixed_vector", 7, pulse_vector),
    ("acb_contribution", 1 + ACB_TAPS + EXC_HIST, adaptive),
    (
        "excitation_subframe",
        2 + ACB_TAPS + SUBFRAME_SIZE + EXC_HIST,
        excitation,
    ),
    ("record_last_frame", ACB_TAPS + 2, last_frame),
    ("synthesis_subframe", 2 * LPC_ORDER + SUBFRAME_SIZE, synthesis),
    ("pitch_postfilter", 3 + EXC_HIST + FRAME_SIZE_SAMPLES, pitch),
    (
        "formant_agc_subframe",
        LPC_ORDER + SUBFRAME_SIZE + POSTFILTER_NUMBERS,
        formant_tilt_gain,
    ),
    ("classify_erasure_voicing", 1 + TAIL, classify),
    ("noise_start", 1, noise_start),
    ("decode_erased", STATE_NUMBERS, erased),
];

/// The answer to a line: numbers, `none`, `overflow` where the Rust panics, `?` for no question.
pub fn answer(question: &str) -> String {
    let mut words = question.split_ascii_whitespace();
    let name = words.next().unwrap_or("");
    let layer = LAYERS.iter().find(|layer| layer.0 == name);
    let (Some((_, count, compute)), Some(mut numbers)) = (layer, Numbers::read(words)) else {
        return "?".to_string();
    };
    if numbers.left() != *count {
        return "?".to_string();
    }
    match catch_unwind(AssertUnwindSafe(|| compute(&mut numbers))) {
        Ok(answer) => answer.unwrap_or("?".to_string()),
        Err(_) => "overflow".to_string(),
    }
}

/// One number.
fn one(value: impl std::fmt::Display) -> Option<String> {
    Some(value.to_string())
}

/// The numbers of a list.
fn list<T: std::fmt::Display>(values: impl IntoIterator<Item = T>) -> Option<String> {
    Some(text(values))
}

/// A number below 2^128 as its two words, the high one first.
fn pair(value: u128) -> Option<String> {
    list([(value >> 64) as u64, value as u64])
}

/// The next word as a number below 2^128.
fn word(q: &mut Numbers) -> Option<u128> {
    Some(u128::from(q.one::<u64>()?))
}

/// The next two words as a number below 2^128, the high one first.
fn wide(q: &mut Numbers) -> Option<u128> {
    Some(word(q)? << 64 | word(q)?)
}

/// Two words multiplied.
fn wide_product(q: &mut Numbers) -> Option<String> {
    pair(word(q)? * word(q)?)
}

/// The floored quotient, 0 by 0.
fn wide_divide(q: &mut Numbers) -> Option<String> {
    let (numerator, denominator) = (wide(q)?, wide(q)?);
    pair(numerator.checked_div(denominator).unwrap_or(0))
}

/// The outcome, then the LSPs as the passes leave them.
fn stability(q: &mut Numbers) -> Option<String> {
    let (min, cand) = (q.one()?, q.array()?);
    let mut lsps = cand;
    lsp_stability(&mut lsps, min);
    list([outcome(&cand, min) as i16].into_iter().chain(lsps))
}

/// The outcome, then the candidate as stabilised, or the previous LSPs.
fn check_or_previous(q: &mut Numbers) -> Option<String> {
    let (min, cand, prev) = (q.one()?, q.array()?, q.array()?);
    let lsps = lsp_check_or_previous(cand, &prev, min);
    list([outcome(&cand, min) as i16].into_iter().chain(lsps))
}

/// The candidate LSPs of an index.
fn candidates(q: &mut Numbers) -> Option<String> {
    let index: [u8; INDEX_BYTES] = q.array()?;
    list(lsp_decode(three_bytes(&index), &q.array()?))
}

/// The LSPs of a subframe.
fn interpolate(q: &mut Numbers) -> Option<String> {
    list(lsp_interpolate(q.one()?, &q.array()?, &q.array()?))
}

/// Four sets of ten coefficients.
fn frame_lpc(q: &mut Numbers) -> Option<String> {
    list(
        frame_lpc_q13(&q.array()?, &q.array()?)
            .into_iter()
            .flatten(),
    )
}

/// The slots of a position code, or `none`.
fn positions(q: &mut Numbers) -> Option<String> {
    match fcbk_unpk_positions(q.one()?, q.one()?) {
        Some(slots) => list(slots),
        None => Some("none".to_string()),
    }
}

/// The number of document 02, then the code where it is 0. The Rust says `None` for 12 and 13.
fn packed(q: &mut Numbers) -> Option<String> {
    let n: usize = q.one()?;
    let row: [usize; SLOT_ROW] = q.array()?;
    match fcbk_pack_positions(row.get(..n)?) {
        Some(code) => list([0, code]),
        None if PULSES.contains(&(n as u32)) => one(13),
        None => one(12),
    }
}

/// The vector of a pulse description; the gain by its index, doubled.
fn pulse_vector(q: &mut Numbers) -> Option<String> {
    let (code, signs, grid, n) = (q.one()?, q.one()?, q.one()?, q.one()?);
    let gain = doubled_gain(q.one()?)?;
    let (train, lag) = (q.flag()?, q.one()?);
    list(mpmlq_fixed_vector(code, signs, grid, n, gain, train, lag))
}

/// The adaptive part of a subframe.
fn adaptive(q: &mut Numbers) -> Option<String> {
    let (lag, taps) = (q.one()?, q.array()?);
    let hist: [i32; EXC_HIST] = q.array()?;
    list(acb_contribution(&hist, lag, &taps))
}

/// The history after a subframe: the adaptive part, the sum with the fixed vector, and the push.
fn excitation(q: &mut Numbers) -> Option<String> {
    let (s, lag, taps) = (q.one()?, q.one()?, q.array()?);
    if s >= SUBFRAMES_PER_FRAME {
        return None;
    }
    let frame = Frame {
        rate: PackedRate::Low,
        candidate: [0; LPC_ORDER],
        acl: [0; SUBFRAMES_PER_FRAME],
        taps: [taps; SUBFRAMES_PER_FRAME],
        gain_index: [0; SUBFRAMES_PER_FRAME],
        fixed: [Fixed::Vector(q.array()?); SUBFRAMES_PER_FRAME],
    };
    let mut state = QSynthesis::new();
    state.exc_hist = q.array()?;
    let lags = [lag; SUBFRAMES_PER_FRAME];
    state.excitation_subframe(&frame, s, &lags, 0, &mut [0; FRAME_SIZE_SAMPLES]);
    list(state.exc_hist)
}

/// What is stored of the taps of subframe 3 and of the gains of subframes 2 and 3.
fn last_frame(q: &mut Numbers) -> Option<String> {
    let taps: [i16; ACB_TAPS] = q.array()?;
    let sum = taps.iter().map(|&t| t as i32 * 2).sum();
    let (g2, g3) = (doubled_gain(q.one()?)?, doubled_gain(q.one()?)?);
    let mut state = QSynthesis::new();
    state.record_last_frame(&[0; SUBFRAMES_PER_FRAME], sum, g2 as i32, g3 as i32);
    list([state.last_taps_sum_q15, state.last_gain_unvoiced])
}

/// One subframe of synthesis, then the memory.
fn synthesis(q: &mut Numbers) -> Option<String> {
    let (a, x, mut mem) = (q.array()?, q.array()?, q.array()?);
    let mut out = [0i16; SUBFRAME_SIZE];
    synthesis_subframe(&a, &x, &mut mem, &mut out, true);
    list(out.map(i32::from).into_iter().chain(mem))
}

/// One subframe of the pitch postfilter.
fn pitch(q: &mut Numbers) -> Option<String> {
    let rate = match q.one()? {
        places::HIGH => PackedRate::High,
        places::LOW => PackedRate::Low,
        _ => return None,
    };
    let (start, lag) = (q.one()?, q.one()?);
    let hist: [i32; EXC_HIST] = q.array()?;
    list(pitch_postfilter(&hist, &q.array()?, start, lag, rate))
}

/// One subframe of the formant, tilt and gain step, then its memory.
fn formant_tilt_gain(q: &mut Numbers) -> Option<String> {
    let (a, sy) = (q.array()?, q.array()?);
    let mut pf = state::postfilter_from_numbers(q)?;
    let mut out = [0i16; SUBFRAME_SIZE];
    pf.formant_agc_subframe(&a, &sy, &mut out);
    let out = out.map(i128::from).into_iter();
    list(out.chain(state::postfilter_numbers(&pf)))
}

/// Voiced or not, and the lag where voiced; no frame uses the other.
fn classify(q: &mut Numbers) -> Option<String> {
    let mut state = QSynthesis::new();
    state.last_lag2 = q.one()?;
    state.pcm_hist = q.array()?;
    let (voiced, lag) = state.classify_erasure_voicing();
    if voiced { list([1, lag]) } else { one(0) }
}

/// The noise word as `decode_erased` starts it; it has no function of its own there.
fn noise_start(q: &mut Numbers) -> Option<String> {
    let run: u32 = q.one()?;
    one(0xDEAD_BEEFu32.wrapping_add(run.wrapping_mul(0x9E37_79B9)))
}

/// An erased frame's samples, then the state.
fn erased(q: &mut Numbers) -> Option<String> {
    let mut state = state::from_numbers(q)?;
    let samples = state.decode_erased().map(i128::from).into_iter();
    list(samples.chain(state::to_numbers(&state)))
}
