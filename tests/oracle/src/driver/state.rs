//! The whole state as numbers in one fixed order, and the bounds that document 01 sets for it.

use super::super::{PostfilterState, QSynthesis};
use crate::numbers::Numbers;
use crate::places::{self, STATE_NUMBERS};

/// A fresh state with the postfilter on or off.
pub fn fresh(postfilter: bool) -> QSynthesis {
    let mut state = QSynthesis::new();
    state.set_postfilter(postfilter);
    state
}

/// Every field in the fixed order. The pattern names each, so that a new one does not compile.
pub fn to_numbers(state: &QSynthesis) -> Vec<i128> {
    let QSynthesis {
        prev_lsp,
        exc_hist,
        syn_mem,
        pf,
        last_lag,
        last_lag2,
        last_taps_sum_q15,
        last_gain_unvoiced,
        pcm_hist,
        erased_run,
        postfilter,
        clamp_syn_mem: _,
    } = state;
    let mut list = Vec::with_capacity(STATE_NUMBERS);
    list.extend(prev_lsp.iter().map(|&n| i128::from(n)));
    list.extend(exc_hist.iter().map(|&n| i128::from(n)));
    list.extend(syn_mem.iter().map(|&n| i128::from(n)));
    list.extend(postfilter_numbers(pf));
    list.extend([last_lag, last_lag2].map(|&n| i128::from(n)));
    list.extend([last_taps_sum_q15, last_gain_unvoiced].map(|&n| i128::from(n)));
    list.extend(pcm_hist.iter().map(|&n| i128::from(n)));
    list.extend([i128::from(*erased_run), i128::from(*postfilter)]);
    list
}

/// The formant, tilt and gain memory in the fixed order.
pub(super) fn postfilter_numbers(pf: &PostfilterState) -> Vec<i128> {
    let PostfilterState {
        num_mem,
        den_mem,
        tilt_prev,
        tilt_k1,
        agc_gain_q12,
    } = pf;
    let mut list: Vec<i128> = num_mem.iter().map(|&n| i128::from(n)).collect();
    list.extend(den_mem.iter().map(|&n| i128::from(n)));
    list.extend([tilt_prev, tilt_k1].map(|&n| i128::from(n)));
    list.push(i128::from(*agc_gain_q12));
    list
}

/// The state of the next numbers; none if one does not fit its field's width.
pub fn from_numbers(numbers: &mut Numbers) -> Option<QSynthesis> {
    Some(QSynthesis {
        prev_lsp: numbers.array()?,
        exc_hist: numbers.array()?,
        syn_mem: numbers.array()?,
        pf: postfilter_from_numbers(numbers)?,
        last_lag: numbers.one()?,
        last_lag2: numbers.one()?,
        last_taps_sum_q15: numbers.one()?,
        last_gain_unvoiced: numbers.one()?,
        pcm_hist: numbers.array()?,
        erased_run: numbers.one()?,
        postfilter: numbers.flag()?,
        clamp_syn_mem: true,
    })
}

/// The formant, tilt and gain memory of the next numbers.
pub(super) fn postfilter_from_numbers(numbers: &mut Numbers) -> Option<PostfilterState> {
    Some(PostfilterState {
        num_mem: numbers.array()?,
        den_mem: numbers.array()?,
        tilt_prev: numbers.one()?,
        tilt_k1: numbers.one()?,
        agc_gain_q12: numbers.one()?,
    })
}

/// The LSPs of the frame before, which an LSP index is added to.
pub fn prev_lsp(state: &QSynthesis) -> &[i16; places::LSPS] {
    &state.prev_lsp
}

/// Whether the synthesis memory is the clamped one, the only one that document 01 takes over.
pub fn clamps(state: &QSynthesis) -> bool {
    state.clamp_syn_mem
}

/// Document 01, number 2: false where the state is out of bounds.
pub fn in_bounds(state: &QSynthesis) -> bool {
    let within = |n: i32, (low, high): (i64, i64)| (low as i32..=high as i32).contains(&n);
    state.exc_hist.iter().all(|&n| within(n, places::WORD))
        && state.syn_mem.iter().all(|&n| within(n, places::WORD))
        && within(state.pf.agc_gain_q12, places::GAIN)
        && within(state.last_lag, places::LAST_LAG)
        && within(state.last_lag2, places::BASE_LAG)
        && within(state.last_taps_sum_q15, places::TAP_SUM)
        && within(state.last_gain_unvoiced, places::UNVOICED_GAIN)
}
