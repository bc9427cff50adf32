//! What stabilising says of candidate LSPs (document 02, E2), told from the Rust's own answers.

use super::super::*;
use super::frame::Frame;

/// The three things that it says; as numbers 0, 1 and 2.
#[derive(Clone, Copy, Debug, PartialEq)]
pub enum Outcome {
    Untouched,
    Moved,
    Previous,
}

/// Stands for an outcome where no frame was decoded.
pub const NO_OUTCOME: u8 = 3;

/// The Rust says only whether LSPs passed. Where some were moved a gap of the candidate was short,
/// and LSPs that passed have no short gap: those that are still the candidate were not moved.
pub fn outcome(candidate: &[i16; LPC_ORDER], delta_min: i16) -> Outcome {
    let mut lsps = *candidate;
    if !lsp_stability(&mut lsps, delta_min) {
        Outcome::Previous
    } else if lsps == *candidate {
        Outcome::Untouched
    } else {
        Outcome::Moved
    }
}

/// That of a received frame.
pub fn received_outcome(frame: &Frame) -> Outcome {
    outcome(&frame.candidate, LSP_DELTA_MIN_Q15)
}

/// That of an erased frame, from the state before it.
pub fn erased_outcome(state: &QSynthesis) -> Outcome {
    let candidate = lsp_extrapolate(&state.prev_lsp);
    outcome(&candidate, LSP_DELTA_MIN_ERASURE_Q15)
}
