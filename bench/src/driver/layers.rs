//! The functions of layers.rt.in, as C sees them.

use crate::places::{FRAME, HISTORY, LSPS, SUBFRAME, TAPS};

/// History and frame.
pub const SIGNAL: usize = HISTORY + FRAME;

unsafe extern "C" {
    pub safe fn layer_acb_contribution(
        signal: &[i16; SIGNAL],
        number: u8,
        lag: i32,
        taps: &[i16; TAPS],
        u: &mut [i32; SUBFRAME],
    );
    pub safe fn layer_push_excitation(
        signal: &mut [i16; SIGNAL],
        number: u8,
        u: &[i32; SUBFRAME],
        v: &[i32; SUBFRAME],
    );
    pub safe fn layer_synthesis_subframe(
        a: &[i16; LSPS],
        x: &[i32; SUBFRAME],
        mem: &mut [i16; LSPS],
        out: &mut [i16; SUBFRAME],
    );
    pub safe fn layer_pitch_postfilter(
        signal: &[i16; SIGNAL],
        number: u8,
        lag: i32,
        low: bool,
        out: &mut [i32; SUBFRAME],
    );
    pub safe fn layer_formant_agc_subframe(
        num_mem: &mut [i16; LSPS],
        den_mem: &mut [i16; LSPS],
        tilt: &mut [i16; 2],
        gain: &mut [i32; 1],
        a: &[i16; LSPS],
        y: &[i16; SUBFRAME],
        out: &mut [i16; SUBFRAME],
    );
    fn layer_fcbk_pack_positions(slots: *const usize, count: usize) -> u32;
}

/// The code of slots; the largest number for slots that are turned away.
pub fn layer_pack(slots: &[usize]) -> u32 {
    // SAFETY: the slots are lent for the call.
    unsafe { layer_fcbk_pack_positions(slots.as_ptr(), slots.len()) }
}
