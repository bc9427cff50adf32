//! One received frame from the candidate LSPs on.
//!
//! `decode_params` looks up indices first; document 01 takes it from `lsp_check_or_previous` on.
//! Its lines from there are repeated here, in their order and with their names; everything that
//! they call is the unchanged function. An LSP index (document 02, E1) is looked up by record.rs.

use super::super::*;

/// What `decode_params` has once its indices are looked up.
#[derive(Debug, PartialEq)]
pub struct Frame {
    pub rate: PackedRate,
    pub candidate: [i16; LPC_ORDER],
    pub acl: [u32; SUBFRAMES_PER_FRAME],
    pub taps: [[i16; ACB_TAPS]; SUBFRAMES_PER_FRAME],
    pub gain_index: [u8; SUBFRAMES_PER_FRAME],
    pub fixed: [Fixed; SUBFRAMES_PER_FRAME],
}

/// The fixed vector of a subframe: from pulses at the high rate, given at the low rate.
#[derive(Clone, Copy, Debug, PartialEq)]
pub enum Fixed {
    Pulses {
        pos: u32,
        psig: u32,
        grid: u8,
        train: bool,
    },
    Vector([i32; SUBFRAME_SIZE]),
}

/// The doubled gain of an index, as `gain_decode` has it.
pub fn doubled_gain(index: u8) -> Option<i16> {
    Some(crate::spec_tables::fixed_codebook_gain(index)? << FCB_GAIN_SHIFT)
}

/// The four lags of the four codes.
pub fn lags(acl: &[u32; SUBFRAMES_PER_FRAME]) -> [i32; SUBFRAMES_PER_FRAME] {
    let lag0 = acl[0] as i32 + 18;
    let lag1 = lag0 + DELTA_LAG[acl[1] as usize];
    let lag2 = acl[2] as i32 + 18;
    let lag3 = lag2 + DELTA_LAG[acl[3] as usize];
    [lag0, lag1, lag2, lag3]
}

/// The fixed vector of subframe `s`.
fn fixed_vector(p: &Frame, s: usize, fcb_gain: i16, lag_base: i32) -> [i32; SUBFRAME_SIZE] {
    match p.fixed[s] {
        Fixed::Pulses {
            pos,
            psig,
            grid,
            train,
        } => {
            let n_pulses = if s % 2 == 0 { 6 } else { 5 };
            mpmlq_fixed_vector(pos, psig, grid, n_pulses, fcb_gain, train, lag_base)
        }
        Fixed::Vector(v) => v,
    }
}

impl QSynthesis {
    /// `decode_params` from `lsp_check_or_previous` on.
    pub fn decode_frame(&mut self, p: &Frame) -> [i16; FRAME_SIZE_SAMPLES] {
        let cur = lsp_check_or_previous(p.candidate, &self.prev_lsp, LSP_DELTA_MIN_Q15);
        let lags = lags(&p.acl);

        let hist_snapshot = self.exc_hist;
        let mut exc = [0i32; FRAME_SIZE_SAMPLES];
        let mut fcb_gains = [0i32; SUBFRAMES_PER_FRAME];
        let mut last_taps_sum_q15 = 0i32;
        for s in 0..SUBFRAMES_PER_FRAME {
            let fcb_gain = doubled_gain(p.gain_index[s]).expect("the gain index is below 24");
            fcb_gains[s] = fcb_gain as i32;
            last_taps_sum_q15 = p.taps[s].iter().map(|&t| t as i32 * 2).sum();
            self.excitation_subframe(p, s, &lags, fcb_gain, &mut exc);
        }

        let lpc = frame_lpc_q13(&self.prev_lsp, &cur);
        let mut pcm = [0i16; FRAME_SIZE_SAMPLES];
        for s in 0..SUBFRAMES_PER_FRAME {
            let ref_lag = if s < 2 { lags[0] } else { lags[2] };
            let start = s * SUBFRAME_SIZE;
            let x = self.pitch_subframe(&hist_snapshot, &exc, start, ref_lag, p.rate);
            let out = self.output_subframe(&lpc[s], &x);
            pcm[start..start + SUBFRAME_SIZE].copy_from_slice(&out);
        }

        self.prev_lsp = cur;
        self.record_last_frame(&lags, last_taps_sum_q15, fcb_gains[2], fcb_gains[3]);
        self.record_pcm_history(&pcm);
        pcm
    }

    /// The excitation of subframe `s`, saved in the frame's and pushed to the history.
    pub(super) fn excitation_subframe(
        &mut self,
        p: &Frame,
        s: usize,
        lags: &[i32; SUBFRAMES_PER_FRAME],
        fcb_gain: i16,
        exc: &mut [i32; FRAME_SIZE_SAMPLES],
    ) {
        let lag_base = if s < 2 { lags[0] } else { lags[2] };
        let u = acb_contribution(&self.exc_hist, lags[s], &p.taps[s]);
        let v = fixed_vector(p, s, fcb_gain, lag_base);
        let start = s * SUBFRAME_SIZE;
        for n in 0..SUBFRAME_SIZE {
            let e = u[n].saturating_add(v[n]);
            exc[start + n] = if EXC_SAT16 {
                e.clamp(-EXC_RAIL - 1, EXC_RAIL)
            } else {
                e
            };
        }
        self.push_excitation(&exc[start..start + SUBFRAME_SIZE]);
    }

    /// The synthesis filter's input for the subframe at `start`.
    fn pitch_subframe(
        &self,
        hist_snapshot: &[i32; EXC_HIST],
        exc: &[i32; FRAME_SIZE_SAMPLES],
        start: usize,
        ref_lag: i32,
        rate: PackedRate,
    ) -> [i32; SUBFRAME_SIZE] {
        if self.postfilter {
            pitch_postfilter(hist_snapshot, exc, start, ref_lag, rate)
        } else {
            let mut x = [0i32; SUBFRAME_SIZE];
            x.copy_from_slice(&exc[start..start + SUBFRAME_SIZE]);
            x
        }
    }

    /// Synthesis of one subframe, then the formant, tilt and gain step with the postfilter on.
    fn output_subframe(
        &mut self,
        lpc: &[i16; LPC_ORDER],
        x: &[i32; SUBFRAME_SIZE],
    ) -> [i16; SUBFRAME_SIZE] {
        let mut sy = [0i16; SUBFRAME_SIZE];
        synthesis_subframe(lpc, x, &mut self.syn_mem, &mut sy, self.clamp_syn_mem);
        if self.postfilter {
            let mut post = [0i16; SUBFRAME_SIZE];
            self.pf.formant_agc_subframe(lpc, &sy, &mut post);
            post
        } else {
            sy
        }
    }
}
