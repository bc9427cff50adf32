//! Stands in for the repository's src/tables.rs, which is not among the five files.

// Document 01, "Constants": the numbers printed there.
pub const LPC_ORDER: usize = 10;
pub const SUBFRAMES_PER_FRAME: usize = 4;
pub const SUBFRAME_SIZE: usize = 60;
pub const FRAME_SIZE_SAMPLES: usize = 240;
pub const PITCH_MIN: usize = 18;
pub const PITCH_MAX: usize = 142;
pub const LSP_STABILITY_MAX_ITERATIONS: usize = 10;
pub const ERASURE_MUTE_AFTER_FRAMES: u32 = 3;
pub const ERASURE_CLASSIFIER_HISTORY_LEN: usize = 120;

// linepack.rs, module comment: 192 bits at the high rate, 160 at the low. The decoder's arithmetic
// does not read them.
pub const HIGH_RATE_BYTES: usize = 24;
pub const LOW_RATE_BYTES: usize = 20;

// spec_lsp.rs, module comment: b = 12/32. Only its floating-point quantiser reads this.
pub const LSP_PREDICTOR_B: f32 = 0.375;
