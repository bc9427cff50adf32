//! Child module of the unchanged qdec.rs, so that its private functions and fields can be reached: the oracle's.

#[path = "../../../oracle/src/driver/frame.rs"]
pub mod frame;
#[path = "../../../oracle/src/driver/outcome.rs"]
pub mod outcome;
#[allow(dead_code)]
#[path = "../../../oracle/src/driver/state.rs"]
pub mod state;
