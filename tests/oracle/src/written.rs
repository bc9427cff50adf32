//! Records out of frames: the fields one after another, in document 01's order.

use crate::places::TRAIN;
use crate::qdec::driver::frame::{Fixed, Frame};

/// The record of a kind with the bytes of its LSPs or its LSP index, and the frame's other fields.
pub fn record(kind: u8, lsps: &[u8], frame: &Frame) -> Vec<u8> {
    let mut bytes = vec![kind];
    bytes.extend(lsps);
    bytes.extend(frame.acl.map(|code| code as u8));
    for (s, fixed) in frame.fixed.iter().enumerate() {
        bytes.extend(frame.taps[s].iter().flat_map(|tap| tap.to_be_bytes()));
        bytes.push(frame.gain_index[s]);
        match fixed {
            Fixed::Pulses {
                pos,
                psig,
                grid,
                train,
            } => {
                bytes.extend([grid + TRAIN * u8::from(*train), *psig as u8]);
                bytes.extend(&pos.to_be_bytes()[1..]);
            }
            Fixed::Vector(v) => bytes.extend(v.iter().flat_map(|x| (*x as i16).to_be_bytes())),
        }
    }
    bytes
}
