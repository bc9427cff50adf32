//! The three decoders under one form.

use crate::numbers::Numbers;
use crate::ours::Ours;
use crate::places::FRAME;
use crate::qdec::QSynthesis;
use crate::qdec::driver::outcome::NO_OUTCOME;
use crate::qdec::driver::state;
use crate::record;
use crate::second::Second;

pub trait Decoder {
    /// The number, 0 where the record was accepted, and the outcome as the oracle numbers it. The samples are written where the
    /// record was accepted.
    fn decode(&mut self, record: &[u8], samples: &mut [i64]) -> (u8, u8);
    /// The state's numbers in the order of the oracle's state.rs.
    fn numbers(&self) -> Vec<i128>;
}

pub fn rust(list: &[i128]) -> QSynthesis {
    state::from_numbers(&mut Numbers::from(list.to_vec())).expect("the state fits its fields")
}

/// Those that are compared with the Rust.
pub fn others(list: &[i128]) -> [(&'static str, Box<dyn Decoder>); 2] {
    [
        ("ours", Box::new(Ours::from_numbers(list))),
        ("the second", Box::new(Second::from_numbers(list))),
    ]
}

impl Decoder for QSynthesis {
    fn decode(&mut self, bytes: &[u8], samples: &mut [i64]) -> (u8, u8) {
        // Number 1 stands here: the oracle's samples are an array.
        if samples.len() != FRAME {
            return (1, NO_OUTCOME);
        }
        match record::decode_with_outcome(self, bytes) {
            Ok((outcome, decoded)) => {
                samples.copy_from_slice(&decoded.map(i64::from));
                (0, outcome as u8)
            }
            Err(number) => (number, NO_OUTCOME),
        }
    }

    fn numbers(&self) -> Vec<i128> {
        state::to_numbers(self)
    }
}

impl Decoder for Ours {
    fn decode(&mut self, record: &[u8], samples: &mut [i64]) -> (u8, u8) {
        let mut words: Vec<i16> = samples.iter().map(|&x| x as i16).collect();
        let said = Ours::decode(self, record, &mut words);
        samples.iter_mut().zip(words).for_each(|(to, x)| *to = i64::from(x));
        said
    }

    fn numbers(&self) -> Vec<i128> {
        self.to_numbers()
    }
}

impl Decoder for Second {
    fn decode(&mut self, record: &[u8], samples: &mut [i64]) -> (u8, u8) {
        Second::decode(self, record, samples)
    }

    fn numbers(&self) -> Vec<i128> {
        self.to_numbers()
    }
}
