//! The second decoder with its state, as C sees it.

use crate::places::STATE_NUMBERS;

unsafe extern "C" {
    fn second_decode(
        state: &mut [i64; STATE_NUMBERS],
        record: *const u8,
        length: usize,
        samples: *mut i64,
        count: usize,
        outcome: &mut i32,
    ) -> i32;
    fn second_fresh(state: &mut [i64; STATE_NUMBERS], postfilter: i32);
}

pub struct Second([i64; STATE_NUMBERS]);

impl Second {
    /// From the numbers of the oracle's state.rs.
    pub fn from_numbers(list: &[i128]) -> Self {
        Self(std::array::from_fn(|i| list[i] as i64))
    }

    pub fn fresh(postfilter: bool) -> Self {
        let mut state = [0; STATE_NUMBERS];
        // SAFETY: it writes as many numbers and no more.
        unsafe { second_fresh(&mut state, i32::from(postfilter)) };
        Self(state)
    }

    pub fn to_numbers(&self) -> Vec<i128> {
        self.0.map(i128::from).to_vec()
    }

    /// The number, 0 where the record was accepted, and the outcome.
    pub fn decode(&mut self, record: &[u8], samples: &mut [i64]) -> (u8, u8) {
        // Every call writes it; what stands here is none.
        let mut outcome = -1;
        // SAFETY: both slices are as long as is said, and nothing else refers to the samples.
        let number = unsafe {
            second_decode(&mut self.0, record.as_ptr(), record.len(), samples.as_mut_ptr(), samples.len(), &mut outcome)
        };
        let small = |value: i32| u8::try_from(value).expect("a number of 0 to 10, an outcome of 0 to 3");
        (small(number), small(outcome))
    }
}
