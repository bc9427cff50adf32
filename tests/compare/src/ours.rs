//! Our decoder with its state, as C sees it.

use crate::places::{HISTORY, LSPS, TAIL};

unsafe extern "C" {
    fn ours_decode(
        prev_lsp: &mut [i16; LSPS],
        exc_hist: &mut [i32; HISTORY],
        syn_mem: &mut [i32; LSPS],
        num_mem: &mut [i16; LSPS],
        den_mem: &mut [i16; LSPS],
        tilt: &mut [i16; 2],
        numbers: &mut [i32; 5],
        pcm_hist: &mut [i16; TAIL],
        erased_run: &mut [u32; 1],
        postfilter: bool,
        outcome: &mut [u8; 1],
        record: *const u8,
        record_length: usize,
        samples: *mut i16,
        samples_length: usize,
    ) -> u8;
}

#[derive(Clone)]
pub struct Ours {
    prev_lsp: [i16; LSPS],
    exc_hist: [i32; HISTORY],
    syn_mem: [i32; LSPS],
    num_mem: [i16; LSPS],
    den_mem: [i16; LSPS],
    tilt: [i16; 2],
    numbers: [i32; 5],
    pcm_hist: [i16; TAIL],
    erased_run: [u32; 1],
    postfilter: bool,
}

/// The next `N` numbers of a list, which fit.
fn take<T: TryFrom<i128>, const N: usize>(list: &mut &[i128]) -> [T; N] {
    let (now, rest) = list.split_at(N);
    *list = rest;
    std::array::from_fn(|i| T::try_from(now[i]).ok().expect("the number fits its field"))
}

impl Ours {
    /// From the numbers of the oracle's state.rs.
    pub fn from_numbers(mut list: &[i128]) -> Self {
        let list = &mut list;
        Self {
            prev_lsp: take(list),
            exc_hist: take(list),
            syn_mem: take(list),
            num_mem: take(list),
            den_mem: take(list),
            tilt: take(list),
            numbers: take(list),
            pcm_hist: take(list),
            erased_run: take(list),
            postfilter: take::<u8, 1>(list)[0] == 1,
        }
    }

    pub fn to_numbers(&self) -> Vec<i128> {
        let mut list: Vec<i128> = self.prev_lsp.map(i128::from).to_vec();
        list.extend(self.exc_hist.map(i128::from));
        list.extend(self.syn_mem.map(i128::from));
        list.extend(self.num_mem.map(i128::from));
        list.extend(self.den_mem.map(i128::from));
        list.extend(self.tilt.map(i128::from));
        list.extend(self.numbers.map(i128::from));
        list.extend(self.pcm_hist.map(i128::from));
        list.extend(self.erased_run.map(i128::from));
        list.push(i128::from(self.postfilter));
        list
    }

    /// The number, 0 where the record was accepted, and the outcome.
    pub fn decode(&mut self, record: &[u8], samples: &mut [i16]) -> (u8, u8) {
        // Every call writes it; what stands here is none.
        let mut outcome = [u8::MAX];
        // SAFETY: both slices are as long as is said, and nothing else refers to the samples.
        let number = unsafe {
            ours_decode(
                &mut self.prev_lsp,
                &mut self.exc_hist,
                &mut self.syn_mem,
                &mut self.num_mem,
                &mut self.den_mem,
                &mut self.tilt,
                &mut self.numbers,
                &mut self.pcm_hist,
                &mut self.erased_run,
                self.postfilter,
                &mut outcome,
                record.as_ptr(),
                record.len(),
                samples.as_mut_ptr(),
                samples.len(),
            )
        };
        (number, outcome[0])
    }
}
