//! The straightforward walk for a batch: registers are decoded once.
use crate::decode::{bit, first, First};
use crate::memory::Memory;
use crate::proved::Question;
use crate::straight::{Trail, Walker, LOG};

/// Memory with decoded registers, ready for any number of addresses.
pub struct Batch<M> {
    walker: Walker<M>,
    low: First,
    high: First,
}

impl<M: Memory> Batch<M> {
    /// For accepted settings, kinds, ELs and sizes.
    pub fn new(q: &Question, memory: M) -> Batch<M> {
        Batch { walker: Walker::new(q, memory), low: first(q, false), high: first(q, true) }
    }

    /// Answers all addresses. The log holds what the last ones left: it is not cleared between them.
    // Never inlined, so that the log's stores cannot be left out where nobody reads it.
    #[inline(never)]
    pub fn run(&self, addresses: &[u64], outputs: &mut [u64], numbers: &mut [u64], log: &mut [u64; LOG]) {
        for ((address, output), number) in addresses.iter().zip(outputs).zip(numbers) {
            let first = if bit(*address, 55) { &self.high } else { &self.low };
            match self.walker.access(first, *address, &mut Trail { log, count: 0, notes: () }) {
                Ok(found) => {
                    *output = found;
                    *number = 0;
                }
                Err(cause) => {
                    *output = 0;
                    *number = cause as u64;
                }
            }
        }
    }
}
