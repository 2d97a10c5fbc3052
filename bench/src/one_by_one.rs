//! A question for each address of a batch, the proved one or the straightforward one.
use crate::proved::Words;

/// Asks for all addresses, one call each. The log is not cleared between them.
pub fn one_by_one(ask: impl Fn(u64, &mut [u64]) -> Words, addresses: &[u64], outputs: &mut [u64], numbers: &mut [u64], log: &mut [u64]) {
    for ((address, output), number) in addresses.iter().zip(outputs).zip(numbers) {
        let words = ask(*address, log);
        *number = words.number;
        *output = if words.number == 0 { words.address } else { 0 };
    }
}
