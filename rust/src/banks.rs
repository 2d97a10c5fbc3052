//! The banks of a core file.
use crate::{calls, Refusal};

/// The most banks of a core file.
pub const BANKS: usize = 64;

/// A run of physical memory that a core file says it has.
#[derive(Clone, Copy, Debug, PartialEq, Eq)]
pub struct Bank {
    /// The physical address of its first byte.
    pub address: u64,
    /// Where in the file that byte stands, or would if the file were whole.
    pub offset: u64,
    /// How many of its bytes the file has.
    pub length: u64,
    /// They are fewer than its header says: the file was cut.
    pub short: bool,
}

/// Lists the banks of a core file, which ascend by their addresses.
pub fn banks(file: &[u8]) -> Result<Vec<Bank>, Refusal> {
    let [mut addresses, mut offsets, mut lengths, mut shorts] = [[0; BANKS]; 4];
    let words = calls::banks(file, &mut addresses, &mut offsets, &mut lengths, &mut shorts);
    let bank = |i: usize| Bank { address: addresses[i], offset: offsets[i], length: lengths[i], short: shorts[i] == 1 };
    match words.number {
        0 => Ok((0..words.count as usize).map(bank).collect()),
        number => Err(Refusal::of(number, 0)),
    }
}
