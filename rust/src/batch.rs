//! Many addresses in one call.
use crate::{calls, Access, Capture, Refusal, Registers};
use std::fmt;
use std::iter::Sum;
use std::ops::Add;

/// The most addresses of one batch.
pub const BATCH: usize = 4096;

/// How many addresses were asked, and how many answers of each sort there were. Faulted are answers 1 to 5.
#[repr(C)]
#[derive(Clone, Copy, Debug, Default, PartialEq, Eq)]
pub struct Ledger {
    pub asked: u64,
    pub translated: u64,
    pub faulted: u64,
    pub absent: u64,
    pub unsettled: u64,
}

impl Add for Ledger {
    type Output = Ledger;

    fn add(self, other: Ledger) -> Ledger {
        Ledger {
            asked: self.asked + other.asked,
            translated: self.translated + other.translated,
            faulted: self.faulted + other.faulted,
            absent: self.absent + other.absent,
            unsettled: self.unsettled + other.unsettled,
        }
    }
}

impl Sum for Ledger {
    fn sum<I: Iterator<Item = Ledger>>(ledgers: I) -> Ledger {
        ledgers.fold(Ledger::default(), Add::add)
    }
}

/// The ledger's line, by the library. It has no newline.
impl fmt::Display for Ledger {
    fn fmt(&self, f: &mut fmt::Formatter) -> fmt::Result {
        // Five numbers of at most 20 digits and the words between them.
        let mut line = [0; 160];
        let length = calls::ledger_line(*self, &mut line) as usize;
        f.write_str(std::str::from_utf8(&line[..length]).expect("the line is ASCII"))
    }
}

/// The answers of a batch, in the order of its addresses: each answer's number, and its output address, or 0 where it has none.
#[derive(Clone, Debug, Default, PartialEq, Eq)]
pub struct Entries {
    pub numbers: Vec<u64>,
    pub outputs: Vec<u64>,
}

/// Asks for each address what [`translate`](crate::translate) would answer. The entries are overwritten, and kept as they were if the
/// batch is refused; their room is used again.
pub fn batch(capture: Capture, registers: &Registers, access: Access, addresses: &[u64], entries: &mut Entries) -> Result<Ledger, Refusal> {
    let mut room = std::mem::take(entries);
    room.numbers.resize(addresses.len(), 0);
    room.outputs.resize(addresses.len(), 0);
    let words = calls::batch(capture, registers.el2, registers.el1, access.to(0), addresses, &mut room.outputs, &mut room.numbers);
    *entries = room;
    match words.number {
        0 => Ok(words.ledger),
        number => Err(Refusal::of(number, words.item)),
    }
}
