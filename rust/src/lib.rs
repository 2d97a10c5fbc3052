//! Where do a guest's addresses land? Arm's VMSAv8-64 walk for the Non-secure EL1&0 regime, with granules of 4KB, 16KB and 64KB, over a
//! memory capture, and the audit of stage 2's tables against what a guest was granted.
//!
//! The walk and the audit are the proved library's; this crate gives them types. [`translate`] answers one question, [`batch`] up to
//! [`BATCH`] at once, [`audit`] says whether stage 2 keeps a guest within its grants. A [`Capture`] is a run of bytes or a core file, whose
//! parts [`banks`] lists. Any input gets an answer: bad input is a
//! [`Refusal`], and a descriptor that is not wholly in the capture is [`Answer::Absent`], never read as zeros.
//!
//! Nothing outside [`calls`] is `unsafe`.
#![deny(unsafe_code, missing_debug_implementations)]

mod access;
mod answer;
mod attributes;
mod audit;
mod banks;
mod batch;
#[allow(unsafe_code)]
pub mod calls;
mod refusal;
mod registers;

pub use access::{Access, Kind};
pub use answer::{translate, Answer, Fault, Reads, Stage, Told};
pub use attributes::{Attributes, Cacheability, Device, Memory, Shareability};
pub use audit::{audit, AuditAnswer, Finding, Grant, Table};
pub use banks::{banks, Bank, BANKS};
pub use batch::{batch, Entries, Ledger, BATCH};
pub use refusal::Refusal;
pub use registers::{El1, El2, Registers};

/// Captured physical memory.
#[derive(Clone, Copy, Debug)]
pub enum Capture<'a> {
    /// Bytes, and the address of the first.
    Raw { base: u64, bytes: &'a [u8] },
    /// The bytes of an ELF64 core file, whose headers say where they lie.
    Core { file: &'a [u8] },
}

/// For numbers that the library never gives: it and this crate are then of different versions.
#[cold]
fn unknown(what: &str, number: u64) -> ! {
    panic!("the library gave {what} {number}, which this crate does not know: they are of different versions")
}
