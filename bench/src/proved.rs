//! The proved functions on the benchmark's questions.
use humpelkaas::calls::{self, Access, Lists};
pub use humpelkaas::calls::{AuditWords, BatchWords, Words};
use humpelkaas::{El1, El2};

/// Bytes of physical memory, and the address of the first.
#[derive(Clone, Copy)]
pub struct Capture<'a> {
    pub base: u64,
    pub bytes: &'a [u8],
}

fn core(file: &[u8]) -> humpelkaas::Capture<'_> {
    humpelkaas::Capture::Core { file }
}

impl<'a> Capture<'a> {
    fn raw(self) -> humpelkaas::Capture<'a> {
        humpelkaas::Capture::Raw { base: self.base, bytes: self.bytes }
    }
}

/// The registers, and the kind (0 read, 1 write, 2 fetch), EL and size of the access: what the addresses of a batch share.
#[derive(Clone, Copy, Default)]
pub struct Question {
    pub pamax: u64,
    pub hcr_el2: u64,
    pub vtcr_el2: u64,
    pub vttbr_el2: u64,
    pub sctlr_el2: u64,
    pub sctlr_el1: u64,
    pub tcr_el1: u64,
    pub ttbr0_el1: u64,
    pub ttbr1_el1: u64,
    pub mair_el1: u64,
    pub kind: u64,
    pub el: u64,
    pub size: u64,
}

impl Question {
    pub fn el2(&self) -> El2 {
        let Question { pamax, hcr_el2, vtcr_el2, vttbr_el2, sctlr_el2, .. } = *self;
        El2 { pamax, hcr_el2, vtcr_el2, vttbr_el2, sctlr_el2 }
    }

    pub fn el1(&self) -> El1 {
        let Question { sctlr_el1, tcr_el1, ttbr0_el1, ttbr1_el1, mair_el1, .. } = *self;
        El1 { sctlr_el1, tcr_el1, ttbr0_el1, ttbr1_el1, mair_el1 }
    }

    pub fn access(&self, address: u64) -> Access {
        Access { address, kind: self.kind, el: self.el, size: self.size }
    }
}

/// Asks for one address.
#[inline]
pub fn ask(q: &Question, capture: Capture, address: u64, log: &mut [u64]) -> Words {
    calls::translate(capture.raw(), q.el2(), q.el1(), q.access(address), log)
}

/// The same over a core file.
#[inline]
pub fn ask_core(q: &Question, file: &[u8], address: u64, log: &mut [u64]) -> Words {
    calls::translate(core(file), q.el2(), q.el1(), q.access(address), log)
}

/// Asks for all addresses in one call.
#[inline]
pub fn batch(q: &Question, capture: Capture, addresses: &[u64], outputs: &mut [u64], numbers: &mut [u64]) -> BatchWords {
    calls::batch(capture.raw(), q.el2(), q.el1(), q.access(0), addresses, outputs, numbers)
}

/// The same over a core file.
#[inline]
pub fn batch_core(q: &Question, file: &[u8], addresses: &[u64], outputs: &mut [u64], numbers: &mut [u64]) -> BatchWords {
    calls::batch(core(file), q.el2(), q.el1(), q.access(0), addresses, outputs, numbers)
}

/// Audits stage 2's tables. Of the question it takes PAMax and the EL2 registers.
#[inline]
pub fn audit(q: &Question, capture: Capture, lists: Lists) -> AuditWords {
    calls::audit(capture.raw(), q.el2(), lists)
}
