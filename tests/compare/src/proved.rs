//! The proved functions on the walk's questions, and the walk's answers in their words.
use crate::audit::{self, Lists, Verdict};
use crate::walk::{Answer, Cacheability, Capture, Cause, Memory, Question, Refusal};
use humpelkaas::calls::{self, Access};
pub use humpelkaas::calls::{banks, AuditWords, BanksWords, BatchWords, Words};
use humpelkaas::{El1, El2};

fn el2(q: &Question) -> El2 {
    El2 { pamax: q.pamax, hcr_el2: q.hcr_el2, vtcr_el2: q.vtcr_el2, vttbr_el2: q.vttbr_el2, sctlr_el2: q.sctlr_el2 }
}

fn el1(q: &Question) -> El1 {
    El1 { sctlr_el1: q.sctlr_el1, tcr_el1: q.tcr_el1, ttbr0_el1: q.ttbr0_el1, ttbr1_el1: q.ttbr1_el1, mair_el1: q.mair_el1 }
}

fn access(q: &Question) -> Access {
    Access { address: q.address, kind: q.kind, el: q.el, size: q.size }
}

fn of(capture: Capture) -> humpelkaas::Capture {
    match capture {
        Capture::Raw(bank) => humpelkaas::Capture::Raw { base: bank.base, bytes: bank.bytes },
        Capture::Core { file, .. } => humpelkaas::Capture::Core { file },
    }
}

/// The comparison sees a write past the log, or into the capture.
pub fn ask(q: &Question, capture: Capture, log: &mut [u64]) -> Words {
    calls::translate(of(capture), el2(q), el1(q), access(q), log)
}

/// Asks of each address what the question asks of its own.
pub fn batch(q: &Question, capture: Capture, addresses: &[u64], outputs: &mut [u64], numbers: &mut [u64]) -> BatchWords {
    calls::batch(of(capture), el2(q), el1(q), access(q), addresses, outputs, numbers)
}

pub fn audit(q: &Question, capture: Capture, lists: &Lists) -> AuditWords {
    let Lists { grants, counts, tables, levels } = lists;
    calls::audit(of(capture), el2(q), calls::Lists { grants, counts, tables, levels })
}

fn cacheability_code(cacheability: Cacheability) -> u64 {
    match cacheability {
        Cacheability::NonCacheable => 0,
        Cacheability::WriteThrough => 1,
        Cacheability::WriteBack => 2,
    }
}

fn memory_code(memory: Memory) -> u64 {
    match memory {
        Memory::Device(device) => device,
        Memory::Normal { outer, inner } => 16 + 4 * cacheability_code(outer) + cacheability_code(inner),
    }
}

/// The words in which the exported call gives the walk's answer.
impl From<Answer> for Words {
    fn from(answer: Answer) -> Words {
        let none = Words::default();
        match answer {
            Answer::Translated { address, attributes, level1, level2, reads } => {
                let memory = memory_code(attributes.memory);
                Words { address, memory, shareability: attributes.shareability, level1, level2, reads: reads as u64, ..none }
            }
            Answer::Stopped { stop, reads } => {
                let (number, address, level) = match stop.cause {
                    Cause::Translation => (1, 0, stop.level),
                    Cause::AddressSize => (2, 0, stop.level),
                    Cause::AccessFlag => (3, 0, stop.level),
                    Cause::Permission => (4, 0, stop.level),
                    // An alignment fault carries no level.
                    Cause::Alignment => (5, 0, 0),
                    Cause::NotCaptured(address) => (6, address, stop.level),
                    Cause::Unsettled => (7, 0, stop.level),
                };
                let place = stop.place;
                // Of stops at stage 2, faults alone carry the IPA.
                let (stage, onwalk, ipa) = (place.stage, place.on_walk as u64, if number <= 5 { place.ipa } else { 0 });
                Words { number, address, level, stage, onwalk, ipa, reads: reads as u64, ..none }
            }
            Answer::Refused(Refusal::CoreFile) => Words { number: 17, ..none },
            Answer::Refused(Refusal::ShortLog) => Words { number: 10, ..none },
            Answer::Refused(Refusal::HighCapture) => Words { number: 11, ..none },
            Answer::Refused(Refusal::Settings(item)) => Words { number: 12, item, ..none },
            Answer::Refused(Refusal::Access) => Words { number: 13, ..none },
        }
    }
}

/// The same for the audit.
impl From<&Verdict> for AuditWords {
    fn from(verdict: &Verdict) -> AuditWords {
        let none = AuditWords::default();
        match verdict {
            Verdict::Clean => none,
            Verdict::Found(finding) => AuditWords { number: finding.number, address: finding.address, ..none },
            Verdict::Refused(audit::Refusal::CoreFile) => AuditWords { number: 17, ..none },
            Verdict::Refused(audit::Refusal::HighCapture) => AuditWords { number: 11, ..none },
            Verdict::Refused(audit::Refusal::Settings(item)) => AuditWords { number: 12, item: *item, ..none },
            Verdict::Refused(audit::Refusal::Lists) => AuditWords { number: 15, ..none },
            Verdict::Refused(audit::Refusal::NoRoot) => AuditWords { number: 16, ..none },
        }
    }
}
