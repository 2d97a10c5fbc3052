//! What the straightforward question and audit are refused for.
use crate::decode::{bit, stage1_on, stage2_on};
use crate::proved::{Capture, Question, Words};
use crate::straight::LOG;

/// The codes of TG0 and of TG1 that name no granule.
const RESERVED_TG0: u64 = 3;
const RESERVED_TG1: u64 = 0;

/// The codes of IPS and PS.
fn listed_output(code: u64) -> bool {
    code <= 5
}

/// TnSZ, and the code of the granule.
fn listed_input(field: u64, granule: u64, reserved: u64) -> bool {
    (16..=39).contains(&field) && granule != reserved
}

/// The first item of the settings that fails, or 0.
pub fn item(q: &Question) -> u64 {
    let (one, two) = (stage1_on(q), stage2_on(q));
    let (tcr, vtcr) = (q.tcr_el1, q.vtcr_el2);
    if !matches!(q.pamax, 32 | 36 | 40 | 42 | 44 | 48) {
        return 1;
    }
    if bit(q.hcr_el2, 27) {
        return 2;
    }
    if !bit(q.hcr_el2, 31) {
        return 3;
    }
    if one && bit(q.sctlr_el1, 25) || two && bit(q.sctlr_el2, 25) {
        return 4;
    }
    if one {
        if !listed_output(tcr >> 32 & 7) {
            return 5;
        }
        if !bit(tcr, 7) && !listed_input(tcr & 63, tcr >> 14 & 3, RESERVED_TG0) {
            return 6;
        }
        if !bit(tcr, 23) && !listed_input(tcr >> 16 & 63, tcr >> 30 & 3, RESERVED_TG1) {
            return 7;
        }
    }
    if two {
        if !listed_output(vtcr >> 16 & 7) {
            return 8;
        }
        if !listed_input(vtcr & 63, vtcr >> 14 & 3, RESERVED_TG0) || 64 - (vtcr & 63) > q.pamax {
            return 9;
        }
    }
    0
}

/// Whether a capture's end passes 2^48.
pub fn ends_high(capture: Capture) -> bool {
    capture.base.checked_add(capture.bytes.len() as u64).map_or(true, |end| end > 1 << 48)
}

/// The refusals of a question, in their order, of a capture that may be high and with a log of so many words.
pub fn refusal(q: &Question, high: bool, words: usize) -> Option<Words> {
    let refused = |number, item| Some(Words { number, item, ..Words::default() });
    if words < LOG {
        return refused(10, 0);
    }
    if high {
        return refused(11, 0);
    }
    match item(q) {
        0 => {}
        item => return refused(12, item),
    }
    if q.kind > 2 || q.el > 1 || !matches!(q.size, 1 | 2 | 4 | 8 | 16) {
        return refused(13, 0);
    }
    None
}
