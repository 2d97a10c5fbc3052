//! Memory types and shareability, in the codes of the exported call: Device memory is 0 to 3 in document 01's order, Normal memory
//! from 16 on, with 4 times the outer cacheability and the inner one, each 0 Non-cacheable, 1 Write-Through, 2 Write-Back.
use crate::decode::{bit, stage1_on, stage2_on};
use crate::proved::Question;

/// Normal memory, Non-cacheable both ways. The least of the codes of Normal memory.
pub const NORMAL: u8 = 16;
const WRITE_THROUGH: u8 = NORMAL + 5;
const WRITE_BACK: u8 = NORMAL + 10;
/// What Arm leaves open.
pub const UNSETTLED: u8 = 255;

const NOT_SHAREABLE: u64 = 0;
const OUTER_SHAREABLE: u64 = 2;
const INNER_SHAREABLE: u64 = 3;

pub struct Attributes {
    pub memory: u8,
    pub shareability: u64,
}

/// What each byte of MAIR_EL1 says.
pub static MAIR: [u8; 256] = mair();

const fn cacheability(nibble: u8) -> u8 {
    match nibble {
        4 => 0,
        1..=3 | 8..=11 => 1,
        _ => 2,
    }
}

const fn mair() -> [u8; 256] {
    let mut all = [UNSETTLED; 256];
    let mut byte = 0;
    while byte < 256 {
        let (outer, inner) = (byte as u8 >> 4, byte as u8 & 15);
        all[byte] = match (outer, inner) {
            (0, 0 | 4 | 8 | 12) => inner / 4,
            (0, _) | (_, 0) => UNSETTLED,
            _ => NORMAL + 4 * cacheability(outer) + cacheability(inner),
        };
        byte += 1;
    }
    all
}

/// Normal memory's SH of 1 is reserved.
pub fn reserved_shareability(descriptor: u64) -> bool {
    descriptor >> 8 & 3 == 1
}

/// A leaf's attributes, which Arm does not leave open.
fn leaf(memory: u8, descriptor: u64, uncached: bool) -> Attributes {
    Attributes { memory: if uncached && memory > NORMAL { NORMAL } else { memory }, shareability: descriptor >> 8 & 3 }
}

fn stage1(q: &Question, descriptor: u64) -> Attributes {
    let byte = q.mair_el1 >> (8 * (descriptor >> 2 & 7)) & 0xff;
    leaf(MAIR[byte as usize], descriptor, !bit(q.sctlr_el1, if q.kind == 2 { 12 } else { 2 }))
}

/// What stands for a leaf's attributes if stage 1 is off.
fn stage1_off(q: &Question) -> Attributes {
    if bit(q.hcr_el2, 12) {
        return Attributes { memory: WRITE_BACK, shareability: NOT_SHAREABLE };
    }
    let memory = match (q.kind, bit(q.sctlr_el1, 12)) {
        (2, true) => WRITE_THROUGH,
        (2, false) => NORMAL,
        _ => 0,
    };
    Attributes { memory, shareability: OUTER_SHAREABLE }
}

fn stage2(q: &Question, descriptor: u64) -> Attributes {
    let (outer, inner) = ((descriptor >> 4 & 3) as u8, (descriptor >> 2 & 3) as u8);
    // Of Normal memory neither is 0.
    let memory = if outer == 0 { inner } else { NORMAL - 5 + 4 * outer + inner };
    leaf(memory, descriptor, bit(q.hcr_el2, if q.kind == 2 { 33 } else { 32 }))
}

/// Device memory wins, as it has the lesser codes. So do the lesser types of Device memory, and the lesser cacheabilities.
fn combined(one: Attributes, two: Attributes) -> Attributes {
    let (a, b) = (one.memory, two.memory);
    let memory = if a < NORMAL || b < NORMAL { a.min(b) } else { NORMAL + (a & 12).min(b & 12) + (a & 3).min(b & 3) };
    let shareability = match (one.shareability, two.shareability) {
        (OUTER_SHAREABLE, _) | (_, OUTER_SHAREABLE) => OUTER_SHAREABLE,
        (INNER_SHAREABLE, _) | (_, INNER_SHAREABLE) => INNER_SHAREABLE,
        _ => NOT_SHAREABLE,
    };
    Attributes { memory, shareability }
}

/// What both stages' leaves give together. Device memory, and Normal memory Non-cacheable both ways, are outer shareable.
pub fn reported(q: &Question, first: u64, second: u64) -> Attributes {
    let one = if stage1_on(q) { stage1(q, first) } else { stage1_off(q) };
    let both = if stage2_on(q) { combined(one, stage2(q, second)) } else { one };
    if both.memory <= NORMAL {
        Attributes { shareability: OUTER_SHAREABLE, ..both }
    } else {
        both
    }
}
