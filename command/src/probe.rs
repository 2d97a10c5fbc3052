//! What a leaf's descriptor allows and which memory it gives, by the library's own answers.
//!
//! The leaf is put into two small tables of our making: a root of level 1 whose first entry leads to a table of level 2, and in that
//! the leaf as a block at address 0. The library is then asked for each kind of access to address 0. These tables are of 4KB: what a
//! leaf allows does not go by the granule.
use crate::granule::Granule;
use crate::layout::{BLOCK, DC, TABLE, VM};
use humpelkaas::{translate, Access, Answer, Attributes, Capture, El1, El2, Kind, Registers};
use std::fmt;

/// An input size of 32 bits, so that every PAMax allows it, and an output size of 32.
const INPUT: u64 = 64 - 32;
const START_AT_LEVEL_1: u64 = 1 << 6;
const TTBR1_DISABLED: u64 = 1 << 23;

const ACCESS_FLAG: u64 = 1 << 10;
/// Attributes, permissions and shareability: bits 9 to 2, and the execute-never bits 54 and 53.
const SAID: u64 = 0x3fc | 0b11 << 53;
/// What a stage 1 table imposes on all below it.
const IMPOSED: u64 = 0b1111 << 59;
/// Stage 2 permits reads.
const READABLE: u64 = 1 << 6;

/// Which accesses are let through, at EL1 and at EL0.
#[derive(Clone, Copy, Debug, PartialEq, Eq)]
pub struct Rights {
    el1: [bool; 3],
    el0: [bool; 3],
}

const KINDS: [Kind; 3] = [Kind::Read, Kind::Write, Kind::Fetch];

/// Three letters, as `ls` prints them.
pub fn letters(allowed: [bool; 3]) -> String {
    "rwx".chars().zip(allowed).map(|(letter, allowed)| if allowed { letter } else { '-' }).collect()
}

impl fmt::Display for Rights {
    fn fmt(&self, f: &mut fmt::Formatter) -> fmt::Result {
        if self.el1 == self.el0 {
            return f.write_str(&letters(self.el1));
        }
        write!(f, "EL1 {} EL0 {}", letters(self.el1), letters(self.el0))
    }
}

/// A leaf's rights, and its attributes unless Arm leaves them open.
#[derive(Clone, Copy, Debug, PartialEq, Eq)]
pub struct Leaf {
    pub rights: Rights,
    pub attributes: Option<Attributes>,
}

impl fmt::Display for Leaf {
    fn fmt(&self, f: &mut fmt::Formatter) -> fmt::Result {
        match self.attributes {
            Some(attributes) => write!(f, "{}, {attributes}", self.rights),
            None => write!(f, "{}, attributes unsettled by Arm", self.rights),
        }
    }
}

/// The two tables, with what tables impose and the leaf.
fn tables(imposed: u64, leaf: u64) -> Vec<u8> {
    let second = Granule::KB4.bytes();
    let at = second as usize;
    let mut bytes = vec![0; 2 * at];
    bytes[..8].copy_from_slice(&(imposed & IMPOSED | second | TABLE).to_le_bytes());
    bytes[at..at + 8].copy_from_slice(&(leaf & SAID | ACCESS_FLAG | BLOCK).to_le_bytes());
    bytes
}

fn ask(registers: &Registers, bytes: &[u8], kind: Kind, el: u64) -> Answer {
    translate(Capture::Raw { base: 0, bytes }, registers, Access { kind, el, size: 1 }, 0).answer
}

fn rights(registers: &Registers, bytes: &[u8]) -> Rights {
    let allowed = |el| KINDS.map(|kind| matches!(ask(registers, bytes, kind, el), Answer::Translated { .. }));
    Rights { el1: allowed(1), el0: allowed(0) }
}

/// The attributes that a read finds.
fn attributes(registers: &Registers, bytes: &[u8]) -> Option<Attributes> {
    match ask(registers, bytes, Kind::Read, 1) {
        Answer::Translated { attributes, .. } => Some(attributes),
        _ => None,
    }
}

/// A leaf of stage 1, with the table entries above it or-ed. Stage 2 is off.
pub fn stage1(registers: &Registers, imposed: u64, leaf: u64) -> Leaf {
    let el2 = El2 { hcr_el2: registers.el2.hcr_el2 & !VM, ..registers.el2 };
    let el1 = El1 { tcr_el1: INPUT | TTBR1_DISABLED, ttbr0_el1: 0, ..registers.el1 };
    let registers = Registers { el2, el1 };
    let bytes = tables(imposed, leaf);
    Leaf { rights: rights(&registers, &bytes), attributes: attributes(&registers, &bytes) }
}

/// A leaf of stage 2, with stage 1 off.
pub fn stage2(registers: &Registers, leaf: u64) -> Leaf {
    let hcr_el2 = registers.el2.hcr_el2 | DC;
    let el2 = El2 { hcr_el2, vtcr_el2: INPUT | START_AT_LEVEL_1, vttbr_el2: 0, ..registers.el2 };
    let registers = Registers { el2, ..*registers };
    let rights = rights(&registers, &tables(0, leaf));
    Leaf { rights, attributes: attributes(&registers, &tables(0, leaf | READABLE)) }
}
