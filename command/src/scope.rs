//! Register bits that ask for what is out of scope, and that change answers on processors which have it.
use crate::trouble::say;
use humpelkaas::Registers;
use std::borrow::Borrow;

/// A bit: its name, its place, and the register that has it.
type Bit = (&'static str, u32, fn(&Registers) -> u64);

/// Hardware update of table flags, and hierarchical permission disables.
const BITS: [Bit; 6] = [
    ("TCR_EL1.HA", 39, |r| r.el1.tcr_el1),
    ("TCR_EL1.HD", 40, |r| r.el1.tcr_el1),
    ("TCR_EL1.HPD0", 41, |r| r.el1.tcr_el1),
    ("TCR_EL1.HPD1", 42, |r| r.el1.tcr_el1),
    ("VTCR_EL2.HA", 21, |r| r.el2.vtcr_el2),
    ("VTCR_EL2.HD", 22, |r| r.el2.vtcr_el2),
];

/// Those that are set.
pub fn bits(registers: &Registers) -> Vec<&'static str> {
    BITS.iter().filter(|(_, bit, of)| of(registers) >> bit & 1 == 1).map(|(name, ..)| *name).collect()
}

/// Which those are, and what it means for the answers, if any are set.
pub fn words<T: Borrow<str>>(bits: &[T]) -> Option<String> {
    let named = bits.join(", ");
    (!bits.is_empty()).then(|| format!("set and out of scope: {named}: answers are those of Arm's first edition, which has none of these"))
}

/// Says so on the error stream.
pub fn warn<T: Borrow<str>>(bits: &[T]) {
    if let Some(words) = words(bits) {
        say(&format!("warning: {words}"));
    }
}
