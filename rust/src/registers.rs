//! The registers that a question goes by.

/// The hypervisor's registers and the board's PAMax: all that stage 2 and the audit go by.
#[repr(C)]
#[derive(Clone, Copy, Debug, Default, PartialEq, Eq)]
pub struct El2 {
    /// The size of physical addresses in bits: 32, 36, 40, 42, 44 or 48.
    pub pamax: u64,
    pub hcr_el2: u64,
    pub vtcr_el2: u64,
    pub vttbr_el2: u64,
    pub sctlr_el2: u64,
}

/// The guest's registers.
#[repr(C)]
#[derive(Clone, Copy, Debug, Default, PartialEq, Eq)]
pub struct El1 {
    pub sctlr_el1: u64,
    pub tcr_el1: u64,
    pub ttbr0_el1: u64,
    pub ttbr1_el1: u64,
    pub mair_el1: u64,
}

/// All of them.
#[derive(Clone, Copy, Debug, Default, PartialEq, Eq)]
pub struct Registers {
    pub el2: El2,
    pub el1: El1,
}
