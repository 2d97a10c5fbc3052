//! What the command itself knows of descriptors and of HCR_EL2. Of sizes, [`Granule`](crate::granule::Granule) knows all.

/// HCR_EL2.VM, which turns stage 2 on.
pub const VM: u64 = 1 << 0;
/// HCR_EL2.DC, which turns stage 1 off in the way in which it adds nothing to what stage 2 says, and stage 2 on.
pub const DC: u64 = 1 << 12;

/// Bits 1:0 of a descriptor: of a block, and of a table or, at the last level, a page.
pub const BLOCK: u64 = 0b01;
pub const TABLE: u64 = 0b11;
pub const LAST_LEVEL: u64 = 3;

/// The bytes that memory is granted in.
pub const FRAME: u64 = 4096;

/// A descriptor is a table's at a level.
pub fn is_table(descriptor: u64, level: u64) -> bool {
    descriptor & 0b11 == TABLE && level < LAST_LEVEL
}
