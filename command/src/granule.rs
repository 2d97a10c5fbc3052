//! The translation granule: the size of a table and of a page, from which that of all other entries follows.
use crate::layout::{BLOCK, LAST_LEVEL, TABLE};
use humpelkaas::Registers;

/// A granule, by the log of its bytes.
#[derive(Clone, Copy, Debug, PartialEq, Eq)]
pub struct Granule {
    log: u64,
}

/// Where TCR_EL1 and VTCR_EL2 have TG0, and where TCR_EL1 has TG1.
const TG0: u64 = 14;
const TG1: u64 = 30;
/// The bit of an address that picks its half. Where it is bit 63 that counts and the two differ, nothing is read.
const HALF: u64 = 55;
/// Address bits of a descriptor end here.
const ADDRESS: u64 = (1 << 48) - 1;

/// TG0's codes. By a reserved one nothing is read: it is refused, or its stage is off, or its half is disabled.
fn by_tg0(register: u64) -> Granule {
    match register >> TG0 & 0b11 {
        1 => Granule::KB64,
        2 => Granule::KB16,
        _ => Granule::KB4,
    }
}

/// TG1's codes, which are not TG0's.
fn by_tg1(register: u64) -> Granule {
    match register >> TG1 & 0b11 {
        1 => Granule::KB16,
        3 => Granule::KB64,
        _ => Granule::KB4,
    }
}

impl Granule {
    pub const KB4: Granule = Granule { log: 12 };
    const KB16: Granule = Granule { log: 14 };
    const KB64: Granule = Granule { log: 16 };

    /// Stage 1's, in the half that an address picks.
    pub fn stage1(registers: &Registers, address: u64) -> Granule {
        match address >> HALF & 1 {
            0 => by_tg0(registers.el1.tcr_el1),
            _ => by_tg1(registers.el1.tcr_el1),
        }
    }

    pub fn stage2(registers: &Registers) -> Granule {
        by_tg0(registers.el2.vtcr_el2)
    }

    /// The bytes of a table, and of a page.
    pub fn bytes(self) -> u64 {
        1 << self.log
    }

    /// The entries of a table.
    pub fn entries(self) -> u64 {
        1 << self.stride()
    }

    /// How many bits of an address index a table.
    fn stride(self) -> u64 {
        self.log - 3
    }

    /// The size of what an entry at a level spans.
    pub fn span(self, level: u64) -> u64 {
        1 << (self.log + self.stride() * (LAST_LEVEL - level))
    }

    /// A descriptor is a page's or a block's at a level.
    pub fn is_leaf(self, descriptor: u64, level: u64) -> bool {
        let first_block = if self == Granule::KB4 { 1 } else { 2 };
        match descriptor & 0b11 {
            TABLE => level == LAST_LEVEL,
            BLOCK => (first_block..LAST_LEVEL).contains(&level),
            _ => false,
        }
    }

    /// The address of the table that a descriptor leads to.
    pub fn table(self, descriptor: u64) -> u64 {
        descriptor & ADDRESS & !(self.bytes() - 1)
    }

    /// The address of the page or block of a descriptor at a level.
    pub fn leaf(self, descriptor: u64, level: u64) -> u64 {
        descriptor & ADDRESS & !(self.span(level) - 1)
    }
}

#[cfg(test)]
mod tests {
    use super::Granule;
    use humpelkaas::Registers;

    const LOWER: u64 = 0x1000;
    const UPPER: u64 = 0xffff_ffff_ffff_f000;

    fn registers(tcr_el1: u64, vtcr_el2: u64) -> Registers {
        let mut registers = Registers::default();
        registers.el1.tcr_el1 = tcr_el1;
        registers.el2.vtcr_el2 = vtcr_el2;
        registers
    }

    /// All other bits of the registers are set, and do not count.
    #[test]
    fn codes() {
        let others = |shift: u64, code: u64| !(0b11 << shift) | code << shift;
        for (code, bytes) in [(0, 4096), (1, 65536), (2, 16384)] {
            assert_eq!(Granule::stage1(&registers(others(14, code), 0), LOWER).bytes(), bytes);
            assert_eq!(Granule::stage2(&registers(0, others(14, code))).bytes(), bytes);
            assert_eq!(Granule::stage2(&registers(u64::MAX, code << 14)).bytes(), bytes);
        }
        for (code, bytes) in [(1, 16384), (2, 4096), (3, 65536)] {
            assert_eq!(Granule::stage1(&registers(others(30, code), 0), UPPER).bytes(), bytes);
        }
    }

    /// A tag in the top byte does not pick the half.
    #[test]
    fn halves() {
        let registers = registers(1 << 14 | 1 << 30, 0);
        for (address, bytes) in [(0, 65536), (0xff00_0000_0000_1000, 65536), (1 << 55, 16384), (0x00ff_ffff_ffff_f000, 16384)] {
            assert_eq!(Granule::stage1(&registers, address).bytes(), bytes, "{address:#x}");
        }
    }

    #[test]
    fn sizes() {
        for (granule, entries, spans) in [
            (Granule::KB4, 512, [1 << 39, 1 << 30, 1 << 21, 1 << 12]),
            (Granule::KB16, 2048, [1 << 47, 1 << 36, 1 << 25, 1 << 14]),
            (Granule::KB64, 8192, [1 << 55, 1 << 42, 1 << 29, 1 << 16]),
        ] {
            assert_eq!(granule.entries(), entries);
            assert_eq!([0, 1, 2, 3].map(|level| granule.span(level)), spans);
        }
    }

    #[test]
    fn leaves() {
        for (granule, blocks) in [
            (Granule::KB4, [false, true, true, false]),
            (Granule::KB16, [false, false, true, false]),
            (Granule::KB64, [false, false, true, false]),
        ] {
            assert_eq!([0, 1, 2, 3].map(|level| granule.is_leaf(0b01, level)), blocks);
            assert_eq!([0, 1, 2, 3].map(|level| granule.is_leaf(0b11, level)), [false, false, false, true]);
            assert_eq!([0, 1, 2, 3].map(|level| granule.is_leaf(0b10, level)), [false; 4]);
        }
    }

    #[test]
    fn addresses() {
        for (granule, table, block) in [
            (Granule::KB4, 0xffff_ffff_f000, 0xffff_ffe0_0000),
            (Granule::KB16, 0xffff_ffff_c000, 0xffff_fe00_0000),
            (Granule::KB64, 0xffff_ffff_0000, 0xffff_e000_0000),
        ] {
            assert_eq!((granule.table(u64::MAX), granule.leaf(u64::MAX, 3), granule.leaf(u64::MAX, 2)), (table, table, block));
        }
    }
}
