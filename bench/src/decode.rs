//! What the straightforward walk goes by: registers, decoded. Settings must be accepted ones.
use crate::proved::Question;
use crate::straight::Cause;

/// What IPS or PS says of the output size.
const SIZES: [u64; 6] = [32, 36, 40, 42, 44, 48];

/// What differs from granule to granule.
#[derive(Clone, Copy)]
pub struct Granule {
    /// The bits of an address inside a page. A table has one page, so an index has three fewer.
    pub page: u32,
    /// The first level that stage 2 may start at, and what PAMax must be over there. The largest blocks are at the level after it.
    first: u64,
    over: u64,
    /// Arm leaves the contiguous bit of the largest block open for an input size under this.
    contiguous: u64,
}

const KB4: Granule = Granule { page: 12, first: 0, over: 42, contiguous: 34 };
const KB16: Granule = Granule { page: 14, first: 1, over: 40, contiguous: 30 };
const KB64: Granule = Granule { page: 16, first: 1, over: 42, contiguous: 34 };

impl Granule {
    /// By TG0 of TCR_EL1 or VTCR_EL2, which is not the reserved code.
    pub fn by_tg0(register: u64) -> Granule {
        match register >> 14 & 3 {
            1 => KB64,
            2 => KB16,
            _ => KB4,
        }
    }

    /// By TG1 of TCR_EL1, whose codes are others.
    fn by_tg1(tcr: u64) -> Granule {
        match tcr >> 30 & 3 {
            1 => KB16,
            3 => KB64,
            _ => KB4,
        }
    }

    fn stride(self) -> u32 {
        self.page - 3
    }

    /// The lowest bit of a level's index.
    fn shift(self, level: u64) -> u32 {
        self.page + self.stride() * (3 - level as u32)
    }
}

/// Where a stage's table walk starts, and the sizes that it goes by.
pub struct Root {
    pub table: u64,
    /// The lowest input bit of the root's index.
    pub shift: u32,
    /// The bits of the root's index, shifted down, and of the indices below it.
    pub index: u64,
    pub lower_index: u64,
    /// The bits of a table's address.
    pub tables: u64,
    /// 2 to the output size.
    pub limit: u64,
    pub page: u32,
    pub stride: u32,
    /// The lowest input bit of an index whose entries may be the largest blocks.
    pub block: u32,
    /// Whether Arm leaves such a block with the contiguous bit open.
    pub contiguous_open: bool,
}

impl Root {
    /// The level whose index has this lowest bit.
    pub fn level(&self, shift: u32) -> u64 {
        (3 - (shift - self.page) / self.stride) as u64
    }
}

/// Stage 1 for one half of the input addresses: the address bits that are tested, and what they must be.
pub struct Stage1 {
    pub tested: u64,
    pub wanted: u64,
    /// The root, or what stops every walk of this half.
    pub root: Result<Root, Cause>,
    pub mair: [u8; 8],
    pub write_implies_xn: bool,
}

/// Stage 1 if it is off, for one half: the address bits that must be 0.
pub struct Flat {
    pub zeros: u64,
    pub device: bool,
}

pub enum First {
    On(Stage1),
    Off(Flat),
}

pub struct Stage2 {
    /// 2 to the input size.
    pub inputs: u64,
    /// The root, or what stops every walk.
    pub root: Result<Root, Cause>,
    pub protected_walk: bool,
}

pub fn bit(word: u64, at: u32) -> bool {
    word >> at & 1 == 1
}

/// The bits from `low` up to and including `top`.
fn ones(top: u64, low: u64) -> u64 {
    u64::MAX >> (63 - top) & u64::MAX << low
}

/// The highest address bit that counts in a half.
fn top(q: &Question, high: bool) -> u64 {
    if bit(q.tcr_el1, if high { 38 } else { 37 }) {
        55
    } else {
        63
    }
}

/// The output size by a register whose bits 2 to 0 are IPS or PS: no more than PAMax.
fn output_size(q: &Question, register: u64) -> u64 {
    SIZES[(register & 7) as usize].min(q.pamax)
}

/// The root of a walk from a base register. Bits of the base under the root's size are ignored.
fn root(granule: Granule, base: u64, size: u64, output_size: u64, level: u64) -> Result<Root, Cause> {
    let address = base & ones(47, 0);
    if address >> output_size != 0 {
        return Err(Cause::AddressSize);
    }
    let shift = granule.shift(level);
    let bits = size as u32 - shift;
    Ok(Root {
        table: address & u64::MAX << (bits + 3),
        shift,
        index: (1 << bits) - 1,
        lower_index: (1 << granule.stride()) - 1,
        tables: ones(47, granule.page as u64),
        limit: 1 << output_size,
        page: granule.page,
        stride: granule.stride(),
        block: granule.shift(granule.first + 1),
        contiguous_open: size < granule.contiguous,
    })
}

/// One half, with its own base register. A disabled half's size is not looked at: the settings do not test it.
fn stage1(q: &Question, high: bool) -> Stage1 {
    let (mair, write_implies_xn) = (q.mair_el1.to_le_bytes(), bit(q.sctlr_el1, 19));
    let tcr = q.tcr_el1;
    let (base, field, disabled, granule) = if high {
        (q.ttbr1_el1, tcr >> 16 & 63, bit(tcr, 23), Granule::by_tg1(tcr))
    } else {
        (q.ttbr0_el1, tcr & 63, bit(tcr, 7), Granule::by_tg0(tcr))
    };
    if disabled {
        return Stage1 { tested: 0, wanted: 0, root: Err(Cause::Translation), mair, write_implies_xn };
    }
    let size = 64 - field;
    let tested = ones(top(q, high), size);
    let wanted = if high { tested } else { 0 };
    // The first level whose index the input has a bit of.
    let level = (0..3).find(|level| granule.shift(*level) < size as u32).unwrap_or(3);
    Stage1 { tested, wanted, root: root(granule, base, size, output_size(q, tcr >> 32), level), mair, write_implies_xn }
}

/// Stage 1 is on with SCTLR_EL1.M, unless HCR_EL2.DC is set.
pub fn stage1_on(q: &Question) -> bool {
    bit(q.sctlr_el1, 0) && !bit(q.hcr_el2, 12)
}

/// Stage 2 is on with HCR_EL2.VM or HCR_EL2.DC.
pub fn stage2_on(q: &Question) -> bool {
    bit(q.hcr_el2, 0) || bit(q.hcr_el2, 12)
}

/// Stage 1 for the addresses whose bit 55 is as `high` says: one that the top bit would put into the other half is a translation
/// fault in either.
pub fn first(q: &Question, high: bool) -> First {
    if stage1_on(q) {
        First::On(stage1(q, high))
    } else {
        First::Off(Flat { zeros: ones(top(q, high), q.pamax), device: !bit(q.hcr_el2, 12) && q.kind != 2 })
    }
}

/// The root of stage 2, whose start level and size check are signed numbers.
fn root2(q: &Question, size: u64) -> Result<Root, Cause> {
    let granule = Granule::by_tg0(q.vtcr_el2);
    let first = granule.first as i64;
    let level = 2 + first - (q.vtcr_el2 >> 6 & 3) as i64;
    if level < first || level == first && q.pamax <= granule.over {
        return Err(Cause::Translation);
    }
    let bits = size as i64 - granule.shift(level as u64) as i64;
    if (1..=granule.stride() as i64 + 4).contains(&bits) {
        root(granule, q.vttbr_el2, size, output_size(q, q.vtcr_el2 >> 16), level as u64)
    } else {
        Err(Cause::Translation)
    }
}

pub fn second(q: &Question) -> Option<Stage2> {
    if !stage2_on(q) {
        return None;
    }
    let size = 64 - (q.vtcr_el2 & 63);
    Some(Stage2 { inputs: 1 << size, root: root2(q, size), protected_walk: bit(q.hcr_el2, 2) })
}
