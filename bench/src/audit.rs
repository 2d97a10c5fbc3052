//! A straightforward audit in Rust, by document 01: what the proved audit is measured against. Every list is searched from its start.
use crate::decode::{second, stage2_on, Granule, Root};
use crate::proved::{AuditWords, Capture, Question};
use crate::refusals::{ends_high, item};
use crate::straight::output;

/// Grants and their counts are multiples of this.
const FRAME: u64 = 4096;
pub const MOST_GRANTS: usize = 256;
pub const MOST_TABLES: usize = 1024;

/// Grants by address and byte count, tables by address and level.
#[derive(Clone)]
pub struct Lists {
    pub grants: Vec<u64>,
    pub counts: Vec<u64>,
    pub tables: Vec<u64>,
    pub levels: Vec<u64>,
}

/// A finding's number and address.
type Finding = (u64, u64);

/// So many bytes from a multiple of a size end by 2^48.
fn lies(address: u64, count: u64, size: u64) -> bool {
    address % size == 0 && address.checked_add(count).map_or(false, |end| end <= 1 << 48)
}

/// The bytes of a listed table: one granule of stage 2, or a frame with stage 2 off.
fn table_size(q: &Question) -> u64 {
    if stage2_on(q) {
        1 << Granule::by_tg0(q.vtcr_el2).page
    } else {
        FRAME
    }
}

impl Lists {
    fn are_well_formed(&self, table_size: u64) -> bool {
        let Lists { grants, counts, tables, levels } = self;
        grants.len() == counts.len()
            && grants.len() <= MOST_GRANTS
            && tables.len() == levels.len()
            && tables.len() <= MOST_TABLES
            && grants.iter().zip(counts).all(|(grant, count)| lies(*grant, *count, FRAME) && count % FRAME == 0 && *count >= FRAME)
            && tables.iter().zip(levels).all(|(table, level)| lies(*table, table_size, table_size) && (1..=3).contains(level))
            && (1..grants.len()).all(|n| grants[n - 1] + counts[n - 1] < grants[n])
            && (1..tables.len()).all(|n| (tables[n - 1], levels[n - 1]) < (tables[n], levels[n]))
    }

    fn touches_grant(&self, start: u64, size: u64) -> bool {
        let end = start + size;
        self.grants.iter().zip(&self.counts).any(|(grant, count)| start < grant + count && *grant < end)
    }

    fn is_granted(&self, start: u64, size: u64) -> bool {
        let end = start + size;
        self.grants.iter().zip(&self.counts).any(|(grant, count)| *grant <= start && end <= grant + count)
    }

    fn is_listed(&self, address: u64, at: u64) -> bool {
        self.tables.iter().zip(&self.levels).any(|(table, level)| *table == address && *level == at)
    }

    /// A table of a stage 2 with this root, which gives the sizes.
    fn examine(&self, capture: Capture, root: &Root, table: u64, entries: u64, level: u64) -> Result<(), Finding> {
        let (size, shift) = (8 * entries, root.page + root.stride * (3 - level as u32));
        let offset = table.wrapping_sub(capture.base) as usize;
        let bytes = capture.bytes.get(offset..).and_then(|rest| rest.get(..size as usize)).ok_or((1, table))?;
        if self.touches_grant(table, size) {
            return Err((2, table));
        }
        for (n, eight) in bytes.chunks_exact(8).enumerate() {
            let at = table + 8 * n as u64;
            let descriptor = u64::from_le_bytes(eight.try_into().expect("eight bytes"));
            let address = |low| output(descriptor, low, 0);
            match (descriptor & 3, level) {
                (3, 0..=2) if !self.is_listed(address(root.page), level + 1) => return Err((3, at)),
                (1, 1 | 2) if shift > root.block => {}
                (3, 3) | (1, 1 | 2) if !self.is_granted(address(shift), 1 << shift) => return Err((4, at)),
                _ => {}
            }
        }
        Ok(())
    }
}

/// Audits by PAMax and the EL2 registers of a question, and answers in the words of the exported call.
#[inline(never)]
pub fn audit(q: &Question, capture: Capture, lists: &Lists) -> AuditWords {
    let none = AuditWords::default();
    if ends_high(capture) {
        return AuditWords { number: 11, ..none };
    }
    // The audit's settings are those of a question with stage 1 off.
    match item(&Question { sctlr_el1: 0, ..*q }) {
        0 => {}
        item => return AuditWords { number: 12, item, ..none },
    }
    if !lists.are_well_formed(table_size(q)) {
        return AuditWords { number: 15, ..none };
    }
    let root = match second(q).and_then(|stage2| stage2.root.ok()) {
        Some(root) => root,
        None => return AuditWords { number: 16, ..none },
    };
    let listed = || lists.tables.iter().zip(&lists.levels);
    let examined = lists
        .examine(capture, &root, root.table, root.index + 1, root.level(root.shift))
        .and_then(|()| listed().try_for_each(|(table, level)| lists.examine(capture, &root, *table, root.lower_index + 1, *level)));
    match examined {
        Ok(()) => none,
        Err((number, address)) => AuditWords { number, address, ..none },
    }
}
