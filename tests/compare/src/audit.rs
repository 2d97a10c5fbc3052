//! An independent audit: "The audit" of document 01, with document 02, §1 to §3, in plain Rust, written without regard to the proved
//! code.
use crate::walk::{bits, failing_item, stage2_on, Capture, Granule, OutputSize, Question, Start};
use std::ops::Range;

/// Addresses and counts of grants are multiples of this.
pub const FRAME: u64 = 4096;

pub const MOST_GRANTS: usize = 256;
pub const MOST_TABLES: usize = 1024;

/// Grants by address and byte count, and tables by address and level: as they are lent, so also malformed.
#[derive(Clone, Debug, Default, PartialEq, Eq)]
pub struct Lists {
    pub grants: Vec<u64>,
    pub counts: Vec<u64>,
    pub tables: Vec<u64>,
    pub levels: Vec<u64>,
}

impl Lists {
    pub fn of(grants: &[Range<u64>], tables: &[(u64, u64)]) -> Lists {
        Lists {
            grants: grants.iter().map(|grant| grant.start).collect(),
            counts: grants.iter().map(|grant| grant.end - grant.start).collect(),
            tables: tables.iter().map(|table| table.0).collect(),
            levels: tables.iter().map(|table| table.1).collect(),
        }
    }

    /// The address and byte count of each grant that has both.
    fn grants(&self) -> Vec<(u64, u64)> {
        self.grants.iter().copied().zip(self.counts.iter().copied()).collect()
    }

    /// The address and level of each table that has both.
    pub fn tables(&self) -> Vec<(u64, u64)> {
        self.tables.iter().copied().zip(self.levels.iter().copied()).collect()
    }

    /// The bytes of each grant. Of lists that are not malformed no end passes 2^48.
    pub fn granted(&self) -> Vec<Range<u64>> {
        self.grants().iter().map(|&(address, count)| address..address.wrapping_add(count)).collect()
    }

    /// Every ground of answer 15, and whether the lists have it with listed tables of so many bytes.
    pub fn grounds(&self, table_size: u64) -> [(&'static str, bool); 14] {
        let (grants, tables) = (self.grants(), self.tables());
        // Sums are of unbounded numbers.
        let end = |address: u64, count: u64| u128::from(address) + u128::from(count);
        let gap = |pair: &[(u64, u64)]| i128::from(pair[1].0) - end(pair[0].0, pair[0].1) as i128;
        [
            ("grants unequal", self.grants.len() != self.counts.len()),
            ("over 256 grants", self.grants.len() > MOST_GRANTS || self.counts.len() > MOST_GRANTS),
            ("grant address", self.grants.iter().any(|address| address % FRAME != 0)),
            ("count no multiple", self.counts.iter().any(|count| count % FRAME != 0)),
            ("count under 4096", self.counts.iter().any(|&count| count < FRAME)),
            ("grant end", grants.iter().any(|&(address, count)| end(address, count) > 1 << 48)),
            ("no gap", grants.windows(2).any(|pair| gap(pair) == 0)),
            ("grant order", grants.windows(2).any(|pair| gap(pair) < 0)),
            ("tables unequal", self.tables.len() != self.levels.len()),
            ("over 1024 tables", self.tables.len() > MOST_TABLES || self.levels.len() > MOST_TABLES),
            ("table address", self.tables.iter().any(|address| address % table_size != 0)),
            ("table end", self.tables.iter().any(|&address| end(address, table_size) > 1 << 48)),
            ("level", self.levels.iter().any(|level| !(1..=3).contains(level))),
            ("table order", tables.windows(2).any(|pair| pair[0] >= pair[1])),
        ]
    }

    /// For settings that pass, though a reserved granule has an answer too.
    pub fn are_malformed(&self, q: &Question) -> bool {
        self.grounds(table_size(q)).iter().any(|ground| ground.1)
    }
}

/// How many bytes a listed table has, and what its address is a multiple of: stage 2's granule, or a frame if stage 2 is off.
pub fn table_size(q: &Question) -> u64 {
    Granule::of_stage2(q).filter(|_| stage2_on(q)).map_or(FRAME, Granule::size)
}

/// The root or a listed table.
#[derive(Clone, Copy)]
pub struct Table {
    pub granule: Granule,
    pub address: u64,
    pub level: u64,
    pub entries: u64,
    pub listed: bool,
}

impl Table {
    pub fn bytes(&self) -> Range<u64> {
        self.address..self.address + 8 * self.entries
    }
}

/// The audit's settings are items 1 to 3, 4 for EL2, 8 and 9: those that a question with stage 1 off is tested for.
pub fn failing_setting(q: &Question) -> Option<u64> {
    failing_item(&Question { sctlr_el1: 0, ..*q })
}

/// Stage 2's root, with all entries of one that is concatenated; none if stage 2 is off, or every IPA faults before any read. That does
/// not depend on the IPA, but for one too large. For settings that pass.
pub fn root(q: &Question) -> Option<Table> {
    if !stage2_on(q) {
        return None;
    }
    let start = Start::stage2(q, 0, OutputSize::Lowered).ok()?;
    Some(Table { granule: start.granule, address: start.table, level: start.level, entries: start.entries(), listed: false })
}

/// All tables in the order of the audit, the root first; none where there is no root. For settings that pass.
pub fn tables(q: &Question, lists: &Lists) -> Vec<Table> {
    let root = match root(q) {
        Some(root) => root,
        None => return Vec::new(),
    };
    let of_granule = Table { entries: 1 << root.granule.stride(), listed: true, ..root };
    let listed = lists.tables().into_iter().map(|(address, level)| Table { address, level, ..of_granule });
    std::iter::once(root).chain(listed).collect()
}

/// What an audit makes of an entry.
pub enum Entry {
    PassedOver,
    Table(u64),
    Leaf(Range<u64>),
}

/// Flags do not count, nor does the output size.
pub fn entry(descriptor: u64, table: &Table) -> Entry {
    let address = |low: u64| bits(descriptor, 47, low) << low;
    let is_leaf = match bits(descriptor, 1, 0) {
        0b11 if table.level < 3 => return Entry::Table(address(table.granule.log())),
        0b11 => true,
        0b01 => table.granule.allows_block(table.level),
        _ => false,
    };
    if !is_leaf {
        return Entry::PassedOver;
    }
    let low = table.granule.shift(table.level);
    Entry::Leaf(address(low)..address(low) + (1 << low))
}

/// Whether two ranges share a byte.
pub fn touch(one: &Range<u64>, two: &Range<u64>) -> bool {
    one.start < two.end && two.start < one.end
}

pub fn inside(one: &Range<u64>, two: &Range<u64>) -> bool {
    two.start <= one.start && one.end <= two.end
}

/// Findings 1 to 4, with the address that is reported and the table that it was found in.
#[derive(Clone, Copy)]
pub struct Finding {
    pub number: u64,
    pub address: u64,
    pub table: Table,
}

/// The first finding in a table, if there is one.
fn examine(table: Table, capture: Capture, grants: &[Range<u64>], listed: &[(u64, u64)]) -> Option<Finding> {
    let found = |number, address| Some(Finding { number, address, table });
    let bytes = table.bytes();
    let entries: Vec<u64> = match bytes.clone().step_by(8).map(|at| capture.descriptor(at)).collect() {
        Some(entries) => entries,
        None => return found(1, table.address),
    };
    if grants.iter().any(|grant| touch(grant, &bytes)) {
        return found(2, table.address);
    }
    for (at, descriptor) in bytes.step_by(8).zip(entries) {
        match entry(descriptor, &table) {
            Entry::Table(next) if !listed.contains(&(next, table.level + 1)) => return found(3, at),
            Entry::Leaf(leaf) if !grants.iter().any(|grant| inside(&leaf, grant)) => return found(4, at),
            _ => {}
        }
    }
    None
}

/// Answers 17, 11, 12, 15 and 16.
pub enum Refusal {
    CoreFile,
    HighCapture,
    Settings(u64),
    Lists,
    NoRoot,
}

pub enum Verdict {
    Clean,
    Found(Finding),
    Refused(Refusal),
}

/// The audit by PAMax and the EL2 registers of a question.
pub fn audit(q: &Question, capture: Capture, lists: &Lists) -> Verdict {
    if capture.is_no_core() {
        return Verdict::Refused(Refusal::CoreFile);
    }
    if capture.is_high() {
        return Verdict::Refused(Refusal::HighCapture);
    }
    if let Some(item) = failing_setting(q) {
        return Verdict::Refused(Refusal::Settings(item));
    }
    if lists.are_malformed(q) {
        return Verdict::Refused(Refusal::Lists);
    }
    let tables = tables(q, lists);
    if tables.is_empty() {
        return Verdict::Refused(Refusal::NoRoot);
    }
    let (grants, listed) = (lists.granted(), lists.tables());
    tables.iter().find_map(|&table| examine(table, capture, &grants, &listed)).map_or(Verdict::Clean, Verdict::Found)
}
