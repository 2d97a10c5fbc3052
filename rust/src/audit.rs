//! The audit of stage 2's tables.
use crate::calls::{self, AuditWords, Lists};
use crate::{Capture, El2, Refusal};
use std::fmt;

/// Memory that a guest may have: `bytes` from a physical address on, both multiples of 4,096.
#[derive(Clone, Copy, Debug, PartialEq, Eq)]
pub struct Grant {
    pub address: u64,
    pub bytes: u64,
}

/// A table of stage 2 other than the root, and its level, 1 to 3. It has the bytes of stage 2's granule, and lies at a multiple of them.
#[derive(Clone, Copy, Debug, PartialEq, Eq)]
pub struct Table {
    pub address: u64,
    pub level: u64,
}

/// What is wrong, in the order in which one table is examined.
#[derive(Clone, Copy, Debug, PartialEq, Eq)]
pub enum Finding {
    NotCaptured,
    TouchesGrant,
    UnlistedTable,
    OutsideGrants,
}

#[derive(Clone, Copy, Debug, PartialEq, Eq)]
pub enum AuditAnswer {
    /// Whatever the guest does, its accesses through these tables stay in its grants.
    Clean,
    /// The first finding: the address of the table (not captured, touches a grant) or of the entry.
    Found {
        finding: Finding,
        address: u64,
    },
    Refused(Refusal),
}

/// Audits stage 2's tables, the root and those listed, against the grants.
pub fn audit(capture: Capture, el2: &El2, grants: &[Grant], tables: &[Table]) -> AuditAnswer {
    let (starts, counts): (Vec<u64>, Vec<u64>) = grants.iter().map(|grant| (grant.address, grant.bytes)).unzip();
    let (places, levels): (Vec<u64>, Vec<u64>) = tables.iter().map(|table| (table.address, table.level)).unzip();
    calls::audit(capture, *el2, Lists { grants: &starts, counts: &counts, tables: &places, levels: &levels }).into()
}

impl From<AuditWords> for AuditAnswer {
    fn from(words: AuditWords) -> AuditAnswer {
        let found = |finding| AuditAnswer::Found { finding, address: words.address };
        match words.number {
            0 => AuditAnswer::Clean,
            1 => found(Finding::NotCaptured),
            2 => found(Finding::TouchesGrant),
            3 => found(Finding::UnlistedTable),
            4 => found(Finding::OutsideGrants),
            number => AuditAnswer::Refused(Refusal::of(number, words.item)),
        }
    }
}

impl Finding {
    pub fn number(self) -> u64 {
        match self {
            Finding::NotCaptured => 1,
            Finding::TouchesGrant => 2,
            Finding::UnlistedTable => 3,
            Finding::OutsideGrants => 4,
        }
    }
}

impl fmt::Display for Finding {
    fn fmt(&self, f: &mut fmt::Formatter) -> fmt::Result {
        f.write_str(match self {
            Finding::NotCaptured => "the table is not wholly in the capture",
            Finding::TouchesGrant => "the table touches a grant: the guest can write its own stage 2",
            Finding::UnlistedTable => "the entry leads to a table that is not listed one level lower down",
            Finding::OutsideGrants => "the entry maps a range that is not inside one grant",
        })
    }
}

impl fmt::Display for AuditAnswer {
    fn fmt(&self, f: &mut fmt::Formatter) -> fmt::Result {
        match self {
            AuditAnswer::Clean => f.write_str("clean"),
            AuditAnswer::Found { finding, address } => write!(f, "finding {} at {address:#x}: {finding}", finding.number()),
            AuditAnswer::Refused(refusal) => write!(f, "refused: {refusal}"),
        }
    }
}
