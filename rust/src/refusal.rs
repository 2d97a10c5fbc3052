//! Why a call is refused.
use crate::unknown;
use std::fmt;

/// Bad input. A refused call has read nothing and written nothing.
#[derive(Clone, Copy, Debug, PartialEq, Eq)]
pub enum Refusal {
    ShortLog,
    HighCapture,
    /// The first item of the settings that fails, 1 to 9.
    Settings {
        item: u64,
    },
    Unlisted,
    BatchLists,
    AuditLists,
    NoRoot,
    CoreFile,
}

impl Refusal {
    pub(crate) fn of(number: u64, item: u64) -> Refusal {
        match number {
            10 => Refusal::ShortLog,
            11 => Refusal::HighCapture,
            12 => Refusal::Settings { item },
            13 => Refusal::Unlisted,
            14 => Refusal::BatchLists,
            15 => Refusal::AuditLists,
            16 => Refusal::NoRoot,
            17 => Refusal::CoreFile,
            _ => unknown("answer", number),
        }
    }

    pub fn number(self) -> u64 {
        match self {
            Refusal::ShortLog => 10,
            Refusal::HighCapture => 11,
            Refusal::Settings { .. } => 12,
            Refusal::Unlisted => 13,
            Refusal::BatchLists => 14,
            Refusal::AuditLists => 15,
            Refusal::NoRoot => 16,
            Refusal::CoreFile => 17,
        }
    }

    /// The failing item of the settings.
    pub fn item(self) -> Option<u64> {
        match self {
            Refusal::Settings { item } => Some(item),
            _ => None,
        }
    }
}

/// What the registers must be, by item of the settings.
fn setting(item: u64) -> &'static str {
    match item {
        1 => "PAMax is not 32, 36, 40, 42, 44 or 48",
        2 => "HCR_EL2.TGE (bit 27) is 1",
        3 => "HCR_EL2.RW (bit 31) is 0",
        4 => "EE (bit 25) is 1 in SCTLR_EL1 with stage 1 on, or in SCTLR_EL2 with stage 2 on",
        5 => "TCR_EL1.IPS (bits 34:32) is over 5",
        6 => "TCR_EL1.T0SZ (bits 5:0) is not 16 to 39, or TG0 (bits 15:14) is not 0 (4KB), 1 (64KB) or 2 (16KB), with EPD0 (bit 7) 0",
        7 => "TCR_EL1.T1SZ (bits 21:16) is not 16 to 39, or TG1 (bits 31:30) is not 1 (16KB), 2 (4KB) or 3 (64KB), with EPD1 (bit 23) 0",
        8 => "VTCR_EL2.PS (bits 18:16) is over 5",
        9 => {
            "VTCR_EL2.T0SZ (bits 5:0) is not 16 to 39, or TG0 (bits 15:14) is not 0 (4KB), 1 (64KB) or 2 (16KB), or 64 - T0SZ is over PAMax"
        }
        _ => unknown("settings item", item),
    }
}

impl fmt::Display for Refusal {
    fn fmt(&self, f: &mut fmt::Formatter) -> fmt::Result {
        match self {
            Refusal::ShortLog => f.write_str("the log has under 24 words"),
            Refusal::HighCapture => f.write_str("the capture's base plus its length, or a bank's address plus its size, is over 2^48"),
            Refusal::Settings { item } => write!(f, "settings, item {item}: {}", setting(*item)),
            Refusal::Unlisted => f.write_str("the kind is not 0 to 2, the EL not 0 or 1, or the size not 1, 2, 4, 8 or 16"),
            Refusal::BatchLists => f.write_str("the batch's lists differ in length, or have over 4,096 words"),
            Refusal::AuditLists => f.write_str("the list of grants or of tables is malformed"),
            Refusal::NoRoot => f.write_str("there is no usable stage 2 root: stage 2 is off, or it faults every IPA before any read"),
            Refusal::CoreFile => f.write_str(
                "the file is no ELF64 core file of this kind (little-endian, machine 183), its headers are not wholly there, \
                 or its banks are over 64, out of order or overlap",
            ),
        }
    }
}
