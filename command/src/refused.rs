//! Refusals, and what to do about them.
use humpelkaas::Refusal;

pub fn advice(refusal: Refusal) -> &'static str {
    match refusal {
        Refusal::ShortLog => "give the question a log of 24 words or more",
        Refusal::HighCapture => "check --base or, with the verb banks, the core file's addresses: physical memory lies below 2^48",
        Refusal::Settings { item: 1 } => "set PAMAX to what the board's ID_AA64MMFR0_EL1.PARange says, in bits",
        Refusal::Settings { .. } => "check that the registers were read on the board while the guest ran, in Non-secure AArch64 state",
        Refusal::Unlisted => "check --kind, --el and --size",
        Refusal::BatchLists => "give lists of one length, at most 4,096",
        Refusal::AuditLists => "grants: ADDRESS BYTES in multiples of 4,096, ascending, with a gap between neighbours, at most 256; tables: ADDRESS LEVEL, addresses in multiples of stage 2's granule (4,096, 16,384 or 65,536 by VTCR_EL2.TG0), level 1 to 3, ascending, none twice, at most 1,024",
        Refusal::NoRoot => "check HCR_EL2.VM and VTTBR_EL2 of this guest, VTCR_EL2's SL0 and T0SZ for its granule (TG0), and the board's PAMAX",
        Refusal::CoreFile => "dump physical memory again as an ELF64 core file, of a little-endian AArch64 board and in at most 64 ranges that ascend; if the file is raw bytes of memory that begin like one, give --raw and --base",
    }
}

/// The number, and the item if there is one.
pub fn numbers(refusal: Refusal) -> String {
    match refusal.item() {
        Some(item) => format!("refused {} {item}", refusal.number()),
        None => format!("refused {}", refusal.number()),
    }
}

/// What it means and what to do.
pub fn explained(refusal: Refusal) -> String {
    format!("{refusal}.\nWhat to do: {}.", advice(refusal))
}
