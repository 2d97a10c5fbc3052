//! The library's calls as they are: numbers in, numbers out. All of this crate's `unsafe` is here.
//!
//! The types have the layout of `include/humpelkaas.h`. A word that an answer does not carry is 0.
use crate::{Capture, El1, El2, Ledger};

/// One access. Numbers that are not listed are refused: kind 0 reads, 1 writes, 2 fetches; el is 0 or 1; size is 1, 2, 4, 8 or 16.
#[repr(C)]
#[derive(Clone, Copy, Debug, Default, PartialEq, Eq)]
pub struct Access {
    pub address: u64,
    pub kind: u64,
    pub el: u64,
    pub size: u64,
}

/// The answer to one question.
#[repr(C)]
#[derive(Clone, Copy, Debug, Default, PartialEq, Eq)]
pub struct Words {
    pub number: u64,
    pub item: u64,
    pub address: u64,
    pub memory: u64,
    pub shareability: u64,
    pub level1: u64,
    pub level2: u64,
    pub stage: u64,
    pub level: u64,
    pub onwalk: u64,
    pub ipa: u64,
    pub reads: u64,
}

/// A batch's answer: number 0 is done, others a refusal.
#[repr(C)]
#[derive(Clone, Copy, Debug, Default, PartialEq, Eq)]
pub struct BatchWords {
    pub number: u64,
    pub item: u64,
    pub ledger: Ledger,
}

/// An audit's answer: number 0 is clean, 1 to 4 a finding, others a refusal.
#[repr(C)]
#[derive(Clone, Copy, Debug, Default, PartialEq, Eq)]
pub struct AuditWords {
    pub number: u64,
    pub item: u64,
    pub address: u64,
}

/// A bank list's answer: number 0 is listed, others a refusal.
#[repr(C)]
#[derive(Clone, Copy, Debug, Default, PartialEq, Eq)]
pub struct BanksWords {
    pub number: u64,
    pub count: u64,
}

/// What an audit is held against, as the library takes it: grants by address and byte count, tables by address and level.
#[derive(Clone, Copy, Debug, Default)]
pub struct Lists<'a> {
    pub grants: &'a [u64],
    pub counts: &'a [u64],
    pub tables: &'a [u64],
    pub levels: &'a [u64],
}

extern "C" {
    fn humpelkaas_translate(
        bytes: *const u8,
        length: usize,
        base: u64,
        el2: El2,
        el1: El1,
        access: Access,
        log: *mut u64,
        log_length: usize,
    ) -> Words;

    fn humpelkaas_batch(
        bytes: *const u8,
        length: usize,
        base: u64,
        el2: El2,
        el1: El1,
        kind: u64,
        el: u64,
        size: u64,
        addresses: *const u64,
        addresses_length: usize,
        outputs: *mut u64,
        outputs_length: usize,
        numbers: *mut u64,
        numbers_length: usize,
    ) -> BatchWords;

    fn humpelkaas_audit(
        bytes: *const u8,
        length: usize,
        base: u64,
        el2: El2,
        grants: *const u64,
        grants_length: usize,
        counts: *const u64,
        counts_length: usize,
        tables: *const u64,
        tables_length: usize,
        levels: *const u64,
        levels_length: usize,
    ) -> AuditWords;

    fn humpelkaas_core_translate(
        file: *const u8,
        length: usize,
        el2: El2,
        el1: El1,
        access: Access,
        log: *mut u64,
        log_length: usize,
    ) -> Words;

    fn humpelkaas_core_batch(
        file: *const u8,
        length: usize,
        el2: El2,
        el1: El1,
        kind: u64,
        el: u64,
        size: u64,
        addresses: *const u64,
        addresses_length: usize,
        outputs: *mut u64,
        outputs_length: usize,
        numbers: *mut u64,
        numbers_length: usize,
    ) -> BatchWords;

    fn humpelkaas_core_audit(
        file: *const u8,
        length: usize,
        el2: El2,
        grants: *const u64,
        grants_length: usize,
        counts: *const u64,
        counts_length: usize,
        tables: *const u64,
        tables_length: usize,
        levels: *const u64,
        levels_length: usize,
    ) -> AuditWords;

    fn humpelkaas_core_banks(
        file: *const u8,
        length: usize,
        addresses: *mut u64,
        addresses_length: usize,
        offsets: *mut u64,
        offsets_length: usize,
        lengths: *mut u64,
        lengths_length: usize,
        shorts: *mut u64,
        shorts_length: usize,
    ) -> BanksWords;

    fn humpelkaas_ledger_line(ledger: Ledger, buffer: *mut u8, length: usize) -> u64;
}

/// Asks for one access. The address of every descriptor read goes into the log, which has 24 words or more.
#[inline]
pub fn translate(capture: Capture, el2: El2, el1: El1, access: Access, log: &mut [u64]) -> Words {
    // Sound for a function that keeps to the lengths that it is given, as is proved of it and of those below.
    match capture {
        Capture::Raw { base, bytes } => unsafe {
            humpelkaas_translate(bytes.as_ptr(), bytes.len(), base, el2, el1, access, log.as_mut_ptr(), log.len())
        },
        Capture::Core { file } => unsafe {
            humpelkaas_core_translate(file.as_ptr(), file.len(), el2, el1, access, log.as_mut_ptr(), log.len())
        },
    }
}

/// Asks for all addresses in one call. Of `manner` the kind, EL and size count.
#[inline]
pub fn batch(
    capture: Capture,
    el2: El2,
    el1: El1,
    manner: Access,
    addresses: &[u64],
    outputs: &mut [u64],
    numbers: &mut [u64],
) -> BatchWords {
    let Access { kind, el, size, .. } = manner;
    match capture {
        Capture::Raw { base, bytes } => unsafe {
            humpelkaas_batch(
                bytes.as_ptr(),
                bytes.len(),
                base,
                el2,
                el1,
                kind,
                el,
                size,
                addresses.as_ptr(),
                addresses.len(),
                outputs.as_mut_ptr(),
                outputs.len(),
                numbers.as_mut_ptr(),
                numbers.len(),
            )
        },
        Capture::Core { file } => unsafe {
            humpelkaas_core_batch(
                file.as_ptr(),
                file.len(),
                el2,
                el1,
                kind,
                el,
                size,
                addresses.as_ptr(),
                addresses.len(),
                outputs.as_mut_ptr(),
                outputs.len(),
                numbers.as_mut_ptr(),
                numbers.len(),
            )
        },
    }
}

/// Audits stage 2's tables.
#[inline]
pub fn audit(capture: Capture, el2: El2, lists: Lists) -> AuditWords {
    let Lists { grants, counts, tables, levels } = lists;
    match capture {
        Capture::Raw { base, bytes } => unsafe {
            humpelkaas_audit(
                bytes.as_ptr(),
                bytes.len(),
                base,
                el2,
                grants.as_ptr(),
                grants.len(),
                counts.as_ptr(),
                counts.len(),
                tables.as_ptr(),
                tables.len(),
                levels.as_ptr(),
                levels.len(),
            )
        },
        Capture::Core { file } => unsafe {
            humpelkaas_core_audit(
                file.as_ptr(),
                file.len(),
                el2,
                grants.as_ptr(),
                grants.len(),
                counts.as_ptr(),
                counts.len(),
                tables.as_ptr(),
                tables.len(),
                levels.as_ptr(),
                levels.len(),
            )
        },
    }
}

/// Lists the banks of a core file: for each its address, its offset in the file, how many of its bytes are there, and 1 if these are
/// fewer than its header says. The lists have 64 words or more.
#[inline]
pub fn banks(file: &[u8], addresses: &mut [u64], offsets: &mut [u64], lengths: &mut [u64], shorts: &mut [u64]) -> BanksWords {
    unsafe {
        humpelkaas_core_banks(
            file.as_ptr(),
            file.len(),
            addresses.as_mut_ptr(),
            addresses.len(),
            offsets.as_mut_ptr(),
            offsets.len(),
            lengths.as_mut_ptr(),
            lengths.len(),
            shorts.as_mut_ptr(),
            shorts.len(),
        )
    }
}

/// Writes a ledger's line over the first bytes of a buffer: how many bytes it took, or 0 if the buffer is too short for it.
#[inline]
pub fn ledger_line(ledger: Ledger, buffer: &mut [u8]) -> u64 {
    unsafe { humpelkaas_ledger_line(ledger, buffer.as_mut_ptr(), buffer.len()) }
}
