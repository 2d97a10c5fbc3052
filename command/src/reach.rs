//! What a guest can reach: stage 2's input addresses from leaf to leaf, by the library's own answers.
//!
//! Stage 1 is turned off in the way in which it adds nothing (HCR_EL2.DC), so that an address asked is an IPA and an answer is what stage
//! 2 says. The level of each answer says, with stage 2's granule, how far its entry reaches, and so where the next one begins.
use crate::granule::Granule;
use crate::layout::DC;
use crate::ranges::Range;
use humpelkaas::{translate, Access, Answer, Attributes, Capture, Fault, Kind, Reads, Registers, Stage, Told};
use std::collections::HashSet;

/// TCR_EL1.TBI0 and TBI1: with them, the top byte of an address would not count.
const NO_TAGS: u64 = !(0b11 << 37);

const READ: Access = Access { kind: Kind::Read, el: 1, size: 1 };
const KINDS: [Kind; 3] = [Kind::Read, Kind::Write, Kind::Fetch];

/// What a guest finds at some IPAs.
#[derive(Clone, Copy, Debug, PartialEq, Eq)]
pub enum Found {
    /// Memory at a physical address, and whether it may read, write and fetch.
    Memory { address: u64, rights: [bool; 3], attributes: Attributes },
    /// A fault, whatever the access.
    Nothing,
    /// The descriptor at this address is not in the capture.
    Absent { address: u64 },
    /// Arm leaves it open.
    Unsettled,
}

/// The IPAs of one entry of stage 2's tables.
#[derive(Clone, Copy, Debug)]
pub struct Entry {
    pub ipas: Range,
    pub found: Found,
    /// The descriptors read for it.
    pub reads: Reads,
}

/// Registers with which an address asked is an IPA.
fn stage2_alone(registers: &Registers) -> Registers {
    let mut alone = *registers;
    alone.el2.hcr_el2 |= DC;
    alone.el1.tcr_el1 &= NO_TAGS;
    alone
}

/// What is read to find where an IPA leads: the descriptors read, and the one that is not in the capture.
pub struct Path {
    pub read: Reads,
    pub absent: Option<u64>,
}

/// Stage 2's tables, from their root.
pub struct Tables<'a> {
    capture: Capture<'a>,
    registers: Registers,
    granule: Granule,
    /// The level of the root, and the address of each of its entries.
    pub start: u64,
    pub root: Vec<u64>,
}

fn read_at(capture: Capture, registers: &Registers, ipa: u64) -> (Answer, Reads) {
    let told = translate(capture, registers, READ, ipa);
    (told.answer, told.reads)
}

impl<'a> Tables<'a> {
    /// The tables of a guest with stage 2 on. Of an empty capture the library says which entry of the root an IPA needs.
    pub fn of(capture: Capture<'a>, registers: &Registers) -> Tables<'a> {
        let registers = stage2_alone(registers);
        let granule = Granule::stage2(&registers);
        let mut tables = Tables { capture, registers, granule, start: 0, root: Vec::new() };
        let empty = Capture::Raw { base: 0, bytes: &[] };
        let mut ipa = 0;
        while let Answer::Absent { address, level, .. } = read_at(empty, &registers, ipa).0 {
            tables.start = level;
            tables.root.push(address);
            ipa += granule.span(level);
        }
        tables
    }

    pub fn path(&self, ipa: u64) -> Path {
        let (answer, read) = read_at(self.capture, &self.registers, ipa);
        let absent = match answer {
            Answer::Absent { address, .. } => Some(address),
            _ => None,
        };
        Path { read, absent }
    }

    /// The first entry of the table that the entry of a level leads an IPA to.
    fn below(&self, ipa: u64, level: u64) -> Option<u64> {
        let path = self.path(ipa);
        let depth = (level - self.start) as usize + 1;
        path.read.get(depth).copied().or(if path.read.len() == depth { path.absent } else { None })
    }

    /// The lowest IPA whose walk reads the entry at an address as one of a level. Each table is gone through once for each level, so that
    /// tables which are shared or lead to themselves take no longer.
    pub fn lowest_ipa(&self, address: u64, level: u64) -> Option<u64> {
        let mut seen = HashSet::new();
        let span = self.granule.span(self.start);
        let entries = self.root.iter().enumerate().map(|(index, entry)| (index as u64 * span, *entry));
        self.search(entries.collect(), self.start, (address, level), &mut seen)
    }

    fn search(&self, entries: Vec<(u64, u64)>, at: u64, wanted: (u64, u64), seen: &mut HashSet<(u64, u64)>) -> Option<u64> {
        if at == wanted.1 {
            return entries.into_iter().find(|(_, entry)| *entry == wanted.0).map(|(ipa, _)| ipa);
        }
        for (ipa, _) in entries {
            let below = match self.below(ipa, at) {
                Some(table) if seen.insert((table, at)) => table,
                _ => continue,
            };
            let span = self.granule.span(at + 1);
            let lower = (0..self.granule.entries()).map(|index| (ipa + index * span, below + 8 * index));
            if let Some(found) = self.search(lower.collect(), at + 1, wanted, seen) {
                return Some(found);
            }
        }
        None
    }
}

/// A guest's entries in ascending order.
pub struct Entries<'a> {
    capture: Capture<'a>,
    registers: Registers,
    granule: Granule,
    /// Where the next one begins.
    next: u64,
}

/// The entries of a guest with stage 2 on.
pub fn entries<'a>(capture: Capture<'a>, registers: &Registers) -> Entries<'a> {
    Entries { capture, registers: stage2_alone(registers), granule: Granule::stage2(registers), next: 0 }
}

impl Entries<'_> {
    /// What there is at an IPA, the level of its entry, and what was read for it, which is the same for every kind of access. None past
    /// the last IPA.
    fn at(&self, ipa: u64) -> Option<(Found, u64, Reads)> {
        let (mut rights, mut memory, mut last) = ([false; 3], None, None);
        for (kind, right) in KINDS.into_iter().zip(&mut rights) {
            let Told { answer, reads } = translate(self.capture, &self.registers, Access { kind, ..READ }, ipa);
            let level = match answer {
                Answer::Translated { address, attributes, level2, .. } => {
                    *right = true;
                    memory = memory.or(Some((address, attributes)));
                    level2
                }
                // Without a read there is no entry: IPAs have come to their end, or there is no root.
                Answer::Fault { .. } | Answer::Misaligned { .. } if reads.is_empty() => return None,
                Answer::Fault { fault: Fault::Permission, stage: Stage::Two { .. }, level, .. } => level,
                // Only a permission depends on the kind.
                Answer::Fault { stage: Stage::Two { .. }, level, .. } => return Some((Found::Nothing, level, reads)),
                Answer::Absent { address, level, .. } => return Some((Found::Absent { address }, level, reads)),
                Answer::Unsettled { level, .. } => return Some((Found::Unsettled, level, reads)),
                Answer::Fault { .. } | Answer::Misaligned { .. } | Answer::Refused(_) => return None,
            };
            last = Some((level, reads));
        }
        let (level, reads) = last?;
        let found = match memory {
            Some((address, attributes)) => Found::Memory { address, rights, attributes },
            None => Found::Nothing,
        };
        Some((found, level, reads))
    }
}

impl Iterator for Entries<'_> {
    type Item = Entry;

    fn next(&mut self) -> Option<Entry> {
        let (found, level, reads) = self.at(self.next)?;
        let ipas = Range::new(self.next, self.granule.span(level));
        self.next = ipas.end;
        Some(Entry { ipas, found, reads })
    }
}
