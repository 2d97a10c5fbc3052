//! What one guest can reach, gathered.
use crate::granule::Granule;
use crate::layout::FRAME;
use crate::progress::Progress;
use crate::ranges::{joined, Range};
use crate::reach::{self, Entry, Found};
use crate::trouble::Trouble;
use humpelkaas::{Attributes, Capture, Reads, Registers};
use std::collections::BTreeSet;

/// How many ranges are kept. Tables that lead to themselves make more than any memory has room for.
const MOST: usize = 1_000_000;

/// Input addresses in a row that have physical addresses in a row, with the same rights and attributes.
#[derive(Clone, Copy)]
pub struct Mapped {
    pub ipas: Range,
    pub frames: Range,
    pub rights: [bool; 3],
    pub attributes: Attributes,
}

/// A guest.
pub struct Guest {
    pub name: String,
    pub mapped: Vec<Mapped>,
    /// The physical memory that it can reach.
    pub frames: Vec<Range>,
    /// Stage 2's granule, and its tables that walks read.
    pub granule: Granule,
    pub tables: Vec<Range>,
    /// What it was granted, if that was given.
    pub grants: Option<Vec<Range>>,
    /// IPAs whose tables are not in the capture, and the first missing descriptor.
    pub absent: Vec<(Range, u64)>,
    /// IPAs of which Arm leaves open what they are.
    pub unsettled: Vec<Range>,
}

impl Mapped {
    /// One entry's memory follows this.
    fn goes_on(&self, next: &Mapped) -> bool {
        self.ipas.end == next.ipas.start
            && self.frames.end == next.frames.start
            && (self.rights, self.attributes) == (next.rights, next.attributes)
    }
}

/// What walks read of tables: of the root, which may be shorter or longer than a table, in frames; of all others the whole.
fn tables(granule: Granule, reads: &Reads) -> impl Iterator<Item = Range> + '_ {
    let around = |address: u64, size: u64| Range::new(address & !(size - 1), size);
    reads.iter().enumerate().map(move |(depth, &read)| around(read, if depth == 0 { FRAME } else { granule.bytes() }))
}

impl Guest {
    fn add(&mut self, entry: &Entry) {
        let ipas = entry.ipas;
        match entry.found {
            Found::Memory { address, rights, attributes } => {
                let next = Mapped { ipas, frames: Range::new(address, ipas.size()), rights, attributes };
                match self.mapped.last_mut() {
                    Some(last) if last.goes_on(&next) => (last.ipas.end, last.frames.end) = (next.ipas.end, next.frames.end),
                    _ => self.mapped.push(next),
                }
            }
            Found::Absent { address } => match self.absent.last_mut() {
                Some((last, _)) if last.end == ipas.start => last.end = ipas.end,
                _ => self.absent.push((ipas, address)),
            },
            Found::Unsettled => self.unsettled.push(ipas),
            Found::Nothing => {}
        }
    }

    /// All that it can reach is known.
    pub fn is_whole(&self) -> bool {
        self.absent.is_empty() && self.unsettled.is_empty()
    }

    /// Goes through all that stage 2 gives a guest.
    pub fn gather(name: String, capture: Capture, registers: &Registers, grants: Option<Vec<Range>>) -> Result<Guest, Trouble> {
        let granule = Granule::stage2(registers);
        let mut guest = Guest {
            name,
            mapped: Vec::new(),
            frames: Vec::new(),
            granule,
            tables: Vec::new(),
            grants,
            absent: Vec::new(),
            unsettled: Vec::new(),
        };
        let mut read = BTreeSet::new();
        let progress = Progress::without_end();
        for entry in reach::entries(capture, registers) {
            read.extend(tables(granule, &entry.reads));
            guest.add(&entry);
            progress.reach(entry.ipas.start);
            if guest.mapped.len() + guest.absent.len() + guest.unsettled.len() > MOST {
                return Err(Trouble::Io(format!(
                    "{} has over {MOST} ranges of IPAs: its tables lead to themselves, or are shared",
                    guest.name
                )));
            }
        }
        progress.end();
        guest.frames = joined(guest.mapped.iter().map(|mapped| mapped.frames).collect());
        guest.tables = joined(read.into_iter().collect());
        Ok(guest)
    }
}
