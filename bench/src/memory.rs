//! Where the straightforward walk reads descriptors: in a raw capture, or in the banks of a core file, which are found by a scan or by
//! halving. The reader of core files is as straightforward, by document 02, §1.
use crate::proved::Capture;
use std::ops::Range;

pub trait Memory {
    /// A descriptor's eight bytes, if all of them are there.
    fn eight(&self, at: u64) -> Option<&[u8]>;
}

impl Memory for Capture<'_> {
    #[inline]
    fn eight(&self, at: u64) -> Option<&[u8]> {
        let offset = at.wrapping_sub(self.base) as usize;
        self.bytes.get(offset..)?.get(..8)
    }
}

/// Banks that ascend. One is found by halving, or by a scan from the first on.
#[derive(Clone, Copy)]
pub struct Banks<'a, const HALVING: bool>(pub &'a [Capture<'a>]);

impl<const HALVING: bool> Memory for Banks<'_, HALVING> {
    #[inline]
    fn eight(&self, at: u64) -> Option<&[u8]> {
        if HALVING {
            let after = self.0.partition_point(|bank| bank.base <= at);
            self.0[..after].last()?.eight(at)
        } else {
            self.0.iter().find_map(|bank| bank.eight(at))
        }
    }
}

/// The banks of a core file.
pub struct Core<'a> {
    pub banks: Vec<Capture<'a>>,
    /// One ends past 2^48 by its header.
    pub high: bool,
}

pub const ELF_HEADER: usize = 64;
pub const PROGRAM_HEADER: usize = 56;
pub const MOST_BANKS: usize = 64;

fn half(bytes: &[u8], at: usize) -> u16 {
    u16::from_le_bytes(bytes[at..at + 2].try_into().expect("two bytes"))
}

fn word(bytes: &[u8], at: usize) -> u64 {
    u64::from_le_bytes(bytes[at..at + 8].try_into().expect("eight bytes"))
}

/// Whether two ranges of the file share a byte. An empty one has none.
fn meet(one: &Range<usize>, two: &Range<usize>) -> bool {
    one.start.max(two.start) < one.end.min(two.end)
}

impl<'a> Core<'a> {
    /// None if the file is refused.
    pub fn read(file: &'a [u8]) -> Option<Core<'a>> {
        let header = file.get(..ELF_HEADER)?;
        let right = header.starts_with(b"\x7fELF\x02\x01") && half(header, 16) == 4 && half(header, 18) == 183;
        if !right || half(header, 54) as usize != PROGRAM_HEADER {
            return None;
        }
        let count = half(header, 56) as usize;
        let start = if count == 0 { 0 } else { word(header, 32) as usize };
        let headers = start..start.checked_add(count * PROGRAM_HEADER)?;
        let mut core = Core { banks: Vec::with_capacity(MOST_BANKS), high: false };
        let mut places: Vec<Range<usize>> = Vec::with_capacity(MOST_BANKS);
        let mut end = Some(0);
        for header in file.get(headers.clone())?.chunks_exact(PROGRAM_HEADER).filter(|header| header[..4] == [1, 0, 0, 0]) {
            let (offset, base, size) = (word(header, 8) as usize, word(header, 24), word(header, 32));
            if core.banks.len() == MOST_BANKS || end.map_or(true, |end| base < end) {
                return None;
            }
            end = base.checked_add(size);
            core.high |= end.map_or(true, |end| end > 1 << 48);
            let rest = file.get(offset..).unwrap_or(&[]);
            let bytes = &rest[..rest.len().min(size as usize)];
            let place = offset..offset + bytes.len();
            if meet(&place, &(0..ELF_HEADER)) || meet(&place, &headers) || places.iter().any(|other| meet(other, &place)) {
                return None;
            }
            core.banks.push(Capture { base, bytes });
            places.push(place);
        }
        Some(core)
    }
}
