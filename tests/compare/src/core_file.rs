//! An independent reader of core files: document 02, §1, in plain Rust, written without regard to the proved code.
use crate::walk::Bank;
use std::ops::Range;

pub const MOST_BANKS: usize = 64;

/// The bytes of the ELF header, and of a program header.
pub const ELF_HEADER: u64 = 64;
pub const PROGRAM_HEADER: u64 = 56;

/// The type of a loadable segment.
pub const LOADABLE: u32 = 1;

/// A loadable segment: what its header says, and how many of its bytes are in the file.
#[derive(Clone, Copy, Debug, PartialEq, Eq)]
pub struct Segment {
    pub address: u64,
    pub offset: u64,
    pub size: u64,
    pub kept: u64,
}

impl Segment {
    fn read(header: &[u8], length: u64) -> Segment {
        let (offset, size) = (word(header, 8), word(header, 32));
        Segment { address: word(header, 24), offset, size, kept: size.min(length.saturating_sub(offset)) }
    }

    pub fn is_short(&self) -> bool {
        self.kept < self.size
    }

    /// Its end in memory, by its header. The sum is of unbounded numbers.
    pub fn end(&self) -> u128 {
        u128::from(self.address) + u128::from(self.size)
    }

    /// Its bytes in the file, as far as they are there.
    pub fn bytes(&self) -> Range<u128> {
        let start = u128::from(self.offset);
        start..start + u128::from(self.kept)
    }
}

/// A little-endian number of so many bytes.
fn number(bytes: &[u8], at: usize, count: usize) -> u64 {
    bytes[at..at + count].iter().rev().fold(0, |number, &byte| number << 8 | u64::from(byte))
}

fn word(bytes: &[u8], at: usize) -> u64 {
    number(bytes, at, 8)
}

/// Whether two ranges have a byte in common. An empty one has none.
pub fn meet(one: &Range<u128>, two: &Range<u128>) -> bool {
    one.start.max(two.start) < one.end.min(two.end)
}

/// Why a file is refused by 17.
pub const SHORT_FILE: &str = "ELF header not in the file";
pub const HEADER_SIZE: &str = "size of a program header";
pub const OUTSIDE: &str = "program headers not in the file";
pub const TOO_MANY: &str = "over 64 banks";
pub const ORDER: &str = "order of addresses";
pub const SHARED: &str = "byte in two banks";
pub const IN_ELF_HEADER: &str = "byte in a bank and the ELF header";
pub const IN_HEADERS: &str = "byte in a bank and the program headers";

/// The fields of the ELF header that are tested: where each lies, how many bytes it has, and what it must be.
pub const FIELDS: [(&str, usize, usize, u64); 9] = [
    ("magic 0", 0, 1, 0x7f),
    ("magic 1", 1, 1, b'E' as u64),
    ("magic 2", 2, 1, b'L' as u64),
    ("magic 3", 3, 1, b'F' as u64),
    ("class", 4, 1, 2),
    ("byte order", 5, 1, 1),
    ("type", 16, 2, 4),
    ("machine", 18, 2, 183),
    (HEADER_SIZE, 54, 2, PROGRAM_HEADER),
];

/// What a file was found to be.
pub struct Found {
    /// Every ground for refusal 17 that it has. If headers are missing, what they would say is not known.
    pub grounds: Vec<&'static str>,
    /// In the order of their headers.
    pub segments: Vec<Segment>,
    /// Where the program headers lie.
    pub headers: Range<u128>,
}

impl Found {
    pub fn refused(&self) -> bool {
        !self.grounds.is_empty()
    }

    /// The banks for a walk of the file; none if it is refused.
    pub fn banks<'a>(&self, file: &'a [u8]) -> Option<Vec<Bank<'a>>> {
        let bank = |segment: &Segment| {
            // A segment that starts past the end of the file has no bytes.
            let bytes = file.get(segment.offset as usize..).map_or(&[][..], |rest| &rest[..segment.kept as usize]);
            Bank { base: segment.address, bytes, size: segment.size }
        };
        (!self.refused()).then(|| self.segments.iter().map(bank).collect())
    }
}

/// Every ground that the banks of a file give.
fn grounds(segments: &[Segment], headers: &Range<u128>) -> Vec<&'static str> {
    let bytes: Vec<Range<u128>> = segments.iter().map(Segment::bytes).collect();
    let in_two = |n: usize| bytes[..n].iter().any(|earlier| meet(earlier, &bytes[n]));
    let any_in = |range: &Range<u128>| bytes.iter().any(|bank| meet(bank, range));
    let all = [
        (TOO_MANY, segments.len() > MOST_BANKS),
        (ORDER, segments.windows(2).any(|pair| u128::from(pair[1].address) < pair[0].end())),
        // Of too many banks, all pairs would take long.
        (SHARED, (0..bytes.len().min(2 * MOST_BANKS)).any(in_two)),
        (IN_ELF_HEADER, any_in(&(0..u128::from(ELF_HEADER)))),
        (IN_HEADERS, any_in(headers)),
    ];
    all.into_iter().filter(|ground| ground.1).map(|ground| ground.0).collect()
}

/// The fields of the ELF header that are not what they must be. All lie in its first 56 bytes.
pub fn wrong_fields(file: &[u8]) -> Vec<&'static str> {
    FIELDS.iter().filter(|(_, at, count, value)| number(file, *at, *count) != *value).map(|field| field.0).collect()
}

/// Reads the headers of a file. No field but those named here is looked at.
pub fn read(file: &[u8]) -> Found {
    let length = file.len() as u64;
    if length < ELF_HEADER {
        return Found { grounds: vec![SHORT_FILE], segments: Vec::new(), headers: 0..0 };
    }
    let mut found = Found { grounds: wrong_fields(file), segments: Vec::new(), headers: 0..0 };
    // Without program headers it does not matter where they would be.
    let count = number(file, 56, 2);
    if count == 0 {
        return found;
    }
    let start = u128::from(word(file, 32));
    found.headers = start..start + u128::from(count * PROGRAM_HEADER);
    if found.headers.end > u128::from(length) {
        found.grounds.push(OUTSIDE);
        return found;
    }
    let headers = file[found.headers.start as usize..found.headers.end as usize].chunks(PROGRAM_HEADER as usize);
    let loadable = headers.filter(|header| number(header, 0, 4) == u64::from(LOADABLE));
    found.segments = loadable.map(|header| Segment::read(header, length)).collect();
    found.grounds.extend(grounds(&found.segments, &found.headers));
    found
}
