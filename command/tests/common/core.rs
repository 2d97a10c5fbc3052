//! Core files that the tests make.
use super::Memory;
use std::ops::Range;

const HEADER: usize = 64;
const PROGRAM_HEADER: usize = 56;
const NOTE: u32 = 4;
const LOAD: u32 = 1;
/// What the note says. It is so long that the offset of the first bank is no multiple of eight.
const SAID: &[u8] = b"the tests' own";

/// A bank: its physical address and its bytes.
#[derive(Clone)]
pub struct Bank {
    pub address: u64,
    pub bytes: Vec<u8>,
}

/// A core file. A note comes before the banks, as debuggers write it, among the headers and among the bytes.
#[derive(Clone)]
pub struct Core {
    pub banks: Vec<Bank>,
}

fn program_header(kind: u32, offset: usize, address: u64, size: usize) -> Vec<u8> {
    let words = [offset as u64, !address, address, size as u64, size as u64 + 8, 1];
    // A virtual address and a size in memory that are not the bank's own.
    let mut header = [kind.to_le_bytes(), 7_u32.to_le_bytes()].concat();
    header.extend(words.iter().flat_map(|word| word.to_le_bytes()));
    header
}

impl Core {
    /// Ranges of a memory, each a bank.
    pub fn of(memory: &Memory, ranges: &[Range<u64>]) -> Core {
        let bytes = |range: &Range<u64>| memory.bytes[(range.start - memory.base) as usize..(range.end - memory.base) as usize].to_vec();
        Core { banks: ranges.iter().map(|range| Bank { address: range.start, bytes: bytes(range) }).collect() }
    }

    /// All of a memory, with a bank from each of these addresses up to the next.
    pub fn split(memory: &Memory, at: &[u64]) -> Core {
        let end = memory.base + memory.bytes.len() as u64;
        let bounds: Vec<u64> = [memory.base].iter().chain(at).chain([&end]).copied().collect();
        Core::of(memory, &bounds.windows(2).map(|pair| pair[0]..pair[1]).collect::<Vec<_>>())
    }

    /// So many banks of eight bytes, with gaps of eight.
    pub fn small(count: u64) -> Core {
        Core { banks: (0..count).map(|index| Bank { address: 0x4000_0000 + 16 * index, bytes: vec![0; 8] }).collect() }
    }

    /// Where a bank stands in the file.
    pub fn offset(&self, index: usize) -> usize {
        let before: usize = self.banks[..index].iter().map(|bank| bank.bytes.len()).sum();
        HEADER + PROGRAM_HEADER * (1 + self.banks.len()) + SAID.len() + before
    }

    pub fn file(&self) -> Vec<u8> {
        let count = 1 + self.banks.len();
        let mut file = b"\x7fELF\x02\x01\x01".to_vec();
        file.resize(16, 0);
        file.extend([4_u16, 183].iter().flat_map(|half| half.to_le_bytes()));
        file.extend(1_u32.to_le_bytes());
        file.extend([0, HEADER as u64, 0].iter().flat_map(|word| word.to_le_bytes()));
        file.extend(0_u32.to_le_bytes());
        file.extend([HEADER, PROGRAM_HEADER, count, 0, 0, 0].iter().flat_map(|half| (*half as u16).to_le_bytes()));
        file.extend(program_header(NOTE, HEADER + PROGRAM_HEADER * count, 0, SAID.len()));
        for (index, bank) in self.banks.iter().enumerate() {
            file.extend(program_header(LOAD, self.offset(index), bank.address, bank.bytes.len()));
        }
        file.extend(SAID);
        self.banks.iter().for_each(|bank| file.extend(&bank.bytes));
        file
    }

    /// The file up to so many bytes of a bank.
    pub fn cut(&self, index: usize, bytes: usize) -> Vec<u8> {
        let mut file = self.file();
        file.truncate(self.offset(index) + bytes);
        file
    }
}

/// The banks of a whole core file, by the tests' own reading of it.
pub fn banks(file: &[u8]) -> Vec<Bank> {
    let word = |at: usize| u64::from_le_bytes(file[at..at + 8].try_into().expect("eight bytes"));
    let half = |at: usize| u16::from_le_bytes(file[at..at + 2].try_into().expect("two bytes"));
    let headers = (0..half(56) as usize).map(|index| word(32) as usize + PROGRAM_HEADER * index);
    let loadable = headers.filter(|at| file[*at..at + 4] == LOAD.to_le_bytes());
    loadable.map(|at| Bank { address: word(at + 24), bytes: file[word(at + 8) as usize..][..word(at + 32) as usize].to_vec() }).collect()
}
