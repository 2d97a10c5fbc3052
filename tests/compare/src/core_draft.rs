//! Core files to be: headers and banks laid out in a file, damage to any field, and the bytes that are written.
use crate::core_file::{ELF_HEADER, LOADABLE, PROGRAM_HEADER};
use crate::random::Random;

/// A bank to be.
pub struct Piece {
    pub address: u64,
    pub bytes: Vec<u8>,
}

/// A number of any size: most numbers of 64 bits are large ones.
fn any(random: &mut Random) -> u64 {
    let width = random.below(65);
    random.bits(width)
}

/// Moved by one, down or up, or not at all.
fn about(random: &mut Random, number: u64) -> u64 {
    number.wrapping_add(random.pick(&[0, 1, u64::MAX]))
}

#[derive(Clone, Copy)]
struct ProgramHeader {
    kind: u32,
    flags: u32,
    offset: u64,
    virtual_address: u64,
    address: u64,
    size: u64,
    memory_size: u64,
    alignment: u64,
}

impl ProgramHeader {
    /// What is not read of a bank's header may be anything.
    fn bank(random: &mut Random, address: u64, size: u64) -> ProgramHeader {
        ProgramHeader { kind: LOADABLE, address, size, ..ProgramHeader::other(random) }
    }

    /// A header of another type, whose every field may be anything.
    fn other(random: &mut Random) -> ProgramHeader {
        ProgramHeader {
            kind: other_kind(random),
            flags: random.word() as u32,
            offset: any(random),
            virtual_address: any(random),
            address: any(random),
            size: any(random),
            memory_size: any(random),
            alignment: any(random),
        }
    }

    fn bytes(&self) -> Vec<u8> {
        let words = [self.offset, self.virtual_address, self.address, self.size, self.memory_size, self.alignment];
        let first = [self.kind, self.flags].map(u32::to_le_bytes).concat();
        [first, words.map(u64::to_le_bytes).concat()].concat()
    }

    fn end(&self) -> u64 {
        self.address.wrapping_add(self.size)
    }

    fn end_in_file(&self) -> u64 {
        self.offset.wrapping_add(self.size)
    }
}

/// Not loadable: notes and others, some of which are if bytes of the type are left out.
fn other_kind(random: &mut Random) -> u32 {
    random.pick(&[0, 2, 3, 4, 4, 4, 5, 6, 7, 0x101, 0x1_0000, 0x100_0000, 0x6474_e551, 0x7000_0000, 0x7000_0001, u32::MAX])
}

struct ElfHeader {
    ident: [u8; 16],
    kind: u16,
    machine: u16,
    version: u32,
    entry: u64,
    headers_at: u64,
    sections_at: u64,
    flags: u32,
    own_size: u16,
    header_size: u16,
    headers: u16,
    section_size: u16,
    sections: u16,
    names: u16,
}

impl ElfHeader {
    /// What is tested is right, and all else may be anything.
    fn new(random: &mut Random, headers_at: u64, headers: usize) -> ElfHeader {
        let mut ident = [0; 16];
        ident[8..].copy_from_slice(&random.word().to_le_bytes());
        ident[..8].copy_from_slice(&[0x7f, b'E', b'L', b'F', 2, 1, random.word() as u8, random.word() as u8]);
        let (one, two) = (random.word() as u16, random.word() as u16);
        ElfHeader {
            ident,
            kind: 4,
            machine: 183,
            version: random.word() as u32,
            entry: any(random),
            headers_at,
            sections_at: any(random),
            flags: random.word() as u32,
            own_size: random.pick(&[64, 8, 0, 52, one]),
            header_size: PROGRAM_HEADER as u16,
            headers: headers as u16,
            section_size: random.pick(&[64, 40, 0, two]),
            sections: random.word() as u16,
            names: random.word() as u16,
        }
    }

    fn bytes(&self) -> Vec<u8> {
        let mut all = self.ident.to_vec();
        all.extend([self.kind, self.machine].map(u16::to_le_bytes).concat());
        all.extend(self.version.to_le_bytes());
        all.extend([self.entry, self.headers_at, self.sections_at].map(u64::to_le_bytes).concat());
        all.extend(self.flags.to_le_bytes());
        let last = [self.own_size, self.header_size, self.headers, self.section_size, self.sections, self.names];
        all.extend(last.map(u16::to_le_bytes).concat());
        all
    }
}

/// How many bytes lie between what follows each other in a file.
#[derive(Clone, Copy)]
enum Padding {
    None,
    Some,
    Mixed,
}

impl Padding {
    fn bytes(self, random: &mut Random) -> u64 {
        let loose = match self {
            Padding::None => false,
            Padding::Some => true,
            Padding::Mixed => random.percent(50),
        };
        if loose {
            random.pick(&[1, 2, 7, 8, 100, 1000])
        } else {
            0
        }
    }
}

pub struct Draft {
    elf: ElfHeader,
    headers: Vec<ProgramHeader>,
    /// Where they are written, wherever the ELF header says that they are.
    headers_at: u64,
    /// Banks' bytes, by their offsets.
    contents: Vec<(u64, Vec<u8>)>,
    length: u64,
}

/// What is laid out behind the ELF header: the program headers, or the bank of so many.
type Item = Option<usize>;

/// Most have the program headers first, as debuggers have them; banks may be in any order.
fn order(random: &mut Random, banks: usize) -> Vec<Item> {
    let mut items: Vec<Item> = (0..banks).map(Some).collect();
    if random.percent(60) {
        random.shuffle(&mut items);
    }
    let at = match random.below(10) {
        0..=5 => 0,
        6 | 7 => items.len(),
        _ => random.below(items.len() as u64 + 1) as usize,
    };
    items.insert(at, None);
    items
}

/// How many headers are of other types: so many that a count in a byte or in 64 is passed, or as many as can be.
fn others(random: &mut Random, banks: usize) -> usize {
    match random.below(2000) {
        0..=3 => 0xffff - banks,
        4..=99 => random.between(64, 300) as usize,
        100..=799 => 0,
        _ => random.between(1, 5) as usize,
    }
}

impl Draft {
    /// Lays banks out that ascend by their addresses.
    pub fn new(random: &mut Random, pieces: Vec<Piece>) -> Draft {
        let padding = random.pick(&[Padding::None, Padding::Some, Padding::Mixed]);
        let mut banks: Vec<ProgramHeader> =
            pieces.iter().map(|piece| ProgramHeader::bank(random, piece.address, piece.bytes.len() as u64)).collect();
        let others = others(random, banks.len());
        let (mut at, mut headers_at) = (ELF_HEADER, 0);
        for item in order(random, banks.len()) {
            at += padding.bytes(random);
            match item {
                Some(bank) => {
                    banks[bank].offset = at;
                    at += banks[bank].size;
                }
                None => {
                    headers_at = at;
                    at += (banks.len() + others) as u64 * PROGRAM_HEADER;
                }
            }
        }
        let contents = banks.iter().zip(pieces).map(|(bank, piece)| (bank.offset, piece.bytes)).collect();
        let mut draft =
            Draft { elf: ElfHeader::new(random, headers_at, 0), headers: banks, headers_at, contents, length: at + padding.bytes(random) };
        draft.insert_others(random, others);
        draft
    }

    /// Headers of other types before, between and behind those of banks.
    fn insert_others(&mut self, random: &mut Random, count: usize) {
        let mut places: Vec<usize> = (0..count).map(|_| random.below(self.headers.len() as u64 + 1) as usize).collect();
        places.sort_unstable();
        let mut all = Vec::new();
        for (n, bank) in self.headers.iter().enumerate() {
            let before = places.iter().filter(|place| **place == n).count();
            all.extend((0..before).map(|_| ProgramHeader::other(random)));
            all.push(*bank);
        }
        let behind = places.iter().filter(|place| **place == self.headers.len()).count();
        all.extend((0..behind).map(|_| ProgramHeader::other(random)));
        self.headers = all;
        self.elf.headers = self.headers.len() as u16;
    }

    /// The places of the banks among the headers.
    fn banks(&self) -> Vec<usize> {
        (0..self.headers.len()).filter(|&n| self.headers[n].kind == LOADABLE).collect()
    }

    fn headers_end(&self) -> u64 {
        self.headers_at + self.headers.len() as u64 * PROGRAM_HEADER
    }

    /// An ELF header alone is then a whole file.
    pub fn has_no_headers(&self) -> bool {
        self.elf.headers == 0
    }

    /// Where in the file a byte of memory lies, if it lies there.
    pub fn offset(&self, address: u64) -> Option<u64> {
        let holds = |header: &&ProgramHeader| header.kind == LOADABLE && header.address <= address && address < header.end();
        self.headers.iter().find(holds).map(|bank| bank.offset.wrapping_add(address - bank.address))
    }

    /// A field of the ELF header beside its right value.
    fn damage_tested(&mut self, random: &mut Random) {
        let elf = &mut self.elf;
        match random.below(9) {
            n @ 0..=3 => elf.ident[n as usize] ^= 1 << random.below(8),
            4 => elf.ident[4] = random.pick(&[0, 1, 1, 3, 0x82]),
            5 => elf.ident[5] = random.pick(&[0, 2, 2, 3, 0x81]),
            6 => elf.kind = random.pick(&[3, 5, 0, 1, 2, 0x104, 0x400]),
            7 => elf.machine = random.pick(&[182, 184, 0xb700, 0x1b7, 62, 0]),
            _ => elf.header_size = random.pick(&[55, 57, 0, 32, 0x138, 0x3800, 0xffff]),
        }
    }

    /// The count of the program headers, or where they are.
    fn damage_headers(&mut self, random: &mut Random) {
        let bytes = self.headers.len() as u64 * PROGRAM_HEADER;
        match random.below(12) {
            0 => self.elf.headers = about(random, self.elf.headers.into()) as u16,
            1 => self.elf.headers = random.pick(&[0xffff, 0x100, self.elf.headers ^ 0x100]),
            2 => self.elf.headers = random.below(self.headers.len() as u64 + 1) as u16,
            // No headers at all, wherever they would be. Their size is tested all the same.
            3 | 4 => {
                self.elf.headers = 0;
                self.elf.header_size = random.pick(&[56, 56, 56, 0, 55, 57]);
                self.elf.headers_at = random.pick(&[0, self.length, self.length + 1, u64::MAX, u64::MAX - 55, 1 << 63]);
            }
            5 => self.elf.headers_at = about(random, self.length.saturating_sub(bytes)),
            6 => self.elf.headers_at = random.pick(&[self.length, self.length + 1, u64::MAX, u64::MAX - 55, u64::MAX - 56, 1 << 63]),
            7 => self.elf.headers_at = 0u64.wrapping_sub(bytes).wrapping_add(random.pick(&[0, 1, u64::MAX])),
            8 => self.elf.headers_at = random.below(ELF_HEADER),
            _ => self.first_in_elf_header(random),
        }
    }

    /// The first program header becomes the last bytes of the ELF header, and is now and then that of a bank.
    fn first_in_elf_header(&mut self, random: &mut Random) {
        if self.headers_at == ELF_HEADER && self.elf.headers < 0xffff {
            self.elf.headers_at = ELF_HEADER - PROGRAM_HEADER;
            self.elf.headers += 1;
            let kind: u32 = random.pick(&[0, 1, 4]);
            self.elf.ident[8..12].copy_from_slice(&kind.to_le_bytes());
        }
    }

    /// A bank, at times the one whose bytes are last.
    fn pick_bank(&self, random: &mut Random) -> Option<usize> {
        let banks = self.banks();
        if random.percent(40) {
            return banks.into_iter().max_by_key(|&n| self.headers[n].offset);
        }
        (!banks.is_empty()).then(|| random.pick(&banks))
    }

    /// An offset at an end of what else lies in the file, or just beside it.
    fn damage_offset(&mut self, random: &mut Random) {
        let (n, other) = match (self.pick_bank(random), self.pick_bank(random)) {
            (Some(n), Some(other)) => (n, self.headers[other]),
            _ => return,
        };
        let size = self.headers[n].size;
        let near = match random.below(12) {
            0..=4 => self.headers[n].offset,
            5 => ELF_HEADER,
            6 => self.length,
            7 => other.end_in_file(),
            8 => other.offset.wrapping_sub(size),
            9 => self.headers_at.wrapping_sub(size),
            10 => self.headers_end(),
            _ => random.pick(&[0, 1 << 32, 1 << 48, 1 << 63, u64::MAX, 0u64.wrapping_sub(size)]),
        };
        self.headers[n].offset = about(random, near);
    }

    /// A size up to what follows in memory or in the file, to 2^48 or to 2^64, or just beside that.
    fn damage_size(&mut self, random: &mut Random) {
        let n = match self.pick_bank(random) {
            Some(n) => n,
            None => return,
        };
        let banks = self.banks();
        let next = banks.iter().find(|&&later| later > n).map_or(1 << 48, |&later| self.headers[later].address);
        let bank = &self.headers[n];
        let near = match random.below(12) {
            0..=3 => bank.size,
            4 | 5 => self.length.wrapping_sub(bank.offset),
            6..=8 => next.wrapping_sub(bank.address),
            9 => (1u64 << 48).wrapping_sub(bank.address),
            10 => 0u64.wrapping_sub(bank.address),
            _ => random.pick(&[0, self.length, 1 << 32, 1 << 48, 1 << 63, u64::MAX]),
        };
        self.headers[n].size = about(random, near);
    }

    /// An address at an end of a neighbour, of 2^48 or of 2^64, or just beside it.
    fn damage_address(&mut self, random: &mut Random) {
        let n = match self.pick_bank(random) {
            Some(n) => n,
            None => return,
        };
        let banks = self.banks();
        let before = banks.iter().rev().find(|&&earlier| earlier < n).map_or(0, |&earlier| self.headers[earlier].end());
        let next = banks.iter().find(|&&later| later > n).map_or(1 << 48, |&later| self.headers[later].address);
        let bank = &self.headers[n];
        let near = match random.below(10) {
            0 | 1 => bank.address,
            2..=4 => before,
            5 | 6 => next.wrapping_sub(bank.size),
            7 => (1u64 << 48).wrapping_sub(bank.size),
            8 => 0u64.wrapping_sub(bank.size),
            _ => random.pick(&[0, 1 << 48, 1 << 63, u64::MAX]),
        };
        self.headers[n].address = about(random, near);
    }

    /// The last bank but one ends at 2^64 or beside it, and the last begins at the last address. The first of them has no bytes in the file.
    fn raise_two(&mut self, random: &mut Random) {
        if let [.., one, two] = self.banks().as_slice() {
            let size = about(random, 0u64.wrapping_sub(self.headers[*one].address));
            self.headers[*one] = ProgramHeader { size, offset: self.length, ..self.headers[*one] };
            self.headers[*two] = ProgramHeader { address: u64::MAX, ..self.headers[*two] };
        }
    }

    /// The last bank ends at 2^48, past it, at 2^64 or past that, by its address or by its size.
    fn raise(&mut self, random: &mut Random) {
        if random.percent(30) {
            return self.raise_two(random);
        }
        if let Some(last) = self.banks().last() {
            let bank = &mut self.headers[*last];
            let end = random.pick(&[1 << 48, 1 << 48, (1 << 48) + 1, 1 << 49, 0, 1, u64::MAX]);
            if random.percent(50) {
                bank.address = end.wrapping_sub(bank.size);
            } else {
                bank.size = end.wrapping_sub(bank.address);
            }
        }
    }

    /// Which headers are banks, and in what order.
    fn damage_kinds(&mut self, random: &mut Random) {
        if self.headers.is_empty() {
            return;
        }
        let (one, two) = (random.below(self.headers.len() as u64) as usize, random.below(self.headers.len() as u64) as usize);
        match random.below(4) {
            0 => self.headers[one].kind = other_kind(random),
            1 => self.headers[one].kind = LOADABLE,
            2 => self.headers.swap(one, two),
            _ => self.headers[one] = self.headers[two],
        }
    }

    /// A bank without bytes takes the place of another header, where the order of addresses allows it or beside that.
    fn empty_bank(&mut self, random: &mut Random) {
        let others: Vec<usize> = (0..self.headers.len()).filter(|&n| self.headers[n].kind != LOADABLE).collect();
        if others.is_empty() {
            return;
        }
        let n = random.pick(&others);
        let before = self.headers[..n].iter().rev().find(|header| header.kind == LOADABLE).map_or(0, ProgramHeader::end);
        let address = if random.percent(70) { before } else { about(random, before) };
        let within = random.below(self.length);
        let offset = random.pick(&[0, within, within, self.headers_at, self.length, u64::MAX]);
        self.headers[n] = ProgramHeader { kind: LOADABLE, offset, address, size: 0, ..self.headers[n] };
    }

    /// Changes one thing.
    pub fn damage(&mut self, random: &mut Random) {
        match random.below(100) {
            0..=15 => self.damage_tested(random),
            16..=29 => self.damage_headers(random),
            30..=47 => self.damage_offset(random),
            48..=64 => self.damage_size(random),
            65..=78 => self.damage_address(random),
            79..=83 => self.damage_kinds(random),
            84..=91 => self.empty_bank(random),
            _ => self.raise(random),
        }
    }

    /// A length at which the file may be cut: anywhere, in or beside the headers, at an end of a bank or in the midst of it. The last
    /// of these is given as an offset.
    pub fn cut(&self, random: &mut Random, offset: Option<u64>) -> u64 {
        if self.has_no_headers() {
            return about(random, ELF_HEADER);
        }
        match (random.below(20), self.pick_bank(random)) {
            (0, _) => random.below(ELF_HEADER + 2),
            (1 | 2, _) => about(random, self.headers_end()),
            (3, _) => random.below(self.length + 1),
            (4, _) => about(random, ELF_HEADER),
            (5 | 6, Some(bank)) => about(random, self.headers[bank].end_in_file()),
            (7 | 8, Some(bank)) => about(random, self.headers[bank].offset),
            (_, _) => offset.map_or(self.length, |offset| offset + random.below(9)),
        }
    }

    pub fn write(&self, random: &mut Random) -> Vec<u8> {
        let filler = random.word().to_le_bytes();
        let mut file: Vec<u8> = filler.iter().copied().cycle().take(self.length as usize).collect();
        for (offset, bytes) in &self.contents {
            file[*offset as usize..*offset as usize + bytes.len()].copy_from_slice(bytes);
        }
        let headers: Vec<u8> = self.headers.iter().flat_map(ProgramHeader::bytes).collect();
        file[self.headers_at as usize..self.headers_end() as usize].copy_from_slice(&headers);
        file[..ELF_HEADER as usize].copy_from_slice(&self.elf.bytes());
        file
    }
}
