//! The memory that captures are taken from, and translation tables built in it, so that walks have descriptors to read.
use crate::generate::built_for;
use crate::random::Random;
use crate::walk::{bits, Bank, Granule, Question};
use std::ops::Range;

/// The largest root: 16 tables of 64KB. Images begin at a multiple of it.
pub const LARGEST_ROOT: u64 = 0x10_0000;

/// The length of an image for questions and audits, in which a largest root leaves room for other tables.
pub const LENGTH: u64 = 2 * LARGEST_ROOT;

/// An image is compared as a whole each time that so many calls have seen it.
const WATCHED: u64 = 64;

pub struct Image {
    pub base: u64,
    pub bytes: Vec<u8>,
    /// The same bytes once more, to see whether a call wrote the capture.
    pub copy: Vec<u8>,
    /// The addresses of all words that may differ from zero.
    pub written: Vec<u64>,
    used: u64,
    calls: u64,
    kept: bool,
}

impl Image {
    pub fn new(length: u64) -> Image {
        let bytes = vec![0; length as usize];
        Image { base: 0, copy: bytes.clone(), bytes, written: Vec::new(), used: 0, calls: 0, kept: true }
    }

    pub fn length(&self) -> u64 {
        self.bytes.len() as u64
    }

    fn offset(&self, address: u64) -> Option<usize> {
        let offset = address.checked_sub(self.base)?;
        (offset <= self.length() - 8).then_some(offset as usize)
    }

    /// The word at an address, 0 outside.
    pub fn get(&self, address: u64) -> u64 {
        self.offset(address).map_or(0, |at| u64::from_le_bytes(self.bytes[at..at + 8].try_into().unwrap()))
    }

    /// Overwrites a word, and sees before whether a call did.
    fn put(&mut self, at: usize, word: u64) {
        self.kept &= self.bytes[at..at + 8] == self.copy[at..at + 8];
        self.bytes[at..at + 8].copy_from_slice(&word.to_le_bytes());
        self.copy[at..at + 8].copy_from_slice(&word.to_le_bytes());
    }

    /// Writes a word; one outside is dropped.
    pub fn set(&mut self, address: u64, word: u64) {
        if let Some(at) = self.offset(address) {
            self.put(at, word);
            self.written.push(address);
        }
    }

    pub fn clear(&mut self, base: u64) {
        for address in std::mem::take(&mut self.written) {
            self.put((address - self.base) as usize, 0);
        }
        self.used = 0;
        self.base = base;
    }

    /// Whether no call has written the image. To compare all bytes for each call would take long: it is done for one of many, and a word
    /// that is set is compared before, so that no write is lost.
    pub fn kept(&mut self) -> bool {
        self.calls += 1;
        if self.calls % WATCHED == 0 {
            self.kept &= self.bytes == self.copy;
        }
        self.kept
    }

    /// Room for a table of a power of two bytes, aligned to them. When all room is used, tables begin to overlap.
    pub fn room(&mut self, random: &mut Random, size: u64) -> u64 {
        if size < 4096 {
            return self.room(random, 4096) + random.below(4096 / size) * size;
        }
        let at = (self.used + size - 1) / size * size;
        if at + size > self.length() {
            self.used = 0;
            return self.base + random.below(self.length() / size) * size;
        }
        self.used = at + size;
        self.base + at
    }
}

/// The part of an image that a capture has, and the address that the capture gives to its first byte.
pub struct Part {
    pub range: Range<usize>,
    pub base: u64,
}

impl Part {
    pub fn whole(image: &Image) -> Part {
        Part { range: 0..image.bytes.len(), base: image.base }
    }

    /// The one bank of the raw capture.
    pub fn bank<'a>(&self, image: &'a Image) -> Bank<'a> {
        Bank::whole(self.base, &image.bytes[self.range.clone()])
    }

    /// Cuts at an offset of the image, from either end.
    pub fn cut(&mut self, random: &mut Random, image: &Image, at: u64) {
        let at = at.min(image.length()) as usize;
        if random.percent(50) {
            self.range.end = at.max(self.range.start);
        } else {
            self.range.start = at.min(self.range.end);
        }
        self.base = image.base + self.range.start as u64;
    }

    /// Moves the capture so that its end is at 2^48, past it, or past 2^64. Some have few bytes or none.
    pub fn move_away(&mut self, random: &mut Random) {
        let length = random.pick(&[0, 1, 7, 8, 9, 4096, usize::MAX]).min(self.range.len());
        self.range.end = self.range.start + length;
        let length = length as u64;
        self.base = match random.below(7) {
            0 => (1 << 48) - length,
            1 => (1 << 48) - length + 1,
            2 => (1 << 48) - 1,
            3 => (1 << 48) + random.below(2),
            4 => u64::MAX - random.below(3),
            5 => 0u64.wrapping_sub(length),
            _ => random.word(),
        };
    }
}

/// Bits of a table descriptor beside type and address: now and then what stage 1 inherits, or ignored bits.
pub fn table_bits(random: &mut Random) -> u64 {
    let inherited = (59..=62).fold(0, |word, at| word | random.one(8) << at);
    let ignored = if random.percent(25) { random.word() & (1 << 63 | 0x7ff << 48 | 0xffc) } else { 0 };
    inherited | ignored
}

/// Bits of a stage 1 leaf beside type and address.
pub fn stage1_leaf_bits(random: &mut Random) -> u64 {
    let sh = if random.percent(95) { random.pick(&[0, 2, 3]) } else { 1 };
    let ap = if random.percent(40) { 1 } else { random.below(4) };
    let ignored = if random.percent(25) { random.word() & (0x1ff << 55 | 0xf << 48 | 1 << 11 | 1 << 5) } else { 0 };
    let low = random.below(8) << 2 | ap << 6 | sh << 8 | random.one(97) << 10;
    low | random.one(40) << 52 | random.one(20) << 53 | random.one(20) << 54 | ignored
}

/// Bits of a stage 2 leaf beside type and address, for the access itself or for stage 1's descriptors. Those have to let most
/// reads pass, or else hardly any walk of both stages would end.
pub fn stage2_leaf_bits(random: &mut Random, on_walk: bool) -> u64 {
    let (device, permitted) = if on_walk { (12, 95) } else { (25, 75) };
    let settled = random.percent(92);
    let memory = if random.percent(device) {
        random.below(4)
    } else if settled {
        random.between(1, 3) << 2 | random.between(1, 3)
    } else {
        random.below(16)
    };
    let sh = if settled { random.pick(&[0, 2, 3]) } else { random.below(4) };
    let ap = if random.percent(permitted) { 3 } else { random.below(4) };
    let ignored = if random.percent(25) { random.word() & (0x1ff << 55 | 1 << 53 | 0xf << 48 | 1 << 11) } else { 0 };
    memory << 2 | ap << 6 | sh << 8 | random.one(98) << 10 | random.one(40) << 52 | random.one(12) << 54 | ignored
}

/// A stage 2 leaf that lets every on-walk read pass.
pub fn passing_leaf_bits(random: &mut Random) -> u64 {
    let memory = random.between(1, 3) << 2 | random.between(1, 3);
    memory << 2 | 1 << 6 | random.bits(1) << 7 | random.pick(&[0, 2, 3]) << 8 | 1 << 10 | random.bits(1) << 54
}

fn leaf_type(level: u64) -> u64 {
    if level == 3 {
        3
    } else {
        1
    }
}

/// The address bits of a descriptor below its block, page or table are ignored: now and then they are not 0.
pub fn ignored_address_bits(random: &mut Random, low: u64) -> u64 {
    if random.percent(10) {
        random.bits(low - 12) << 12
    } else {
        0
    }
}

/// A base register for a root: any ASID or VMID, and at times bits below the root's size, which are ignored.
fn base_register(random: &mut Random, root: u64, size: u64) -> u64 {
    let low = if random.percent(50) { random.word() & (size - 1) } else { 0 };
    root | random.bits(16) << 48 | low
}

/// The size in bytes of a root table.
fn root_size(granule: Granule, input_size: u64, start: u64) -> u64 {
    1 << (3 + input_size - granule.shift(start))
}

/// The start of stage 2, once its registers are known to give one.
#[derive(Clone, Copy)]
struct Stage2 {
    granule: Granule,
    input_size: u64,
    output_size: u64,
    start: u64,
    root: u64,
}

/// The granule and the start level of stage 2, if it passes the size check. PAMax is not asked: where it forbids the start, tables are
/// there all the same, so that it alone decides.
fn stage2_start(q: &Question, input_size: u64) -> Option<(Granule, u64)> {
    let granule = Granule::of_stage2(q)?;
    let start = u64::try_from(granule.stage2_start(bits(q.vtcr_el2, 7, 6))).ok()?;
    let index_bits = input_size.checked_sub(granule.shift(start))?;
    (1..=granule.stride() + 4).contains(&index_bits).then_some((granule, start))
}

/// The table that a table descriptor leads to.
fn next_table(descriptor: u64, granule: Granule) -> u64 {
    bits(descriptor, 47, granule.log()) << granule.log()
}

/// Builds the tables of one question.
pub struct Builder<'a> {
    pub random: &'a mut Random,
    image: &'a mut Image,
    stage2: Option<Stage2>,
    pamax: u64,
    /// The output size that stage 1 is built for.
    ipa_size: u64,
    /// All leaves at level 3, for long walks.
    deep: bool,
    /// Stage 2 lets every on-walk read pass.
    passing: bool,
}

impl<'a> Builder<'a> {
    pub fn new(random: &'a mut Random, image: &'a mut Image, q: &Question, deep: bool) -> Builder<'a> {
        let passing = random.percent(60);
        let ipa_size = built_for(random).of_ips(q);
        Builder { random, image, stage2: None, pamax: q.pamax, ipa_size, deep, passing }
    }

    /// Makes room for stage 2's root, and gives VTTBR_EL2. If the registers have no start for which tables could be built, none are.
    pub fn stage2_root(&mut self, q: &Question) -> u64 {
        let input_size = 64 - bits(q.vtcr_el2, 5, 0);
        if let Some((granule, start)) = stage2_start(q, input_size) {
            let size = root_size(granule, input_size, start);
            let root = self.image.room(self.random, size);
            let output_size = built_for(self.random).of_ps(q);
            self.stage2 = Some(Stage2 { granule, input_size, output_size, start, root });
            return base_register(self.random, root, size);
        }
        self.random.word()
    }

    /// A level for a leaf: any that the granule has from the start on, or 3.
    fn leaf_level(&mut self, granule: Granule, start: u64) -> u64 {
        let first = if granule.allows_block(1) { 1 } else { 2 };
        let level = if self.deep { 3 } else { self.random.pick(&[1, 1, 1, 2, 2, 3, 3, 3]) };
        level.max(first).max(start)
    }

    /// Maps an IPA to a physical address by a leaf of this level, unless the tables map it already. Gives the address that they map
    /// it to.
    fn map_ipa(&mut self, stage2: Stage2, ipa: u64, address: u64, leaf: u64, on_walk: bool) -> u64 {
        let granule = stage2.granule;
        let (mut table, mut high) = (stage2.root, stage2.input_size - 1);
        for level in stage2.start..=3 {
            let low = granule.shift(level);
            let at = table + 8 * bits(ipa, high, low);
            let old = self.image.get(at);
            if old & 3 == 3 && level < 3 {
                table = next_table(old, granule);
            } else if old & 1 == 1 {
                return bits(old, 47, low) << low | bits(ipa, low - 1, 0);
            } else if level < leaf {
                table = self.image.room(self.random, granule.size());
                self.set_table(at, table, granule);
            } else {
                let block = bits(address, 47, low) << low;
                let leaf_bits =
                    if on_walk && self.passing { passing_leaf_bits(self.random) } else { stage2_leaf_bits(self.random, on_walk) };
                self.image.set(at, block | ignored_address_bits(self.random, low) | leaf_bits | leaf_type(level));
                return block | bits(ipa, low - 1, 0);
            }
            high = low - 1;
        }
        unreachable!("no entry of level 3 leads to a table")
    }

    /// Writes a table descriptor. Now and then it has an address past PAMax.
    fn set_table(&mut self, at: u64, table: u64, granule: Granule) {
        let past = if self.pamax < 48 && self.random.percent(5) { 1 << self.random.between(self.pamax, 47) } else { 0 };
        let ignored = ignored_address_bits(self.random, granule.log());
        self.image.set(at, table | past | ignored | 3 | table_bits(self.random));
    }

    /// Room for a table of stage 1: the address by which stage 1 knows it. If stage 2 is on that is an IPA, and stage 2 maps the entry at
    /// an offset, with as much of the table as a leaf of stage 2 holds.
    fn stage1_table(&mut self, size: u64, offset: u64) -> u64 {
        let address = self.image.room(self.random, size);
        let stage2 = match self.stage2 {
            Some(stage2) => stage2,
            None => return address,
        };
        let width = stage2.input_size.min(self.ipa_size);
        let mut leaf = self.leaf_level(stage2.granule, stage2.start);
        while stage2.granule.shift(leaf) >= width {
            leaf += 1;
        }
        let low = stage2.granule.shift(leaf).max(size.trailing_zeros() as u64);
        let ipa = self.random.bits(width - low) << low | bits(address, low - 1, 0);
        self.map_ipa(stage2, ipa + offset, address + offset, leaf, true);
        ipa
    }

    /// Where a descriptor of stage 1 lies in memory.
    fn physical(&mut self, at: u64) -> u64 {
        match self.stage2 {
            Some(stage2) => self.map_ipa(stage2, at, at, 3, true),
            None => at,
        }
    }

    /// Builds stage 1's tables for an address. Gives the base register, and the address that they translate it to.
    pub fn stage1(&mut self, address: u64, granule: Granule, input_size: u64) -> (u64, u64) {
        let start = granule.stage1_start(input_size);
        let leaf = self.leaf_level(granule, start);
        let size = root_size(granule, input_size, start);
        let mut low = granule.shift(start);
        let mut offset = 8 * bits(address, input_size - 1, low);
        let root = self.stage1_table(size, offset);
        let mut table = root;
        for level in start..leaf {
            let at = self.physical(table + offset);
            offset = 8 * bits(address, low - 1, granule.shift(level + 1));
            low = granule.shift(level + 1);
            let old = self.image.get(at);
            if old == 0 {
                table = self.stage1_table(granule.size(), offset);
                self.set_table(at, table, granule);
            } else {
                table = next_table(old, granule);
            }
        }
        let at = self.physical(table + offset);
        let width = self.stage2.map_or(48, |stage2| stage2.input_size).min(self.ipa_size).max(low);
        let output = self.random.bits(width - low) << low;
        if self.image.get(at) == 0 {
            let ignored = ignored_address_bits(self.random, low);
            self.image.set(at, output | ignored | stage1_leaf_bits(self.random) | leaf_type(leaf));
        }
        (base_register(self.random, root, size), output | bits(address, low - 1, 0))
    }

    /// The width of an address that stage 2, or with it off PAMax, lets through.
    pub fn input_width(&self, q: &Question) -> u64 {
        self.stage2.map_or(48, |stage2| stage2.input_size).min(q.pamax)
    }

    /// Maps stage 1's output somewhere, if stage 2 is on and takes it.
    pub fn map_output(&mut self, ipa: u64) {
        if let Some(stage2) = self.stage2.filter(|stage2| ipa >> stage2.input_size == 0) {
            let leaf = self.leaf_level(stage2.granule, stage2.start);
            let low = stage2.granule.shift(leaf);
            let address = self.random.bits(stage2.output_size.max(low) - low) << low;
            self.map_ipa(stage2, ipa, address, leaf, false);
        }
    }
}
