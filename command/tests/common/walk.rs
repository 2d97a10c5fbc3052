//! The walk once more, as far as documents 01 and 02 say which descriptors are read, to hold against what the command says of each.
use super::{Bench, Memory, Ran, Registers};
use serde_json::{json, Value};

/// A granule, by the log of its bytes.
#[derive(Clone, Copy, Debug, PartialEq, Eq)]
pub struct Granule(u64);

impl Granule {
    pub fn of_tg0(register: u64) -> Granule {
        match register >> 14 & 3 {
            0 => Granule(12),
            1 => Granule(16),
            2 => Granule(14),
            _ => panic!("a reserved TG0 in {register:#x}"),
        }
    }

    fn of_tg1(register: u64) -> Granule {
        match register >> 30 & 3 {
            1 => Granule(14),
            2 => Granule(12),
            3 => Granule(16),
            _ => panic!("a reserved TG1 in {register:#x}"),
        }
    }

    fn stride(self) -> u64 {
        self.0 - 3
    }

    /// The first level that may have blocks.
    pub fn first_block(self) -> u64 {
        if self.0 == 12 {
            1
        } else {
            2
        }
    }

    /// What an entry of a level spans.
    pub fn span(self, level: u64) -> u64 {
        1 << (self.0 + self.stride() * (3 - level))
    }

    /// The address in a descriptor, of a table or of a leaf of a level.
    pub fn table(self, descriptor: u64) -> u64 {
        self.leaf(descriptor, 3)
    }

    pub fn leaf(self, descriptor: u64, level: u64) -> u64 {
        descriptor % (1 << 48) / self.span(level) * self.span(level)
    }

    fn start1(self, size: u64) -> u64 {
        4 - (size - self.0 + self.stride() - 1) / self.stride()
    }

    fn start2(self, vtcr_el2: u64) -> Option<u64> {
        let sl0 = vtcr_el2 >> 6 & 3;
        match self.0 {
            12 => 2_u64.checked_sub(sl0),
            _ => 3_u64.checked_sub(sl0).filter(|level| *level > 0),
        }
    }

    /// The address and entries of a root, which go by all bits of the input size. It is aligned to its length, which may be less than a
    /// table's. None if the input size is too small for this level.
    fn root(self, base: u64, level: u64, size: u64) -> Option<(u64, u64)> {
        let entries = (1 << size) / self.span(level);
        (entries > 1).then(|| (base & ((1 << 48) - 1) & !(8 * entries - 1), entries))
    }

    fn entries(self) -> u64 {
        1 << self.stride()
    }
}

/// A question: registers, access and capture.
pub struct Question {
    pub registers: Registers,
    /// The options --kind, --el and --size.
    pub access: String,
    pub address: u64,
    pub memory: Memory,
}

impl Question {
    pub fn ask(&self) -> Ran {
        Bench::new(&self.memory, &self.registers).over(&format!("ask {:#x} {} --json", self.address, self.access))
    }

    /// The upper half of stage 1's addresses is the one asked. The top byte of an address with a tag does not count.
    fn is_upper(&self) -> bool {
        let tagged = self.registers.tcr_el1 >> (37 + (self.address >> 55 & 1)) & 1 == 1;
        self.address >> (if tagged { 55 } else { 63 }) & 1 == 1
    }

    /// The granule of a stage.
    pub fn granule(&self, stage: u64) -> Granule {
        match (stage, self.is_upper()) {
            (1, false) => Granule::of_tg0(self.registers.tcr_el1),
            (1, true) => Granule::of_tg1(self.registers.tcr_el1),
            _ => Granule::of_tg0(self.registers.vtcr_el2),
        }
    }

    /// A batch of this address alone.
    pub fn batch(&self) -> Ran {
        let bench = Bench::new(&self.memory, &self.registers);
        bench.write("list", self.address.to_string());
        bench.over(&format!("batch --addresses list {}", self.access))
    }
}

/// Where a read belongs: stage, on-walk, level and address.
type Place = (u64, bool, u64, u64);

/// The place of a step as the command's JSON has it.
fn place(step: &Value) -> Place {
    let number = |name: &str| step[name].as_u64().unwrap_or_else(|| panic!("{name} of {step}"));
    let digits = step["address"].as_str().and_then(|text| text.strip_prefix("0x")).expect("an address");
    let address = u64::from_str_radix(digits, 16).expect("a hexadecimal address");
    (number("stage"), step["on_walk"].as_bool().expect("on_walk"), number("level"), address)
}

/// What a step says begins with its descriptor's type, and what it leads to.
fn check_step(question: &Question, step: &Value) {
    let (stage, _, level, address) = place(step);
    let value = question.memory.descriptor(address).expect("what was read");
    assert_eq!(step["value"], json!(format!("{value:#x}")));
    let granule = question.granule(stage);
    let leaf = format!("of {:#x} at {:#x}, ", granule.span(level), granule.leaf(value, level));
    let said = match (value & 3, level) {
        (3, 3) => format!("page {leaf}"),
        (3, _) => format!("table at {:#x}", granule.table(value)),
        (1, level) if (granule.first_block()..3).contains(&level) => format!("block {leaf}"),
        _ => "invalid".to_string(),
    };
    assert!(step["says"].as_str().expect("words").starts_with(&said), "{step} does not say: {said}");
}

/// Holds all steps of a told question against this walk, and gives the addresses that were read.
pub fn check_steps(question: &Question, told: &Value) -> Vec<u64> {
    let steps = told["steps"].as_array().expect("steps");
    let places: Vec<Place> = steps.iter().map(place).collect();
    assert_eq!(places, reads(question, places.len()));
    steps.iter().for_each(|step| check_step(question, step));
    places.iter().map(|place| place.3).collect()
}

/// The first reads that a question makes, so many of them. A walk that is ended by a fault is a beginning of one that goes on.
fn reads(question: &Question, count: usize) -> Vec<Place> {
    let mut walk = Walk { question, places: Vec::new(), count };
    // Where nothing is read registers may be refused.
    if count > 0 {
        walk.access();
    }
    walk.places
}

struct Walk<'a> {
    question: &'a Question,
    places: Vec<Place>,
    count: usize,
}

fn is_table(descriptor: u64, level: u64) -> bool {
    level < 3 && descriptor & 3 == 3
}

impl Walk<'_> {
    /// Reads a descriptor, unless all are.
    fn read(&mut self, stage: u64, on_walk: bool, level: u64, address: u64) -> Option<u64> {
        if self.places.len() == self.count {
            return None;
        }
        self.places.push((stage, on_walk, level, address));
        self.question.memory.descriptor(address)
    }

    /// The output address of stage 2, if all reads are not made before.
    fn stage2(&mut self, ipa: u64, on_walk: bool) -> Option<u64> {
        let Registers { hcr_el2, vtcr_el2, vttbr_el2, .. } = self.question.registers;
        if hcr_el2 & 0x1001 == 0 {
            return Some(ipa);
        }
        let granule = Granule::of_tg0(vtcr_el2);
        let mut level = granule.start2(vtcr_el2)?;
        let (mut table, mut entries) = granule.root(vttbr_el2, level, 64 - (vtcr_el2 & 0x3f))?;
        loop {
            let descriptor = self.read(2, on_walk, level, table + 8 * (ipa / granule.span(level) % entries))?;
            if !is_table(descriptor, level) {
                return Some(granule.leaf(descriptor, level) + ipa % granule.span(level));
            }
            (level, table, entries) = (level + 1, granule.table(descriptor), granule.entries());
        }
    }

    fn access(&mut self) -> Option<u64> {
        let Registers { hcr_el2, sctlr_el1, tcr_el1, ttbr0_el1, ttbr1_el1, .. } = self.question.registers;
        let va = self.question.address;
        if sctlr_el1 & 1 == 0 || hcr_el2 >> 12 & 1 == 1 {
            return self.stage2(va & ((1 << 48) - 1), false);
        }
        let granule = self.question.granule(1);
        let upper = self.question.is_upper();
        let (base, size) = if upper { (ttbr1_el1, 64 - (tcr_el1 >> 16 & 0x3f)) } else { (ttbr0_el1, 64 - (tcr_el1 & 0x3f)) };
        let mut level = granule.start1(size);
        let (mut table, mut entries) = granule.root(base, level, size)?;
        loop {
            let address = self.stage2(table + 8 * (va / granule.span(level) % entries), true)?;
            let descriptor = self.read(1, false, level, address)?;
            if !is_table(descriptor, level) {
                return self.stage2(granule.leaf(descriptor, level) + va % granule.span(level), false);
            }
            (level, table, entries) = (level + 1, granule.table(descriptor), granule.entries());
        }
    }
}

/// The lowest IPAs that go through an entry of stage 2's tables where it is a table, or a leaf: the first of them, and how many.
pub fn through(memory: &Memory, registers: &Registers, entry: u64, table: bool) -> Option<(u64, u64)> {
    let granule = Granule::of_tg0(registers.vtcr_el2);
    let level = granule.start2(registers.vtcr_el2)?;
    let (base, entries) = granule.root(registers.vttbr_el2, level, 64 - (registers.vtcr_el2 & 0x3f))?;
    let output_size = [32, 36, 40, 42, 44, 48][(registers.vtcr_el2 >> 16 & 7) as usize].min(registers.pamax);
    Search { memory, granule, entry, table, output_size }.tables(base, entries, level, 0)
}

struct Search<'a> {
    memory: &'a Memory,
    granule: Granule,
    entry: u64,
    table: bool,
    output_size: u64,
}

impl Search<'_> {
    fn tables(&self, base: u64, entries: u64, level: u64, ipa: u64) -> Option<(u64, u64)> {
        (0..entries).find_map(|index| {
            let (address, ipa) = (base + 8 * index, ipa + index * self.granule.span(level));
            let descriptor = self.memory.descriptor(address)?;
            let leaf = if level == 3 { descriptor & 3 == 3 } else { level >= self.granule.first_block() && descriptor & 3 == 1 };
            let found = if self.table { is_table(descriptor, level) } else { leaf };
            if found && address == self.entry {
                return Some((ipa, self.granule.span(level)));
            }
            let next = self.granule.table(descriptor);
            // A table beyond the output size is not walked.
            if is_table(descriptor, level) && next >> self.output_size == 0 {
                return self.tables(next, self.granule.entries(), level + 1, ipa);
            }
            None
        })
    }
}
