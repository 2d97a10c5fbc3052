//! Translation tables, built in a capture entry by entry, so that the workloads' walks have descriptors to read.
use crate::random::Random;

/// The physical address of the capture's first byte.
pub const BASE: u64 = 0x4000_0000;
/// What a table descriptor adds to an address, and leaves of each stage that translate an EL0 read.
pub const TABLE: u64 = 3;
const LEAF1: u64 = 0x743;
pub const LEAF2: u64 = 0x7ff;
/// Output pages lie anywhere under this physical address.
const OUTPUTS: u64 = 1 << 38;

/// One stage's tables.
#[derive(Clone, Copy)]
pub struct Shape {
    /// The log of the granule's size.
    pub page: u64,
    /// How many levels there are, none if the stage is off.
    pub levels: u64,
    /// How many regions of input addresses are mapped, each as large as what one last table maps.
    pub regions: u64,
}

impl Shape {
    pub fn is_on(&self) -> bool {
        self.levels != 0
    }

    /// The bytes of a page, and of a table.
    fn page_bytes(&self) -> u64 {
        1 << self.page
    }

    /// The address that a descriptor holds.
    fn page_of(&self, descriptor: u64) -> u64 {
        descriptor & ((1 << 48) - 1) & !(self.page_bytes() - 1)
    }

    /// The bits of an index.
    fn stride(&self) -> u64 {
        self.page - 3
    }

    /// The address of an entry in a table with so many levels below it.
    fn entry(&self, table: u64, below: u64, input: u64) -> u64 {
        table + 8 * (input >> (self.page + self.stride() * below) & ((1 << self.stride()) - 1))
    }

    /// The first address behind the mapped regions.
    pub fn end(&self) -> u64 {
        self.regions << (self.page + self.stride())
    }
}

pub struct Tables {
    pub bytes: Vec<u8>,
    pub root1: u64,
    pub root2: u64,
    stage1: Shape,
    stage2: Shape,
    random: Random,
    free: Vec<u64>,
    /// The physical addresses of last entries: stage 1's, and stage 2's that no stage 1 table lies behind.
    leaves1: Vec<u64>,
    leaves2: Vec<u64>,
    /// The physical addresses of stage 1 entries that lead to last tables.
    regions: Vec<u64>,
}

impl Tables {
    /// Roots alone, in a capture of so many pages of stage 2, which are no smaller than those of stage 1. Pages are used in random order, so
    /// that tables are spread over the capture.
    pub fn new(stage1: Shape, stage2: Shape, pages: u64, seed: u64) -> Tables {
        let mut random = Random::new(seed);
        let page = stage2.page_bytes();
        let mut free: Vec<u64> = (0..pages).map(|n| BASE + n * page).collect();
        for i in (1..free.len()).rev() {
            free.swap(i, random.below(i as u64 + 1) as usize);
        }
        let bytes = vec![0; (pages * page) as usize];
        let (leaves1, leaves2, regions) = (Vec::new(), Vec::new(), Vec::new());
        let mut tables = Tables { bytes, root1: 0, root2: 0, stage1, stage2, random, free, leaves1, leaves2, regions };
        if stage2.is_on() {
            tables.root2 = tables.new_page();
        }
        if stage1.is_on() {
            tables.root1 = tables.new_table1();
        }
        tables
    }

    fn new_page(&mut self) -> u64 {
        self.free.pop().expect("a workload's tables fit its capture")
    }

    fn get(&self, at: u64) -> u64 {
        let offset = (at - BASE) as usize;
        u64::from_le_bytes(self.bytes[offset..offset + 8].try_into().expect("eight bytes"))
    }

    fn set(&mut self, at: u64, descriptor: u64) {
        let offset = (at - BASE) as usize;
        self.bytes[offset..offset + 8].copy_from_slice(&descriptor.to_le_bytes());
    }

    /// A random page of stage 2's regions.
    fn some_ipa(&mut self) -> u64 {
        self.random.below(self.stage2.end() >> self.stage2.page) << self.stage2.page
    }

    fn some_output(&mut self) -> u64 {
        self.random.below(OUTPUTS >> self.stage2.page) << self.stage2.page
    }

    /// The physical address of stage 2's last entry for an IPA. Tables on the way are made.
    fn last_entry2(&mut self, ipa: u64) -> u64 {
        let stage2 = self.stage2;
        let mut table = self.root2;
        for below in (1..stage2.levels).rev() {
            let at = stage2.entry(table, below, ipa);
            if self.get(at) == 0 {
                let next = self.new_page();
                self.set(at, next | TABLE);
            }
            table = stage2.page_of(self.get(at));
        }
        stage2.entry(table, 0, ipa)
    }

    /// Where a stage 1 descriptor lies.
    fn physical(&mut self, address: u64) -> u64 {
        if !self.stage2.is_on() {
            return address;
        }
        let at = self.last_entry2(address);
        self.stage2.page_of(self.get(at)) + address % self.stage2.page_bytes()
    }

    /// A new stage 1 table, by the address that stage 1 knows it by.
    fn new_table1(&mut self) -> u64 {
        let page = self.new_page();
        if !self.stage2.is_on() {
            return page;
        }
        loop {
            let ipa = self.some_ipa();
            let at = self.last_entry2(ipa);
            if self.get(at) == 0 {
                self.set(at, page | LEAF2);
                return ipa;
            }
        }
    }

    /// The physical address of stage 1's last entry for an address. Tables on the way are made.
    fn last_entry1(&mut self, address: u64) -> u64 {
        let stage1 = self.stage1;
        let mut table = self.root1;
        for below in (1..stage1.levels).rev() {
            let at = self.physical(stage1.entry(table, below, address));
            if self.get(at) == 0 {
                let next = self.new_table1();
                self.set(at, next | TABLE);
                if below == 1 {
                    self.regions.push(at);
                }
            }
            table = stage1.page_of(self.get(at));
        }
        self.physical(stage1.entry(table, 0, address))
    }

    fn map1(&mut self, address: u64) -> u64 {
        let at = self.last_entry1(address);
        if self.get(at) == 0 {
            let output = if self.stage2.is_on() { self.some_ipa() } else { self.some_output() };
            self.set(at, output | LEAF1);
            self.leaves1.push(at);
        }
        self.stage1.page_of(self.get(at))
    }

    fn map2(&mut self, ipa: u64) {
        let at = self.last_entry2(ipa);
        if self.get(at) == 0 {
            let output = self.some_output();
            self.set(at, output | LEAF2);
            self.leaves2.push(at);
        }
    }

    /// Makes an address translate, unless it does already.
    pub fn map(&mut self, address: u64) {
        let ipa = if self.stage1.is_on() { self.map1(address) } else { address };
        if self.stage2.is_on() {
            self.map2(ipa);
        }
    }

    /// Damages entries of both stages in all ways that stop a walk.
    pub fn damage(&mut self) {
        for at in self.leaves1.clone() {
            if self.random.percent(45) {
                let damaged = damaged1(self.get(at), self.random.below(6));
                self.set(at, damaged);
            }
        }
        for at in self.leaves2.clone() {
            if self.random.percent(65) {
                let damaged = damaged2(self.get(at), self.random.below(5));
                self.set(at, damaged);
            }
        }
        for (n, at) in self.regions.clone().into_iter().enumerate() {
            let next = self.stage1.page_of(self.get(at));
            match n % 16 {
                // No table, one under an IPA that is not mapped, and one that lies outside of the capture.
                2 => self.set(at, 0),
                7 => self.set(at, self.stage2.end() | TABLE),
                11 => {
                    let behind = self.last_entry2(next);
                    self.set(behind, OUTPUTS | LEAF2);
                }
                _ => {}
            }
        }
    }
}

/// A stage 1 leaf that stops an EL0 read: MAIR_EL1 has Device memory at 1 and an unlisted byte at 2.
fn damaged1(descriptor: u64, way: u64) -> u64 {
    match way {
        0 => descriptor & !1,
        1 => descriptor | 1 << 47,
        2 => descriptor & !(1 << 10),
        3 => descriptor & !(1 << 6),
        4 => descriptor | 1 << 2,
        _ => descriptor | 2 << 2,
    }
}

/// A stage 2 leaf that stops a read.
fn damaged2(descriptor: u64, way: u64) -> u64 {
    match way {
        0 => descriptor & !1,
        1 => descriptor | 1 << 47,
        2 => descriptor & !(1 << 10),
        3 => descriptor & !(1 << 6),
        _ => descriptor & !(3 << 2),
    }
}
