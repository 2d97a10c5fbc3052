//! Audits that are clean: tables built in an image, and grants that hold all their leaves and touch no table.
use crate::audit::{failing_setting, touch, Lists, FRAME, MOST_GRANTS, MOST_TABLES};
use crate::generate::{built_for, table_base, Plan};
use crate::random::Random;
use crate::tables::{ignored_address_bits, stage2_leaf_bits, Builder, Image, Part};
use crate::walk::{bits, Granule, OutputSize, Question, Start};
use std::ops::Range;

/// An audit with its capture, which is a part of an image.
pub struct Asked {
    pub question: Question,
    pub lists: Lists,
    pub part: Part,
}

/// An image in which the most tables of 4KB have room, with a root of 16 frames wherever it is aligned, and some frames more.
pub const LARGE: u64 = (MOST_TABLES as u64 + 64) * FRAME;

/// A table, and every level at which it is listed. The root has one level.
struct Node {
    address: u64,
    entries: u64,
    levels: Vec<u64>,
}

/// The first entry, the last, or any.
pub fn index(random: &mut Random, entries: u64) -> u64 {
    match random.below(4) {
        0 => 0,
        1 => entries - 1,
        _ => random.below(entries),
    }
}

/// All bits of a descriptor that an audit does not look at: flags, attributes and permissions.
pub fn odd_bits(random: &mut Random) -> u64 {
    if random.percent(50) {
        stage2_leaf_bits(random, false)
    } else {
        random.word() & !(bits(u64::MAX, 47, 12) << 12 | 3)
    }
}

/// Grants in ascending order, with those that overlap or meet made one.
pub fn merged(mut ranges: Vec<Range<u64>>) -> Vec<Range<u64>> {
    ranges.sort_unstable_by_key(|range| range.start);
    let mut all: Vec<Range<u64>> = Vec::new();
    for range in ranges {
        match all.last_mut() {
            Some(last) if range.start <= last.end => last.end = last.end.max(range.end),
            _ => all.push(range),
        }
    }
    all
}

/// Adds frames to the grants until there are so many, each with a gap of a frame, past or before all grants and the image. None are
/// added if there is no room.
pub fn pad_grants(lists: &mut Lists, image: &Image, count: usize) {
    let more = count.saturating_sub(lists.grants.len()) as u64;
    let granted = lists.granted();
    let (first, last) = (granted.first().map_or(1 << 48, |grant| grant.start), granted.last().map_or(0, |grant| grant.end));
    let above = last.max(image.base + image.length());
    let start = if above + 2 * more * FRAME <= 1 << 48 { Some(above) } else { first.min(image.base).checked_sub((2 * more + 1) * FRAME) };
    if let Some(start) = start {
        let frames = (0..more).map(|n| start + (2 * n + 1) * FRAME).map(|at| at..at + FRAME);
        *lists = Lists::of(&merged(granted.into_iter().chain(frames).collect()), &lists.tables());
    }
}

struct Sound<'a> {
    random: &'a mut Random,
    image: &'a mut Image,
    granule: Granule,
    nodes: Vec<Node>,
    /// Granules of the image that nothing uses, in any order.
    unused: Vec<u64>,
    granted: Vec<Range<u64>>,
}

impl Sound<'_> {
    /// An entry of a node that is not in use. After some tries there is none.
    fn unused_entry(&mut self, node: usize) -> Option<u64> {
        let (address, entries) = (self.nodes[node].address, self.nodes[node].entries);
        (0..4).map(|_| index(self.random, entries)).find(|n| self.image.get(address + 8 * n) & 1 == 0)
    }

    fn set(&mut self, node: usize, index: u64, word: u64) {
        self.image.set(self.nodes[node].address + 8 * index, word);
    }

    /// A table more. An entry of another leads to most: such a one is listed one level down from each level of the other.
    fn add_table(&mut self, several_levels: bool) {
        let address = self.unused.pop().expect("the image has room for all tables");
        let count = self.nodes.len();
        let tried = [count - 1, self.random.below(count as u64) as usize, self.random.below(count as u64) as usize, 0];
        let parent = tried.into_iter().find(|&node| self.nodes[node].levels.iter().all(|&level| level < 3));
        let mut levels = vec![self.random.between(1, 3)];
        if let Some(parent) = parent.filter(|_| self.random.percent(80)) {
            if let Some(index) = self.unused_entry(parent) {
                let word = address | ignored_address_bits(self.random, self.granule.log()) | odd_bits(self.random) | 3;
                self.set(parent, index, word);
                levels = self.nodes[parent].levels.iter().map(|level| level + 1).collect();
            }
        }
        if several_levels && self.random.percent(8) {
            levels.push(self.random.between(1, 3));
            levels.sort_unstable();
            levels.dedup();
        }
        self.nodes.push(Node { address, entries: 1 << self.granule.stride(), levels });
    }

    fn is_free(&self, range: &Range<u64>) -> bool {
        range.end <= 1 << 48 && !touch(range, &(self.image.base..self.image.base + self.image.length()))
    }

    /// Where leaves of some size and of so many bytes together go: at or near an end of the image, of a grant or of memory, or anywhere.
    /// A granule or less may go between tables too. After some tries there is no place.
    fn place(&mut self, size: u64, total: u64) -> Option<Range<u64>> {
        if total <= self.granule.size() && self.random.percent(25) {
            return self.unused.pop().map(|start| start..start + total);
        }
        let at = |start: u64| start / size * size..(start / size * size).saturating_add(total);
        for _ in 0..4 {
            let near = if self.granted.is_empty() || self.random.percent(50) {
                self.image.base..self.image.base + self.image.length()
            } else {
                self.granted[self.random.below(self.granted.len() as u64) as usize].clone()
            };
            let width = self.random.between(30, 48);
            let range = at(match self.random.below(20) {
                0..=2 => near.start.saturating_sub(total),
                3..=5 => near.end + size - 1,
                6..=8 => near.start,
                9 => (1 << 48) - total,
                10 | 11 => near.end + FRAME,
                _ => self.random.bits(width),
            });
            if self.is_free(&range) {
                return Some(range);
            }
        }
        None
    }

    /// Grants a range, at times with a frame more at an end.
    fn grant(&mut self, mut range: Range<u64>) {
        if self.random.percent(20) {
            let wider = if self.random.percent(50) { range.start.saturating_sub(FRAME)..range.end } else { range.start..range.end + FRAME };
            if self.is_free(&wider) {
                range = wider;
            }
        }
        self.granted.push(range);
    }

    /// How many entries in a row from this one are not in use, of so many wanted.
    fn run(&self, node: usize, index: u64, wanted: u64) -> u64 {
        let node = &self.nodes[node];
        let unused = |n: &u64| *n < node.entries && self.image.get(node.address + 8 * n) & 1 == 0;
        (index..index + wanted).take_while(unused).count() as u64
    }

    /// Leaves in a row, or an entry that is passed over, in any table.
    fn add_leaves(&mut self) {
        let node = self.random.below(self.nodes.len() as u64) as usize;
        let index = match self.unused_entry(node) {
            Some(index) => index,
            None => return,
        };
        let levels = &self.nodes[node].levels;
        // A block where a table is listed at several levels is one at each that has blocks, within the largest.
        let level = if levels == &[3] { Some(3) } else { levels.iter().copied().find(|&level| self.granule.allows_block(level)) };
        let level = match level.filter(|level| *level < 3 || self.random.percent(75)) {
            Some(level) => level,
            None => return self.set_passed_over(node, index, 1),
        };
        if self.random.percent(10) {
            let kind = self.random.pick(&[0, 2]);
            return self.set_passed_over(node, index, kind);
        }
        let wanted = match self.random.below(20) {
            0 => 512,
            1..=4 => self.random.between(2, 6),
            _ => 1,
        };
        let low = self.granule.shift(level);
        let (size, count) = (1 << low, self.run(node, index, wanted));
        if let Some(range) = self.place(size, size * count) {
            for n in 0..count {
                let kind = if level == 3 { 3 } else { 1 };
                let word = (range.start + size * n) | ignored_address_bits(self.random, low) | odd_bits(self.random) | kind;
                self.set(node, index + n, word);
            }
            self.grant(range);
        }
    }

    fn set_passed_over(&mut self, node: usize, index: u64, kind: u64) {
        let word = self.random.word() & !3 | kind;
        self.set(node, index, word);
    }

    /// Grants for which there is no leaf.
    fn add_grant(&mut self) {
        let frames = self.random.pick(&[1, 1, 2, 3, 512]);
        if let Some(range) = self.place(FRAME, frames * FRAME) {
            self.grant(range);
        }
    }

    fn lists(self) -> Lists {
        let listed = |node: &Node| node.levels.iter().map(|&level| (node.address, level)).collect::<Vec<_>>();
        let mut tables: Vec<(u64, u64)> = self.nodes[1..].iter().flat_map(listed).collect();
        tables.sort_unstable();
        Lists::of(&merged(self.granted), &tables)
    }
}

/// Most have stage 2 on. Those for a large image have the granule that it has room for.
fn plan(random: &mut Random, large: bool) -> Plan {
    loop {
        let plan = Plan::new(random);
        let has_room = !large || Granule::of_stage2(&plan.question) == Some(Granule::Of4KB);
        if has_room && (plan.stage2 || random.percent(5)) {
            return plan;
        }
    }
}

/// Registers that give stage 2 a root in an image, which is cleared. Some have none.
fn start(random: &mut Random, image: &mut Image) -> (Question, Option<Start>) {
    let plan = plan(random, image.length() == LARGE);
    let mut q = plan.question;
    let output_size = built_for(random).of_ps(&q);
    image.clear(table_base(random, output_size, image.length()));
    // The root goes anywhere, with tables before and after it.
    for _ in 0..random.below(image.length() / FRAME - 32) {
        image.room(random, FRAME);
    }
    q.vttbr_el2 = Builder::new(random, image, &q, plan.deep).stage2_root(&q);
    let start = if plan.stage2 && failing_setting(&q).is_none() { Start::stage2(&q, 0, OutputSize::Lowered).ok() } else { None };
    (q, start)
}

/// The whole image, or no more than its tables, or some bytes more than those.
fn part(random: &mut Random, image: &Image, tables: impl Iterator<Item = Range<u64>> + Clone) -> Part {
    let mut part = Part::whole(image);
    if random.percent(70) {
        let first = tables.clone().map(|bytes| bytes.start).min().unwrap_or(image.base) - image.base;
        let end = tables.map(|bytes| bytes.end).max().unwrap_or(image.base) - image.base;
        let spare = random.pick(&[0, 0, 1, 7, 8, 100]);
        part.range = first.saturating_sub(spare) as usize..(end + spare).min(image.length()) as usize;
        part.base = image.base + part.range.start as u64;
    }
    part
}

/// Builds an audit in an image. It is clean, unless its registers are refused or have no root.
pub fn build(random: &mut Random, image: &mut Image) -> Asked {
    let (question, start) = start(random, image);
    let start = match start {
        Some(start) => start,
        None => return Asked { question, lists: Lists::default(), part: Part::whole(image) },
    };
    let root = Node { address: start.table, entries: start.entries(), levels: vec![start.level] };
    let root_bytes = root.address..root.address + 8 * root.entries;
    let granule = start.granule;
    let granules = (image.base..image.base + image.length()).step_by(granule.size() as usize);
    let mut unused: Vec<u64> = granules.filter(|&start| !touch(&(start..start + granule.size()), &root_bytes)).collect();
    random.shuffle(&mut unused);
    // The first table may be the last before 2^48.
    if let Some(last) = unused.iter().position(|start| start + granule.size() == 1 << 48).filter(|_| random.percent(40)) {
        let end = unused.len() - 1;
        unused.swap(last, end);
    }
    let large = image.length() == LARGE;
    // An audit of many large tables would take long.
    let most = if granule == Granule::Of64KB { 6 } else { 10 };
    let (tables, leaves, grants) =
        if large { (MOST_TABLES as u64, 150, 20) } else { (random.below(most), random.below(16), random.below(3)) };
    let mut sound = Sound { random, image, granule, nodes: vec![root], unused, granted: Vec::new() };
    for _ in 0..tables {
        sound.add_table(!large);
    }
    for _ in 0..leaves {
        sound.add_leaves();
    }
    for _ in 0..grants {
        sound.add_grant();
    }
    let mut lists = sound.lists();
    if large {
        pad_grants(&mut lists, image, MOST_GRANTS);
    }
    let listed = lists.tables.iter().map(|&table| table..table + granule.size());
    let part = part(random, image, listed.chain(std::iter::once(root_bytes)));
    Asked { question, part, lists }
}
