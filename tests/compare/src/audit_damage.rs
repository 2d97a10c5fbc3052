//! Damage to audits that were built clean, for every finding and refusal, and on both sides of each limit.
use crate::audit::{failing_setting, inside, tables, Lists, Table, FRAME, MOST_GRANTS, MOST_TABLES};
use crate::audit_build::{build, index, merged, odd_bits, pad_grants, Asked, LARGE};
use crate::generate::{damage_el2_register, unlisted_pamax};
use crate::random::Random;
use crate::tables::{Image, LENGTH};
use crate::walk::{bits, Granule, OutputSize, Question, SIZES};
use std::ops::Range;

/// The first address of the frame that an address is in.
fn frame(address: u64) -> u64 {
    address / FRAME * FRAME
}

/// Sets bits high down to low of a word.
fn put(word: &mut u64, high: u64, low: u64, value: u64) {
    *word = *word & !(bits(u64::MAX, high, low) << low) | bits(value, high - low, 0) << low;
}

/// A leaf at an end of a grant, or across it: no leaf fits there that the grant is not aligned for.
fn leaf_near(random: &mut Random, lists: &Lists, table: &Table) -> u64 {
    let granted = lists.granted();
    let size = 1 << table.granule.shift(table.level.max(1));
    let address = match granted.len() {
        0 => random.bits(48),
        count => {
            let grant = &granted[random.below(count as u64) as usize];
            match random.below(4) {
                0 => grant.start.saturating_sub(size),
                1 => grant.start,
                2 => grant.end.saturating_sub(size),
                _ => grant.end,
            }
        }
    };
    let kind = if random.percent(90) && table.granule.allows_block(table.level) { 1 } else { random.pick(&[1, 3, 3]) };
    bits(address, 47, 12) << 12 | odd_bits(random) | kind
}

/// Changes an entry of the root or of a listed table, or one that is in use.
fn damage_entry(random: &mut Random, image: &mut Image, lists: &Lists, tables: &[Table]) {
    let table = if random.percent(30) { tables[0] } else { random.pick(tables) };
    let at = if image.written.is_empty() || random.percent(65) {
        table.address + 8 * index(random, table.entries)
    } else {
        random.pick(&image.written)
    };
    let old = image.get(at);
    let word = match random.below(14) {
        0 => random.word(),
        1 => old & !3 | random.bits(2),
        2 => old ^ odd_bits(random),
        3 => old ^ 1 << random.between(12, 47),
        4 => random.word() & !3 | 1,
        // A table at another level, the root, a granted frame of the image, or one that is neither.
        5..=7 => frame(image.base + random.below(image.length())) | odd_bits(random) | 3,
        8 | 9 => frame(if random.percent(50) { tables[0] } else { random.pick(tables) }.address) | odd_bits(random) | 3,
        _ => leaf_near(random, lists, &table),
    };
    image.set(at, word);
}

/// Changes what is granted, and leaves the lists well-formed.
fn damage_grants(random: &mut Random, lists: &mut Lists, tables: &[Table]) {
    let mut granted = lists.granted();
    let chosen = (!granted.is_empty()).then(|| random.below(granted.len() as u64) as usize);
    match (random.below(8), chosen) {
        (0, Some(at)) => granted[at].start += FRAME,
        (1, Some(at)) => granted[at].end -= FRAME,
        (2, Some(at)) => {
            granted[at].start += FRAME;
            granted[at].end -= FRAME;
        }
        (3, Some(at)) => {
            granted.remove(at);
        }
        // A frame in the middle is no longer granted.
        (4, Some(at)) => {
            let Range { start, end } = granted[at];
            let middle = start + random.below((end - start) / FRAME) * FRAME;
            granted[at].end = middle;
            granted.push(middle + FRAME..end);
        }
        _ => granted.push(beside(random, tables)),
    }
    granted.retain(|grant| grant.start < grant.end && grant.end <= 1 << 48);
    *lists = Lists::of(&merged(granted), &lists.tables());
}

/// A range that shares a frame with a table at either end, or just not.
fn beside(random: &mut Random, tables: &[Table]) -> Range<u64> {
    let bytes = if random.percent(30) { tables[0] } else { random.pick(tables) }.bytes();
    let (first, end) = (frame(bytes.start), frame(bytes.end + FRAME - 1));
    let frames = random.between(1, 3) * FRAME;
    match random.below(7) {
        0 => first..first + FRAME,
        1 => end - FRAME..end,
        2 => first.saturating_sub(frames)..first + FRAME,
        3 => end - FRAME..end + frames,
        4 => first.saturating_sub(frames)..end + frames,
        5 => first.saturating_sub(frames)..first,
        _ => end..end + frames,
    }
}

/// Changes which tables are listed, and leaves the lists well-formed.
fn damage_tables(random: &mut Random, image: &Image, lists: &mut Lists, all: &[Table]) {
    let mut tables = lists.tables();
    let chosen = (!tables.is_empty()).then(|| random.below(tables.len() as u64) as usize);
    let level = random.between(1, 3);
    let size = all[0].granule.size();
    let aligned = |address: u64| address / size * size;
    match (random.below(5), chosen) {
        (0, Some(at)) => {
            tables.remove(at);
        }
        (1, Some(at)) => tables[at].1 = level,
        // The root's first granule, or a table at another level.
        (2, _) => {
            let table = if random.percent(50) { all[0] } else { random.pick(all) };
            tables.push((aligned(table.address), level));
        }
        (3, _) => tables.push((aligned(random.bits(48)), level)),
        _ => tables.push((aligned(image.base + random.below(image.length())), level)),
    }
    tables.sort_unstable();
    tables.dedup();
    *lists = Lists::of(&lists.granted(), &tables);
}

/// Adds tables past all others, at multiples of a size, until there are so many. None are added if there is no room.
fn pad_tables(lists: &mut Lists, count: usize, size: u64) {
    let mut tables = lists.tables();
    let after = tables.last().map_or(0, |table| table.0);
    let more = count.saturating_sub(tables.len()) as u64;
    if after + (more + 1) * size <= 1 << 48 {
        tables.extend((1..=more).map(|n| (after + n * size, 1 + n % 3)));
        *lists = Lists::of(&lists.granted(), &tables);
    }
}

/// Less than a frame.
fn odd(random: &mut Random) -> u64 {
    random.pick(&[1, 8, 512, 2048, 4095])
}

/// Less than a granule: less than a frame, or some frames.
fn odd_in_granule(random: &mut Random, size: u64) -> u64 {
    if size > FRAME && random.percent(60) {
        random.between(1, size / FRAME - 1) * FRAME
    } else {
        odd(random)
    }
}

/// An address for what comes last in a list, and bytes with which its end is at 2^48, past it, at 2^64 or past that.
fn last(random: &mut Random) -> (u64, u64) {
    let address = (1 << 48) - random.between(1, 3) * FRAME;
    let to_end = (1 << 48) - address;
    let count = match random.below(7) {
        0..=2 => to_end,
        3 => to_end + FRAME,
        4 => 0u64.wrapping_sub(address),
        5 => 0u64.wrapping_sub(address).wrapping_add(FRAME),
        _ => return (random.pick(&[1 << 48, 1 << 63, u64::MAX - 4095]), random.between(1, 2) * FRAME),
    };
    (address, count)
}

/// Makes a list of grants malformed, or nearly.
fn malform_grants(random: &mut Random, image: &Image, lists: &mut Lists) {
    let at = random.below(lists.grants.len() as u64) as usize;
    match random.below(11) {
        0 => {
            let list = if random.percent(50) { &mut lists.grants } else { &mut lists.counts };
            change_length(random, list, FRAME);
        }
        1 => pad_grants(lists, image, MOST_GRANTS + random.below(3) as usize),
        2 => lists.grants[at] += odd(random),
        3 => lists.counts[at] += odd(random),
        4 => lists.counts[at] = random.pick(&[0, 0, 0, 1, 4095]),
        5 | 6 => {
            let (address, count) = last(random);
            lists.grants.push(address);
            lists.counts.push(count);
        }
        7 if lists.counts[at] > FRAME => {
            let (address, count) = (lists.grants[at], lists.counts[at]);
            let first = random.between(1, count / FRAME - 1) * FRAME;
            lists.counts[at] = first;
            lists.grants.insert(at + 1, address + first);
            lists.counts.insert(at + 1, count - first);
        }
        // Up to the next grant, into it, or around it.
        7 | 8 if at + 1 < lists.grants.len() => lists.counts[at] = lists.grants[at + 1] - lists.grants[at] + random.below(3) * FRAME,
        9 if at + 1 < lists.grants.len() => {
            lists.grants.swap(at, at + 1);
            lists.counts.swap(at, at + 1);
        }
        _ => {
            lists.grants.insert(at, lists.grants[at]);
            lists.counts.insert(at, lists.counts[at]);
        }
    }
}

/// Makes a list of tables of some size malformed, or nearly.
fn malform_tables(random: &mut Random, lists: &mut Lists, size: u64) {
    let at = random.below(lists.tables.len() as u64) as usize;
    match random.below(10) {
        0 => {
            let list = if random.percent(50) { &mut lists.tables } else { &mut lists.levels };
            change_length(random, list, 1);
        }
        1 => pad_tables(lists, MOST_TABLES + random.below(3) as usize, size),
        2 | 3 => lists.tables[at] += odd_in_granule(random, size),
        4 | 5 => {
            let across = (1 << 48) - size + odd_in_granule(random, size);
            lists.tables.push(random.pick(&[(1 << 48) - size, across, across, across, 1 << 48, 1 << 63, 0u64.wrapping_sub(size)]));
            lists.levels.push(random.between(1, 3));
        }
        6 => lists.levels[at] = random.pick(&[0, 4, 5, 256 | 3, 1 << 32 | 2, 1 << 63 | 1, u64::MAX]),
        // The same address once more, with the same level or another, in either order.
        7 | 8 => {
            lists.tables.insert(at, lists.tables[at]);
            lists.levels.insert(at, random.between(1, 3));
        }
        _ => {
            let other = (at + 1) % lists.tables.len();
            lists.tables.swap(at, other);
            lists.levels.swap(at, other);
        }
    }
}

/// One more than its pair has, or one less. An empty list gets the word given.
fn change_length(random: &mut Random, list: &mut Vec<u64>, word: u64) {
    match list.last() {
        Some(_) if random.percent(50) => {
            list.pop();
        }
        last => {
            let word = last.copied().unwrap_or(word);
            list.push(word);
        }
    }
}

/// The granule counts where stage 2 is off too: there it must not be the tables' size.
fn malform(random: &mut Random, image: &Image, lists: &mut Lists, granule: Granule) {
    match (random.percent(55), lists.grants.is_empty(), lists.tables.is_empty()) {
        (true, false, _) => malform_grants(random, image, lists),
        (false, _, false) => malform_tables(random, lists, granule.size()),
        (true, true, _) => change_length(random, &mut lists.grants, FRAME),
        (false, _, true) => change_length(random, &mut lists.levels, 1),
    }
}

/// Stage 2's granule; with a reserved code, any.
fn granule_or_4kb(q: &Question) -> Granule {
    Granule::of_stage2(q).unwrap_or(Granule::Of4KB)
}

/// Registers on both sides of the limits of the settings and of the root.
fn damage_registers(random: &mut Random, q: &mut Question) {
    let granule = granule_or_4kb(q);
    let start = granule.stage2_start(bits(q.vtcr_el2, 7, 6)).max(0) as u64;
    let mut size = 64 - bits(q.vtcr_el2, 5, 0);
    match random.below(16) {
        0 => damage_el2_register(random, q),
        1 => {
            q.hcr_el2 &= !(1 | 1 << 12);
            // Of what these set, the first three are tested with stage 2 off.
            match random.below(10) {
                0 => q.pamax = unlisted_pamax(random),
                1 => q.hcr_el2 |= 1 << 27,
                2 => q.hcr_el2 &= !(1 << 31),
                3 => q.sctlr_el2 |= 1 << 25,
                4 => put(&mut q.vtcr_el2, 18, 16, 6),
                5 => put(&mut q.vtcr_el2, 15, 14, 3),
                6 => size = 64,
                _ => {}
            }
        }
        2 => q.sctlr_el2 |= 1 << 25,
        3 => q.pamax = if random.percent(50) { unlisted_pamax(random) } else { random.pick(&SIZES) },
        4 => put(&mut q.vtcr_el2, 7, 6, random.below(4)),
        5..=7 => {
            let most = granule.stride() + 4;
            size = granule.shift(start) + random.pick(&[0, 1, most, most + 1, most + 2]) - random.pick(&[0, 0, 0, 1, 4]);
        }
        // Starts that PAMax forbids.
        8 | 9 => {
            q.pamax = random.pick(&[40, 42, 44, 48]);
            put(&mut q.vtcr_el2, 7, 6, random.pick(&[2, 2, 3]));
            let first = granule.stage2_start(2) as u64;
            size = random.between(granule.shift(first).min(q.pamax), q.pamax);
        }
        10 => {
            put(&mut q.vtcr_el2, 18, 16, random.below(6));
            // A PAMax that is not listed may be any number.
            let output_size = OutputSize::Lowered.of_ps(q).clamp(32, 47);
            q.vttbr_el2 |= 1 << if random.percent(50) { output_size } else { random.between(output_size - 1, 47) };
        }
        11 => put(&mut q.vtcr_el2, 18, 16, random.pick(&[5, 6, 7])),
        12 => size = random.pick(&[64 - 15, 64 - 16, 64 - 39, 64 - 40, 1, 64]),
        13 => size = q.pamax.wrapping_add(random.below(2)),
        14 => put(&mut q.vtcr_el2, 15, 14, random.below(4)),
        _ => q.hcr_el2 ^= 1 << random.pick(&[0u64, 12, 27, 31]),
    }
    put(&mut q.vtcr_el2, 5, 0, 64u64.wrapping_sub(size));
}

/// Cuts the capture at an end of a table or by a few bytes beside it, or anywhere.
fn cut(random: &mut Random, image: &Image, asked: &mut Asked, tables: &[Table]) {
    let bytes = if random.percent(50) { tables[0] } else { random.pick(tables) }.bytes();
    let edge = if random.percent(50) { bytes.start } else { bytes.end } - image.base;
    let at = match random.below(6) {
        0 => random.below(image.length() + 1),
        1 | 2 => edge + random.pick(&[1, 1, 8]),
        3 | 4 => edge.saturating_sub(random.pick(&[1, 1, 8])),
        _ => edge,
    };
    asked.part.cut(random, image, at);
}

/// Turns stage 2 off and moves a table by some frames: off a larger granule, but not malformed then.
fn move_table(random: &mut Random, asked: &mut Asked) {
    asked.question.hcr_el2 &= !(1 | 1 << 12);
    if let Some(last) = asked.lists.tables.last_mut() {
        *last = last.wrapping_add(random.between(1, 3) * FRAME);
    }
}

/// Changes one thing. The tables are those that lie in the image.
fn change(random: &mut Random, image: &mut Image, asked: &mut Asked, malformed: bool, tables: &[Table]) {
    // Malformed lists are left so, and without tables none can be damaged.
    let first = match tables {
        _ if malformed => 81,
        [] => 66,
        _ => 0,
    };
    match random.between(first, 99) {
        0..=33 => damage_entry(random, image, &asked.lists, tables),
        34..=49 => damage_grants(random, &mut asked.lists, tables),
        50..=56 => damage_tables(random, image, &mut asked.lists, tables),
        57..=65 => cut(random, image, asked, tables),
        66..=80 => malform(random, image, &mut asked.lists, granule_or_4kb(&asked.question)),
        81..=95 => damage_registers(random, &mut asked.question),
        96 => move_table(random, asked),
        _ => asked.part.move_away(random),
    }
}

/// Changes some things, one after the other.
fn damage(random: &mut Random, image: &mut Image, asked: &mut Asked, changes: u64) {
    let whole = image.base..image.base + image.length();
    for _ in 0..changes {
        let malformed = asked.lists.are_malformed(&asked.question);
        let refused = malformed || failing_setting(&asked.question).is_some();
        let all = if refused { Vec::new() } else { tables(&asked.question, &asked.lists) };
        let all: Vec<Table> = all.into_iter().filter(|table| inside(&table.bytes(), &whole)).collect();
        change(random, image, asked, malformed, &all);
    }
}

/// Audits without end, determined by the seed.
pub struct Audits {
    random: Random,
    small: Image,
    large: Image,
    asked: u64,
}

impl Audits {
    pub fn new(seed: u64) -> Audits {
        Audits { random: Random::new(seed ^ 0xa0d17), small: Image::new(LENGTH), large: Image::new(LARGE), asked: 0 }
    }

    /// The next audit, and the image that its capture is a part of.
    pub fn next(&mut self) -> (&mut Image, Asked) {
        let n = self.asked;
        self.asked += 1;
        if n < 3 || self.random.below(1000) == 0 {
            return self.next_large(n);
        }
        let mut asked = build(&mut self.random, &mut self.small);
        let changes = self.random.pick(&[0, 0, 0, 1, 1, 1, 1, 1, 1, 1, 2, 2]);
        damage(&mut self.random, &mut self.small, &mut asked, changes);
        (&mut self.small, asked)
    }

    /// The most tables and grants that there may be: in the first audit clean, then with one more of either.
    fn next_large(&mut self, n: u64) -> (&mut Image, Asked) {
        let mut asked = loop {
            let asked = build(&mut self.random, &mut self.large);
            if asked.lists.tables.len() == MOST_TABLES && asked.lists.grants.len() == MOST_GRANTS {
                break asked;
            }
        };
        match n {
            0 => {}
            1 => pad_tables(&mut asked.lists, MOST_TABLES + 1, FRAME),
            2 => pad_grants(&mut asked.lists, &self.large, MOST_GRANTS + 1),
            _ => {
                let changes = self.random.below(2);
                damage(&mut self.random, &mut self.large, &mut asked, changes);
            }
        }
        (&mut self.large, asked)
    }
}
