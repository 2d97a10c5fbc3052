//! Made core files with questions and an audit: the memory of random images, cut into banks at any place.
use crate::audit::{failing_setting, tables, touch, Lists};
use crate::audit_build::{merged, Asked as AskedAudit};
use crate::audit_damage::Audits;
use crate::core_draft::{Draft, Piece};
use crate::core_file::MOST_BANKS;
use crate::generate::{Asked, Questions};
use crate::random::Random;
use crate::tables::Image;
use crate::walk::{self, bits, Answer, Capture, Question};
use std::ops::Range;

const PAGE: u64 = 4096;

/// Memory by its addresses.
type Memory = Range<u64>;

/// A file, and what is asked of it.
pub struct Made {
    pub file: Vec<u8>,
    /// Questions with the lengths of their logs. A batch is made of the first.
    pub questions: Vec<(Question, usize)>,
    pub lists: Lists,
    /// The same memory as a raw capture, by its base, if the file has all of it in one bank.
    pub raw: Option<(u64, Vec<u8>)>,
}

/// How many banks a file gets: each limit, and any.
fn bank_count(random: &mut Random) -> usize {
    match random.below(20) {
        0..=4 => 1,
        5..=10 => random.between(2, 6) as usize,
        11..=14 => random.between(7, 62) as usize,
        15 => 63,
        16..=18 => MOST_BANKS,
        _ => MOST_BANKS + random.between(1, 3) as usize,
    }
}

/// Cuts memory into banks.
struct Cutter<'a> {
    random: &'a mut Random,
    /// In a hundred: how often a cut goes through a descriptor, or leaves bytes out.
    harm: u64,
}

impl Cutter<'_> {
    /// Memory around a descriptor that is read: its page, or no more than itself. Some is cut in the midst of the descriptor.
    fn window(&mut self, read: u64) -> Memory {
        let page = read / PAGE * PAGE..read / PAGE * PAGE + PAGE;
        if self.random.percent(self.harm) {
            let at = read + self.random.below(9);
            return if self.random.percent(50) { page.start..at } else { at..page.end.max(at) };
        }
        match self.random.below(10) {
            0..=5 => page,
            6 | 7 => read..read + 8,
            _ => read.saturating_sub(self.random.below(64))..read + 8 + self.random.below(64),
        }
    }

    /// A place to cut memory at: most are between descriptors.
    fn place(&mut self, memory: &Memory) -> u64 {
        let at = self.random.between(memory.start, memory.end);
        if self.random.percent(self.harm) {
            return at;
        }
        (at / 8 * 8).clamp(memory.start, memory.end)
    }

    /// Cuts one bank in two. They touch, or some bytes between them are left out.
    fn split(&mut self, all: &mut Vec<Memory>) {
        if all.is_empty() {
            return;
        }
        let mut any = || self.random.below(all.len() as u64) as usize;
        let (one, two) = (any(), any());
        // The longer of two, or else most banks would soon have no bytes.
        let n = if all[one].end - all[one].start < all[two].end - all[two].start { two } else { one };
        let memory = all[n].clone();
        let at = self.place(&memory);
        let gap = if self.random.percent(self.harm) { self.random.pick(&[1, 1, 7, 8, 9, 64]) } else { 0 };
        all[n] = memory.start..at;
        all.insert(n + 1, (at + gap).min(memory.end)..memory.end);
    }

    /// Adds memory that nobody needs, near other memory or anywhere. If other memory is in the way, none is added.
    fn add_junk(&mut self, all: &mut Vec<Memory>) {
        let length = self.random.pick(&[0, 1, 7, 8, 8, 100, PAGE]);
        let start = match all.len() {
            0 => self.random.bits(40),
            count => {
                let near = &all[self.random.below(count as u64) as usize];
                match self.random.below(4) {
                    0 => near.end,
                    1 => near.start.saturating_sub(length),
                    2 => near.end + self.random.bits(16),
                    _ => self.random.bits(47),
                }
            }
        };
        let memory = start..start + length;
        let in_the_way = |other: &Memory| touch(other, &memory) || memory.start == other.start;
        if memory.end <= 1 << 48 && !all.iter().any(in_the_way) {
            all.push(memory);
            all.sort_unstable_by_key(|memory| (memory.start, memory.end));
        }
    }

    /// So many banks or nearly, of the memory that is needed and some that is not.
    fn cut(&mut self, needed: Vec<Memory>, count: usize) -> Vec<Memory> {
        let mut all = merged(needed);
        // With fewer banks than there is memory to keep, some is joined to what is near, and some left out.
        while all.len() > count {
            let n = self.random.below(all.len() as u64) as usize;
            let near = n + 1 < all.len() && all[n + 1].end - all[n].start < 16 * PAGE;
            if near {
                all[n].end = all.remove(n + 1).end;
            } else if self.random.percent(20) {
                all.remove(n);
            } else {
                all.truncate(2 * MOST_BANKS);
                break;
            }
        }
        for _ in 0..4 * MOST_BANKS {
            if all.len() >= count {
                break;
            }
            if self.random.percent(60) {
                self.split(&mut all);
            } else {
                self.add_junk(&mut all);
            }
        }
        if !all.is_empty() && self.random.percent(self.harm) {
            let n = self.random.below(all.len() as u64) as usize;
            all.remove(n);
        }
        all
    }
}

/// The bytes of memory: an image's, or any where there is no image.
fn contents(random: &mut Random, image: &Image, memory: &Memory) -> Vec<u8> {
    let filler = random.word() as u8;
    let inside = image.base..image.base + image.length();
    if inside.start <= memory.start && memory.end <= inside.end {
        return image.bytes[(memory.start - image.base) as usize..(memory.end - image.base) as usize].to_vec();
    }
    memory.clone().map(|at| if inside.contains(&at) { image.bytes[(at - image.base) as usize] } else { filler }).collect()
}

/// Writes a file with banks of this memory, at times with some fields changed, and cut. The reads are where cuts matter.
fn file(random: &mut Random, image: &Image, banks: &[Memory], reads: &[u64]) -> Vec<u8> {
    let piece = |memory: &Memory| Piece { address: memory.start, bytes: contents(random, image, memory) };
    let pieces = banks.iter().map(piece).collect();
    let mut draft = Draft::new(random, pieces);
    let read = if reads.is_empty() { None } else { draft.offset(random.pick(reads)) };
    for _ in 0..random.pick(&[0, 0, 0, 0, 1, 1, 1, 1, 1, 2]) {
        draft.damage(random);
    }
    let mut file = draft.write(random);
    if random.percent(if draft.has_no_headers() { 50 } else { 15 }) {
        // No file is made longer than its memory.
        file.truncate(draft.cut(random, read) as usize);
    }
    if random.percent(2) && !file.is_empty() {
        let at = random.below((file.len() as u64).min(64 + 56)) as usize;
        file[at] ^= 1 << random.below(8);
    }
    file
}

/// The addresses of all descriptors that a question reads.
fn reads(q: &Question, capture: Capture) -> Vec<u64> {
    let mut log = [0; 24];
    match walk::ask(q, capture, &mut log) {
        Answer::Translated { reads, .. } | Answer::Stopped { reads, .. } => log[..reads].to_vec(),
        Answer::Refused(_) => Vec::new(),
    }
}

/// The question, and the same with another access or another address.
fn questions(random: &mut Random, q: Question, log_words: usize) -> Vec<(Question, usize)> {
    let other = Question { kind: random.below(3), el: random.below(2), size: 1 << random.below(5), ..q };
    let beside = Question { address: q.address ^ random.bits(14), ..other };
    let short = if random.percent(10) { random.below(24) as usize } else { random.between(24, 40) as usize };
    vec![(q, log_words), (other, short), (beside, 24)]
}

/// Lists for an audit of tables that were built for questions: those that were read, and some grants.
fn lists_of(random: &mut Random, reads: &[u64]) -> Lists {
    let mut listed: Vec<(u64, u64)> = reads.iter().map(|read| (read / PAGE * PAGE, random.between(1, 3))).collect();
    listed.sort_unstable();
    listed.dedup();
    let frame = |random: &mut Random| random.bits(28) * PAGE;
    let grants = (0..random.below(3)).map(|_| frame(random)).map(|start| start..start + PAGE).collect();
    let mut lists = Lists::of(&merged(grants), &listed);
    if random.percent(5) {
        lists.levels.push(1);
    }
    lists
}

/// A file with one bank of all memory that a raw capture has.
fn one_bank(random: &mut Random, base: u64, bytes: &[u8]) -> Vec<u8> {
    Draft::new(random, vec![Piece { address: base, bytes: bytes.to_vec() }]).write(random)
}

/// A file for questions, from an image and a question of it.
fn for_questions(random: &mut Random, image: &Image, asked: &Asked) -> Made {
    let bank = asked.part.bank(image);
    let questions = questions(random, asked.question, asked.log_words);
    let mut reads: Vec<u64> = questions.iter().flat_map(|(q, _)| reads(q, Capture::Raw(bank))).collect();
    reads.sort_unstable();
    reads.dedup();
    let lists = lists_of(random, &reads);
    if random.percent(10) {
        let raw = Some((bank.base, bank.bytes.to_vec()));
        return Made { file: one_bank(random, bank.base, bank.bytes), questions, lists, raw };
    }
    let (harm, count) = (random.pick(&[0, 0, 0, 0, 2, 10, 40]), bank_count(random));
    let mut cutter = Cutter { random, harm };
    let windows = reads.iter().map(|read| cutter.window(*read)).collect();
    let banks = cutter.cut(windows, count);
    Made { file: file(random, image, &banks, &reads), questions, lists, raw: None }
}

/// A file for an audit, from an image in which it was built. Of tables that cannot be found it has none.
fn for_audit(random: &mut Random, image: &Image, asked: AskedAudit) -> Made {
    let (bank, q, lists) = (asked.part.bank(image), asked.question, asked.lists);
    let refused = failing_setting(&q).is_some() || lists.are_malformed(&q) || bank.is_high();
    let all = if refused { Vec::new() } else { tables(&q, &lists) };
    let here = bank.base..bank.base.wrapping_add(bank.size);
    let within = |bytes: Memory| bytes.start.max(here.start)..bytes.end.min(here.end);
    let needed: Vec<Memory> = all.iter().map(|table| within(table.bytes())).filter(|bytes| bytes.start < bytes.end).collect();
    // Stage 2 alone leads somewhere: there are no tables of stage 1.
    let stage2 = Question { sctlr_el1: q.sctlr_el1 & !1, address: bits(random.word(), 30, 0), ..q };
    let questions = questions(random, stage2, 24);
    if random.percent(5) {
        let raw = Some((bank.base, bank.bytes.to_vec()));
        return Made { file: one_bank(random, bank.base, bank.bytes), questions, lists, raw };
    }
    let edges: Vec<u64> = needed.iter().flat_map(|bytes| [bytes.start, bytes.end - 8]).collect();
    let (harm, count) = (random.pick(&[0, 0, 0, 0, 2, 10]), bank_count(random));
    let banks = Cutter { random, harm }.cut(needed, count);
    Made { file: file(random, image, &banks, &edges), questions, lists, raw: None }
}

/// Files without end, determined by the seed.
pub struct Cores {
    random: Random,
    questions: Questions,
    audits: Audits,
}

impl Cores {
    pub fn new(seed: u64) -> Cores {
        Cores { random: Random::new(seed ^ 0xc04e), questions: Questions::new(seed ^ 0xc04e), audits: Audits::new(seed ^ 0xc04e) }
    }

    pub fn next(&mut self) -> Made {
        if self.random.percent(25) {
            let (image, asked) = self.audits.next();
            for_audit(&mut self.random, image, asked)
        } else {
            let (image, asked) = self.questions.next();
            for_questions(&mut self.random, image, &asked)
        }
    }
}
