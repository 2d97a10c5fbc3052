//! Compares the proved calls over core files with the independent reader, walk and audit.
use crate::audit::audit;
use crate::audits;
use crate::batches::{self, Both};
use crate::core_classes::Classes;
use crate::core_file::{self, Found};
use crate::core_make::{Cores, Made};
use crate::proved::{self, AuditWords, BanksWords};
use crate::random::Random;
use crate::walk::{Bank, Capture, Question};
use crate::{pattern, Compared, Reply, PRINTED};

/// Words around each list, to see a write outside of it.
const GUARD: usize = 4;

/// A file of more bytes than these is compared as a whole after one in so many alone.
const LONG: usize = 0x40000;
const WATCHED: u64 = 8;

/// A bank list: the answer, and four lists (addresses, offsets, lengths, marks) with words in and around them that a call must keep.
#[derive(Clone, PartialEq, Eq)]
pub struct BankList {
    pub words: BanksWords,
    lists: [Vec<u64>; 4],
}

/// What a call is lent of a list.
fn lent(list: &mut [u64]) -> &mut [u64] {
    let end = list.len() - GUARD;
    &mut list[GUARD..end]
}

impl BankList {
    /// Lists of these lengths, not filled yet.
    pub fn new(lengths: [usize; 4]) -> BankList {
        BankList { words: BanksWords::default(), lists: lengths.map(|length| pattern(GUARD + length + GUARD)) }
    }

    /// As the reader has it.
    pub fn expected(&self, found: &Found) -> BankList {
        let mut list = self.clone();
        let too_short = self.lists.iter().any(|list| list.len() < GUARD + core_file::MOST_BANKS + GUARD);
        if found.refused() || too_short {
            list.words.number = if found.refused() { 17 } else { 10 };
            return list;
        }
        list.words.count = found.segments.len() as u64;
        for (n, segment) in found.segments.iter().enumerate() {
            let words = [segment.address, segment.offset, segment.kept, segment.is_short() as u64];
            list.lists.iter_mut().zip(words).for_each(|(list, word)| list[GUARD + n] = word);
        }
        list
    }

    /// As the proved call fills it.
    pub fn proved(mut self, file: &[u8]) -> BankList {
        let [addresses, offsets, lengths, shorts] = &mut self.lists;
        self.words = proved::banks(file, lent(addresses), lent(offsets), lent(lengths), lent(shorts));
        self
    }

    /// The banks that are listed: address, offset, length and mark.
    pub fn banks(&self) -> Vec<[u64; 4]> {
        let bank = |n: usize| [0, 1, 2, 3].map(|list: usize| self.lists[list][GUARD + n]);
        (0..self.words.count as usize).map(bank).collect()
    }
}

/// Most lists are as long as they must be or longer.
fn list_lengths(random: &mut Random) -> [usize; 4] {
    let long = random.pick(&[64, 64, 65, 80]);
    let mut lengths = [long; 4];
    if random.percent(15) {
        lengths[random.below(4) as usize] = random.pick(&[63, 63, 0, 1, 64, 65]);
    }
    lengths
}

/// One file under comparison, and how many differences it had.
struct Comparison<'a> {
    name: String,
    found: &'a Found,
    capture: Capture<'a>,
    classes: &'a mut Classes,
    differ: u64,
    print: bool,
}

impl Comparison<'_> {
    /// Counts a difference. Says whether it is to be printed in full.
    fn differs(&mut self, why: &str) -> bool {
        self.differ += 1;
        if self.print {
            println!("{why}: {}, grounds {:?}, {:x?}", self.name, self.found.grounds, self.found.segments);
        }
        self.print
    }

    fn bank_list(&mut self, random: &mut Random, file: &[u8]) {
        let lengths = list_lengths(random);
        let empty = BankList::new(lengths);
        let (wanted, proved) = (empty.expected(self.found), empty.proved(file));
        self.classes.meet_list(self.found, wanted.words.number, lengths);
        if wanted != proved && self.differs("the bank lists differ") {
            println!("  reader: {:?} {:x?}\n  proved: {:?} {:x?}", wanted.words, wanted.banks(), proved.words, proved.lists);
        }
    }

    fn question(&mut self, q: &Question, log_words: usize) {
        let both = Compared::new(q, self.capture, log_words);
        self.classes.meet_question(self.capture, q, log_words, &both.walk.words, both.walk.reads());
        if let Some(why) = both.difference(true) {
            if self.differs(why) {
                println!("  {q:x?}, log of {log_words}");
                both.print();
            }
        }
    }

    fn batch(&mut self, random: &mut Random, q: &Question) {
        // The longest batches take long.
        let count = if random.percent(1) { batches::MOST as u64 + random.below(2) } else { random.below(24) };
        let list = batches::addresses(random, q, count as usize);
        let both = Both::new(random, q, self.capture, &list);
        self.classes.meet_batch(&both, &list, self.capture, q);
        if !both.agree() && self.differs("the batches differ") {
            both.print(q, &list);
        }
    }

    fn audit(&mut self, made: &Made) {
        let q = &made.questions[0].0;
        let verdict = audit(q, self.capture, &made.lists);
        let (ours, proved) = (AuditWords::from(&verdict), proved::audit(q, self.capture, &made.lists));
        self.classes.meet_audit(self.capture, q, &made.lists, &verdict);
        if ours != proved && self.differs("the audits differ") {
            println!("  {q:x?} {:x?}", made.lists);
            audits::print(&ours, &proved);
        }
    }

    /// The proved calls must say the same of a raw capture and of a file with all of it in one bank.
    fn raw(&mut self, made: &Made, base: u64, bytes: &[u8]) {
        let raw = Capture::Raw(Bank::whole(base, bytes));
        for (q, log_words) in &made.questions {
            let ask = |capture| Reply::new(*log_words, |log| proved::ask(q, capture, log));
            let (one, two) = (ask(raw), ask(self.capture));
            self.classes.meet_raw(one.words.number);
            if (one.words != two.words || one.log != two.log) && self.differs("raw capture and core file differ") {
                one.print("raw ");
                two.print("core");
            }
        }
        let q = &made.questions[0].0;
        let (one, two) = (proved::audit(q, raw, &made.lists), proved::audit(q, self.capture, &made.lists));
        if one != two && self.differs("audits of a raw capture and of a core file differ") {
            audits::print(&one, &two);
        }
    }
}

/// Compares COUNT made files. How many comparisons differ, and what was not met.
pub fn compare(count: u64, seed: u64) -> (u64, Vec<String>) {
    let mut random = Random::new(seed ^ 0xc04ef);
    let mut cores = Cores::new(seed);
    let mut classes = Classes::new();
    let mut differ = 0;
    for n in 0..count {
        let made = cores.next();
        let file = &made.file;
        let before = (file.len() <= LONG || n % WATCHED == 0).then(|| file.clone());
        let found = core_file::read(file);
        let banks = found.banks(file);
        let capture = Capture::Core { file, banks: banks.as_deref() };
        classes.meet_file(&found, file);
        let name = format!("file {n} of seed {seed}, {} bytes", file.len());
        let mut one = Comparison { name, found: &found, capture, classes: &mut classes, differ: 0, print: differ < PRINTED };
        one.bank_list(&mut random, file);
        for (q, log_words) in &made.questions {
            one.question(q, *log_words);
        }
        one.batch(&mut random, &made.questions[0].0);
        one.audit(&made);
        if let Some((base, bytes)) = &made.raw {
            one.raw(&made, *base, bytes);
        }
        if before.map_or(false, |before| before != *file) {
            one.differs("the file was written");
        }
        differ += one.differ;
    }
    classes.0.print();
    (differ, classes.0.missed())
}
