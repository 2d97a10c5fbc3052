//! Compares the proved batch with the independent walk, address by address.
use crate::counts::Counts;
use crate::generate::Questions;
use crate::geometry::Granules;
use crate::proved::{self, BatchWords, Words};
use crate::random::Random;
use crate::walk::{self, Capture, Question};
use humpelkaas::Ledger;

/// The longest list that is accepted.
pub const MOST: usize = 4096;

/// Lengths that every run meets first.
const LENGTHS: [usize; 6] = [0, 1, 2, MOST - 1, MOST, MOST + 1];

/// Words that a call must keep: no output address, and no number of an answer.
const KEPT: u64 = 0xfeed_face_cafe_f00d;

/// What a batch gives: its answer, and both lists.
#[derive(PartialEq, Eq)]
pub struct Told {
    pub words: BatchWords,
    pub outputs: Vec<u64>,
    pub numbers: Vec<u64>,
}

/// Addresses around a question's, with some far away.
pub fn addresses(random: &mut Random, q: &Question, count: usize) -> Vec<u64> {
    (0..count)
        .map(|_| match random.below(8) {
            0 => q.address,
            1..=3 => q.address ^ random.bits(14),
            4 | 5 => q.address ^ random.bits(2) << random.below(63),
            6 => q.address ^ random.bits(40),
            _ => random.word(),
        })
        .collect()
}

/// How many addresses batch number n has: each length of the list once, and then others.
fn length(random: &mut Random, n: u64) -> usize {
    match LENGTHS.get(n as usize) {
        Some(length) => *length,
        None if random.percent(10) => random.below(3) as usize,
        None => random.below(60) as usize,
    }
}

/// The walk's answers, one by one.
fn expected(q: &Question, capture: Capture, addresses: &[u64], mut outputs: Vec<u64>, mut numbers: Vec<u64>) -> Told {
    let refused = |number, item, outputs, numbers| Told { words: BatchWords { number, item, ..BatchWords::default() }, outputs, numbers };
    if capture.is_no_core() {
        return refused(17, 0, outputs, numbers);
    }
    if outputs.len() != addresses.len() || numbers.len() != addresses.len() || addresses.len() > MOST {
        return refused(14, 0, outputs, numbers);
    }
    let ask = |address| Words::from(walk::ask(&Question { address, ..*q }, capture, &mut [0; 24]));
    let first = ask(q.address);
    if first.number >= 10 {
        return refused(first.number, first.item, outputs, numbers);
    }
    let mut ledger = Ledger { asked: addresses.len() as u64, ..Ledger::default() };
    for (i, address) in addresses.iter().enumerate() {
        let answer = ask(*address);
        numbers[i] = answer.number;
        outputs[i] = if answer.number == 0 { answer.address } else { 0 };
        *match answer.number {
            0 => &mut ledger.translated,
            1..=5 => &mut ledger.faulted,
            6 => &mut ledger.absent,
            _ => &mut ledger.unsettled,
        } += 1;
    }
    Told { words: BatchWords { ledger, ..BatchWords::default() }, outputs, numbers }
}

/// A batch as the walk has it, and as the proved call gives it.
pub struct Both {
    pub wanted: Told,
    pub proved: Told,
}

impl Both {
    /// Puts a batch to both. One list in twenty is of another length.
    pub fn new(random: &mut Random, q: &Question, capture: Capture, list: &[u64]) -> Both {
        let mut other = |n: usize| if random.percent(5) { (n + random.below(3) as usize).saturating_sub(1) } else { n };
        let (outputs, numbers) = (vec![KEPT; other(list.len())], vec![KEPT; other(list.len())]);
        let wanted = expected(q, capture, list, outputs.clone(), numbers.clone());
        let mut proved = Told { words: BatchWords::default(), outputs, numbers };
        proved.words = proved::batch(q, capture, list, &mut proved.outputs, &mut proved.numbers);
        Both { wanted, proved }
    }

    /// Whether answer 14 applies, with or without others that come before it.
    pub fn has_bad_lists(&self, list: &[u64]) -> bool {
        self.wanted.outputs.len() != list.len() || self.wanted.numbers.len() != list.len() || list.len() > MOST
    }

    pub fn agree(&self) -> bool {
        self.proved == self.wanted && self.proved.words.ledger.to_string() == line(&self.wanted.words.ledger)
    }

    pub fn print(&self, q: &Question, list: &[u64]) {
        let (told, wanted) = (&self.proved, &self.wanted);
        let first = told.numbers.iter().zip(&wanted.numbers).zip(told.outputs.iter().zip(&wanted.outputs));
        let at = first.take_while(|((a, b), (c, d))| a == b && c == d).count();
        println!("batch of {}: first differs at {at}: {:x?} for {:x?}\n  {q:x?}", list.len(), told.words, wanted.words);
    }
}

/// The ledger's line, as document 01 shows it.
fn line(ledger: &Ledger) -> String {
    let Ledger { asked, translated, faulted, absent, unsettled } = ledger;
    format!("asked {asked} translated {translated} faulted {faulted} absent {absent} unsettled {unsettled}")
}

const ANSWER: &str = "batches by answer";
const LENGTH: &str = "batches by length";
const ADDRESSES: &str = "addresses by sort";

const TRANSLATED: &str = "addresses translated, by granules";

/// The sorts of batches, and of addresses in them.
struct Classes(Counts);

impl Classes {
    /// All that can exist, none of them met.
    fn new() -> Classes {
        let mut all = Counts::default();
        all.add(ANSWER, [0, 11, 12, 13, 14]);
        all.add(LENGTH, LENGTHS.map(|length| format!("{length:4}")));
        all.add(ADDRESSES, ["translated", "faulted", "absent", "unsettled"]);
        all.add(TRANSLATED, Granules::all());
        Classes(all)
    }

    fn meet(&mut self, q: &Question, addresses: &[u64], told: &Told) {
        self.0.count(ANSWER, told.words.number);
        if LENGTHS.contains(&addresses.len()) {
            self.0.count(LENGTH, format!("{:4}", addresses.len()));
        }
        if told.words.number != 0 {
            return;
        }
        for (&address, number) in addresses.iter().zip(&told.numbers) {
            let sort = match number {
                0 => "translated",
                1..=5 => "faulted",
                6 => "absent",
                _ => "unsettled",
            };
            self.0.count(ADDRESSES, sort);
            if let Some(granules) = Granules::new(&Question { address, ..*q }).filter(|_| *number == 0) {
                self.0.count(TRANSLATED, granules);
            }
        }
    }
}

/// Compares COUNT random batches. How many differ, and what was not met.
pub fn compare(count: u64, seed: u64) -> (u64, Vec<String>) {
    let mut random = Random::new(seed ^ 0xba7c4);
    let mut questions = Questions::new(seed);
    let mut classes = Classes::new();
    let mut differ = 0;
    for n in 0..count {
        let (image, asked) = questions.next();
        let q = &asked.question;
        let capture = Capture::Raw(asked.part.bank(image));
        let long = length(&mut random, n);
        let list = addresses(&mut random, q, long);
        let both = Both::new(&mut random, q, capture, &list);
        classes.meet(q, &list, &both.wanted);
        if !both.agree() || !image.kept() {
            differ += 1;
            both.print(q, &list);
        }
    }
    classes.0.print();
    (differ, classes.0.missed())
}
