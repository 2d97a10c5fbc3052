//! The classes of core files, and of what is asked of them.
use crate::audit::{failing_setting, root, tables, Lists, Verdict};
use crate::batches::{Both, MOST};
use crate::core_file::{
    wrong_fields, Found, Segment, ELF_HEADER, FIELDS, HEADER_SIZE, IN_ELF_HEADER, IN_HEADERS, MOST_BANKS, ORDER, OUTSIDE, SHARED,
    SHORT_FILE, TOO_MANY,
};
use crate::counts::Counts;
use crate::proved::{AuditWords, Words};
use crate::walk::{failing_item, Bank, Capture, Question, FETCH};
use std::ops::Range;

const GROUND: &str = "17 by its only ground";
const VALUE: &str = "17 by a field alone, and its value";
const JUST: &str = "17 by its only ground, just given";
const LIMIT: &str = "17 not given, with";
const FILES: &str = "files by their banks";
const BANKS: &str = "banks";
const LIST: &str = "bank lists by answer";
const SHORT_LIST: &str = "bank lists refused by 10, by the list of 63 words";
const QUESTION: &str = "questions by answer";
const READ: &str = "translated, by banks that were read";
const ABSENT: &str = "absent descriptors, by place";
const FIRST_BYTES: &str = "absent descriptors, by first bytes there";
const LAST_BYTES: &str = "absent descriptors, by last bytes there";
const HIGH: &str = "high banks";
const REFUSED: &str = "refused, and by which more";
const BATCH: &str = "batches by answer";
const LONG_BATCH: &str = "long batches by length and answer";
const ADDRESSES: &str = "addresses of batches by answer";
const AUDIT: &str = "audits by answer";
const MISSING: &str = "finding 1, by place of the first entry absent";
const CLEAN: &str = "clean audits, by banks of one table";
const RAW: &str = "one bank and the raw capture, by answer";

/// What a file has that is just not refused, and whether it has it.
fn limits(found: &Found, file: &[u8]) -> Vec<(&'static str, bool)> {
    let (segments, headers, length) = (&found.segments, &found.headers, file.len() as u128);
    let count = u16::from_le_bytes([file[56], file[57]]);
    let headers_at = u64::from_le_bytes(file[32..40].try_into().expect("eight bytes"));
    let filled = || segments.iter().filter(|segment| segment.kept > 0).map(Segment::bytes);
    let empty = || segments.iter().filter(|segment| segment.kept == 0);
    let in_filled = |offset: u64| filled().any(|bytes| bytes.contains(&u128::from(offset)));
    let elf_header = u128::from(ELF_HEADER);
    let ends: Vec<u128> = filled().map(|bytes| bytes.end).collect();
    vec![
        ("64 bytes", file.len() as u64 == ELF_HEADER),
        ("no program headers, e_phoff past the end", count == 0 && u128::from(headers_at) > length),
        ("program headers up to the end", count > 0 && headers.end == length),
        ("program headers in the ELF header", count > 0 && headers.start < elf_header),
        ("a bank's header in the ELF header", headers_at == 8 && count > 0 && file[8..12] == [1, 0, 0, 0]),
        ("over 255 program headers", count > 255),
        ("65535 program headers", count == 0xffff),
        ("64 banks", segments.len() == MOST_BANKS),
        ("64 banks among more headers", segments.len() == MOST_BANKS && usize::from(count) > MOST_BANKS),
        ("banks that touch in memory", segments.windows(2).any(|pair| pair[0].size > 0 && u128::from(pair[1].address) == pair[0].end())),
        ("banks that touch in the file", filled().any(|bytes| ends.contains(&bytes.start))),
        ("banks out of order in the file", segments.windows(2).any(|pair| pair[0].kept > 0 && pair[1].offset < pair[0].offset)),
        ("a bank right behind the ELF header", filled().any(|bytes| bytes.start == elf_header)),
        ("a bank right before the program headers", filled().any(|bytes| bytes.end == headers.start)),
        ("a bank right behind the program headers", filled().any(|bytes| bytes.start == headers.end)),
        ("an empty bank in a bank's bytes", empty().any(|segment| in_filled(segment.offset))),
        ("an empty bank in the ELF header", empty().any(|segment| segment.offset < ELF_HEADER)),
        ("an empty bank in the program headers", empty().any(|segment| headers.contains(&u128::from(segment.offset)))),
        ("a bank at the end of the file", segments.iter().any(|segment| segment.size > 0 && u128::from(segment.offset) == length)),
        ("a bank past the end of the file", segments.iter().any(|segment| segment.size > 0 && u128::from(segment.offset) > length)),
        ("a bank past 2^64 in the file", segments.iter().any(|segment| segment.offset.checked_add(segment.size).is_none())),
    ]
}

/// The only ground of a file that is just given: by a byte, by a bank, or though there are no program headers.
fn just(found: &Found, file: &[u8]) -> Vec<(&'static str, bool)> {
    let length = file.len() as u128;
    let (segments, headers) = (&found.segments, &found.headers);
    let bytes: Vec<Range<u128>> = segments.iter().filter(|segment| segment.kept > 0).map(Segment::bytes).collect();
    let pairs = || segments.windows(2);
    let wraps = |segment: &Segment| segment.end() > 1 << 64;
    let shared = |one: &Range<u128>| bytes.iter().any(|two| two.start < one.start && two.end == one.start + 1);
    vec![
        ("63 bytes, nothing else wrong", length == 63 && wrong_fields(file).is_empty() && file[56..58] == [0, 0]),
        ("a size of no program headers", headers.start == headers.end),
        ("program headers by a byte", headers.end == length + 1),
        ("program headers past 2^64", headers.end > 1 << 64),
        ("65 banks", segments.len() == MOST_BANKS + 1),
        ("order by a byte", pairs().any(|pair| u128::from(pair[1].address) + 1 == pair[0].end())),
        ("order, past 2^64", segments.iter().rev().skip(1).any(wraps)),
        ("order, from 2^64 to the last address", pairs().any(|pair| pair[0].end() >= 1 << 64 && pair[1].address == u64::MAX)),
        ("order, an empty bank", pairs().any(|pair| pair[1].size == 0 && u128::from(pair[1].address) < pair[0].end())),
        ("two banks by a byte", bytes.iter().any(shared)),
        ("the ELF header by a byte", bytes.iter().any(|bytes| bytes.start == u128::from(ELF_HEADER) - 1)),
        ("the first of the program headers' bytes", bytes.iter().any(|bytes| bytes.end == headers.start + 1)),
        ("the last of the program headers' bytes", bytes.iter().any(|bytes| bytes.start + 1 == headers.end)),
    ]
}

/// Which of these belong to a ground.
fn just_of(ground: &str) -> &'static [&'static str] {
    match ground {
        SHORT_FILE => &["63 bytes, nothing else wrong"],
        HEADER_SIZE => &["a size of no program headers"],
        OUTSIDE => &["program headers by a byte", "program headers past 2^64"],
        TOO_MANY => &["65 banks"],
        ORDER => &["order by a byte", "order, past 2^64", "order, from 2^64 to the last address", "order, an empty bank"],
        SHARED => &["two banks by a byte"],
        IN_ELF_HEADER => &["the ELF header by a byte"],
        IN_HEADERS => &["the first of the program headers' bytes", "the last of the program headers' bytes"],
        _ => &[],
    }
}

const BANK_GROUNDS: [&str; 7] = [SHORT_FILE, OUTSIDE, TOO_MANY, ORDER, SHARED, IN_ELF_HEADER, IN_HEADERS];

/// Values of fields that a file is refused for.
const VALUES: [(&str, &[u64]); 5] = [
    ("class", &[0, 1, 3]),
    ("byte order", &[0, 2, 3]),
    ("type", &[3, 5, 0x104, 0x400]),
    ("machine", &[0, 182, 184, 0x1b7, 0xb700]),
    (HEADER_SIZE, &[0, 55, 57, 0x138, 0x3800]),
];

const PLACES: [&str; 8] = [
    "no banks",
    "outside of all banks",
    "in a gap",
    "in what a short bank lacks",
    "over a bank's start",
    "over a bank's end",
    "over the end of a short bank",
    "across banks that touch",
];

/// How many bytes of a descriptor lie in a bank.
fn bytes_in(bank: &Bank, address: u64) -> u64 {
    let (start, end) = (u128::from(bank.base), u128::from(bank.base) + bank.bytes.len() as u128);
    (u128::from(address)..u128::from(address) + 8).filter(|at| start <= *at && *at < end).count() as u64
}

/// Why a descriptor is not found in banks.
fn place(banks: &[Bank], address: u64) -> &'static str {
    let holding: Vec<&Bank> = banks.iter().filter(|bank| bytes_in(bank, address) > 0).collect();
    let lacks = |bank: &Bank| address >= bank.base && u128::from(address) < u128::from(bank.base) + u128::from(bank.size);
    match holding.as_slice() {
        [] if banks.is_empty() => "no banks",
        [] if banks.iter().any(lacks) => "in what a short bank lacks",
        [] if banks.iter().any(|bank| bank.base < address) && banks.iter().any(|bank| bank.base > address) => "in a gap",
        [] => "outside of all banks",
        [bank] if address < bank.base => "over a bank's start",
        [bank] if (bank.bytes.len() as u64) < bank.size => "over the end of a short bank",
        [_] => "over a bank's end",
        several if several.iter().map(|bank| bytes_in(bank, address)).sum::<u64>() == 8 => "across banks that touch",
        _ => "across a small gap",
    }
}

/// The most banks that any one table has entries in.
fn most_banks(banks: &[Bank], q: &Question, lists: &Lists) -> usize {
    let in_table = |bytes: &Range<u64>| {
        let has_entry = |bank: &&Bank| bank.base < bytes.end && bytes.start < bank.base + bank.bytes.len() as u64;
        banks.iter().filter(has_entry).count()
    };
    tables(q, lists).iter().map(|table| in_table(&table.bytes())).max().unwrap_or(0)
}

pub struct Classes(pub Counts);

impl Classes {
    /// All classes that can exist, none of them met.
    pub fn new() -> Classes {
        let mut all = Counts::default();
        all.add(GROUND, FIELDS.iter().map(|field| field.0).chain(BANK_GROUNDS));
        for (field, values) in VALUES {
            all.add(VALUE, values.iter().map(|value| format!("{field} {value:#x}")));
        }
        all.add(JUST, BANK_GROUNDS.iter().chain([&HEADER_SIZE]).flat_map(|ground| just_of(ground)));
        let none = Found { grounds: Vec::new(), segments: Vec::new(), headers: 0..0 };
        all.add(LIMIT, limits(&none, &[0; ELF_HEADER as usize]).into_iter().map(|limit| limit.0));
        all.add(FILES, ["0", "1", "2 to 63", "64"]);
        all.add(BANKS, ["whole", "short", "none of its bytes", "size 0"]);
        all.add(LIST, [0, 10, 17]);
        all.add(SHORT_LIST, ["addresses", "offsets", "lengths", "marks"]);
        all.add(QUESTION, [0, 1, 2, 3, 4, 5, 6, 7, 10, 11, 12, 13, 17].map(|number| format!("{number:2}")));
        all.add(READ, ["1", "2", "3 or more"]);
        all.add(ABSENT, PLACES);
        all.add(ABSENT, ["across a small gap"]);
        all.add(FIRST_BYTES, 1..=7);
        all.add(LAST_BYTES, 1..=7);
        all.add(HIGH, ["up to 2^48", "past 2^48", "past 2^64", "short, by its size alone", "of size 0", "one of several"]);
        let orders = ["17 and 10", "17 and 12", "17 and 13", "17 and 14", "17 and 15", "17 and 16"];
        all.add(REFUSED, orders);
        all.add(REFUSED, ["10 and 11", "10 and 12", "14 and 11", "14 and 12", "11 and 12", "11 and 13", "11 and 15", "11 and 16"]);
        all.add(BATCH, [0, 11, 12, 13, 14, 17].map(|number| format!("{number:2}")));
        all.add(LONG_BATCH, ["4096 0", "4097 14"]);
        all.add(ADDRESSES, 0..=7);
        all.add(AUDIT, [0, 1, 2, 3, 4, 11, 12, 15, 16, 17].map(|number| format!("{number:2}")));
        all.add(MISSING, PLACES);
        all.add(MISSING, ["in a gap, with entries on both sides"]);
        all.add(CLEAN, ["1", "2", "3 or more"]);
        all.add(RAW, (0..=7).chain([10, 11, 12, 13]).map(|number| format!("{number:2}")));
        Classes(all)
    }

    /// Counts a file by what it is refused for, or by what it has.
    pub fn meet_file(&mut self, found: &Found, file: &[u8]) {
        match found.grounds.as_slice() {
            [] => self.meet_accepted(found, file),
            [ground] => {
                self.0.count(GROUND, ground);
                self.meet_value(ground, file);
                let given = just(found, file).into_iter().filter(|(name, given)| *given && just_of(ground).contains(name));
                given.for_each(|(name, _)| self.0.count(JUST, name));
            }
            _ => {}
        }
    }

    fn meet_value(&mut self, ground: &str, file: &[u8]) {
        if let Some((field, at, count, _)) = FIELDS.iter().find(|field| field.0 == ground) {
            let value = file[*at..at + count].iter().rev().fold(0, |value, byte| value << 8 | u64::from(*byte));
            if VALUES.iter().any(|(name, values)| name == field && values.contains(&value)) {
                self.0.count(VALUE, format!("{field} {value:#x}"));
            }
        }
    }

    fn meet_accepted(&mut self, found: &Found, file: &[u8]) {
        for (limit, _) in limits(found, file).into_iter().filter(|limit| limit.1) {
            self.0.count(LIMIT, limit);
        }
        let banks = match found.segments.len() {
            count @ 0..=1 => count.to_string(),
            MOST_BANKS => "64".to_string(),
            _ => "2 to 63".to_string(),
        };
        self.0.count(FILES, banks);
        for segment in &found.segments {
            let bank = match segment {
                Segment { size: 0, .. } => "size 0",
                Segment { kept: 0, .. } => "none of its bytes",
                segment if segment.is_short() => "short",
                _ => "whole",
            };
            self.0.count(BANKS, bank);
            self.meet_high(segment, found.segments.len());
        }
    }

    fn meet_high(&mut self, segment: &Segment, banks: usize) {
        let high = [
            ("up to 2^48", segment.end() == 1 << 48),
            ("past 2^48", segment.end() > 1 << 48 && segment.end() <= 1 << 64),
            ("past 2^64", segment.end() > 1 << 64),
            ("short, by its size alone", segment.end() > 1 << 48 && u128::from(segment.address) + u128::from(segment.kept) <= 1 << 48),
            ("of size 0", segment.end() > 1 << 48 && segment.size == 0),
            ("one of several", segment.end() > 1 << 48 && banks > 1),
        ];
        high.into_iter().filter(|class| class.1).for_each(|class| self.0.count(HIGH, class.0));
    }

    pub fn meet_list(&mut self, found: &Found, number: u64, lengths: [usize; 4]) {
        self.0.count(LIST, number);
        let short: Vec<usize> = (0..4).filter(|&n| lengths[n] < MOST_BANKS).collect();
        if let ([n], 10) = (short.as_slice(), number) {
            if lengths[*n] == 63 {
                self.0.count(SHORT_LIST, ["addresses", "offsets", "lengths", "marks"][*n]);
            }
        }
        if found.refused() && !short.is_empty() {
            self.0.count(REFUSED, "17 and 10");
        }
    }

    /// What else a question is refused for.
    fn meet_order(&mut self, number: u64, others: &[(u64, bool)]) {
        for (other, _) in others.iter().filter(|(other, given)| *given && *other != number) {
            self.0.count(REFUSED, format!("{number} and {other}"));
        }
    }

    pub fn meet_question(&mut self, capture: Capture, q: &Question, log_words: usize, words: &Words, reads: &[u64]) {
        self.0.count(QUESTION, format!("{:2}", words.number));
        let unlisted = q.kind > FETCH || q.el > 1 || ![1, 2, 4, 8, 16].contains(&q.size);
        let high = capture.is_high();
        // Each refusal with all that come after it.
        let given = [(10, log_words < 24), (11, high), (12, failing_item(q).is_some()), (13, unlisted)];
        match words.number {
            0 => self.meet_reads(capture.banks().unwrap_or(&[]), reads),
            6 => self.meet_absent(capture.banks().unwrap_or(&[]), words.address),
            17 => self.meet_order(17, &given),
            number @ 10..=13 => self.meet_order(number, &given[number as usize - 10..]),
            _ => {}
        }
    }

    /// How many banks a translation has read.
    fn meet_reads(&mut self, banks: &[Bank], reads: &[u64]) {
        match banks.iter().filter(|bank| reads.iter().any(|read| bank.descriptor(*read).is_some())).count() {
            0 => {}
            count @ 1..=2 => self.0.count(READ, count),
            _ => self.0.count(READ, "3 or more"),
        }
    }

    fn meet_absent(&mut self, banks: &[Bank], address: u64) {
        let place = place(banks, address);
        self.0.count(ABSENT, place);
        for bank in banks {
            match bytes_in(bank, address) {
                0 => {}
                bytes if address >= bank.base => self.0.count(FIRST_BYTES, bytes),
                bytes => self.0.count(LAST_BYTES, bytes),
            }
        }
    }

    pub fn meet_batch(&mut self, both: &Both, list: &[u64], capture: Capture, q: &Question) {
        let number = both.wanted.words.number;
        self.0.count(BATCH, format!("{number:2}"));
        if number == 0 {
            both.wanted.numbers.iter().for_each(|number| self.0.count(ADDRESSES, number));
        }
        if list.len() >= MOST && (number == 0 || number == 14) {
            self.0.count(LONG_BATCH, format!("{} {number}", list.len()));
        }
        if both.has_bad_lists(list) {
            self.meet_order(number, &[(14, true), (11, capture.is_high()), (12, failing_item(q).is_some())]);
        }
    }

    pub fn meet_audit(&mut self, capture: Capture, q: &Question, lists: &Lists, verdict: &Verdict) {
        let number = AuditWords::from(verdict).number;
        self.0.count(AUDIT, format!("{number:2}"));
        let passes = failing_setting(q).is_none();
        let given = [(15, lists.are_malformed(q)), (16, passes && root(q).is_none())];
        let banks = capture.banks().unwrap_or(&[]);
        match verdict {
            Verdict::Clean => {
                let most = most_banks(banks, q, lists);
                self.0.count(CLEAN, if most > 2 { "3 or more".to_string() } else { most.to_string() });
            }
            Verdict::Found(finding) if finding.number == 1 => self.meet_missing(capture, finding.table.bytes()),
            _ if number == 17 || number == 11 => self.meet_order(number, &given),
            _ => {}
        }
    }

    fn meet_missing(&mut self, capture: Capture, table: Range<u64>) {
        let there = |at: &u64| capture.descriptor(*at).is_some();
        let absent = table.clone().step_by(8).find(|at| !there(at)).expect("finding 1 has an entry that is absent");
        let place = place(capture.banks().unwrap_or(&[]), absent);
        self.0.count(MISSING, place);
        if place == "in a gap" && absent > table.start && there(&(table.end - 8)) {
            self.0.count(MISSING, "in a gap, with entries on both sides");
        }
    }

    pub fn meet_raw(&mut self, number: u64) {
        self.0.count(RAW, format!("{number:2}"));
    }
}
