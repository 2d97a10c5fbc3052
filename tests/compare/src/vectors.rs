//! Questions, audits and answers as lines of text: the format that the head of tests/vectors/model-4k.txt describes.
//! Lines from an emulator, which have neither capture bounds nor a log and tell less of an answer, are read too.
use crate::audit::Lists;
use crate::proved::{AuditWords, Words};
use crate::walk::{Bank, Question, FETCH};

/// A line's question, its capture, and what it says of the answer.
pub struct Line {
    pub question: Question,
    pub base: u64,
    pub bytes: Vec<u8>,
    pub log_words: usize,
    answer: String,
    /// Not there in a line from an emulator.
    log: Option<Vec<u64>>,
}

fn hex(text: &str) -> Option<u64> {
    u64::from_str_radix(text, 16).ok()
}

fn question(fields: &[&str]) -> Option<Question> {
    Some(Question {
        pamax: fields[0].parse().ok()?,
        kind: fields[1].parse().ok()?,
        el: fields[2].parse().ok()?,
        size: fields[3].parse().ok()?,
        sctlr_el1: hex(fields[4])?,
        tcr_el1: hex(fields[5])?,
        ttbr0_el1: hex(fields[6])?,
        ttbr1_el1: hex(fields[7])?,
        mair_el1: hex(fields[8])?,
        hcr_el2: hex(fields[9])?,
        vtcr_el2: hex(fields[10])?,
        vttbr_el2: hex(fields[11])?,
        sctlr_el2: hex(fields[12])?,
        address: hex(fields[13])?,
    })
}

/// The bytes of a capture that is zero but for some words, of which a part may lie outside.
fn capture(base: u64, length: usize, words: &str) -> Option<Vec<u8>> {
    let mut bytes = vec![0; length];
    for pair in words.split_whitespace() {
        let (address, word) = pair.split_once('=')?;
        for (byte, at) in hex(word)?.to_le_bytes().iter().zip(hex(address)?..) {
            if let Some(place) = at.checked_sub(base).and_then(|offset| bytes.get_mut(offset as usize)) {
                *place = *byte;
            }
        }
    }
    Some(bytes)
}

impl Line {
    /// Reads a line; nothing if it is malformed.
    pub fn read(line: &str) -> Option<Line> {
        let parts: Vec<&str> = line.split('|').collect();
        let fields: Vec<&str> = parts[0].split_whitespace().collect();
        let answer = |text: &str| text.split_whitespace().collect::<Vec<_>>().join(" ");
        if parts.len() == 4 && fields.len() == 18 && fields[0] == "ask" {
            let (base, log_words) = (hex(fields[15])?, fields[17].parse().ok()?);
            let bytes = capture(base, hex(fields[16])? as usize, parts[1])?;
            let log = Some(parts[3].split_whitespace().map(hex).collect::<Option<_>>()?);
            Some(Line { question: question(&fields[1..15])?, base, bytes, log_words, answer: answer(parts[2]), log })
        } else if parts.len() == 3 && fields.len() == 14 {
            let base = 0x4000_0000;
            let bytes = capture(base, 0x40_0000, parts[1])?;
            Some(Line { question: question(&fields)?, base, bytes, log_words: 24, answer: answer(parts[2]), log: None })
        } else {
            None
        }
    }

    /// Whether an answer and its log are what the line says.
    pub fn agrees(&self, words: &Words, log: &[u64]) -> bool {
        match &self.log {
            Some(expected) => self.answer == answer_text(words) && log == expected.as_slice(),
            None => self.answer == emulator_text(words, self.question.kind),
        }
    }
}

/// A memory type; a code that no memory type has shows as it is.
fn memory_text(memory: u64) -> String {
    let cacheability = |code: u64| ["NC", "WT", "WB", "?"][code as usize & 3];
    match memory {
        0..=3 => format!("device:{memory}"),
        16..=31 => format!("normal:{}:{}", cacheability(memory >> 2), cacheability(memory)),
        _ => format!("{memory}?"),
    }
}

/// An answer as the vectors have it, with what document 01 says that it carries.
pub fn answer_text(w: &Words) -> String {
    let place = format!("stage={} level={} onwalk={}", w.stage, w.level, w.onwalk);
    let ipa = if w.stage == 2 { format!(" ipa={:x}", w.ipa) } else { String::new() };
    match w.number {
        0 => {
            let memory = memory_text(w.memory);
            let levels = format!("level1={} level2={}", w.level1, w.level2);
            format!("0 address={:x} memory={memory} sh={} {levels} reads={}", w.address, w.shareability, w.reads)
        }
        1..=4 => format!("{} {place}{ipa} reads={}", w.number, w.reads),
        5 => format!("5 stage={}{ipa} reads={}", w.stage, w.reads),
        6 => format!("6 address={:x} {place} reads={}", w.address, w.reads),
        7 => format!("7 {place} reads={}", w.reads),
        12 => format!("12 item={}", w.item),
        number => number.to_string(),
    }
}

/// An answer as an emulator tells it: no more than that a fetch translates, and no device type.
fn emulator_text(w: &Words, kind: u64) -> String {
    match w.number {
        0 if kind == FETCH => "0".to_string(),
        0 if w.memory < 4 => format!("0 {:x} device", w.address),
        0 => format!("0 {:x} {} {}", w.address, memory_text(w.memory).replace(':', " "), w.shareability),
        1..=4 => format!("{} {} {} {}", w.number, w.stage, w.level, w.onwalk),
        _ => answer_text(w),
    }
}

/// A question as a line of the vectors. The capture is written with the words at the given addresses only.
pub fn question_text(q: &Question, capture: Bank, log_words: usize, addresses: &[u64]) -> String {
    let numbers = format!("{} {} {} {}", q.pamax, q.kind, q.el, q.size);
    let registers = [q.sctlr_el1, q.tcr_el1, q.ttbr0_el1, q.ttbr1_el1, q.mair_el1, q.hcr_el2, q.vtcr_el2, q.vttbr_el2, q.sctlr_el2];
    let words = addresses.iter().filter_map(|&address| Some(format!(" {address:x}={:x}", capture.descriptor(address)?)));
    format!(
        "ask {numbers} {} {:x} {:x} {:x} {log_words} |{}",
        log_text(&registers),
        q.address,
        capture.base,
        capture.bytes.len(),
        words.collect::<String>()
    )
}

/// A line's audit, its capture, and what it says of the answer.
pub struct AuditLine {
    pub question: Question,
    pub base: u64,
    pub bytes: Vec<u8>,
    pub lists: Lists,
    answer: String,
}

impl AuditLine {
    /// Reads a line; nothing if it is malformed.
    pub fn read(line: &str) -> Option<AuditLine> {
        let parts: Vec<&str> = line.split('|').collect();
        let split = |at: usize| parts.get(at).map(|part| part.split_whitespace().collect::<Vec<_>>());
        let (fields, lists, answer) = (split(0)?, split(2)?, split(3)?.join(" "));
        if parts.len() != 4 || fields.len() != 8 || fields[0] != "audit" || lists.len() != 4 {
            return None;
        }
        let list = |at: usize, number: fn(&str) -> Option<u64>| -> Option<Vec<u64>> {
            lists[at].split(',').filter(|text| *text != "-").map(number).collect()
        };
        let question = Question {
            pamax: fields[1].parse().ok()?,
            hcr_el2: hex(fields[2])?,
            vtcr_el2: hex(fields[3])?,
            vttbr_el2: hex(fields[4])?,
            sctlr_el2: hex(fields[5])?,
            ..Question::default()
        };
        let base = hex(fields[6])?;
        let bytes = capture(base, hex(fields[7])? as usize, parts[1])?;
        let levels = list(3, |text| text.parse().ok())?;
        let lists = Lists { grants: list(0, hex)?, counts: list(1, hex)?, tables: list(2, hex)?, levels };
        Some(AuditLine { question, base, bytes, lists, answer })
    }

    /// Whether an answer is what the line says.
    pub fn agrees(&self, words: &AuditWords) -> bool {
        self.answer == audit_answer_text(words)
    }
}

/// An audit's answer as the vectors have it.
pub fn audit_answer_text(w: &AuditWords) -> String {
    match w.number {
        0 => "clean".to_string(),
        1..=4 => format!("finding {} {:x}", w.number, w.address),
        12 => format!("refused 12 {}", w.item),
        number => format!("refused {number}"),
    }
}

/// An audit as a line of the vectors, with all words of its capture that are not zero.
pub fn audit_text(q: &Question, capture: Bank, lists: &Lists) -> String {
    let registers = log_text(&[q.hcr_el2, q.vtcr_el2, q.vttbr_el2, q.sctlr_el2]);
    let offsets = (0..capture.bytes.len() as u64).skip(capture.base.wrapping_neg() as usize % 8).step_by(8);
    let words = offsets.filter_map(|offset| {
        let address = capture.base.checked_add(offset)?;
        capture.descriptor(address).filter(|&word| word != 0).map(|word| format!(" {address:x}={word:x}"))
    });
    let list = |list: &[u64], number: fn(&u64) -> String| match list {
        [] => " -".to_string(),
        _ => format!(" {}", list.iter().map(number).collect::<Vec<_>>().join(",")),
    };
    let hexes = [&lists.grants, &lists.counts, &lists.tables].map(|numbers| list(numbers, |number| format!("{number:x}")));
    format!(
        "audit {} {registers} {:x} {:x} |{} |{}{}",
        q.pamax,
        capture.base,
        capture.bytes.len(),
        words.collect::<String>(),
        hexes.concat(),
        list(&lists.levels, u64::to_string)
    )
}

pub fn log_text(log: &[u64]) -> String {
    log.iter().map(|word| format!("{word:x}")).collect::<Vec<_>>().join(" ")
}
