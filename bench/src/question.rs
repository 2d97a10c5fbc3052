//! The straightforward walk for one question: what it is refused for is tested, registers are decoded anew, and the answer is whole.
use crate::attributes::reported;
use crate::decode::{bit, first};
use crate::memory::{Banks, Core, Memory};
use crate::proved::{Capture, Question, Words};
use crate::refusals::{ends_high, refusal};
use crate::straight::{Cause, Notes, Place, Trail, Walker, LOG};

#[derive(Clone, Copy)]
struct Leaf {
    descriptor: u64,
    level: u64,
}

/// In place of the leaf of a stage that is off.
const NO_LEAF: Leaf = Leaf { descriptor: 0, level: 0 };

/// The leaf that each stage's walk came to last, and where the walk stopped if it did.
struct Ends {
    first: Leaf,
    second: Leaf,
    place: Place,
    level: u64,
    at: u64,
}

impl Notes for Ends {
    fn leaf(&mut self, place: Place, descriptor: u64, level: u64) {
        let end = if place == Place::Stage1 { &mut self.first } else { &mut self.second };
        *end = Leaf { descriptor, level };
    }

    fn stop(&mut self, place: Place, level: u64, at: u64) {
        (self.place, self.level, self.at) = (place, level, at);
    }
}

fn translated(q: &Question, address: u64, ends: &Ends, reads: u64) -> Words {
    let attributes = reported(q, ends.first.descriptor, ends.second.descriptor);
    Words {
        address,
        memory: attributes.memory as u64,
        shareability: attributes.shareability,
        level1: ends.first.level,
        level2: ends.second.level,
        reads,
        ..Words::default()
    }
}

fn stopped(cause: Cause, ends: &Ends, reads: u64) -> Words {
    // Faults alone carry the IPA, and an alignment fault carries no level.
    let (address, ipa, level) = match cause {
        Cause::NotCaptured => (ends.at, 0, ends.level),
        Cause::Unsettled => (0, 0, ends.level),
        Cause::Alignment => (0, ends.at, 0),
        _ => (0, ends.at, ends.level),
    };
    let stage = if ends.place == Place::Stage1 { 1 } else { 2 };
    Words { number: cause as u64, address, stage, level, onwalk: (ends.place == Place::OnWalk) as u64, ipa, reads, ..Words::default() }
}

/// Answers one question, in the words of the exported call.
// Never inlined, so that one call is one question, and the stores of log and answer cannot be left out.
#[inline(never)]
pub fn ask(q: &Question, capture: Capture, address: u64, log: &mut [u64]) -> Words {
    if let Some(words) = refusal(q, ends_high(capture), log.len()) {
        return words;
    }
    answer(q, capture, address, log)
}

/// The same over a core file, whose headers are read anew.
#[inline(never)]
pub fn ask_core<const HALVING: bool>(q: &Question, file: &[u8], address: u64, log: &mut [u64]) -> Words {
    let core = match Core::read(file) {
        Some(core) => core,
        None => return Words { number: 17, ..Words::default() },
    };
    if let Some(words) = refusal(q, core.high, log.len()) {
        return words;
    }
    answer(q, Banks::<HALVING>(&core.banks), address, log)
}

/// The answer to a question that is not refused.
// Inlined into both of its callers, so that one call is one question still.
#[inline(always)]
fn answer(q: &Question, memory: impl Memory, address: u64, log: &mut [u64]) -> Words {
    let log = (&mut log[..LOG]).try_into().expect("so many words");
    let ends = Ends { first: NO_LEAF, second: NO_LEAF, place: Place::Stage1, level: 0, at: 0 };
    let mut trail = Trail { log, count: 0, notes: ends };
    let walked = Walker::new(q, memory).access(&first(q, bit(address, 55)), address, &mut trail);
    let (ends, reads) = (&trail.notes, trail.count as u64);
    match walked {
        Ok(output) => translated(q, output, ends, reads),
        Err(cause) => stopped(cause, ends, reads),
    }
}
