//! One question and its answer.
use crate::calls::{self, Words};
use crate::{unknown, Access, Attributes, Capture, Refusal, Registers};
use std::fmt;

/// How many words a log has: no access reads more descriptors.
const LOG: usize = 24;

/// Which kind of fault ends a walk.
#[derive(Clone, Copy, Debug, PartialEq, Eq)]
pub enum Fault {
    Translation,
    /// An address of more bits than IPS or PS says, or than PAMax.
    AddressSize,
    AccessFlag,
    Permission,
}

/// The stage that an answer speaks of. On a walk, stage 2 was translating the address of a stage 1 descriptor.
#[derive(Clone, Copy, Debug, PartialEq, Eq)]
pub enum Stage {
    One,
    Two { onwalk: bool },
}

/// What one question is answered.
#[derive(Clone, Copy, Debug, PartialEq, Eq)]
pub enum Answer {
    /// Where the access lands. A stage that is off has leaf level 0.
    Translated {
        address: u64,
        attributes: Attributes,
        level1: u64,
        level2: u64,
    },
    /// The IPA is there if the stage is 2.
    Fault {
        fault: Fault,
        stage: Stage,
        level: u64,
        ipa: Option<u64>,
    },
    Misaligned {
        stage: Stage,
        ipa: Option<u64>,
    },
    /// The descriptor at this physical address is needed, and is not wholly in the capture.
    Absent {
        address: u64,
        stage: Stage,
        level: u64,
    },
    /// Arm leaves open what the descriptor last read means.
    Unsettled {
        stage: Stage,
        level: u64,
    },
    Refused(Refusal),
}

/// The physical addresses of the descriptors read, in order.
#[derive(Clone, Copy, Debug, PartialEq, Eq)]
pub struct Reads {
    log: [u64; LOG],
    count: usize,
}

impl std::ops::Deref for Reads {
    type Target = [u64];

    fn deref(&self) -> &[u64] {
        &self.log[..self.count]
    }
}

/// An answer, and what was read for it.
#[derive(Clone, Copy, Debug, PartialEq, Eq)]
pub struct Told {
    pub answer: Answer,
    pub reads: Reads,
}

/// Asks where an access to an address lands.
pub fn translate(capture: Capture, registers: &Registers, access: Access, address: u64) -> Told {
    let mut log = [0; LOG];
    let words = calls::translate(capture, registers.el2, registers.el1, access.to(address), &mut log);
    Told { answer: Answer::from(words), reads: Reads { log, count: words.reads as usize } }
}

impl Stage {
    fn of(words: &Words) -> Stage {
        match words.stage {
            1 => Stage::One,
            2 => Stage::Two { onwalk: words.onwalk != 0 },
            other => unknown("stage", other),
        }
    }

    pub fn number(self) -> u64 {
        match self {
            Stage::One => 1,
            Stage::Two { .. } => 2,
        }
    }

    pub fn onwalk(self) -> bool {
        matches!(self, Stage::Two { onwalk: true })
    }

    /// A fault of stage 2 carries its IPA.
    fn carries(self, ipa: u64) -> Option<u64> {
        match self {
            Stage::One => None,
            Stage::Two { .. } => Some(ipa),
        }
    }
}

impl From<Words> for Answer {
    fn from(words: Words) -> Answer {
        let fault = |fault| {
            let stage = Stage::of(&words);
            Answer::Fault { fault, stage, level: words.level, ipa: stage.carries(words.ipa) }
        };
        match words.number {
            0 => Answer::Translated {
                address: words.address,
                attributes: Attributes::of(words.memory, words.shareability),
                level1: words.level1,
                level2: words.level2,
            },
            1 => fault(Fault::Translation),
            2 => fault(Fault::AddressSize),
            3 => fault(Fault::AccessFlag),
            4 => fault(Fault::Permission),
            5 => {
                let stage = Stage::of(&words);
                Answer::Misaligned { stage, ipa: stage.carries(words.ipa) }
            }
            6 => Answer::Absent { address: words.address, stage: Stage::of(&words), level: words.level },
            7 => Answer::Unsettled { stage: Stage::of(&words), level: words.level },
            number => Answer::Refused(Refusal::of(number, words.item)),
        }
    }
}

impl Fault {
    fn number(self) -> u64 {
        match self {
            Fault::Translation => 1,
            Fault::AddressSize => 2,
            Fault::AccessFlag => 3,
            Fault::Permission => 4,
        }
    }
}

impl Answer {
    /// The answer's number, as a batch gives it.
    pub fn number(&self) -> u64 {
        match self {
            Answer::Translated { .. } => 0,
            Answer::Fault { fault, .. } => fault.number(),
            Answer::Misaligned { .. } => 5,
            Answer::Absent { .. } => 6,
            Answer::Unsettled { .. } => 7,
            Answer::Refused(refusal) => refusal.number(),
        }
    }
}

impl fmt::Display for Fault {
    fn fmt(&self, f: &mut fmt::Formatter) -> fmt::Result {
        f.write_str(match self {
            Fault::Translation => "translation fault",
            Fault::AddressSize => "address size fault",
            Fault::AccessFlag => "access flag fault",
            Fault::Permission => "permission fault",
        })
    }
}

impl fmt::Display for Stage {
    fn fmt(&self, f: &mut fmt::Formatter) -> fmt::Result {
        f.write_str(match self {
            Stage::One => "stage 1",
            Stage::Two { onwalk: false } => "stage 2",
            Stage::Two { onwalk: true } => "stage 2 on a stage 1 walk",
        })
    }
}

/// The IPA of a fault, where it has one.
struct At(Option<u64>);

impl fmt::Display for At {
    fn fmt(&self, f: &mut fmt::Formatter) -> fmt::Result {
        self.0.map_or(Ok(()), |ipa| write!(f, ", IPA {ipa:#x}"))
    }
}

impl fmt::Display for Answer {
    fn fmt(&self, f: &mut fmt::Formatter) -> fmt::Result {
        match self {
            Answer::Translated { address, attributes, level1, level2 } => {
                write!(f, "translated to {address:#x}, {attributes}, leaf levels {level1} and {level2}")
            }
            Answer::Fault { fault, stage, level, ipa } => write!(f, "{fault}, {stage}, level {level}{}", At(*ipa)),
            Answer::Misaligned { stage, ipa } => write!(f, "alignment fault, {stage}{}", At(*ipa)),
            Answer::Absent { address, stage, level } => {
                write!(f, "not in the capture: the descriptor at {address:#x}, {stage}, level {level}")
            }
            Answer::Unsettled { stage, level } => write!(f, "unsettled by Arm, {stage}, level {level}"),
            Answer::Refused(refusal) => write!(f, "refused: {refusal}"),
        }
    }
}
