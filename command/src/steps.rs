//! A question's walk, step by step: which descriptor each read of the log was, and what it says.
//!
//! The log has addresses alone. Which stage and level each read belongs to follows from where walks start, which the library says of an
//! empty capture ("not in the capture: stage, level"), and from which descriptors are tables. What the last one ends with is the answer.
use crate::capture::CaptureFile;
use crate::granule::Granule;
use crate::layout::{is_table, LAST_LEVEL, VM};
use crate::probe::{self, Leaf};
use humpelkaas::{translate, Access, Answer, Capture, Registers, Stage, Told};
use std::fmt;

/// The levels at which walks start, of each stage that is on.
#[derive(Clone, Copy)]
pub struct Starts {
    stage1: Option<u64>,
    stage2: Option<u64>,
}

/// What is read next.
#[derive(Clone, Copy, Debug, PartialEq, Eq)]
enum Next {
    /// A descriptor of stage 1 at this level.
    One {
        level: u64,
    },
    /// A descriptor of stage 2 at this level. Its walk is for a descriptor of stage 1 at a level, or for the output.
    Two {
        level: u64,
        descriptor: Option<u64>,
    },
    Nothing,
}

/// What a descriptor says.
#[derive(Clone, Copy)]
pub enum Says {
    Table {
        address: u64,
    },
    /// A page or a block of so many bytes.
    Leaf {
        page: bool,
        size: u64,
        address: u64,
        leaf: Leaf,
    },
    /// Neither: the walk ends here.
    Invalid,
}

/// One read.
#[derive(Clone, Copy)]
pub struct Step {
    pub stage: Stage,
    pub level: u64,
    pub address: u64,
    pub value: u64,
    pub says: Says,
}

fn first_read(registers: &Registers, access: Access, address: u64) -> Option<(Stage, u64)> {
    match translate(Capture::Raw { base: 0, bytes: &[] }, registers, access, address).answer {
        Answer::Absent { stage, level, .. } => Some((stage, level)),
        _ => None,
    }
}

/// Where the walks for an address start, if anything is read for it.
pub fn starts(registers: &Registers, access: Access, address: u64) -> Option<Starts> {
    let (stage, level) = first_read(registers, access, address)?;
    match stage {
        Stage::One => Some(Starts { stage1: Some(level), stage2: None }),
        Stage::Two { onwalk: false } => Some(Starts { stage1: None, stage2: Some(level) }),
        Stage::Two { onwalk: true } => {
            let mut alone = *registers;
            alone.el2.hcr_el2 &= !VM;
            let (_, stage1) = first_read(&alone, access, address)?;
            Some(Starts { stage1: Some(stage1), stage2: Some(level) })
        }
    }
}

impl Starts {
    /// Stage 2's walk for a descriptor of stage 1, or for the output; with stage 2 off the descriptor itself.
    fn second(self, descriptor: Option<u64>) -> Next {
        match (self.stage2, descriptor) {
            (Some(level), descriptor) => Next::Two { level, descriptor },
            (None, Some(level)) => Next::One { level },
            (None, None) => Next::Nothing,
        }
    }

    fn first(self) -> Next {
        self.second(self.stage1)
    }

    /// What follows a table's entry (`down`) or a leaf's.
    fn after(self, at: Next, down: bool) -> Next {
        match (at, down) {
            (Next::One { level }, true) => self.second(Some(level + 1)),
            (Next::One { .. }, false) => self.second(None),
            (Next::Two { level, descriptor }, true) => Next::Two { level: level + 1, descriptor },
            (Next::Two { descriptor: Some(level), .. }, false) => Next::One { level },
            (Next::Two { descriptor: None, .. }, false) | (Next::Nothing, _) => Next::Nothing,
        }
    }
}

impl Next {
    fn place(self) -> Option<(Stage, u64)> {
        match self {
            Next::One { level } => Some((Stage::One, level)),
            Next::Two { level, descriptor } => Some((Stage::Two { onwalk: descriptor.is_some() }, level)),
            Next::Nothing => None,
        }
    }
}

/// The granule of a stage, on the way of an address.
fn granule(registers: &Registers, stage: Stage, address: u64) -> Granule {
    match stage {
        Stage::One => Granule::stage1(registers, address),
        Stage::Two { .. } => Granule::stage2(registers),
    }
}

/// What a descriptor says at a stage and level; `imposed` is what stage 1's tables above it say, or-ed.
fn says(registers: &Registers, granule: Granule, (stage, level): (Stage, u64), imposed: u64, value: u64) -> Says {
    if is_table(value, level) {
        return Says::Table { address: granule.table(value) };
    }
    if !granule.is_leaf(value, level) {
        return Says::Invalid;
    }
    let leaf = match stage {
        Stage::One => probe::stage1(registers, imposed, value),
        Stage::Two { .. } => probe::stage2(registers, value),
    };
    Says::Leaf { page: level == LAST_LEVEL, size: granule.span(level), address: granule.leaf(value, level), leaf }
}

/// The steps of a question, or none if they do not fit its answer: then the log was read wrongly, and nothing is said of it.
pub fn steps(capture: &CaptureFile, registers: &Registers, access: Access, asked: u64, told: &Told) -> Option<Vec<Step>> {
    let starts = starts(registers, access, asked).unwrap_or(Starts { stage1: None, stage2: None });
    let mut next = starts.first();
    let mut imposed = 0;
    let mut steps = Vec::new();
    for &address in told.reads.iter() {
        let (stage, level) = next.place()?;
        let value = capture.descriptor(address)?;
        let says = says(registers, granule(registers, stage, asked), (stage, level), imposed, value);
        if stage == Stage::One {
            imposed |= value;
        }
        next = starts.after(next, matches!(says, Says::Table { .. }));
        steps.push(Step { stage, level, address, value, says });
    }
    fits(&steps, next, &told.answer).then_some(steps)
}

/// The answer is one that these steps can have.
fn fits(steps: &[Step], next: Next, answer: &Answer) -> bool {
    let last = steps.last().map(|step| (step.stage, step.level));
    let leaf = |stage: u64| {
        let of_stage = |step: &&Step| step.stage.number() == stage && !step.stage.onwalk();
        steps.iter().rev().find(of_stage).map_or(0, |step| step.level)
    };
    match *answer {
        Answer::Translated { level1, level2, .. } => next == Next::Nothing && leaf(1) == level1 && leaf(2) == level2,
        // A walk that faults before it reads is at level 0 of the stage that is next.
        Answer::Fault { stage, level, .. } => {
            last == Some((stage, level)) || (level == 0 && (steps.is_empty() || next.place().map(|place| place.0) == Some(stage)))
        }
        Answer::Misaligned { stage, .. } => steps.is_empty() || last.map(|place| place.0) == Some(stage),
        Answer::Absent { stage, level, .. } => next.place() == Some((stage, level)),
        Answer::Unsettled { stage, level } => last == Some((stage, level)),
        Answer::Refused(_) => steps.is_empty(),
    }
}

impl fmt::Display for Says {
    fn fmt(&self, f: &mut fmt::Formatter) -> fmt::Result {
        match self {
            Says::Table { address } => write!(f, "table at {address:#x}"),
            Says::Leaf { page, size, address, leaf } => {
                let what = if *page { "page" } else { "block" };
                write!(f, "{what} of {size:#x} at {address:#x}, {leaf}")
            }
            Says::Invalid => f.write_str("invalid"),
        }
    }
}
