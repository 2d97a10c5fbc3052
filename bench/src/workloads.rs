//! The workloads: captures, registers and addresses for each.
use crate::proved::{Capture, Question};
use crate::random::Random;
use crate::tables::{Shape, Tables, BASE};

/// The most addresses that one batch may have.
pub const BATCH: usize = 4096;
/// Batches of different addresses, so that no batch is met again soon. A multiple of the ways, which are then equally far apart.
pub const BATCHES: usize = 20;

/// What a workload is built from.
pub struct Plan {
    pub name: &'static str,
    stage1: Shape,
    stage2: Shape,
    /// The capture's size, in pages of stage 2.
    pages: u64,
    faults: bool,
}

/// A workload, built.
pub struct Workload {
    pub question: Question,
    pub batches: Vec<Vec<u64>>,
    bytes: Vec<u8>,
}

impl Workload {
    pub fn capture(&self) -> Capture<'_> {
        Capture { base: BASE, bytes: &self.bytes }
    }
}

const KB4: u64 = 12;
const KB16: u64 = 14;
const KB64: u64 = 16;

fn hot(name: &'static str, (page1, levels1): (u64, u64), (page2, levels2): (u64, u64)) -> Plan {
    // Few tables, which stay in the nearest caches.
    let stage = |page, levels| Shape { page, levels, regions: 2 };
    Plan { name, stage1: stage(page1, levels1), stage2: stage(page2, levels2), pages: 64, faults: false }
}

fn spread(name: &'static str, levels: u64, pages: u64) -> Plan {
    // Three quarters of all pages are last tables.
    let stage = |regions| Shape { page: KB4, levels, regions };
    Plan { name, stage1: stage(pages / 4), stage2: stage(pages / 2), pages, faults: false }
}

/// All workloads. The quick ones have small captures.
pub fn plans(quick: bool) -> Vec<Plan> {
    let (large3, large4, pages) = if quick {
        ("8 MB, tables spread, 3+3 levels", "8 MB, tables spread, 4+4 levels", 2048)
    } else {
        ("256 MB, tables spread, 3+3 levels", "256 MB, tables spread, 4+4 levels", 65536)
    };
    let faults = Shape { page: KB4, levels: 3, regions: 16 };
    vec![
        hot("both stages, hot, 3+3 levels", (KB4, 3), (KB4, 3)),
        hot("both stages, hot, 4+4 levels", (KB4, 4), (KB4, 4)),
        hot("stage 1 only", (KB4, 4), (KB4, 0)),
        hot("stage 2 only", (KB4, 0), (KB4, 4)),
        Plan { name: "mostly faults, 3+3 levels", stage1: faults, stage2: faults, pages: 128, faults: true },
        spread(large3, 3, pages),
        spread(large4, 4, pages),
        hot("16KB over 64KB, hot, 3+3 levels", (KB16, 3), (KB64, 3)),
    ]
}

/// TnSZ and TG0, by which a stage has its levels and a root of one table at most; the code of a large enough output size; and SL0.
fn fields(stage: &Shape) -> (u64, u64, u64) {
    match (stage.page, stage.levels) {
        (KB4, 3) => (25, 2, 1),
        (KB4, _) => (16, 5, 2),
        (KB16, _) => (2 << 14 | 17, 5, 2),
        _ => (1 << 14 | 16, 5, 2),
    }
}

/// Registers for two stages: one with no levels is off, the high half is disabled. The access is a read of 8 bytes at EL0.
fn question(plan: &Plan, tables: &Tables) -> Question {
    let (stage1, stage2) = (&plan.stage1, &plan.stage2);
    let (input1, output1, _) = fields(stage1);
    let (input2, output2, sl0) = fields(stage2);
    Question {
        pamax: if output1 == 5 || output2 == 5 { 48 } else { 40 },
        hcr_el2: 1 << 31 | stage2.is_on() as u64,
        vtcr_el2: input2 | sl0 << 6 | output2 << 16,
        vttbr_el2: tables.root2,
        // The data cache is on.
        sctlr_el1: 1 << 2 | stage1.is_on() as u64,
        tcr_el1: input1 | 1 << 23 | output1 << 32,
        ttbr0_el1: tables.root1,
        // Normal memory, Device memory, and a byte that Arm does not list.
        mair_el1: 0x01_00_ff,
        size: 8,
        ..Question::default()
    }
}

/// A random address of the mapped regions. In the workload of faults it may be misaligned.
fn address(random: &mut Random, plan: &Plan) -> u64 {
    let first = if plan.stage1.is_on() { &plan.stage1 } else { &plan.stage2 };
    let inside = random.below(first.end());
    if plan.faults {
        inside
    } else {
        inside & !7
    }
}

pub fn build(plan: &Plan, seed: u64) -> Workload {
    let mut tables = Tables::new(plan.stage1, plan.stage2, plan.pages, seed);
    let mut random = Random::new(seed ^ 0xadd2);
    let mut batches = Vec::new();
    for _ in 0..BATCHES {
        let mut batch: Vec<u64> = (0..BATCH).map(|_| address(&mut random, plan)).collect();
        batch.iter().for_each(|address| tables.map(*address));
        if plan.faults {
            // An eighth lies beyond the input size, and is stopped before any read.
            batch.iter_mut().step_by(8).for_each(|address| *address |= 1 << 40);
        }
        batches.push(batch);
    }
    if plan.faults {
        tables.damage();
    }
    Workload { question: question(plan, &tables), batches, bytes: tables.bytes }
}
