//! Questions that are refused, and their neighbours that are not: both questions must agree on these before anything is timed.
use crate::check::questions_agree;
use crate::proved::{Capture, Question};
use crate::straight::LOG;

/// Both stages are on, and nothing is wrong (document 01, Cases).
pub const ACCEPTED: Question = Question {
    pamax: 40,
    hcr_el2: 0x8000_0001,
    vtcr_el2: 0x2_0059,
    vttbr_el2: 0x4000_0000,
    sctlr_el2: 0,
    sctlr_el1: 5,
    tcr_el1: 0x2_0080_0019,
    ttbr0_el1: 0x1000,
    ttbr1_el1: 0,
    mair_el1: 0xff,
    kind: 0,
    el: 0,
    size: 8,
};
/// The first descriptor is not in the capture.
const ABSENT: (u64, u64) = (6, 0);
const ADDRESS: u64 = 0x1008;

/// Each settings item by each of its parts, with the number and the item that it must be refused by.
fn settings() -> Vec<((u64, u64), Question)> {
    let q = ACCEPTED;
    vec![
        (ABSENT, q),
        ((12, 1), Question { pamax: 41, ..q }),
        ((12, 2), Question { hcr_el2: q.hcr_el2 | 1 << 27, ..q }),
        ((12, 3), Question { hcr_el2: 1, ..q }),
        ((12, 4), Question { sctlr_el1: q.sctlr_el1 | 1 << 25, ..q }),
        ((12, 4), Question { sctlr_el2: 1 << 25, ..q }),
        ((12, 5), Question { tcr_el1: 0x6_0080_0019, ..q }),
        ((12, 6), Question { tcr_el1: 0x2_0080_000f, ..q }),
        ((12, 6), Question { tcr_el1: 0x2_0080_0028, ..q }),
        ((12, 6), Question { tcr_el1: 0x2_0080_c019, ..q }),
        (ABSENT, Question { tcr_el1: 0x2_0080_4019, ..q }),
        (ABSENT, Question { tcr_el1: 0x2_0080_8019, ..q }),
        (ABSENT, Question { tcr_el1: 0x2_0080_0027, ..q }),
        ((12, 7), Question { tcr_el1: 0x2_800f_0019, ..q }),
        ((12, 7), Question { tcr_el1: 0x2_8028_0019, ..q }),
        ((12, 7), Question { tcr_el1: 0x2_0019_0019, ..q }),
        (ABSENT, Question { tcr_el1: 0x2_4019_0019, ..q }),
        (ABSENT, Question { tcr_el1: 0x2_8019_0019, ..q }),
        (ABSENT, Question { tcr_el1: 0x2_c019_0019, ..q }),
        ((12, 8), Question { vtcr_el2: 0x6_0059, ..q }),
        ((12, 9), Question { vtcr_el2: 0x2_0068, ..q }),
        ((12, 9), Question { vtcr_el2: 0x2_c059, ..q }),
        (ABSENT, Question { vtcr_el2: 0x2_4059, ..q }),
        (ABSENT, Question { vtcr_el2: 0x2_8059, ..q }),
        ((12, 9), Question { vtcr_el2: 0x2_0057, ..q }),
        (ABSENT, Question { vtcr_el2: 0x2_0058, ..q }),
    ]
}

/// Kinds, ELs and sizes that are not listed, and what is refused for more than one reason.
fn accesses() -> Vec<((u64, u64), Question)> {
    let q = ACCEPTED;
    vec![
        ((13, 0), Question { kind: 3, ..q }),
        ((13, 0), Question { el: 2, ..q }),
        ((13, 0), Question { size: 0, ..q }),
        ((13, 0), Question { size: 3, ..q }),
        ((13, 0), Question { size: 32, ..q }),
        ((12, 8), Question { vtcr_el2: 0x6_4059, kind: 3, ..q }),
        ((12, 1), Question { pamax: 0, hcr_el2: 0, ..q }),
    ]
}

fn expect(wanted: (u64, u64), q: &Question, capture: Capture, words: usize) -> Result<(), String> {
    let said = questions_agree(q, capture, ADDRESS, words)?;
    if (said.number, said.item) == wanted {
        Ok(())
    } else {
        Err(format!("both questions say {said:?}, where number and item should be {wanted:?}"))
    }
}

pub fn agree() -> Result<(), String> {
    let at = |base| Capture { base, bytes: &[0; 8] };
    for (wanted, q) in settings().into_iter().chain(accesses()) {
        expect(wanted, &q, at(0), LOG)?;
    }
    // The capture's end: one byte too high, beyond the largest number, and just in reach.
    expect((11, 0), &Question { pamax: 0, ..ACCEPTED }, at((1 << 48) - 7), LOG)?;
    expect((11, 0), &ACCEPTED, at(u64::MAX), LOG)?;
    expect(ABSENT, &ACCEPTED, at((1 << 48) - 8), LOG)?;
    // The log: one word short, and more than enough.
    expect((10, 0), &ACCEPTED, at(u64::MAX), LOG - 1)?;
    expect(ABSENT, &ACCEPTED, at(0), LOG + 1)
}
