//! The crate's types over the library's numbers: document 01's cases, in words.
use humpelkaas::{audit, batch, calls, translate, Access, Answer, AuditAnswer, Capture, El1, El2, Entries};
use humpelkaas::{Fault, Finding, Grant, Kind, Refusal, Registers, Stage, Table, BATCH};

const BASE: u64 = 0x4000_0000;

const REGISTERS: Registers = Registers {
    el2: El2 { pamax: 40, hcr_el2: 0x8000_0001, vtcr_el2: 0x2_0059, vttbr_el2: BASE, sctlr_el2: 0 },
    el1: El1 { sctlr_el1: 5, tcr_el1: 0x2_0080_0019, ttbr0_el1: 0x1000, ttbr1_el1: 0, mair_el1: 0xff },
};

const READ: Access = Access { kind: Kind::Read, el: 0, size: 8 };

/// The tables of document 01's cases.
fn memory() -> Vec<u8> {
    let mut bytes = vec![0; 0x8000];
    for (at, word) in [
        (0x0000, 0x4000_1003_u64),
        (0x1000, 0x4000_2003),
        (0x2008, 0x4000_37ff),
        (0x2010, 0x4000_47ff),
        (0x2018, 0x4000_57ff),
        (0x2280, 0x9_07ff),
        (0x3000, 0x2003),
        (0x4000, 0x3003),
        (0x5008, 0x5_0743),
    ] {
        bytes[at..at + 8].copy_from_slice(&word.to_le_bytes());
    }
    bytes
}

fn capture(bytes: &[u8]) -> Capture<'_> {
    Capture::Raw { base: BASE, bytes }
}

fn answer(bytes: &[u8], registers: &Registers, access: Access, address: u64) -> Answer {
    translate(capture(bytes), registers, access, address).answer
}

#[test]
fn case_a_with_its_log() {
    let told = translate(capture(&memory()), &REGISTERS, READ, 0x1008);
    let words = "translated to 0x90008, Normal Write-Back, inner shareable, leaf levels 3 and 3";
    assert_eq!((told.answer.number(), told.answer.to_string().as_str()), (0, words));
    assert_eq!(told.reads.len(), 15);
    assert_eq!(told.reads[..4], [0x4000_0000, 0x4000_1000, 0x4000_2008, 0x4000_3000]);
}

#[test]
fn faults_in_words() {
    let mut bytes = memory();
    bytes[0x2010..0x2018].fill(0);
    let c = answer(&bytes, &REGISTERS, READ, 0x1008);
    assert_eq!(c, Answer::Fault { fault: Fault::Translation, stage: Stage::Two { onwalk: true }, level: 3, ipa: Some(0x2000) });
    assert_eq!(c.to_string(), "translation fault, stage 2 on a stage 1 walk, level 3, IPA 0x2000");
    let f = answer(&memory(), &REGISTERS, READ, 0x80_0000_0000);
    assert_eq!(f.to_string(), "translation fault, stage 1, level 0");
    let h = answer(&memory(), &REGISTERS, Access { kind: Kind::Fetch, el: 1, size: 8 }, 0x1008);
    assert_eq!(h.to_string(), "permission fault, stage 1, level 3");
    let off = Registers { el1: El1 { sctlr_el1: 0, ..REGISTERS.el1 }, ..REGISTERS };
    assert_eq!(answer(&memory(), &off, READ, 0x5_0009), Answer::Misaligned { stage: Stage::One, ipa: None });
}

#[test]
fn a_cut_capture_is_absent() {
    let e = answer(&memory()[..0x4000], &REGISTERS, READ, 0x1008);
    assert_eq!(e, Answer::Absent { address: 0x4000_4000, stage: Stage::One, level: 2 });
    assert_eq!(e.to_string(), "not in the capture: the descriptor at 0x40004000, stage 1, level 2");
}

#[test]
fn refusals_by_number() {
    let mut wrong = REGISTERS;
    wrong.el1.tcr_el1 = 0x2_0080_0028;
    let l = answer(&memory(), &wrong, READ, 0x1008);
    assert_eq!(l, Answer::Refused(Refusal::Settings { item: 6 }));
    assert_eq!(answer(&memory(), &REGISTERS, Access { kind: Kind::from(3), ..READ }, 0), Answer::Refused(Refusal::Unlisted));
    let high = Capture::Raw { base: (1 << 48) - 1, bytes: &[0, 0] };
    assert_eq!(translate(high, &REGISTERS, READ, 0).answer, Answer::Refused(Refusal::HighCapture));
    let words = calls::translate(capture(&memory()), REGISTERS.el2, REGISTERS.el1, calls::Access::default(), &mut [0; 23]);
    assert_eq!(Answer::from(words), Answer::Refused(Refusal::ShortLog));
    // Every refusal has words, and its number is the library's.
    for number in 10..=16 {
        for item in 1..=9 {
            let refused = Answer::from(calls::Words { number, item, ..calls::Words::default() });
            assert_eq!(refused.number(), number);
            assert!(refused.to_string().starts_with("refused: "));
        }
    }
}

/// Stage 2 with 64KB over stage 1 with 16KB, of 25 bits each: both roots are of level 3.
#[test]
fn larger_granules() {
    let el2 = El2 { vtcr_el2: 0x2_4027, ..REGISTERS.el2 };
    let el1 = El1 { tcr_el1: 0x2_0080_8027, ttbr0_el1: 0x1_4000, ..REGISTERS.el1 };
    let mut bytes = vec![0; 0x8000];
    for (at, word) in [(0x28, 0x9_07ff_u64), (0x8, 0x4000_07ff), (0x4010, 0x5_0743)] {
        bytes[at..at + 8].copy_from_slice(&word.to_le_bytes());
    }
    let told = translate(capture(&bytes), &Registers { el2, el1 }, READ, 0xbff8);
    let words = "translated to 0x93ff8, Normal Write-Back, inner shareable, leaf levels 3 and 3";
    assert_eq!((told.answer.to_string().as_str(), &told.reads[..]), (words, &[0x4000_0008, 0x4000_4010, 0x4000_0028][..]));
    let listed = |address| audit(capture(&bytes), &el2, &[], &[Table { address, level: 3 }]);
    assert_eq!(listed(0x4000_4000), AuditAnswer::Refused(Refusal::AuditLists));
    assert_eq!(listed(0x4001_0000), AuditAnswer::Found { finding: Finding::OutsideGrants, address: 0x4000_0008 });
    let reserved = El1 { tcr_el1: 0x2_0080_c019, ..REGISTERS.el1 };
    let refused = answer(&memory(), &Registers { el1: reserved, ..REGISTERS }, READ, 0x1008);
    assert!(refused.to_string().contains("TG0 (bits 15:14) is not 0 (4KB), 1 (64KB) or 2 (16KB)"), "{refused}");
}

#[test]
fn a_batch_and_its_ledger() {
    let mut entries = Entries::default();
    let ledger = batch(capture(&memory()), &REGISTERS, READ, &[0x1008, 0x2000], &mut entries).unwrap();
    assert_eq!(ledger.to_string(), "asked 2 translated 1 faulted 1 absent 0 unsettled 0");
    assert_eq!(entries, Entries { numbers: vec![0, 1], outputs: vec![0x9_0008, 0] });
    assert_eq!((ledger + ledger).to_string(), "asked 4 translated 2 faulted 2 absent 0 unsettled 0");
}

#[test]
fn a_batch_has_its_limit() {
    let mut entries = Entries::default();
    assert!(batch(capture(&[]), &REGISTERS, READ, &[0; BATCH], &mut entries).is_ok());
    assert_eq!(batch(capture(&[]), &REGISTERS, READ, &[0; BATCH + 1], &mut entries), Err(Refusal::BatchLists));
}

#[test]
fn the_longest_line_has_room() {
    let most = humpelkaas::Ledger { asked: u64::MAX, translated: u64::MAX, faulted: u64::MAX, absent: u64::MAX, unsettled: u64::MAX };
    let n = u64::MAX;
    assert_eq!(most.to_string(), format!("asked {n} translated {n} faulted {n} absent {n} unsettled {n}"));
}

#[test]
fn case_m() {
    let grants = [Grant { address: 0x9_0000, bytes: 0x1000 }, Grant { address: 0x4000_3000, bytes: 0x3000 }];
    let tables = [Table { address: 0x4000_1000, level: 2 }, Table { address: 0x4000_2000, level: 3 }];
    let bytes = memory();
    assert_eq!(audit(capture(&bytes), &REGISTERS.el2, &grants, &tables), AuditAnswer::Clean);
    let found = audit(capture(&bytes), &REGISTERS.el2, &grants[1..], &tables);
    assert_eq!(found, AuditAnswer::Found { finding: Finding::OutsideGrants, address: 0x4000_2280 });
    assert_eq!(found.to_string(), "finding 4 at 0x40002280: the entry maps a range that is not inside one grant");
    assert_eq!(
        audit(capture(&bytes), &REGISTERS.el2, &[], &tables[..1]).to_string(),
        "finding 3 at 0x40001000: the entry leads to a table that is not listed one level lower down"
    );
    assert_eq!(
        audit(capture(&bytes[..0x1000]), &REGISTERS.el2, &[], &tables),
        AuditAnswer::Found { finding: Finding::NotCaptured, address: 0x4000_1000 }
    );
    let backwards = [tables[1], tables[0]];
    assert_eq!(audit(capture(&bytes), &REGISTERS.el2, &[], &backwards), AuditAnswer::Refused(Refusal::AuditLists));
}
