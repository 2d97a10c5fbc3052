//! Core files through the crate's types: their banks, and the three calls over them.
use humpelkaas::{audit, banks, batch, calls, translate, Access, Answer, AuditAnswer, Bank, Capture, El1, El2, Entries};
use humpelkaas::{Finding, Grant, Kind, Refusal, Registers, Stage, Table, BANKS};

const BASE: u64 = 0x4000_0000;
const READ: Access = Access { kind: Kind::Read, el: 0, size: 8 };
const REGISTERS: Registers = Registers {
    el2: El2 { pamax: 40, hcr_el2: 0x8000_0001, vtcr_el2: 0x2_0059, vttbr_el2: BASE, sctlr_el2: 0 },
    el1: El1 { sctlr_el1: 5, tcr_el1: 0x2_0080_0019, ttbr0_el1: 0x1000, ttbr1_el1: 0, mair_el1: 0xff },
};

/// The tables of document 01's cases.
const WORDS: [(usize, u64); 9] = [
    (0x0000, 0x4000_1003),
    (0x1000, 0x4000_2003),
    (0x2008, 0x4000_37ff),
    (0x2010, 0x4000_47ff),
    (0x2018, 0x4000_57ff),
    (0x2280, 0x9_07ff),
    (0x3000, 0x2003),
    (0x4000, 0x3003),
    (0x5008, 0x5_0743),
];

fn memory() -> Vec<u8> {
    let mut bytes = vec![0; 0x6000];
    WORDS.iter().for_each(|(at, word)| bytes[*at..at + 8].copy_from_slice(&word.to_le_bytes()));
    bytes
}

/// A core file with a bank for each part of the memory, one behind the other.
fn core(parts: &[std::ops::Range<usize>]) -> Vec<u8> {
    let mut file = b"\x7fELF\x02\x01\x01".to_vec();
    file.resize(64, 0);
    for (at, half) in [(16, 4), (18, 183), (32, 64), (54, 56), (56, parts.len() as u16)] {
        file[at..at + 2].copy_from_slice(&half.to_le_bytes());
    }
    let mut offset = 64 + 56 * parts.len();
    for part in parts {
        let words = [1, offset as u64, 0, BASE + part.start as u64, part.len() as u64, 0, 0];
        file.extend(words.iter().flat_map(|word| word.to_le_bytes()));
        offset += part.len();
    }
    parts.iter().for_each(|part| file.extend(&memory()[part.clone()]));
    file
}

#[test]
fn the_banks_of_a_file() {
    let file = core(&[0..0x3000, 0x3000..0x3008, 0x5000..0x6000]);
    let bank = |address, offset, length, short| Bank { address: BASE + address, offset, length, short };
    let whole = [bank(0, 0xe8, 0x3000, false), bank(0x3000, 0x30e8, 8, false), bank(0x5000, 0x30f0, 0x1000, false)];
    assert_eq!(banks(&file), Ok(whole.to_vec()));
    // Cut within the second: of the third there is nothing.
    let cut = [whole[0], bank(0x3000, 0x30e8, 3, true), bank(0x5000, 0x30f0, 0, true)];
    assert_eq!(banks(&file[..0x30eb]), Ok(cut.to_vec()));
    assert_eq!(banks(&core(&[])), Ok(vec![]));
}

#[test]
fn as_many_banks_as_there_may_be() {
    let words = |count: usize| core(&(0..count).map(|index| 8 * index..8 * index + 8).collect::<Vec<_>>());
    assert_eq!(banks(&words(BANKS)).map(|banks| banks.len()), Ok(BANKS));
    assert_eq!(banks(&words(BANKS + 1)), Err(Refusal::CoreFile));
    let mut lists = [[7; BANKS]; 4];
    let [addresses, offsets, lengths, shorts] = &mut lists;
    let words = calls::banks(&words(BANKS), addresses, &mut offsets[1..], lengths, shorts);
    assert_eq!((words.number, lists), (10, [[7; BANKS]; 4]));
}

#[test]
fn the_same_as_over_raw_bytes() {
    let (memory, file) = (memory(), core(&[0..0x2010, 0x2010..0x4000, 0x4000..0x6000]));
    let (raw, core) = (Capture::Raw { base: BASE, bytes: &memory }, Capture::Core { file: &file });
    for address in [0x1008, 0x2000, 0x80_0000_0000] {
        assert_eq!(translate(core, &REGISTERS, READ, address), translate(raw, &REGISTERS, READ, address));
    }
    let mut entries = Entries::default();
    let ledger = batch(core, &REGISTERS, READ, &[0x1008, 0x2000], &mut entries).map(|ledger| ledger.to_string());
    assert_eq!(ledger.as_deref(), Ok("asked 2 translated 1 faulted 1 absent 0 unsettled 0"));
    assert_eq!(entries, Entries { numbers: vec![0, 1], outputs: vec![0x9_0008, 0] });
    let grants = [Grant { address: 0x9_0000, bytes: 0x1000 }, Grant { address: 0x4000_3000, bytes: 0x3000 }];
    let tables = [Table { address: 0x4000_1000, level: 2 }, Table { address: 0x4000_2000, level: 3 }];
    assert_eq!(audit(core, &REGISTERS.el2, &grants, &tables), AuditAnswer::Clean);
    assert_eq!(
        audit(core, &REGISTERS.el2, &grants[1..], &tables),
        AuditAnswer::Found { finding: Finding::OutsideGrants, address: 0x4000_2280 }
    );
}

#[test]
fn a_descriptor_across_two_banks() {
    let file = core(&[0..0x200c, 0x200c..0x6000]);
    let absent = Answer::Absent { address: 0x4000_2008, stage: Stage::Two { onwalk: true }, level: 3 };
    assert_eq!(translate(Capture::Core { file: &file }, &REGISTERS, READ, 0x1008).answer, absent);
}

/// 17 comes before all other refusals.
#[test]
fn a_file_that_is_none() {
    let core = Capture::Core { file: b"\x7fELF" };
    let refused = translate(core, &Registers::default(), Access { el: 2, ..READ }, 0).answer;
    assert_eq!((refused, refused.number()), (Answer::Refused(Refusal::CoreFile), 17));
    assert!(refused.to_string().starts_with("refused: the file is no ELF64 core file of this kind"), "{refused}");
    assert_eq!(batch(core, &Registers::default(), READ, &[0; 5000], &mut Entries::default()), Err(Refusal::CoreFile));
    assert_eq!(audit(core, &El2::default(), &[], &[]), AuditAnswer::Refused(Refusal::CoreFile));
    assert_eq!(banks(b"\x7fELF"), Err(Refusal::CoreFile));
}
