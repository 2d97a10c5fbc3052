//! Every refusal: its number, what it means and what to do, exit status 2, and nothing written.
mod common;

use common::{Bench, Memory, Registers};
use serde_json::json;

/// A refusal, the registers that meet it, and what is said.
struct Refused {
    /// As it is printed first: "refused NUMBER ITEM".
    numbers: &'static str,
    registers: Registers,
    meaning: &'static str,
    todo: &'static str,
}

const BOARD: &str = "check that the registers were read on the board while the guest ran, in Non-secure AArch64 state";

fn settings(numbers: &'static str, meaning: &'static str, change: fn(&mut Registers)) -> Refused {
    let mut registers = Registers::cases();
    change(&mut registers);
    Refused { numbers, registers, meaning, todo: BOARD }
}

/// Both stages are on in the cases, so that each item is met.
fn items() -> Vec<Refused> {
    let pamax = "settings, item 1: PAMax is not 32, 36, 40, 42, 44 or 48";
    let ee = "settings, item 4: EE (bit 25) is 1 in SCTLR_EL1 with stage 1 on, or in SCTLR_EL2 with stage 2 on";
    let t0 = "settings, item 6: TCR_EL1.T0SZ (bits 5:0) is not 16 to 39, or TG0 (bits 15:14) is not 0 (4KB), 1 (64KB) or 2 (16KB), with EPD0 (bit 7) 0";
    let t1 = "settings, item 7: TCR_EL1.T1SZ (bits 21:16) is not 16 to 39, or TG1 (bits 31:30) is not 1 (16KB), 2 (4KB) or 3 (64KB), with EPD1 (bit 23) 0";
    let vt = "settings, item 9: VTCR_EL2.T0SZ (bits 5:0) is not 16 to 39, or TG0 (bits 15:14) is not 0 (4KB), 1 (64KB) or 2 (16KB), or 64 - T0SZ is over PAMax";
    let parange = |refused| Refused { todo: "set PAMAX to what the board's ID_AA64MMFR0_EL1.PARange says, in bits", ..refused };
    vec![
        parange(settings("refused 12 1", pamax, |r| r.pamax = 39)),
        parange(settings("refused 12 1", pamax, |r| r.pamax = 0)),
        settings("refused 12 2", "settings, item 2: HCR_EL2.TGE (bit 27) is 1", |r| r.hcr_el2 |= 1 << 27),
        settings("refused 12 3", "settings, item 3: HCR_EL2.RW (bit 31) is 0", |r| r.hcr_el2 &= !(1 << 31)),
        settings("refused 12 4", ee, |r| r.sctlr_el1 |= 1 << 25),
        settings("refused 12 4", ee, |r| r.sctlr_el2 |= 1 << 25),
        settings("refused 12 5", "settings, item 5: TCR_EL1.IPS (bits 34:32) is over 5", |r| r.tcr_el1 |= 6 << 32),
        settings("refused 12 6", t0, |r| r.tcr_el1 = 0x2_0080_0028),
        settings("refused 12 6", t0, |r| r.tcr_el1 |= 3 << 14),
        settings("refused 12 7", t1, |r| r.tcr_el1 = 0x2_8000_0019),
        settings("refused 12 7", t1, |r| r.tcr_el1 = 0x2_0019_0019),
        settings("refused 12 7", t1, |r| r.tcr_el1 = 0x2_8028_0019),
        settings("refused 12 8", "settings, item 8: VTCR_EL2.PS (bits 18:16) is over 5", |r| r.vtcr_el2 = 0x6_0059),
        settings("refused 12 9", vt, |r| r.vtcr_el2 = 0x2_0068),
        settings("refused 12 9", vt, |r| r.vtcr_el2 |= 3 << 14),
        settings("refused 12 9", vt, |r| r.pamax = 36),
        // The first item that fails is told.
        settings("refused 12 2", "settings, item 2: HCR_EL2.TGE (bit 27) is 1", |r| r.hcr_el2 = 1 << 27 | 1),
    ]
}

const LIST: &str = "0x1008\n0x2000\n";

/// A batch that is refused says so, and leaves no results, no ledger and no old results changed.
#[track_caller]
fn refuses_a_batch(bench: &Bench, words: &str, said: &str) {
    bench.write("list", LIST);
    bench.over(&format!("batch --addresses list {words}")).ends(2).prints("").says(said);
    bench.over(&format!("batch --addresses list {words} --output out.csv")).ends(2).prints("").says(said);
    assert!(!bench.path("out.csv").exists());
    bench.write("out.csv", "old");
    bench.over(&format!("batch --addresses list {words} --output out.csv")).ends(2).prints("").says(said);
    assert_eq!(bench.text("out.csv"), "old");
    assert_eq!(bench.names(), ["capture.bin", "guest.registers", "list", "out.csv"]);
}

#[test]
fn settings_of_one_question() {
    for Refused { numbers, registers, meaning, todo } in items() {
        let bench = Bench::new(&Memory::cases(), &registers);
        let printed = format!("0x1008, read of 8 bytes at EL1: {numbers}: {meaning}.\nWhat to do: {todo}.\n");
        bench.over("ask 0x1008").ends(2).prints(&printed).says("");
        let json = bench.over("ask 0x1008 --json").ends(2).json();
        let item: u64 = numbers.rsplit(' ').next().unwrap().parse().unwrap();
        let answer = json!({ "number": 12, "item": item, "words": format!("refused: {meaning}"), "what_to_do": todo });
        assert_eq!((&json["answer"], &json["steps"], &json["reads"]), (&answer, &json!([]), &json!(0)));
    }
}

#[test]
fn settings_of_a_batch() {
    for Refused { numbers, registers, meaning, todo } in items() {
        let bench = Bench::new(&Memory::cases(), &registers);
        refuses_a_batch(&bench, "", &format!("humpelkaas: {numbers}: {meaning}.\nWhat to do: {todo}.\n"));
    }
}

/// An audit and a map go by the hypervisor's registers alone.
#[test]
fn settings_of_an_audit_and_a_map() {
    for Refused { numbers, registers, meaning, todo } in items() {
        let bench = Bench::new(&Memory::cases(), &registers);
        bench.write("grants", "0x90000 0x1000\n0x40003000 0x3000\n");
        bench.write("tables", "0x40001000 2\n0x40002000 3\n");
        let audit = "audit --grants grants --tables tables";
        let of_the_guest = ["5", "6", "7"].iter().any(|item| numbers.ends_with(item)) || registers.sctlr_el1 >> 25 == 1;
        if of_the_guest {
            bench.over(audit).ends(0);
            bench.over("map").ends(0);
            continue;
        }
        bench.over(audit).ends(2).prints(&format!("{numbers}\n{meaning}.\nWhat to do: {todo}.\n")).says("");
        let json = bench.over(&format!("{audit} --json")).ends(2).json();
        assert_eq!((&json["number"], &json["address"]), (&json!(12), &json!(null)));
        assert_eq!(json["answer"], json!(numbers));
        let said = format!("humpelkaas: guest.registers: {numbers}: {meaning}.\nWhat to do: {todo}.\n");
        bench.over("map --svg map.svg").ends(2).prints("").says(&said);
        assert!(!bench.path("map.svg").exists());
    }
}

/// What to do stands in JSON too, for whoever shows it to people.
#[test]
fn an_audits_refusal_in_json() {
    let bench = Bench::new(&Memory::cases(), &Registers { pamax: 39, ..Registers::cases() });
    bench.write("grants", "");
    bench.write("tables", "");
    let json = bench.over("audit --grants grants --tables tables --json").ends(2).json();
    assert_eq!(json["what_to_do"], json!("set PAMAX to what the board's ID_AA64MMFR0_EL1.PARange says, in bits"));
}

#[test]
fn a_capture_that_ends_too_high() {
    let said = "refused 11: the capture's base plus its length, or a bank's address plus its size, is over 2^48.\n\
        What to do: check --base or, with the verb banks, the core file's addresses: physical memory lies below 2^48.\n";
    let high = |base| Bench::new(&Memory { base, bytes: vec![0; 0x1000] }, &Registers::cases());
    for base in [0xffff_ffff_f001, u64::MAX, u64::MAX - 0xfff] {
        let bench = high(base);
        bench.over("ask 0x1008").ends(2).prints(&format!("0x1008, read of 8 bytes at EL1: {said}")).says("");
        bench.write("lists", "");
        let printed = said.replacen(": ", "\n", 1);
        bench.over("audit --grants lists --tables lists").ends(2).prints(&printed).says("");
        bench.over("map").ends(2).prints("").says(&format!("humpelkaas: guest.registers: {said}"));
        std::fs::remove_file(bench.path("lists")).expect("the lists");
        refuses_a_batch(&bench, "", &format!("humpelkaas: {said}"));
    }
    // It may end at 2^48.
    assert_eq!(high(0xffff_ffff_f000).over("ask 0x1008 --json").ends(1).json()["answer"]["number"], json!(6));
}

#[test]
fn an_access_that_is_not_listed() {
    let said = "refused 13: the kind is not 0 to 2, the EL not 0 or 1, or the size not 1, 2, 4, 8 or 16.\nWhat to do: check --kind, --el and --size.\n";
    for (words, access) in [
        ("--kind 3", "kind 3 of 8 bytes at EL1"),
        ("--el 2", "read of 8 bytes at EL2"),
        ("--size 3", "read of 3 bytes at EL1"),
        ("--size 0", "read of 0 bytes at EL1"),
        ("--size 32", "read of 32 bytes at EL1"),
        ("--kind 0xffffffffffffffff --el 1", "kind 18446744073709551615 of 8 bytes at EL1"),
    ] {
        let bench = Bench::cases();
        bench.over(&format!("ask 0x1008 {words}")).ends(2).prints(&format!("0x1008, {access}: {said}")).says("");
        refuses_a_batch(&bench, words, &format!("humpelkaas: {said}"));
    }
    let json = Bench::cases().over("ask 0x1008 --json --size 3").ends(2).json();
    assert_eq!((&json["answer"]["number"], &json["answer"]["item"]), (&json!(13), &json!(null)));
    assert_eq!(json["answer"]["what_to_do"], json!("check --kind, --el and --size"));
}

/// Lines ADDRESS BYTES for so many grants of a page, with a gap after each; and lines ADDRESS LEVEL.
fn grants(count: u64) -> String {
    (0..count).map(|index| format!("{:#x} 0x1000\n", 0x8000_0000 + index * 0x2000)).collect()
}

fn tables(count: u64) -> String {
    (0..count).map(|index| format!("{:#x} 3\n", 0x4000_1000 + index * 0x1000)).collect()
}

#[test]
fn lists_of_an_audit() {
    let said = "refused 15\nthe list of grants or of tables is malformed.\n\
        What to do: grants: ADDRESS BYTES in multiples of 4,096, ascending, with a gap between neighbours, at most 256; tables: ADDRESS LEVEL, addresses in multiples of stage 2's granule (4,096, 16,384 or 65,536 by VTCR_EL2.TG0), level 1 to 3, ascending, none twice, at most 1,024.\n";
    let bench = Bench::cases();
    let audit = |grants: &str, tables: &str| {
        bench.write("grants", grants);
        bench.write("tables", tables);
        bench.over("audit --grants grants --tables tables")
    };
    for grants in [
        "0x90001 0x1000",
        "0x90000 0xfff",
        "0x90000 0",
        "0x90000 0x1000\n0x91000 0x1000",
        "0x92000 0x1000\n0x90000 0x1000",
        "0x90000 0x1000\n0x90000 0x1000",
        "0xfffffffff000 0x2000",
        &grants(257),
    ] {
        audit(grants, "").ends(2).prints(said).says("");
    }
    for tables in
        ["0x40001008 2", "0x40001000 0", "0x40001000 4", "0x40002000 3\n0x40001000 2", "0x40001000 2\n0x40001000 2", &tables(1025)]
    {
        audit("", tables).ends(2).prints(said).says("");
    }
    // The most that there may be: the tables' are then found not to be in the capture.
    audit(&grants(256), "0x40001000 2\n0x40002000 3\n").ends(1);
    audit(&grants(256), &tables(1024)).ends(1);
    let json = {
        audit("0x90000 0", "");
        bench.over("audit --grants grants --tables tables --json").ends(2).json()
    };
    assert_eq!((&json["answer"], &json["number"]), (&json!("refused 15"), &json!(15)));
}

/// Stage 2 is off, or faults every IPA before any read: a start level of -1, a root that is too long, a base beyond the output size.
#[test]
fn no_usable_root() {
    let said = "there is no usable stage 2 root: stage 2 is off, or it faults every IPA before any read.\n\
        What to do: check HCR_EL2.VM and VTTBR_EL2 of this guest, VTCR_EL2's SL0 and T0SZ for its granule (TG0), and the board's PAMAX.\n";
    let cases = Registers::cases();
    for registers in [
        Registers { hcr_el2: 0x8000_0000, ..cases },
        Registers { vtcr_el2: 0x2_00d9, ..cases },
        Registers { vtcr_el2: 0x2_0019, ..cases },
        Registers { vttbr_el2: 0x100_0000_0000, ..cases },
        // PS says 48, which PAMax lowers to 40.
        Registers { vtcr_el2: 0x5_0059, vttbr_el2: 0x100_0000_0000, ..cases },
    ] {
        let bench = Bench::new(&Memory::cases(), &registers);
        bench.write("lists", "");
        bench.over("audit --grants lists --tables lists").ends(2).prints(&format!("refused 16\n{said}")).says("");
        let json = bench.over("audit --grants lists --tables lists --json").ends(2).json();
        assert_eq!((&json["answer"], &json["number"], &json["item"]), (&json!("refused 16"), &json!(16), &json!(null)));
        bench.over("map --svg map.svg").ends(2).prints("").says(&format!("humpelkaas: guest.registers: refused 16: {said}"));
        assert_eq!(bench.names(), ["capture.bin", "guest.registers", "lists"]);
    }
}

/// A map's refusals come in the order of an audit's: 11, 12, 16.
#[test]
fn the_order_of_a_maps_refusals() {
    let off = Registers { hcr_el2: 0x8000_0000, ..Registers::cases() };
    for (base, registers, first) in [
        (u64::MAX, Registers { pamax: 39, ..off }, "refused 11:"),
        (0x4000_0000, Registers { pamax: 39, ..off }, "refused 12 1:"),
        (0x4000_0000, off, "refused 16:"),
    ] {
        let bench = Bench::new(&Memory { base, ..Memory::cases() }, &registers);
        bench.write("lists", "");
        bench.over("audit --grants lists --tables lists").ends(2).shows(&[first.trim_end_matches(':')]);
        bench.over("map").ends(2).warns(&[first]);
    }
}

/// Of two guests the second may be the one that is refused: it is named, and nothing is shown of the first.
#[test]
fn the_second_guest() {
    let bench = Bench::cases();
    bench.write("second.registers", Registers { hcr_el2: 0x8000_0000, ..Registers::cases() }.text());
    let ran = bench.over("map --svg map.svg --registers second.registers").ends(2).prints("");
    ran.warns(&["humpelkaas: second.registers: refused 16: "]);
    assert!(!bench.path("map.svg").exists());
}
