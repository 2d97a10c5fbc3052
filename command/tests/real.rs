//! The tables of a real guest: a Linux that KVM runs, as a core file, held to the emulated processor's own answers.
mod common;

use common::walk::{check_steps, Question};
use common::{core, Bench, Memory, Ran, Registers};
use serde_json::{json, Value};
use std::thread;

fn bytes(name: &str) -> Vec<u8> {
    let path = format!("{}/../tests/real/{name}", env!("CARGO_MANIFEST_DIR"));
    std::fs::read(&path).unwrap_or_else(|error| panic!("{path}: {error}"))
}

fn text(name: &str) -> String {
    String::from_utf8(bytes(name)).expect("text")
}

fn number(text: &str) -> u64 {
    match text.strip_prefix("0x") {
        Some(digits) => u64::from_str_radix(digits, 16).expect("a hexadecimal number"),
        None => text.parse().expect("a decimal number"),
    }
}

fn registers() -> Registers {
    let text = text("registers");
    let of = |name: &str| {
        let line = text.lines().find(|line| line.split(" = ").next() == Some(name)).expect("a register");
        number(line.rsplit(' ').next().expect("a value"))
    };
    Registers {
        pamax: of("PAMAX"),
        hcr_el2: of("HCR_EL2"),
        vtcr_el2: of("VTCR_EL2"),
        vttbr_el2: of("VTTBR_EL2"),
        sctlr_el2: of("SCTLR_EL2"),
        sctlr_el1: of("SCTLR_EL1"),
        tcr_el1: of("TCR_EL1"),
        ttbr0_el1: of("TTBR0_EL1"),
        ttbr1_el1: of("TTBR1_EL1"),
        mair_el1: of("MAIR_EL1"),
    }
}

fn bench() -> Bench {
    let bench = Bench::core(&bytes("guest-tables.core"), &registers());
    bench.write("grants", text("grants"));
    bench.write("tables", text("tables"));
    bench
}

/// KVM sets a bit that this processor does not have.
const WARNING: &str = "humpelkaas: warning: set and out of scope: VTCR_EL2.HA: \
    answers are those of Arm's first edition, which has none of these\n";

/// How a file of addresses was asked.
const ASKED: [(&str, &str); 4] = [
    ("el0-read", "--el 0 --kind read --size 1"),
    ("el0-write", "--el 0 --kind write --size 1"),
    ("el1-read", "--el 1 --kind read --size 1"),
    ("el1-write", "--el 1 --kind write --size 1"),
];

/// What the processor said of an address.
enum Said {
    Translated { address: u64, memory: &'static str, shareability: &'static str },
    Fault { number: u64, level: u64, stage: u64, on_walk: bool },
}

/// A line of answers, `ADDRESS NAME=VALUE ..`.
fn said(line: &str) -> (u64, Said) {
    let mut words = line.split(' ');
    let asked = number(words.next().expect("an address"));
    let values: Vec<(&str, u64)> =
        words.map(|word| word.split_once('=').expect("NAME=VALUE")).map(|(name, value)| (name, number(value))).collect();
    let of = |wanted: &str| values.iter().find(|(name, _)| *name == wanted).map(|(_, value)| *value).expect("a value");
    if values[0].0 == "pa" {
        let memory = match of("attr") {
            0x00 => "Device nGnRnE",
            0x44 => "Normal Non-cacheable",
            0xff => "Normal Write-Back",
            other => panic!("attributes {other:#x}"),
        };
        let shareability = ["non-shareable", "", "outer shareable", "inner shareable"][of("sh") as usize];
        return (asked, Said::Translated { address: of("pa"), memory, shareability });
    }
    let status = of("fst");
    let number = [2, 1, 3, 4][(status >> 2) as usize];
    (asked, Said::Fault { number, level: status & 3, stage: 1 + of("s2"), on_walk: of("ptw") == 1 })
}

fn answers(name: &str) -> Vec<(u64, Said)> {
    text(&format!("answers-{name}")).lines().map(said).collect()
}

/// The lists of addresses are those of the answers, so that none is left out.
#[test]
fn a_thousand_each() {
    for (name, _) in ASKED {
        let asked: Vec<u64> = text(&format!("addresses-{name}")).lines().map(number).collect();
        let answered: Vec<u64> = answers(name).iter().map(|(address, _)| *address).collect();
        assert_eq!((asked.len(), asked), (1000, answered));
    }
}

#[test]
fn batches() {
    let bench = bench();
    for (name, access) in ASKED {
        bench.write("list", text(&format!("addresses-{name}")));
        let answers = answers(name);
        let line = |(asked, said): &(u64, Said)| match said {
            Said::Translated { address, .. } => format!("{asked:#x},0,{address:#x}\n"),
            Said::Fault { number, .. } => format!("{asked:#x},{number},0x0\n"),
        };
        let translated = answers.iter().filter(|(_, said)| matches!(said, Said::Translated { .. })).count();
        let faulted = answers.len() - translated;
        let ledger = format!("asked 1000 translated {translated} faulted {faulted} absent 0 unsettled 0\n");
        bench.over(&format!("batch --addresses list --output out.csv {access}")).ends(0).prints(&ledger).says(WARNING);
        let expected: String = answers.iter().map(line).collect();
        assert_eq!(bench.text("out.csv"), format!("address,answer,output\n{expected}"), "{name}");
    }
}

/// All that the processor tells of a question.
fn check(told: &Value, said: &Said) {
    let answer = &told["answer"];
    let of = |names: &[&str]| names.iter().map(|name| answer[*name].clone()).collect::<Value>();
    match said {
        Said::Translated { address, memory, shareability } => {
            let expected = json!([0, format!("{address:#x}"), memory, shareability]);
            assert_eq!(of(&["number", "address", "memory", "shareability"]), expected, "{told}");
        }
        Said::Fault { number, level, stage, on_walk } => {
            assert_eq!(of(&["number", "level", "stage", "on_walk"]), json!([number, level, stage, on_walk]), "{told}");
        }
    }
}

/// Physical memory with what the core file has, and zeros between.
fn memory() -> Memory {
    let banks = core::banks(&bytes("guest-tables.core"));
    let (first, last) = (&banks[0], &banks[banks.len() - 1]);
    let mut memory = Memory::zeros(first.address, (last.address - first.address) as usize + last.bytes.len());
    for bank in &banks {
        memory.bytes[(bank.address - first.address) as usize..][..bank.bytes.len()].copy_from_slice(&bank.bytes);
    }
    memory
}

/// Asks every second address of all lists, from one on.
fn ask(from: usize) -> usize {
    let bench = bench();
    let mut question = Question { registers: registers(), access: String::new(), address: 0, memory: memory() };
    let mut asked = 0;
    for (name, access) in ASKED {
        for (address, said) in answers(name).iter().skip(from).step_by(2) {
            let ran = bench.over(&format!("ask {address:#x} {access} --json")).ends(0);
            let told = ran.says(WARNING).json();
            check(&told, said);
            question.address = *address;
            check_steps(&question, &told);
            asked += 1;
        }
    }
    asked
}

/// Each answer with its attributes or its fault's place, and each descriptor of its walk.
#[test]
fn questions() {
    let asked = thread::scope(|scope| {
        let other = scope.spawn(|| ask(1));
        ask(0) + other.join().expect("the other half")
    });
    assert_eq!(asked, 4000);
}

// The audit

#[must_use]
fn audit(bench: &Bench) -> Ran {
    bench.over("audit --grants grants --tables tables")
}

#[test]
fn a_clean_audit() {
    let expected = "clean\nevery access of the guest through the root and 20 listed tables stays in its 20 grants, whatever it does\n";
    audit(&bench()).ends(0).prints(expected).says(WARNING);
}

/// Whichever table is left out, the entry that leads to it is found.
#[test]
fn without_one_table() {
    let bench = bench();
    let tables = text("tables");
    let memory = memory();
    for left_out in tables.lines() {
        bench.write("tables", tables.replace(&format!("{left_out}\n"), ""));
        let ran = audit(&bench).ends(1).says(WARNING);
        let entry = number(ran.first_line().strip_prefix("finding 3 ").expect("finding 3"));
        let table = number(left_out.split(' ').next().expect("an address"));
        assert_eq!(memory.descriptor(entry), Some(table | 3));
        ran.shows(&[&format!("leads to the table at {table:#x}, for IPAs")]);
    }
}

/// The root has two tables side by side. Either is enough.
#[test]
fn with_the_root_granted() {
    let root = registers().vttbr_el2 & ((1 << 48) - 1) & !0x1fff;
    for granted in [root, root + 0x1000] {
        let bench = bench();
        let line = |line: &str| line.split(' ').map(number).collect::<Vec<_>>();
        let mut grants: Vec<Vec<u64>> = text("grants").lines().map(line).chain([vec![granted, 0x1000]]).collect();
        grants.sort();
        bench.write("grants", joined(&grants));
        let ran = audit(&bench).ends(1).says(WARNING);
        assert_eq!(ran.first_line(), format!("finding 2 {root:#x}"));
    }
}

/// Grants as lines, with those that meet joined.
fn joined(grants: &[Vec<u64>]) -> String {
    let mut joined: Vec<[u64; 2]> = Vec::new();
    for grant in grants {
        match joined.last_mut() {
            Some(last) if last[0] + last[1] == grant[0] => last[1] += grant[1],
            _ => joined.push([grant[0], grant[1]]),
        }
    }
    joined.iter().map(|[address, bytes]| format!("{address:#x} {bytes:#x}\n")).collect()
}

/// The last page of any grant withheld: an entry that maps it is found.
#[test]
fn with_a_mapped_page_withheld() {
    let bench = bench();
    let memory = memory();
    let grants: Vec<Vec<u64>> = text("grants").lines().map(|line| line.split(' ').map(number).collect()).collect();
    for (index, grant) in grants.iter().enumerate() {
        let withheld = grant[0] + grant[1] - 0x1000;
        let mut fewer = grants.clone();
        fewer[index][1] -= 0x1000;
        bench.write("grants", joined(&fewer));
        let ran = audit(&bench).ends(1).says(WARNING);
        let entry = number(ran.first_line().strip_prefix("finding 4 ").expect("finding 4"));
        let value = memory.descriptor(entry).expect("an entry");
        // A page, or a block of 2 MB.
        let (from, size) = if value & 3 == 3 { (value & 0xffff_ffff_f000, 0x1000) } else { (value & 0xffff_ffe0_0000, 0x20_0000) };
        assert!(from <= withheld && withheld < from + size, "{entry:#x} maps {from:#x}, not {withheld:#x}");
    }
}

#[test]
fn the_map_keeps_to_the_grants() {
    let ran = bench().over("map --grants grants").ends(0);
    ran.shows(&["  0x8010000-0x8011fff    0x8040000-0x8041fff      8 KiB  rw-     Device nGnRE, outer shareable\n"]);
}
