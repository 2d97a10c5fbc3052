//! `humpelkaas ask`: document 01's cases A to L, in words and as JSON. Larger granules are asked in granules.rs.
mod common;

use common::{Bench, Memory, Registers};
use serde_json::{json, Value};

/// A case: what differs, and what is printed.
struct Case {
    name: &'static str,
    /// Words of the capture that differ, and how many bytes it has.
    words: &'static [(u64, u64)],
    length: usize,
    registers: Registers,
    /// The arguments.
    asked: &'static str,
    status: i32,
    /// The first line.
    line: &'static str,
    /// What the last read says, and how many there are.
    last: Option<&'static str>,
    reads: usize,
    /// The answer in JSON, but for its words.
    answer: Value,
}

fn case(name: &'static str, asked: &'static str) -> Case {
    Case {
        name,
        words: &[],
        length: 0x8000,
        registers: Registers::cases(),
        asked,
        status: 0,
        line: "",
        last: None,
        reads: 0,
        answer: Value::Null,
    }
}

const PAGE_A: &str = "page of 0x1000 at 0x90000, rwx, Normal Write-Back, inner shareable";

fn cases() -> Vec<Case> {
    vec![
        Case {
            line: "0x1008, read of 8 bytes at EL0: translated to 0x90008, Normal Write-Back, inner shareable, leaf levels 3 and 3 (answer 0, 15 descriptors read)",
            last: Some(PAGE_A),
            reads: 15,
            answer: json!({ "number": 0, "address": "0x90008", "memory": "Normal Write-Back", "shareability": "inner shareable", "level1": 3, "level2": 3 }),
            ..case("A", "0x1008 --el 0")
        },
        Case {
            words: &[(0x4000_2280, 0x9_077f)],
            line: "0x1008, write of 8 bytes at EL0: permission fault, stage 2, level 3, IPA 0x50008 (answer 4, 15 descriptors read)",
            last: Some("page of 0x1000 at 0x90000, r-x, Normal Write-Back, inner shareable: this access is not permitted"),
            reads: 15,
            answer: json!({ "number": 4, "stage": 2, "level": 3, "on_walk": false, "ipa": "0x50008" }),
            ..case("B", "0x1008 --el 0 --kind write")
        },
        Case {
            words: &[(0x4000_2010, 0)],
            line: "0x1008, read of 8 bytes at EL0: translation fault, stage 2 on a stage 1 walk, level 3, IPA 0x2000 (answer 1, 7 descriptors read)",
            last: Some("invalid"),
            reads: 7,
            answer: json!({ "number": 1, "stage": 2, "level": 3, "on_walk": true, "ipa": "0x2000" }),
            ..case("C", "0x1008 --el 0")
        },
        Case {
            words: &[(0x4000_5008, 0x5_0343)],
            line: "0x1008, read of 8 bytes at EL0: access flag fault, stage 1, level 3 (answer 3, 12 descriptors read)",
            last: Some("page of 0x1000 at 0x50000, EL1 rw- EL0 rwx, Normal Write-Back, inner shareable: access flag clear"),
            reads: 12,
            answer: json!({ "number": 3, "stage": 1, "level": 3, "on_walk": false, "ipa": null }),
            ..case("D", "0x1008 --el 0")
        },
        Case {
            length: 0x4000,
            status: 1,
            line: "0x1008, read of 8 bytes at EL0: not in the capture: the descriptor at 0x40004000, stage 1, level 2 (answer 6, 7 descriptors read)",
            last: Some("page of 0x1000 at 0x40004000, rwx, Normal Write-Back, inner shareable"),
            reads: 7,
            answer: json!({ "number": 6, "address": "0x40004000", "stage": 1, "level": 2, "on_walk": false }),
            ..case("E", "0x1008 --el 0")
        },
        Case {
            line: "0x8000000000, read of 8 bytes at EL0: translation fault, stage 1, level 0 (answer 1, 0 descriptors read)",
            answer: json!({ "number": 1, "stage": 1, "level": 0, "on_walk": false, "ipa": null }),
            ..case("F", "0x8000000000 --el 0")
        },
        Case {
            line: "0x7fffffffff, read of 1 byte at EL0: translation fault, stage 1, level 1 (answer 1, 4 descriptors read)",
            last: Some("invalid"),
            reads: 4,
            answer: json!({ "number": 1, "stage": 1, "level": 1, "on_walk": false, "ipa": null }),
            ..case("G", "0x7FFFFFFFFF --el 0 --size 1")
        },
        Case {
            line: "0x1008, fetch of 8 bytes at EL1: permission fault, stage 1, level 3 (answer 4, 12 descriptors read)",
            last: Some("page of 0x1000 at 0x50000, EL1 rw- EL0 rwx, Normal Write-Back, inner shareable: this access is not permitted"),
            reads: 12,
            answer: json!({ "number": 4, "stage": 1, "level": 3, "on_walk": false, "ipa": null }),
            ..case("H", "0x1008 --el 1 --kind fetch")
        },
        Case {
            registers: Registers { vtcr_el2: 0x2_00d9, ..Registers::cases() },
            line: "0x1008, read of 8 bytes at EL0: translation fault, stage 2 on a stage 1 walk, level 0, IPA 0x1000 (answer 1, 0 descriptors read)",
            answer: json!({ "number": 1, "stage": 2, "level": 0, "on_walk": true, "ipa": "0x1000" }),
            ..case("I", "0x1008 --el 0")
        },
        Case {
            registers: Registers { sctlr_el1: 0, ..Registers::cases() },
            line: "0x50008, read of 8 bytes at EL0: translated to 0x90008, Device nGnRnE, outer shareable, leaf levels 0 and 3 (answer 0, 3 descriptors read)",
            last: Some(PAGE_A),
            reads: 3,
            answer: json!({ "number": 0, "address": "0x90008", "memory": "Device nGnRnE", "shareability": "outer shareable", "level1": 0, "level2": 3 }),
            ..case("J", "0x50008 --el 0")
        },
        Case {
            registers: Registers { sctlr_el1: 0, ..Registers::cases() },
            line: "0x50009, read of 8 bytes at EL0: alignment fault, stage 1 (answer 5, 0 descriptors read)",
            answer: json!({ "number": 5, "stage": 1, "ipa": null }),
            ..case("K", "0x50009 --el 0")
        },
        Case {
            registers: Registers { tcr_el1: 0x2_0080_0028, ..Registers::cases() },
            status: 2,
            line: "0x1008, read of 8 bytes at EL0: refused 12 6: settings, item 6: TCR_EL1.T0SZ (bits 5:0) is not 16 to 39, or TG0 (bits 15:14) is not 0 (4KB), 1 (64KB) or 2 (16KB), with EPD0 (bit 7) 0.",
            answer: json!({
                "number": 12,
                "item": 6,
                "what_to_do": "check that the registers were read on the board while the guest ran, in Non-secure AArch64 state",
            }),
            ..case("L", "0x1008 --el 0")
        },
        // T0SZ of 39 is an input size of 25 bits: stage 1 starts at level 2, and finds no entry 1 in what is then a table of level 3.
        Case {
            registers: Registers { tcr_el1: 0x2_0080_0027, ..Registers::cases() },
            line: "0x1008, read of 8 bytes at EL0: translation fault, stage 1, level 3 (answer 1, 8 descriptors read)",
            last: Some("invalid"),
            reads: 8,
            answer: json!({ "number": 1, "stage": 1, "level": 3, "on_walk": false, "ipa": null }),
            ..case("L, passed", "0x1008 --el 0")
        },
        // Stage 2's inner cacheability of 0 has no meaning.
        Case {
            words: &[(0x4000_2280, 0x9_07f3)],
            status: 1,
            line: "0x1008, read of 8 bytes at EL0: unsettled by Arm, stage 2, level 3 (answer 7, 15 descriptors read)",
            last: Some("page of 0x1000 at 0x90000, ---, attributes unsettled by Arm: unsettled by Arm"),
            reads: 15,
            answer: json!({ "number": 7, "stage": 2, "level": 3, "on_walk": false }),
            ..case("unsettled", "0x1008 --el 0")
        },
        // An output size of 36 bits, and a page above it.
        Case {
            words: &[(0x4000_2280, 0x10_0009_07ff)],
            registers: Registers { vtcr_el2: 0x1_0059, ..Registers::cases() },
            line: "0x1008, read of 8 bytes at EL0: address size fault, stage 2, level 3, IPA 0x50008 (answer 2, 15 descriptors read)",
            last: Some("page of 0x1000 at 0x1000090000, rwx, Normal Write-Back, inner shareable: its address has more bits than PS or PAMax allows"),
            reads: 15,
            answer: json!({ "number": 2, "stage": 2, "level": 3, "on_walk": false, "ipa": "0x50008" }),
            ..case("address size", "0x1008 --el 0")
        },
        // IPS says 48 bits, PAMax 40, and a page of stage 1 is past 2^40.
        Case {
            words: &[(0x4000_5008, 0x100_0005_0743)],
            registers: Registers { tcr_el1: 0x5_0080_0019, ..Registers::cases() },
            line: "0x1008, read of 8 bytes at EL0: address size fault, stage 1, level 3 (answer 2, 12 descriptors read)",
            last: Some("page of 0x1000 at 0x10000050000, EL1 rw- EL0 rwx, Normal Write-Back, inner shareable: its address has more bits than IPS or PAMax allows"),
            reads: 12,
            answer: json!({ "number": 2, "stage": 1, "level": 3, "on_walk": false, "ipa": null }),
            ..case("address size, lowered to PAMax", "0x1008 --el 0")
        },
        // Device memory by stage 2 alone.
        Case {
            words: &[(0x4000_2280, 0x9_07c3)],
            line: "0x1009, read of 2 bytes at EL0: alignment fault, stage 2, IPA 0x50009 (answer 5, 15 descriptors read)",
            last: Some("page of 0x1000 at 0x90000, rw-, Device nGnRnE, outer shareable: Device memory, and the access is not aligned"),
            reads: 15,
            answer: json!({ "number": 5, "stage": 2, "ipa": "0x50009" }),
            ..case("alignment, stage 2", "0x1009 --el 0 --size 2")
        },
    ]
}

fn bench(case: &Case) -> Bench {
    Bench::new(&Memory::cases().with(case.words).cut(case.length), &case.registers)
}

#[test]
fn cases_in_words() {
    for case in cases() {
        println!("case {}", case.name);
        let ran = bench(&case).over(&format!("ask {}", case.asked)).ends(case.status).says("");
        assert_eq!(ran.first_line(), case.line);
        let reads: Vec<&str> = ran.stdout.lines().skip(1).filter(|line| line.starts_with("  ") && !line.contains("says")).collect();
        assert_eq!(reads.len(), case.reads);
        // The number of the read, stage, level, address and value stand before it.
        assert_eq!(reads.last().map(|read| &read[62..]), case.last);
    }
}

#[test]
fn cases_in_json() {
    for mut case in cases() {
        println!("case {}", case.name);
        let told = bench(&case).over(&format!("ask --json {}", case.asked)).ends(case.status).says("").json();
        let words = told["answer"]["words"].clone();
        assert!(case.line.contains(words.as_str().unwrap().trim_start_matches("refused: ")), "{words}");
        case.answer["words"] = words;
        assert_eq!(told["answer"], case.answer);
        assert_eq!(told["reads"], json!(case.reads));
        let steps = told["steps"].as_array().unwrap();
        assert_eq!(steps.len(), case.reads);
        assert_eq!(steps.last().map(|step| step["says"].as_str().unwrap()), case.last);
        assert_eq!(told["out_of_scope"], json!([]));
    }
}

/// The whole walk of case A, which the sample's first guest has too.
#[test]
fn the_walk_in_words() {
    let expected = "\
0x1008, read of 8 bytes at EL0: translated to 0x90008, Normal Write-Back, inner shareable, leaf levels 3 and 3 (answer 0, 15 descriptors read)
  read  stage    level  at                value               says
     1  2 for 1      1  0x40000000        0x40001003          table at 0x40001000
     2  2 for 1      2  0x40001000        0x40002003          table at 0x40002000
     3  2 for 1      3  0x40002008        0x400037ff          page of 0x1000 at 0x40003000, rwx, Normal Write-Back, inner shareable
     4  1            1  0x40003000        0x2003              table at 0x2000
     5  2 for 1      1  0x40000000        0x40001003          table at 0x40001000
     6  2 for 1      2  0x40001000        0x40002003          table at 0x40002000
     7  2 for 1      3  0x40002010        0x400047ff          page of 0x1000 at 0x40004000, rwx, Normal Write-Back, inner shareable
     8  1            2  0x40004000        0x3003              table at 0x3000
     9  2 for 1      1  0x40000000        0x40001003          table at 0x40001000
    10  2 for 1      2  0x40001000        0x40002003          table at 0x40002000
    11  2 for 1      3  0x40002018        0x400057ff          page of 0x1000 at 0x40005000, rwx, Normal Write-Back, inner shareable
    12  1            3  0x40005008        0x50743             page of 0x1000 at 0x50000, EL1 rw- EL0 rwx, Normal Write-Back, inner shareable
    13  2            1  0x40000000        0x40001003          table at 0x40001000
    14  2            2  0x40001000        0x40002003          table at 0x40002000
    15  2            3  0x40002280        0x907ff             page of 0x1000 at 0x90000, rwx, Normal Write-Back, inner shareable
";
    Bench::cases().over("ask 0x1008 --el 0").ends(0).prints(expected).says("");
    let sample = "ask 0x1008 --el 0 --capture capture.bin --base 0x40000000 --registers plate.registers";
    Bench::sample().run(sample).ends(0).prints(expected).says("");
}

#[test]
fn the_walk_in_json() {
    let told = Bench::cases().over("ask 0x1008 --json --el 0").ends(0).json();
    assert_eq!(told["question"], json!({ "address": "0x1008", "kind": "read", "el": 0, "size": 8 }));
    let step = |read: usize| &told["steps"][read - 1];
    let expected = json!({
        "read": 3,
        "stage": 2,
        "on_walk": true,
        "level": 3,
        "address": "0x40002008",
        "value": "0x400037ff",
        "says": "page of 0x1000 at 0x40003000, rwx, Normal Write-Back, inner shareable",
    });
    assert_eq!(step(3), &expected);
    let expected = json!({
        "read": 8,
        "stage": 1,
        "on_walk": false,
        "level": 2,
        "address": "0x40004000",
        "value": "0x3003",
        "says": "table at 0x3000",
    });
    assert_eq!(step(8), &expected);
    assert_eq!(step(15)["on_walk"], json!(false));
}

/// A block at both stages.
#[test]
fn blocks() {
    let memory = Memory::cases().with(&[(0x4000_4008, 0x20_0741), (0x4000_1008, 0x0040_0000_8000_07fd)]);
    let ran = Bench::new(&memory, &Registers::cases()).over("ask 0x3ffff8 --el 0").ends(0);
    let line = "0x3ffff8, read of 8 bytes at EL0: translated to 0x801ffff8, Normal Write-Back, inner shareable, leaf levels 2 and 2 (answer 0, 10 descriptors read)";
    assert_eq!(ran.first_line(), line);
    ran.shows(&[
        "     8  1            2  0x40004008        0x200741            block of 0x200000 at 0x200000, EL1 rw- EL0 rwx, Normal Write-Back, inner shareable\n",
        "    10  2            2  0x40001008        0x400000800007fd    block of 0x200000 at 0x80000000, rw-, Normal Write-Back, inner shareable\n",
    ]);
}

/// Words and numbers are the same kinds, levels and sizes.
#[test]
fn kinds_levels_and_sizes() {
    let bench = Bench::cases();
    for (words, same) in [
        ("--kind read", "--kind 0"),
        ("--kind write", "--kind 1"),
        ("--kind fetch", "--kind 2"),
        ("--kind FETCH", "--kind 0x2"),
        ("--el EL0", "--el 0"),
        ("--el el1", "--el 1"),
        ("--size byte", "--size 1"),
        ("--size halfword", "--size 2"),
        ("--size word", "--size 4"),
        ("--size doubleword", "--size 8"),
        ("--size quadword", "--size 16"),
        ("--kind read --el 1 --size 8", ""),
    ] {
        let expected = bench.over(&format!("ask 0x1008 {same}")).ends(0);
        bench.over(&format!("ask 0x1008 {words}")).ends(0).prints(&expected.stdout);
    }
    let asked = |words: &str| bench.over(&format!("ask 0x1008 --json {words}")).ends(0).json()["question"].clone();
    assert_eq!(asked("--kind write --el EL0 --size quadword"), json!({ "address": "0x1008", "kind": "write", "el": 0, "size": 16 }));
    assert_eq!(asked(""), json!({ "address": "0x1008", "kind": "read", "el": 1, "size": 8 }));
}

/// The size decides whether an access to Device memory is aligned.
#[test]
fn sizes_count() {
    let bench = Bench::new(&Memory::cases(), &Registers { sctlr_el1: 0, ..Registers::cases() });
    for (size, number) in [("byte", 0), ("halfword", 0), ("word", 0), ("doubleword", 5), ("quadword", 5)] {
        let told = bench.over(&format!("ask 0x50004 --json --size {size}")).ends(0).json();
        assert_eq!(told["answer"]["number"], json!(number), "{size}");
    }
}

/// One byte of a descriptor that is missing is as good as all.
#[test]
fn a_capture_cut_within_a_descriptor() {
    for (length, status) in [(0x5010, 0), (0x500f, 1), (0x5009, 1), (0x5008, 1)] {
        let bench = Bench::new(&Memory::cases().cut(length), &Registers::cases());
        let told = bench.over("ask 0x1008 --json --el 0").ends(status).json();
        if status == 1 {
            assert_eq!((&told["answer"]["number"], &told["answer"]["address"]), (&json!(6), &json!("0x40005008")));
        }
    }
}

/// An empty capture is one in which all is missing.
#[test]
fn an_empty_capture() {
    let bench = Bench::new(&Memory::zeros(0x4000_0000, 0), &Registers::cases());
    let line = "0x1008, read of 8 bytes at EL1: not in the capture: the descriptor at 0x40000000, stage 2 on a stage 1 walk, level 1 (answer 6, 0 descriptors read)\n";
    bench.over("ask 0x1008").ends(1).prints(line);
}

/// The capture may begin in the middle of memory, and need not begin at a page.
#[test]
fn a_capture_from_another_base() {
    let mut memory = Memory::cases();
    memory.bytes.drain(..8);
    memory.base += 8;
    let told = Bench::new(&memory, &Registers::cases()).over("ask 0x1008 --json").ends(1).json();
    assert_eq!(told["answer"]["address"], json!("0x40000000"));
    let mut memory = Memory::zeros(0x3fff_fffd, 3);
    memory.bytes.extend(Memory::cases().bytes);
    let told = Bench::new(&memory, &Registers::cases()).over("ask 0x1008 --json").ends(0).json();
    assert_eq!(told["answer"]["address"], json!("0x90008"));
}
