//! Input files: what forms are taken, and how a wrong or missing one is named.
mod common;

use common::{system, Bench, Memory, Registers};
use serde_json::json;
use std::fs;
use std::os::unix::fs::PermissionsExt;

/// Registers in other forms, which all give case A's answer.
#[test]
fn forms_of_registers() {
    let bench = Bench::cases();
    let expected = bench.over("ask 0x1008").ends(0).stdout;
    let form =
        |line: fn(&str, u64) -> String| -> String { Registers::cases().named().iter().map(|(name, value)| line(name, *value)).collect() };
    for registers in [
        form(|name, value| format!("{name} = {value:#x}\n")),
        form(|name, value| format!("{name}={value}\n")),
        form(|name, value| format!("{name} {value:#x}\n")),
        form(|name, value| format!("{name}: {value:#018x}\n")),
        form(|name, value| format!("{}\t{value:#X}\r\n", name.to_lowercase()).replace("0X", "0x")),
        // gdb
        form(|name, value| format!("{name:<15}{value:#x}{:<10}{value}\n", "")),
        form(|name, value| format!("{name:<15}{value:#x}           [ M C ]\n")),
        // OpenOCD
        form(|name, value| format!("{name} (/64): {value:#018x}\n")),
        form(|name, value| format!("\n  # {name}\n{name} = {value:#x} # of the board\n\n")),
        form(|name, value| format!("{name} = 0x{:04x}_{:04x}_{:04x}\n", value >> 32, value >> 16 & 0xffff, value & 0xffff)),
    ] {
        bench.write("guest.registers", &registers);
        let ran = bench.over("ask 0x1008");
        assert_eq!(ran.status, Some(0), "{registers}\n{}", ran.stderr);
        ran.prints(&expected).says("");
    }
    // The order does not count, nor does a last line without an end.
    let lines: Vec<String> = Registers::cases().text().lines().rev().map(String::from).collect();
    bench.write("guest.registers", lines.join("\n"));
    bench.over("ask 0x1008").ends(0).prints(&expected);
}

/// gdb prints its decimal column with a sign.
#[test]
fn a_register_with_its_top_bit() {
    let bench = Bench::cases();
    let mair = 0xff00_0000_0000_00ff_u64;
    let text = Registers::cases().text().replace("MAIR_EL1 = 0xff\n", &format!("MAIR_EL1 {mair:#x} {}\n", mair as i64));
    bench.write("guest.registers", &text);
    let expected = Bench::cases().over("ask 0x1008").ends(0).stdout;
    bench.over("ask 0x1008").ends(0).prints(&expected);
    // Another number is another number with a sign too.
    bench.write("guest.registers", text.replace(&(mair as i64).to_string(), "-1"));
    bench.over("ask 0x1008").ends(3).warns(&["guest.registers:10:29: '-1' is not the value that stands before it"]);
}

/// A line that is added to the registers, and what is said of it.
#[test]
fn wrong_lines_of_registers() {
    let bench = Bench::cases();
    let without_mair = Registers::cases().text().replace("MAIR_EL1 = 0xff\n", "");
    let value = "is not a number: write it in decimal, or in hexadecimal after 0x";
    for (line, said) in [
        ("MAIR_EL1 = 0xff 254", "10:17: '254' is not the value that stands before it"),
        ("MAIR_EL1 = 0xff 255 255", "10:17: '255' is not the value that stands before it"),
        ("MAIR_EL1 = 0xgg", &format!("10:12: '0xgg' {value}")),
        ("  MAIR_EL1 = ff", &format!("10:14: 'ff' {value}")),
        ("MAIR_EL1 =", "10:1: 'MAIR_EL1' has no value"),
        ("MAIR_EL1", "10:1: 'MAIR_EL1' has no value"),
        ("MAIR_EL1 = # 0xff", "10:1: 'MAIR_EL1' has no value"),
        ("MAIR_EL1 = 0x10000000000000000", "10:12: '0x10000000000000000' is over 64 bits"),
        ("MAIR_EL1 = 18446744073709551616", "10:12: '18446744073709551616' is over 64 bits"),
        (
            "MAIR_EL1 = 00000000000000ff",
            &format!("10:12: '00000000000000ff' {value}"),
        ),
        ("MAIR_EL1 = 0000000000000044", "10:12: '0000000000000044' begins with 0: write 0x before it if it is hexadecimal"),
        ("MAIR_EL1 = -1", &format!("10:12: '-1' {value}")),
        ("TTBR0_EL1 = 0x1000", "10:1: TTBR0_EL1 stands here a second time"),
        ("ttbr0_el1 = 0x1000", "10:1: TTBR0_EL1 stands here a second time"),
        ("MAIR_EL2 = 0xff", "10:1: 'MAIR_EL2' is not a register that is asked for (PAMAX, HCR_EL2, VTCR_EL2, VTTBR_EL2, SCTLR_EL2, SCTLR_EL1, TCR_EL1, TTBR0_EL1, TTBR1_EL1, MAIR_EL1): leave the line out"),
        ("x0 0x0 0", "10:1: 'x0' is not a register that is asked for"),
        ("", " no value for MAIR_EL1: add a line NAME = VALUE for each"),
    ] {
        bench.write("guest.registers", format!("{without_mair}{line}\n"));
        for verb in ["ask 0x1008", "batch --addresses /dev/null", "audit --grants /dev/null --tables /dev/null", "map"] {
            bench.over(verb).ends(3).prints("").warns(&[&format!("humpelkaas: guest.registers:{said}")]);
        }
    }
}

/// Each register that is missing is named; none is taken as 0.
#[test]
fn missing_registers() {
    let bench = Bench::cases();
    for (name, value) in Registers::cases().named() {
        bench.write("guest.registers", Registers::cases().text().replace(&format!("{name} = {value:#x}\n"), ""));
        bench
            .over("ask 0x1008")
            .ends(3)
            .says(&format!("humpelkaas: guest.registers: no value for {name}: add a line NAME = VALUE for each\n"));
    }
    bench.write("guest.registers", "PAMAX = 40\n");
    let all = "HCR_EL2, VTCR_EL2, VTTBR_EL2, SCTLR_EL2, SCTLR_EL1, TCR_EL1, TTBR0_EL1, TTBR1_EL1, MAIR_EL1";
    bench.over("ask 0x1008").ends(3).warns(&[&format!("no value for {all}: ")]);
    bench.write("guest.registers", "");
    bench.over("ask 0x1008").ends(3).warns(&[&format!("no value for PAMAX, {all}: ")]);
}

/// The capture in the place of the registers.
#[test]
fn registers_that_are_no_text() {
    let bench = Bench::cases();
    bench.write("guest.registers", b"PAMAX = 40\nHCR\xff\xfe");
    bench.over("ask 0x1008").ends(3).prints("").says("humpelkaas: guest.registers:2:4: not text: is this the right file?\n");
}

#[test]
fn wrong_lines_of_lists() {
    let bench = Bench::cases();
    bench.write("empty", "");
    let value = "is not a number: write it in decimal, or in hexadecimal after 0x";
    for (form, option, other) in [("ADDRESS BYTES", "grants", "tables"), ("ADDRESS LEVEL", "tables", "grants")] {
        for (text, said) in [
            ("# one\n0x90000\n", format!("list:2:1: the line has one word: write {form}")),
            ("0x90000 0x1000 0x2000\n", format!("list:1:16: the line has more than two words: write {form}")),
            ("0x90000 0x1000\n\n 0x9000z 0x1000\n", format!("list:3:2: '0x9000z' {value}")),
            ("0x90000\t4k\r\n", format!("list:1:9: '4k' {value}")),
            ("0x90000 = 1\n", format!("list:1:11: the line has more than two words: write {form}")),
        ] {
            bench.write("list", text);
            bench.over(&format!("audit --{option} list --{other} empty")).ends(3).prints("").says(&format!("humpelkaas: {said}\n"));
            if option == "grants" {
                bench.over("map --grants list").ends(3).prints("").says(&format!("humpelkaas: {said}\n"));
            }
        }
    }
    // Comments, blank lines and CRLF are no part of a list.
    bench.write("grants", "# granted\r\n\r\n 589824 4096 # a page\r\n0x4000_3000\t0x3000");
    bench.write("tables", "0x40001000 2\n#\n0x40002000 3");
    bench.over("audit --grants grants --tables tables").ends(0).shows(&["clean\n", "2 listed tables", "2 grants"]);
}

/// Every place of a path, with the words before it.
fn places() -> Vec<(&'static str, String)> {
    let rest = |without: &str, verb: &str| {
        let all = [
            "--capture capture.bin",
            "--base 0x40000000",
            "--registers guest.registers",
            "--grants empty",
            "--tables empty",
            "--addresses empty",
        ];
        let of_verb = |option: &&&str| match verb {
            "ask 0x1008" => !["--grants", "--tables", "--addresses"].iter().any(|other| option.starts_with(other)),
            "batch" => !["--grants", "--tables"].iter().any(|other| option.starts_with(other)),
            "audit" => !option.starts_with("--addresses"),
            _ => !["--tables", "--addresses"].iter().any(|other| option.starts_with(other)),
        };
        let left: Vec<&str> = all.iter().filter(of_verb).filter(|option| !option.starts_with(without)).copied().collect();
        format!("{verb} {} {without}", left.join(" "))
    };
    let verbs = ["ask 0x1008", "batch", "audit", "map"];
    let mut places: Vec<(&str, String)> =
        verbs.iter().flat_map(|verb| [("the capture ", rest("--capture", verb)), ("", rest("--registers", verb))]).collect();
    places.push(("the addresses ", rest("--addresses", "batch")));
    places.extend([("", rest("--grants", "audit")), ("", rest("--tables", "audit")), ("", rest("--grants", "map"))]);
    places
}

#[test]
fn missing_files() {
    let bench = Bench::cases();
    bench.write("empty", "");
    for (what, words) in places() {
        let said = format!("humpelkaas: cannot read {what}missing: No such file or directory (os error 2). Check the path.\n");
        bench.run(&format!("{words} missing")).ends(3).prints("").says(&said);
        let said = format!("humpelkaas: cannot read {what}empty/file: Not a directory (os error 20).");
        bench.run(&format!("{words} empty/file")).ends(3).prints("").warns(&[&said]);
    }
}

#[test]
fn folders_for_files() {
    let bench = Bench::cases();
    bench.write("empty", "");
    fs::create_dir(bench.path("folder")).expect("a folder");
    for (what, words) in places() {
        let said = format!("humpelkaas: cannot read {what}folder: Is a directory (os error 21).\n");
        bench.run(&format!("{words} folder")).ends(3).prints("").says(&said);
    }
}

#[test]
fn files_that_may_not_be_read() {
    let bench = Bench::cases();
    bench.write("empty", "");
    bench.write("closed", "");
    fs::set_permissions(bench.path("closed"), PermissionsExt::from_mode(0)).expect("permissions");
    fs::create_dir(bench.path("shut")).expect("a folder");
    bench.write("shut/file", "");
    fs::set_permissions(bench.path("shut"), PermissionsExt::from_mode(0)).expect("permissions");
    for (what, words) in places() {
        for name in ["closed", "shut/file"] {
            let said = format!("humpelkaas: cannot read {what}{name}: Permission denied (os error 13). Check who may use it.\n");
            system::unprivileged(&bench, &format!("{words} {name}")).ends(3).prints("").says(&said);
        }
    }
    fs::set_permissions(bench.path("shut"), PermissionsExt::from_mode(0o700)).expect("permissions");
}

/// A capture that nobody may write to is as good as any: it is only read.
#[test]
fn a_capture_that_is_read_only() {
    let bench = Bench::cases();
    fs::set_permissions(bench.path("capture.bin"), PermissionsExt::from_mode(0o444)).expect("permissions");
    system::unprivileged(&bench, &bench.words("ask 0x1008")).ends(0).says("");
    // And its bytes and times are as they were.
    let before = fs::metadata(bench.path("capture.bin")).and_then(|file| file.modified()).expect("a time");
    bench.write("list", "0x1008\n");
    bench.over("batch --addresses list --output out.csv").ends(0);
    assert_eq!(fs::metadata(bench.path("capture.bin")).and_then(|file| file.modified()).expect("a time"), before);
    assert_eq!(bench.bytes("capture.bin"), Memory::cases().bytes);
}

const BITS: [(&str, u64, u64); 6] = [
    ("TCR_EL1.HA", 1 << 39, 0),
    ("TCR_EL1.HD", 1 << 40, 0),
    ("TCR_EL1.HPD0", 1 << 41, 0),
    ("TCR_EL1.HPD1", 1 << 42, 0),
    ("VTCR_EL2.HA", 0, 1 << 21),
    ("VTCR_EL2.HD", 0, 1 << 22),
];

/// The cases with bits of TCR_EL1 and VTCR_EL2 set, which change no answer.
fn with_bits(tcr: u64, vtcr: u64) -> Bench {
    let cases = Registers::cases();
    let bench = Bench::new(&Memory::cases(), &Registers { tcr_el1: cases.tcr_el1 | tcr, vtcr_el2: cases.vtcr_el2 | vtcr, ..cases });
    bench.write("list", "0x1008\n");
    bench.write("grants", "0x90000 0x1000\n0x40003000 0x3000\n");
    bench.write("tables", "0x40001000 2\n0x40002000 3\n");
    bench
}

fn warning(names: &[String]) -> String {
    let names = names.join(", ");
    format!("humpelkaas: warning: set and out of scope: {names}: answers are those of Arm's first edition, which has none of these\n")
}

/// Bits that are out of scope are said in one line on the error stream and in JSON, by every verb; the answer is the same.
#[test]
fn bits_out_of_scope() {
    let plain = with_bits(0, 0);
    let all = BITS.iter().fold((0, 0), |(tcr, vtcr), bit| (tcr | bit.1, vtcr | bit.2));
    let every = BITS.map(|bit| bit.0).to_vec();
    let sets: Vec<(Vec<&str>, u64, u64)> = BITS.iter().map(|bit| (vec![bit.0], bit.1, bit.2)).chain([(every, all.0, all.1)]).collect();
    for (names, tcr, vtcr) in sets {
        let bench = with_bits(tcr, vtcr);
        for verb in ["ask 0x1008", "batch --addresses list", "audit --grants grants --tables tables", "map"] {
            let expected = plain.over(verb).ends(0).says("");
            // A map has several guests, and says whose they are.
            let names: Vec<String> =
                names.iter().map(|name| if verb == "map" { format!("guest: {name}") } else { name.to_string() }).collect();
            let said = warning(&names);
            bench.over(verb).ends(0).prints(&expected.stdout).says(&said);
            if !verb.starts_with("batch") {
                let json = bench.over(&format!("{verb} --json")).ends(0).says(&said).json();
                assert_eq!(json["out_of_scope"], json!(names));
                assert_eq!(said, format!("humpelkaas: warning: {}\n", json["warning"].as_str().expect("words")));
            }
        }
        let ran = bench.over("batch --addresses list --format json").ends(0);
        let line: serde_json::Value = serde_json::from_str(ran.first_line()).expect("a line of JSON");
        assert_eq!(line["out_of_scope"], json!(names));
        assert_eq!(ran.stderr, format!("humpelkaas: warning: {}\n", line["warning"].as_str().expect("words")));
    }
}

/// Bits beside them are in scope, or mean nothing here.
#[test]
fn bits_in_scope() {
    let bench = with_bits(1 << 37 | 1 << 38 | 1 << 43, 1 << 20 | 1 << 23);
    bench.over("ask 0x1008").ends(0).says("");
    assert_eq!(bench.over("ask 0x1008 --json").ends(0).json()["out_of_scope"], json!([]));
}
