//! Core files in the place of a raw capture: how they are known, what their banks have, and what is said of one that was cut. The verb
//! `banks` has tests of its own.
mod common;

use common::core::{Bank, Core};
use common::{Bench, Memory, Ran, Registers};
use serde_json::{json, Value};
use std::fs::OpenOptions;
use std::io::Write;
use std::process::Stdio;

/// All verbs that take a capture of either form.
const VERBS: [&str; 8] = [
    "ask 0x1008 --el 0",
    "ask 0x1008 --el 0 --json",
    "batch --addresses list",
    "batch --addresses list --format json",
    "audit --grants grants --tables tables",
    "audit --grants grants --tables tables --json",
    "map --grants grants",
    "map --grants grants --json",
];

/// With document 01's lists.
fn lists(bench: Bench) -> Bench {
    bench.write("list", "0x1008\n0x2000\n");
    bench.write("grants", "0x90000 0x1000\n0x40003000 0x3000\n");
    bench.write("tables", "0x40001000 2\n0x40002000 3\n");
    bench
}

/// Document 01's registers and lists, over a file without its base.
fn over(file: &[u8]) -> Bench {
    lists(Bench::core(file, &Registers::cases()))
}

fn split(at: &[u64]) -> Core {
    Core::split(&Memory::cases(), at)
}

// How a core file is known

#[test]
fn a_raw_capture_without_its_base() {
    let said = "humpelkaas: capture.bin does not begin like a core file: \
        if it is raw bytes of memory, give the physical address of the first with --base\n";
    let begins = [&b""[..], b"\x7fEL", b"\x7eELF", b"\x7feLF", b"\x7fElF", b"\x7fELf"];
    for bytes in begins.iter().map(|bytes| bytes.to_vec()).chain([Memory::cases().bytes]) {
        let bench = over(&bytes);
        for verb in VERBS {
            bench.over(verb).ends(64).prints("").says(said);
        }
    }
}

#[test]
fn a_core_file_with_a_base() {
    let said = "humpelkaas: capture.bin is a core file, whose headers say where its bytes lie: \
        leave out --base, or give --raw too if it is raw bytes of memory\n";
    // Its first four bytes alone make it one.
    for file in [split(&[]).file(), b"\x7fELF".to_vec()] {
        let bench = over(&file);
        for verb in VERBS {
            bench.over(&format!("{verb} --base 0x40000000")).ends(64).prints("").says(said);
        }
    }
}

#[test]
fn raw_bytes_that_begin_like_a_core_file() {
    let plain = lists(Bench::cases());
    let mut memory = Memory::zeros(0x3fff_f000, 0x1000);
    memory.bytes.extend(Memory::cases().bytes);
    memory.bytes[..4].copy_from_slice(b"\x7fELF");
    let bench = lists(Bench::new(&memory, &Registers::cases()));
    for verb in VERBS {
        let expected = plain.over(verb).ends(0).stdout;
        bench.over(&format!("{verb} --raw")).ends(0).prints(&expected).says("");
        bench.over(verb).ends(64).prints("");
        // What is raw anyway may be called so.
        plain.over(&format!("{verb} --raw")).ends(0).prints(&expected).says("");
    }
}

/// Without a base, raw bytes are nowhere.
#[test]
fn raw_needs_a_base() {
    for file in [split(&[]).file(), Memory::cases().bytes] {
        let bench = over(&file);
        for verb in VERBS {
            bench.over(&format!("{verb} --raw")).ends(64).prints("").warns(&["--base <ADDRESS>"]);
        }
    }
}

#[test]
fn a_core_file_on_a_pipe() {
    let whole = over(&split(&[0x4000_3000]).file());
    for verb in VERBS.iter().map(|verb| whole.words(verb)).chain(["banks --capture capture.bin".to_string()]) {
        let expected = whole.run(&verb).ends(0).stdout;
        let mut command = whole.command(&verb.replace("capture.bin", "/dev/stdin"));
        let mut child = command.stdin(Stdio::piped()).stdout(Stdio::piped()).stderr(Stdio::piped()).spawn().expect("the command runs");
        child.stdin.take().expect("its standard input").write_all(&whole.bytes("capture.bin")).expect("the command takes the file");
        Ran::from(child.wait_with_output().expect("the command ends")).ends(0).prints(&expected).says("");
    }
}

// Banks

/// Where a file's banks begin and end makes no difference as long as each descriptor lies in one.
#[test]
fn the_same_as_over_a_raw_capture() {
    let raw = lists(Bench::cases());
    let pages: Vec<u64> = (1..8).map(|page| 0x4000_0000 + 0x1000 * page).collect();
    // Right before and after descriptors that are read.
    let descriptors = [0x4000_0008, 0x4000_1000, 0x4000_2008, 0x4000_2010, 0x4000_2018, 0x4000_2280, 0x4000_3008, 0x4000_5008, 0x4000_5010];
    // Stage 2's tables, and of the guest's no more than what is read.
    let parts = [0x4000_0000..0x4000_3000, 0x4000_3000..0x4000_3008, 0x4000_4000..0x4000_4008, 0x4000_5008..0x4000_5018];
    for core in [split(&[]), split(&pages), split(&descriptors), Core::of(&Memory::cases(), &parts)] {
        let bench = over(&core.file());
        for verb in VERBS {
            let expected = raw.over(verb).ends(0).says("");
            bench.over(verb).ends(0).prints(&expected.stdout).says("");
        }
        bench.over("map --svg map.svg").ends(0);
        raw.over("map --svg map.svg").ends(0);
        assert_eq!(bench.text("map.svg"), raw.text("map.svg"));
    }
}

/// The same over the sample's second guest, with its larger granules.
#[test]
fn the_same_as_over_the_sample() {
    let raw = Bench::sample();
    let memory = Memory { base: 0x4000_0000, bytes: raw.bytes("capture.bin") };
    let core = Core::split(&memory, &[0x4000_8000, 0x4001_0000, 0x4001_0008, 0x4002_0000, 0x4002_4008]).file();
    raw.write("sample.core", core);
    for (words, status) in [
        ("ask 0x4008", 0),
        ("ask 0x4008 --json", 0),
        ("ask 0xc000", 0),
        ("ask 0x4000000", 0),
        ("ask 0x4008 --size 3", 2),
        ("batch --addresses spectra.addresses --el 0", 0),
        ("audit --grants spectra.grants --tables spectra.tables", 0),
        ("audit --grants plate.grants --tables spectra.tables --json", 1),
        ("map", 0),
        ("map --grants plate.grants", 1),
        ("map --registers plate.registers --json", 0),
    ] {
        let expected = raw.over(words).ends(status);
        let ran = raw.run(&format!("{words} --capture sample.core --registers guest.registers"));
        ran.ends(status).prints(&expected.stdout).says(&expected.stderr);
    }
}

/// Case A over banks that part the descriptors of each table, with each step of its walk.
#[test]
fn case_a_over_banks_that_split_the_tables() {
    let tables = [0x4000_1000, 0x4000_2000, 0x4000_2010, 0x4000_2018, 0x4000_3000, 0x4000_4000, 0x4000_5008, 0x4000_6000];
    let bench = over(&split(&tables).file());
    let ran = bench.over("ask 0x1008 --el 0").ends(0).says("");
    let first = "0x1008, read of 8 bytes at EL0: translated to 0x90008, Normal Write-Back, inner shareable, leaf levels 3 and 3 (answer 0, 15 descriptors read)";
    assert_eq!(ran.first_line(), first);
    let reads: Vec<Vec<&str>> = ran.stdout.lines().skip(2).map(|line| line.split_whitespace().collect()).collect();
    assert_eq!(reads.len(), 15);
    for (read, at, value) in
        [(3, "0x40002008", "0x400037ff"), (4, "0x40003000", "0x2003"), (12, "0x40005008", "0x50743"), (15, "0x40002280", "0x907ff")]
    {
        let words = &reads[read - 1];
        assert!(words.contains(&at) && words.contains(&value), "{words:?}");
    }
}

/// A descriptor across two banks that touch is as missing as one in a gap, and its table's audit finds it so.
#[test]
fn a_descriptor_across_two_banks() {
    let raw = lists(Bench::cases());
    for at in 0..=8 {
        let bench = over(&split(&[0x4000_2008 + at]).file());
        if at % 8 == 0 {
            VERBS.iter().for_each(|verb| drop(bench.over(verb).ends(0).prints(&raw.over(verb).stdout).says("")));
            continue;
        }
        misses(&bench, 0x4000_2008, 0x4000_2000);
    }
}

/// A descriptor in a gap, or half in one.
#[test]
fn a_descriptor_in_a_gap() {
    for gap in [0x4000_2008..0x4000_2010, 0x4000_2008..0x4000_2009, 0x4000_200f..0x4000_2010, 0x4000_2008..0x4000_2018] {
        let core = Core::of(&Memory::cases(), &[0x4000_0000..gap.start, gap.end..0x4000_8000]);
        misses(&over(&core.file()), 0x4000_2008, 0x4000_2000);
    }
}

/// The walk of 0x1008 misses a descriptor of stage 2's last level, and the audit its table.
#[track_caller]
fn misses(bench: &Bench, descriptor: u64, table: u64) {
    let answer = bench.over("ask 0x1008 --json").ends(1).says("").json()["answer"].clone();
    let expected = json!([6, 2, true, 3, format!("{descriptor:#x}")]);
    assert_eq!(json!([answer["number"], answer["stage"], answer["on_walk"], answer["level"], answer["address"]]), expected);
    bench
        .over("batch --addresses list")
        .ends(1)
        .shows(&["0x1008,6,0x0\n", "asked 2 translated 0 faulted 0 absent 2 unsettled 0\n"])
        .says("");
    let ran = bench.over("audit --grants grants --tables tables").ends(1).says("");
    assert_eq!(ran.first_line(), format!("finding 1 {table:#x}"));
    bench.over("map").ends(1).shows(&[&format!("not in the capture (first missing: the descriptor at {descriptor:#x})")]).says("");
}

/// What an entry maps is found through the banks too.
#[test]
fn the_entry_of_a_finding() {
    let raw = lists(Bench::cases());
    let bench = over(&split(&[0x4000_1000, 0x4000_2000, 0x4000_2280, 0x4000_2288]).file());
    raw.write("fewer", "0x40003000 0x3000\n");
    bench.write("fewer", "0x40003000 0x3000\n");
    for words in ["audit --grants fewer --tables tables", "audit --grants fewer --tables tables --json"] {
        bench.over(words).ends(1).prints(&raw.over(words).ends(1).stdout).shows(&["0x907ff", "0x40002280"]).says("");
    }
}

/// A file without banks is a capture in which all is missing.
#[test]
fn no_banks() {
    let only_a_note = Core { banks: vec![] }.file();
    let mut no_headers = split(&[]).file();
    no_headers[56..58].fill(0);
    for file in [only_a_note, no_headers] {
        let bench = over(&file);
        let line = "0x1008, read of 8 bytes at EL1: not in the capture: the descriptor at 0x40000000, stage 2 on a stage 1 walk, level 1 (answer 6, 0 descriptors read)\n";
        bench.over("ask 0x1008").ends(1).prints(line).says("");
        bench.over("batch --addresses list").ends(1).shows(&["asked 2 translated 0 faulted 0 absent 2 unsettled 0\n"]).says("");
        bench.over("audit --grants grants --tables tables").ends(1).shows(&["finding 1 0x40000000\n"]).says("");
        bench.over("map").ends(1).shows(&["0x0-0x7fffffffff: not in the capture"]).says("");
    }
}

// Files that were cut

/// Four banks: stage 2's tables, and the guest's with what follows them in three.
fn in_four() -> Core {
    split(&[0x4000_3000, 0x4000_4000, 0x4000_6000])
}

const THIRD: &str = "bank 3 is short: the core file was cut, and only 0x40004000-0x40004fff of it is there";
const FOURTH: &str = "bank 4 is short: the core file was cut, and nothing of it, from 0x40006000 on, is there";

/// Every verb says so, whatever its answer, and the answer decides its status.
#[test]
fn a_warning_of_short_banks() {
    let bench = over(&in_four().cut(2, 0x1000));
    let said = format!("humpelkaas: warning: {THIRD}\nhumpelkaas: warning: {FOURTH}\n");
    for (verb, status) in VERBS.iter().zip([1, 1, 1, 1, 0, 0, 0, 0]) {
        bench.over(verb).ends(status).says(&said);
    }
    bench.run("banks --capture capture.bin").ends(1).says(&said);
    bench.run("banks --capture capture.bin --json").ends(1).says(&said);
    bench
        .over("ask 0x1008 --el 0")
        .shows(&["not in the capture: the descriptor at 0x40005008, stage 1, level 3 (answer 6, 11 descriptors read)"]);
    // What does not need the missing bytes is not touched by it.
    bench.over("ask 0x8000000000 --el 0").ends(0).says(&said);
    bench.over("batch --addresses /dev/null").ends(0).says(&said);
    // A refusal is one still.
    bench.over("ask 0x1008 --el 2").ends(2).says(&said);
    bench.over("batch --addresses list --el 2").ends(2).prints("").warns(&[&said, "refused 13"]);
}

#[test]
fn short_banks_in_json() {
    let bench = over(&in_four().cut(2, 0x1000));
    let expected = json!([
        { "bank": 3, "address": "0x40004000", "bytes": "0x1000", "warning": THIRD },
        { "bank": 4, "address": "0x40006000", "bytes": "0x0", "warning": FOURTH },
    ]);
    for verb in VERBS.iter().filter(|verb| verb.ends_with("--json")) {
        assert_eq!(bench.over(verb).json()["short_banks"], expected, "{verb}");
    }
    assert_eq!(bench.run("banks --capture capture.bin --json").json()["short_banks"], expected);
    // Each line of a batch stands alone. It has the numbers.
    let ran = bench.over("batch --addresses list --format json");
    let lines: Vec<Value> = ran.stdout.lines().take(2).map(|line| serde_json::from_str(line).expect("a line of JSON")).collect();
    let line = |address: &str| json!({ "address": address, "answer": 6, "output": "0x0", "short_banks": [3, 4] });
    assert_eq!(lines, [line("0x1008"), line("0x2000")]);
}

/// A bank is short from the first byte on that is missing.
#[test]
fn whole_up_to_the_last_byte() {
    let core = in_four();
    let whole = core.file();
    for verb in VERBS {
        over(&core.cut(3, 0x2000)).over(verb).ends(0).says("");
        // Bytes after the last bank are nobody's.
        over(&[&whole[..], b"more"].concat()).over(verb).ends(0).says("");
        let said = "humpelkaas: warning: bank 4 is short: the core file was cut, and only 0x40006000-0x40007ffe of it is there\n";
        over(&core.cut(3, 0x1fff)).over(verb).ends(0).says(said);
    }
    let file = core.cut(3, 0);
    for verb in VERBS {
        over(&file).over(verb).ends(0).says(&format!("humpelkaas: warning: {FOURTH}\n"));
    }
}

/// One byte of a descriptor that is missing is as good as all.
#[test]
fn cut_within_a_descriptor() {
    let core = in_four();
    for (bytes, status) in [(0x1010, 0), (0x100f, 1), (0x1009, 1), (0x1008, 1)] {
        let bench = over(&core.cut(2, bytes));
        let last = 0x4000_4000 + bytes - 1;
        let told = bench.over("ask 0x1008 --json --el 0").ends(status).warns(&[&format!("only 0x40004000-{last:#x} of it")]).json();
        let expected = if status == 0 { json!([0, "0x90008"]) } else { json!([6, "0x40005008"]) };
        assert_eq!(json!([told["answer"]["number"], told["answer"]["address"]]), expected);
    }
}

// Refusals

const MEANING: &str = "the file is no ELF64 core file of this kind (little-endian, machine 183), its headers are not wholly there, \
    or its banks are over 64, out of order or overlap";
const TODO: &str =
    "dump physical memory again as an ELF64 core file, of a little-endian AArch64 board and in at most 64 ranges that ascend; \
    if the file is raw bytes of memory that begin like one, give --raw and --base";

/// Each verb refuses a file with 17, before all else.
#[track_caller]
fn refuses(file: &[u8]) {
    let bench = lists(Bench::core(file, &Registers { pamax: 39, ..Registers::cases() }));
    let said = format!("refused 17: {MEANING}.\nWhat to do: {TODO}.\n");
    let lines = format!("refused 17\n{MEANING}.\nWhat to do: {TODO}.\n");
    bench.over("ask 0x1008 --el 2").ends(2).prints(&format!("0x1008, read of 8 bytes at EL2: {said}")).says("");
    bench.over("batch --addresses list --output out.csv").ends(2).prints("").says(&format!("humpelkaas: {said}"));
    assert!(!bench.path("out.csv").exists());
    bench.over("audit --grants list --tables list").ends(3);
    bench.over("audit --grants tables --tables grants").ends(2).prints(&lines).says("");
    bench.over("map").ends(2).prints("").says(&format!("humpelkaas: capture.bin: {said}"));
    bench.run("banks --capture capture.bin").ends(2).prints(&lines).says("");
}

#[test]
fn headers_that_are_refused() {
    let whole = split(&[0x4000_4000]).file();
    let with = |at: usize, byte: u8| {
        let mut file = whole.clone();
        file[at] = byte;
        file
    };
    // Class, byte order, type, machine, the size of program headers.
    for (at, byte) in [(4, 1), (5, 2), (16, 2), (17, 1), (18, 62), (19, 1), (54, 57), (55, 1)] {
        refuses(&with(at, byte));
    }
    // Where the header or the program headers are cut, or are too many for the file.
    for length in [4, 63, 64, 64 + 3 * 56 - 1] {
        refuses(&whole[..length]);
    }
    refuses(&with(57, 0xff));
    // Banks in each other's place, in memory and in the file.
    let core = split(&[0x4000_4000]);
    refuses(&Core { banks: core.banks.iter().rev().cloned().collect() }.file());
    refuses(&with(64 + 2 * 56 + 9, whole[64 + 56 + 9]));
}

#[test]
fn as_many_banks_as_there_may_be() {
    let bench = over(&Core::small(64).file());
    bench.over("ask 0x1008").ends(0).says("");
    bench.run("banks --capture capture.bin").ends(0).shows(&["64 banks, 63 gaps\n", "\n    64  0x400003f0-0x400003f7  "]).says("");
    refuses(&Core::small(65).file());
}

#[test]
fn a_refusal_in_json() {
    let bench = over(&Core::small(65).file());
    let answer = bench.over("ask 0x1008 --json").ends(2).says("").json()["answer"].clone();
    assert_eq!(answer, json!({ "number": 17, "item": null, "words": format!("refused: {MEANING}"), "what_to_do": TODO }));
    let json = bench.over("audit --grants grants --tables tables --json").ends(2).says("").json();
    assert_eq!(json!([json["answer"], json["number"], json["what_to_do"]]), json!(["refused 17", 17, TODO]));
}

/// A bank that ends past the physical memory that there is, is listed and refused.
#[test]
fn a_bank_that_ends_too_high() {
    let high = |address| over(&Core { banks: vec![Bank { address, bytes: vec![0; 0x1000] }] }.file());
    for address in [0xffff_ffff_f001, u64::MAX - 0xfff, u64::MAX] {
        for verb in VERBS {
            high(address).over(verb).ends(2);
        }
        let last = u128::from(address) + 0xfff;
        high(address).run("banks --capture capture.bin").ends(0).shows(&[&format!("  1  {address:#x}-{last:#x}  ")]).says("");
    }
    high(0xffff_ffff_f000).over("ask 0x1008").ends(1).shows(&["not in the capture"]);
}

/// It is read, and never written.
#[test]
fn standard_output_that_is_the_core_file() {
    let bench = over(&split(&[]).file());
    let kept = common::Kept::of(&bench.path("capture.bin"));
    for verb in VERBS.iter().map(|verb| bench.words(verb)).chain(["banks --capture capture.bin".to_string()]) {
        let mut command = bench.command(&verb);
        command.stdout(OpenOptions::new().append(true).open(bench.path("capture.bin")).expect("the capture"));
        let ran = Ran::of(command);
        kept.check();
        ran.ends(64).warns(&["capture.bin"]);
    }
}
