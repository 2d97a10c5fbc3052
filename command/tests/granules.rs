//! Granules of 16KB and 64KB, alone and mixed: what ask, batch, map and audit say of them.
mod common;

use common::walk::{self, Question};
use common::{Bench, Memory, Ran, Registers, COMMAND};
use serde_json::{json, Value};

/// A granule: the log of its bytes, and its codes in TG0 and TG1.
#[derive(Clone, Copy, Debug)]
struct Granule {
    log: u64,
    tg0: u64,
    tg1: u64,
}

const KB4: Granule = Granule { log: 12, tg0: 0, tg1: 2 };
const KB16: Granule = Granule { log: 14, tg0: 2, tg1: 1 };
const KB64: Granule = Granule { log: 16, tg0: 1, tg1: 3 };
const ALL: [Granule; 3] = [KB4, KB16, KB64];

/// A page that EL0 and EL1 may read, of each stage.
const PAGE1: u64 = 0x743;
const PAGE2: u64 = 0x7ff;

impl Granule {
    fn page(self) -> u64 {
        1 << self.log
    }

    /// The entries that take an input address of 39 bits to a page through tables at addresses, the root's first.
    fn path(self, tables: &[u64], input: u64, page: u64) -> Vec<(u64, u64)> {
        let stride = self.log - 3;
        let below = tables.len() as u64;
        let entry = |depth: usize| {
            let shift = self.log + stride * (below - 1 - depth as u64);
            let index = if depth == 0 { input >> shift } else { input >> shift & ((1 << stride) - 1) };
            (tables[depth] + 8 * index, tables.get(depth + 1).map_or(page, |next| next | 3))
        };
        (0..tables.len()).map(entry).collect()
    }
}

// One question over both stages, of 39 bits each

/// Asked in the lower half of stage 1, and with all bits above it set in the upper one.
const ASKED: u64 = 0x12_3456_7890;
const UPPER: u64 = !0 << 39;

/// Stage 2 maps 2 MiB of IPAs in pages to here.
const FRAMES: u64 = 0x4010_0000;
const ROOT: u64 = 0x4000_0000;

/// The IPAs of a half's tables, from the lowest level up, and of its page. The upper half's are 1 MiB higher.
const TABLES: [u64; 3] = [0x3_0000, 0x2_0000, 0x1_0000];
const PAGE: u64 = 0x5_0000;
const HIGHER: u64 = 0x10_0000;

/// How many levels a stage has: by the formula at stage 1, by SL0 of 1 at stage 2.
fn levels1(granule: Granule) -> usize {
    if granule.log == 16 {
        2
    } else {
        3
    }
}

fn levels2(granule: Granule) -> usize {
    if granule.log == 12 {
        3
    } else {
        2
    }
}

/// A guest whose halves and whose stage 2 have granules of their own. At stage 2 a granule of 16KB has eight tables in its root.
fn mixed(lower: Granule, upper: Granule, second: Granule) -> (Registers, Memory) {
    let registers = Registers {
        pamax: 48,
        vtcr_el2: 25 | 1 << 6 | second.tg0 << 14 | 5 << 16,
        vttbr_el2: ROOT,
        tcr_el1: 25 | lower.tg0 << 14 | 25 << 16 | upper.tg1 << 30 | 5 << 32,
        ttbr0_el1: TABLES[levels1(lower) - 1],
        ttbr1_el1: TABLES[levels1(upper) - 1] + HIGHER,
        ..Registers::cases()
    };
    let half = |granule: Granule, by: u64| {
        let tables: Vec<u64> = TABLES[..levels1(granule)].iter().rev().map(|ipa| ipa + by).collect();
        granule.path(&tables, ASKED, PAGE + by | PAGE1)
    };
    let first = [half(lower, 0), half(upper, HIGHER)].concat();
    let first: Vec<(u64, u64)> = first.into_iter().map(|(ipa, word)| (FRAMES + ipa, word)).collect();
    let tables = &[ROOT, 0x4008_0000, 0x4009_0000][..levels2(second)];
    let ipas = (0..0x20_0000).step_by(second.page() as usize);
    let pages: Vec<(u64, u64)> = ipas.flat_map(|ipa| second.path(tables, ipa, FRAMES + ipa | PAGE2)).collect();
    (registers, Memory::zeros(ROOT, 0x30_0000).with(&first).with(&pages))
}

/// Each half with each granule, over each granule of stage 2.
#[test]
fn every_mixture() {
    for (lower, upper) in ALL.iter().flat_map(|lower| ALL.map(|upper| (*lower, upper))) {
        for second in ALL {
            println!("{lower:?}, {upper:?}, {second:?}");
            let (registers, memory) = mixed(lower, upper, second);
            for (granule, address, by) in [(lower, ASKED, 0), (upper, UPPER | ASKED, HIGHER)] {
                let question = Question { registers, access: "--el 0".to_string(), address, memory: memory.clone() };
                let output = format!("{:#x}", FRAMES + PAGE + by + ASKED % granule.page());
                let told = question.ask().ends(0).json();
                let answer = &told["answer"];
                assert_eq!((&answer["number"], &answer["address"]), (&json!(0), &json!(output)));
                assert_eq!((&answer["level1"], &answer["level2"]), (&json!(3), &json!(3)));
                let (n1, n2) = (levels1(granule), levels2(second));
                assert_eq!(walk::check_steps(&question, &told).len(), n1 * (n2 + 1) + n2);
                question.batch().ends(0).shows(&[&format!("{address:#x},0,{output}\n")]);
            }
        }
    }
}

/// The code of a half that is disabled may be a reserved one.
#[test]
fn a_reserved_code_of_a_disabled_half() {
    let (registers, memory) = mixed(KB16, KB64, KB4);
    for (address, tcr_el1) in [(ASKED, registers.tcr_el1 & !(3 << 30) | 1 << 23), (UPPER | ASKED, registers.tcr_el1 | 3 << 14 | 1 << 7)] {
        let question =
            Question { registers: Registers { tcr_el1, ..registers }, access: "--el 0".to_string(), address, memory: memory.clone() };
        assert_eq!(walk::check_steps(&question, &question.ask().ends(0).json()).len(), 15 - 4 * (address >> 63) as usize);
    }
}

/// With TBI0 and TBI1 the top byte of an address does not pick its half, and so not its granule.
#[test]
fn tagged_addresses() {
    let (registers, memory) = mixed(KB64, KB16, KB4);
    let registers = Registers { tcr_el1: registers.tcr_el1 | 3 << 37, ..registers };
    let tag = 0xff << 56;
    for (address, output) in [(ASKED | tag, "0x40157890"), ((UPPER | ASKED) & !tag, "0x40253890")] {
        let question = Question { registers, access: "--el 0".to_string(), address, memory: memory.clone() };
        let told = question.ask().ends(0).json();
        assert_eq!(told["answer"]["address"], json!(output));
        walk::check_steps(&question, &told);
    }
}

// Blocks, and entries that are none

/// Stage 1 alone, with words at addresses and a root at 0x40000000.
fn stage1(size: u64, granule: Granule, words: &[(u64, u64)]) -> Bench {
    let tcr_el1 = 64 - size | granule.tg0 << 14 | 1 << 23 | 5 << 32;
    let registers = Registers { pamax: 48, hcr_el2: 0x8000_0000, tcr_el1, ttbr0_el1: ROOT, ..Registers::cases() };
    Bench::new(&Memory::zeros(ROOT, 0x2_0000).with(words), &registers)
}

#[track_caller]
fn last_step(bench: &Bench, address: u64) -> Value {
    let told = bench.over(&format!("ask {address:#x} --el 0 --json")).ends(0).json();
    told["steps"].as_array().expect("steps").last().expect("a step").clone()
}

/// The sample's second guest has a block of 16KB's at stage 1 in one of 64KB's at stage 2.
#[test]
fn blocks_of_both_stages() {
    let ran = Bench::sample().over("ask 0x3fffff8 --el 0").ends(0);
    let line = "0x3fffff8, read of 8 bytes at EL0: translated to 0x81fffff8, Normal Write-Back, inner shareable, leaf levels 2 and 2 (answer 0, 7 descriptors read)";
    assert_eq!(ran.first_line(), line);
    ran.shows(&[
        "     6  1            2  0x40024008        0x20000741          block of 0x2000000 at 0x20000000, EL1 rw- EL0 rwx, Normal Write-Back, inner shareable\n",
        "     7  2            2  0x40008008        0x400000800007fd    block of 0x20000000 at 0x80000000, rw-, Normal Write-Back, inner shareable\n",
    ]);
}

/// Level 1 has blocks with 4KB alone.
#[test]
fn blocks_of_level_1() {
    let block = 0x123_8000_0741;
    let last = last_step(&stage1(39, KB4, &[(ROOT, block)]), 0x8);
    assert_eq!(last["says"], json!("block of 0x40000000 at 0x12380000000, EL1 rw- EL0 rwx, Normal Write-Back, inner shareable"));
    for (size, granule) in [(39, KB16), (48, KB64)] {
        let last = last_step(&stage1(size, granule, &[(ROOT, block)]), 0x8);
        assert_eq!((&last["level"], &last["says"]), (&json!(1), &json!("invalid")));
    }
}

/// With 48 bits and 16KB, stage 1 starts at level 0 with two entries.
#[test]
fn a_root_of_two_entries() {
    let words = [(ROOT, 0x4001_0003), (ROOT + 8, 0x4001_4003), (0x4001_4008, 0x4001_8003), (0x4001_8000, 0x600_0741)];
    let told = stage1(48, KB16, &words).over("ask 0x801000000010 --el 0 --json").ends(0).json();
    assert_eq!(told["answer"]["address"], json!("0x6000010"));
    let places: Vec<String> =
        told["steps"].as_array().unwrap().iter().map(|step| format!("{} {}", step["level"], step["address"])).collect();
    assert_eq!(places, ["0 \"0x40000008\"", "1 \"0x40014008\"", "2 \"0x40018000\""]);
}

/// A table lies at a multiple of the granule: bits of its entry below that do not count.
#[test]
fn low_bits_of_a_table_entry() {
    for (granule, word) in [(KB16, 0x4001_3003), (KB64, 0x4001_f003)] {
        let pages = [(0x4001_0008, 0x9_0743), (0x4001_3008, 0xa_0743), (0x4001_f008, 0xb_0743)];
        let bench = stage1(33, granule, &[&[(ROOT, word)], &pages[..]].concat());
        let told = bench.over(&format!("ask {:#x} --el 0 --json", granule.page())).ends(0).json();
        assert_eq!(told["answer"]["address"], json!("0x90000"));
        assert_eq!((&told["steps"][0]["says"], &told["steps"][1]["address"]), (&json!("table at 0x40010000"), &json!("0x40010008")));
    }
}

// Maps

fn within_five_seconds(bench: &Bench, words: &str) -> Ran {
    let mut command = bench.through("timeout", "5");
    command.arg(COMMAND).args(bench.words(words).split_whitespace());
    Ran::of(command)
}

/// Stage 2 with 39 bits and 16KB from level 2 on: a root of eight tables.
const LONG_ROOT: Registers = Registers {
    pamax: 40,
    hcr_el2: 0x8000_0001,
    vtcr_el2: 0x2_8059,
    vttbr_el2: ROOT,
    sctlr_el2: 0,
    sctlr_el1: 0,
    tcr_el1: 0,
    ttbr0_el1: 0,
    ttbr1_el1: 0,
    mair_el1: 0,
};

/// In the root two blocks in a row, a table in the second of its tables, and a block at its end; pages at both ends of the table.
fn long_root() -> Memory {
    Memory::zeros(ROOT, 0x3_0000).with(&[
        (ROOT, 0x8000_07fd),
        (ROOT + 8, 0x8200_07fd),
        (ROOT + 8 * 2048, 0x4002_b003),
        (ROOT + 8 * 16383, 0x1_0000_07fd),
        (0x4002_8000, 0x9_07ff),
        (0x4002_bff8, 0xa_077f),
    ])
}

#[test]
fn a_map_with_16kb() {
    let expected = "\
guest
  IPA                        physical                   size  rights  attributes
  0x0-0x3ffffff              0x80000000-0x83ffffff    64 MiB  rwx     Normal Write-Back, inner shareable
  0x1000000000-0x1000003fff  0x90000-0x93fff          16 KiB  rwx     Normal Write-Back, inner shareable
  0x1001ffc000-0x1001ffffff  0xa0000-0xa3fff          16 KiB  r-x     Normal Write-Back, inner shareable
  0x7ffe000000-0x7fffffffff  0x100000000-0x101ffffff  32 MiB  rwx     Normal Write-Back, inner shareable
  stage 2's tables, granule 16 KiB: 0x40000000-0x4001ffff, 0x40028000-0x4002bfff
";
    Bench::new(&long_root(), &LONG_ROOT).over("map").ends(0).prints(expected).says("");
}

/// Stage 2 with 46 bits and 64KB from level 2 on: a root of sixteen tables, which have 2^17 entries.
const LONGEST_ROOT: Registers = Registers { pamax: 48, vtcr_el2: 0x5_4052, ..LONG_ROOT };

/// In the root a table in the last of its tables, and a block at its end; a page at the end of the table.
fn longest_root() -> Memory {
    let last = (1 << 17) - 1;
    let words = [(ROOT + 8 * (last - 1), 0x4010_0003), (ROOT + 8 * last, 0x8000_07fd), (0x4010_fff8, 0x9_07ff)];
    Memory::zeros(ROOT, 0x11_0000).with(&words)
}

#[test]
fn a_map_with_64kb() {
    let expected = "\
guest
  IPA                            physical                  size  rights  attributes
  0x3fffdfff0000-0x3fffdfffffff  0x90000-0x9ffff         64 KiB  rwx     Normal Write-Back, inner shareable
  0x3fffe0000000-0x3fffffffffff  0x80000000-0x9fffffff  512 MiB  rwx     Normal Write-Back, inner shareable
  stage 2's tables, granule 64 KiB: 0x40000000-0x4010ffff
";
    let bench = Bench::new(&longest_root(), &LONGEST_ROOT);
    within_five_seconds(&bench, "map").ends(0).prints(expected).says("");
}

/// A block in each of the 2^17 entries, with a gap after it: as many ranges, in text and in a picture.
#[test]
fn a_map_of_many_ranges() {
    let words: Vec<(u64, u64)> = (0..1 << 17).map(|index| (ROOT + 8 * index, index << 30 | 0x7fd)).collect();
    let bench = Bench::new(&Memory::zeros(ROOT, 0x10_0000).with(&words), &LONGEST_ROOT);
    let ran = within_five_seconds(&bench, "map --svg map.svg").ends(1);
    assert_eq!(ran.stdout.lines().filter(|line| line.ends_with("inner shareable")).count(), 1 << 17);
    ran.shows(&["  0x3fffe0000000-0x3fffffffffff  0x7fffc0000000-0x7fffdfffffff  512 MiB  rwx "]);
}

/// Of a root that is shorter than a table no more than its frame of 4 KiB is said to be a table's: here two entries.
#[test]
fn a_map_with_a_short_root() {
    let registers = Registers { vtcr_el2: 0x2_4062, vttbr_el2: 0x4000_3010, ..LONG_ROOT };
    let memory = Memory::zeros(ROOT, 0x4000).with(&[(0x4000_3018, 0x8000_07fd)]);
    Bench::new(&memory, &registers).over("map").ends(0).shows(&[
        "  0x20000000-0x3fffffff  0x80000000-0x9fffffff  512 MiB  rwx ",
        "  stage 2's tables, granule 64 KiB: 0x40003000-0x40003fff\n",
    ]);
}

/// A table of which the capture has only the first half is one to its end. The guest's page is that table.
#[test]
fn a_map_with_half_a_table() {
    let registers = Registers { vtcr_el2: 0x2_4059, ..LONG_ROOT };
    let memory = Memory::zeros(ROOT, 0x1_8000).with(&[(ROOT, 0x4001_0003), (0x4001_0000, 0x4001_07ff)]);
    Bench::new(&memory, &registers).over("map").ends(1).shows(&[
        "  0x10000000-0x1fffffff: not in the capture (first missing: the descriptor at 0x40018000)\n",
        "  stage 2's tables, granule 64 KiB: 0x40000000-0x40001fff, 0x40010000-0x4001ffff\n",
        "! 0x40010000-0x4001ffff: guest reaches stage 2 tables of guest\n",
    ]);
}

/// Entries of 64KB that lead out of the capture and that Arm leaves open: how many IPAs that is.
#[test]
fn a_map_with_what_is_not_known() {
    let registers = Registers { vtcr_el2: 0x2_4059, ..LONG_ROOT };
    let words = [(ROOT, 0x5000_0003), (ROOT + 8, 0x8000_07f1), (ROOT + 16, 0x4001_0003), (0x4001_0000, 0x9_07f3)];
    Bench::new(&Memory::zeros(ROOT, 0x2_0000).with(&words), &registers).over("map").ends(1).shows(&[
        "  0x0-0x1fffffff: not in the capture (first missing: the descriptor at 0x50000000)\n",
        "  0x20000000-0x3fffffff: unsettled by Arm\n",
        "  0x40000000-0x4000ffff: unsettled by Arm\n",
    ]);
}

// Audits

struct Audit {
    memory: Memory,
    registers: Registers,
    grants: &'static str,
    tables: &'static str,
}

impl Audit {
    /// Of the sample's second guest's shape, with a page at the end of its table: all of it is granted.
    fn with_64kb() -> Audit {
        let memory = Memory::zeros(ROOT, 0x2_0000).with(&[(0x4000_8000, 0x4001_0003), (0x4001_fff8, 0x9_07ff)]);
        let registers = Registers { vtcr_el2: 0x2_4059, vttbr_el2: 0x4000_8000, ..LONG_ROOT };
        Audit { memory, registers, grants: "0x90000 0x10000\n", tables: "0x40010000 3\n" }
    }

    fn with_16kb() -> Audit {
        let grants = "0x90000 0x4000\n0xa0000 0x4000\n0x80000000 0x4000000\n0x100000000 0x2000000\n";
        Audit { memory: long_root(), registers: LONG_ROOT, grants, tables: "0x40028000 3\n" }
    }

    fn bench(&self) -> Bench {
        let bench = Bench::new(&self.memory, &self.registers);
        bench.write("grants", self.grants);
        bench.write("tables", self.tables);
        bench
    }

    #[track_caller]
    fn is_clean(&self) {
        let bench = self.bench();
        assert_eq!(within_five_seconds(&bench, AUDIT).ends(0).first_line(), "clean");
        // What an audit is content with, a map is.
        bench.over("map --grants grants").ends(0);
    }

    #[track_caller]
    fn is_refused(&self, numbers: &str) {
        assert_eq!(self.bench().over(AUDIT).ends(2).first_line(), numbers);
    }

    /// A finding with what its entry maps, which is nothing for findings 1 and 2.
    #[track_caller]
    fn finds(&self, first: &str, entry: &str) {
        let ran = within_five_seconds(&self.bench(), AUDIT).ends(1);
        assert_eq!(ran.first_line(), first);
        let said = ran.stdout.lines().find_map(|line| line.strip_prefix("the entry's value is "));
        assert_eq!(said.unwrap_or(""), entry);
    }
}

const AUDIT: &str = "audit --grants grants --tables tables";

#[test]
fn clean_audits() {
    Audit::with_64kb().is_clean();
    Audit::with_16kb().is_clean();
    // A grant that begins where the table ends, or ends where it begins, does not touch it.
    Audit { grants: "0x90000 0x10000\n0x4000f000 0x1000\n0x40020000 0x1000\n", ..Audit::with_64kb() }.is_clean();
}

#[test]
fn audits_of_a_table_that_is_cut() {
    let audit = Audit::with_64kb();
    Audit { memory: audit.memory.clone().cut(0x1_ffff), ..audit }.finds("finding 1 0x40010000", "");
    let audit = Audit::with_16kb();
    Audit { memory: audit.memory.clone().cut(0x2_bfff), ..audit }.finds("finding 1 0x40028000", "");
    let audit = Audit::with_16kb();
    Audit { memory: audit.memory.clone().cut(0x1_ffff), ..audit }.finds("finding 1 0x40000000", "");
}

#[test]
fn audits_of_a_table_that_is_granted() {
    Audit { grants: "0x90000 0x10000\n0x4001f000 0x1000\n", ..Audit::with_64kb() }.finds("finding 2 0x40010000", "");
    // The end of the root's last table.
    Audit { grants: "0x4001f000 0x1000\n", ..Audit::with_16kb() }.finds("finding 2 0x40000000", "");
}

#[test]
fn audits_of_a_table_that_is_not_listed() {
    let entry = "0x40010003: at level 2 it leads to the table at 0x40010000, for IPAs 0x0 to 0x1fffffff";
    Audit { tables: "", ..Audit::with_64kb() }.finds("finding 3 0x40008000", entry);
    Audit { tables: "0x40010000 2\n", ..Audit::with_64kb() }.finds("finding 3 0x40008000", entry);
    let entry = "0x4002b003: at level 2 it leads to the table at 0x40028000, for IPAs 0x1000000000 to 0x1001ffffff";
    Audit { tables: "", ..Audit::with_16kb() }.finds("finding 3 0x40004000", entry);
}

/// The root, which is of level 1, is listed as a table of level 2 too, and only as such leads its entry to what is not listed.
#[test]
fn audits_of_an_entry_at_two_levels() {
    let registers = Registers { pamax: 42, vtcr_el2: 0x3_8096, ..LONG_ROOT };
    let memory = Memory::zeros(ROOT, 0x8000).with(&[(ROOT, 0x4000_7003)]);
    let entry = "0x40007003: at level 2 it leads to the table at 0x40004000, and no IPA goes through it";
    Audit { memory, registers, grants: "", tables: "0x40000000 2\n0x40004000 2\n" }.finds("finding 3 0x40000000", entry);
}

#[test]
fn audits_of_a_leaf_that_is_not_granted() {
    let entry = "0x907ff: at level 3 it maps physical 0x90000 to 0x9ffff, for IPAs 0x1fff0000 to 0x1fffffff";
    Audit { grants: "", ..Audit::with_64kb() }.finds("finding 4 0x4001fff8", entry);
    // All but its last 4 KiB are granted.
    Audit { grants: "0x90000 0xf000\n", ..Audit::with_64kb() }.finds("finding 4 0x4001fff8", entry);
    let grants = "0x90000 0x4000\n0x80000000 0x4000000\n0x100000000 0x2000000\n";
    let entry = "0xa077f: at level 3 it maps physical 0xa0000 to 0xa3fff, for IPAs 0x1001ffc000 to 0x1001ffffff";
    Audit { grants, ..Audit::with_16kb() }.finds("finding 4 0x4002bff8", entry);
    let grants = "0x90000 0x4000\n0xa0000 0x4000\n0x80000000 0x4000000\n0x100000000 0x1fff000\n";
    let entry = "0x1000007fd: at level 2 it maps physical 0x100000000 to 0x101ffffff, for IPAs 0x7ffe000000 to 0x7fffffffff";
    Audit { grants, ..Audit::with_16kb() }.finds("finding 4 0x4001fff8", entry);
}

/// The page in the last of 2^17 ways, and the block after it.
#[test]
fn audits_of_the_longest_root() {
    let audit = |grants| Audit { memory: longest_root(), registers: LONGEST_ROOT, grants, tables: "0x40100000 3\n" };
    audit("0x90000 0x10000\n0x80000000 0x20000000\n").is_clean();
    let entry = "0x907ff: at level 3 it maps physical 0x90000 to 0x9ffff, for IPAs 0x3fffdfff0000 to 0x3fffdfffffff";
    audit("0x80000000 0x20000000\n").finds("finding 4 0x4010fff8", entry);
    let entry = "0x800007fd: at level 2 it maps physical 0x80000000 to 0x9fffffff, for IPAs 0x3fffe0000000 to 0x3fffffffffff";
    audit("0x90000 0x10000\n").finds("finding 4 0x400ffff8", entry);
}

/// An entry of level 1 that would be a block is one with 4KB alone.
#[test]
fn audits_of_blocks_at_level_1() {
    let audit = |pamax, vtcr_el2| {
        let registers = Registers { pamax, vtcr_el2, ..LONG_ROOT };
        Audit { memory: Memory::zeros(ROOT, 0x1_0000).with(&[(ROOT, 0x8000_07fd)]), registers, grants: "", tables: "" }
    };
    let entry = "0x800007fd: at level 1 it maps physical 0x80000000 to 0xbfffffff, for IPAs 0x0 to 0x3fffffff";
    audit(40, 0x2_0059).finds("finding 4 0x40000000", entry);
    // 16KB with 42 bits and 64KB with 44, both from level 1 on.
    audit(42, 0x3_8096).is_clean();
    audit(44, 0x4_4094).is_clean();
}

/// Listed tables lie at multiples of stage 2's granule; with stage 2 off, of 4,096.
#[test]
fn tables_off_their_granule() {
    let listed = |tables, audit: Audit| Audit { tables, ..audit };
    for tables in ["0x40011000 3\n", "0x40014000 3\n", "0x40018000 3\n"] {
        listed(tables, Audit::with_64kb()).is_refused("refused 15");
    }
    listed("0x40010000 3\n0x40014000 3\n", Audit::with_64kb()).is_refused("refused 15");
    for tables in ["0x40029000 3\n", "0x4002a000 3\n"] {
        listed(tables, Audit::with_16kb()).is_refused("refused 15");
    }
    listed("0x40024000 3\n0x40028000 3\n", Audit::with_16kb()).is_clean();
    // The last table of each size ends at 2^48.
    listed("0x40028000 3\n0xffffffffc000 3\n", Audit::with_16kb()).finds("finding 1 0xffffffffc000", "");
    let off = Registers { hcr_el2: 0x8000_0000, ..LONG_ROOT };
    Audit { registers: off, tables: "0x40011000 3\n", ..Audit::with_64kb() }.is_refused("refused 16");
    Audit { registers: off, tables: "0x40011800 3\n", ..Audit::with_64kb() }.is_refused("refused 15");
}

/// The lowest level that stage 2 may start at, with PAMax on both sides of what it needs; and level 0, which only 4KB has.
#[test]
fn starts_of_stage_2() {
    let audit = |pamax, vtcr_el2| Audit {
        memory: Memory::zeros(ROOT, 0x1_0000),
        registers: Registers { pamax, vtcr_el2, ..LONG_ROOT },
        grants: "",
        tables: "",
    };
    // 42 bits with 4KB from level 0 on.
    audit(42, 0x3_0096).is_refused("refused 16");
    audit(44, 0x3_0096).is_clean();
    // 40 bits with 16KB from level 1 on, and from level 0.
    audit(40, 0x2_8098).is_refused("refused 16");
    audit(42, 0x2_8098).is_clean();
    audit(48, 0x2_80d8).is_refused("refused 16");
    // 43 bits with 64KB, the least for level 1, which a PAMax of 42 does not allow.
    audit(42, 0x4_4095).is_refused("refused 12 9");
    audit(44, 0x4_4095).is_clean();
    audit(44, 0x4_4096).is_refused("refused 16");
    audit(48, 0x4_40d5).is_refused("refused 16");
}
