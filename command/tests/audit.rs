//! `humpelkaas audit`: case M, and each finding with the entry's value and what it maps.
mod common;

use common::{Bench, Memory, Ran, Registers, COMMAND};
use serde_json::json;

const GRANTS: &str = "0x90000 0x1000\n0x40003000 0x3000\n";
const TABLES: &str = "0x40001000 2\n0x40002000 3\n";

/// An audit of case M, but for what is given.
struct Audit {
    memory: Memory,
    registers: Registers,
    grants: &'static str,
    tables: &'static str,
}

impl Audit {
    fn case_m() -> Audit {
        Audit { memory: Memory::cases(), registers: Registers::cases(), grants: GRANTS, tables: TABLES }
    }

    /// With words that differ.
    fn with(words: &[(u64, u64)]) -> Audit {
        Audit { memory: Memory::cases().with(words), ..Audit::case_m() }
    }

    fn run(&self, more: &str) -> Ran {
        let bench = Bench::new(&self.memory, &self.registers);
        bench.write("grants", self.grants);
        bench.write("tables", self.tables);
        bench.over(&format!("audit --grants grants --tables tables {more}"))
    }

    /// A finding: its number and address, what it means, the entry's value and what it maps, and the last line.
    #[track_caller]
    fn finds(&self, first: &str, entry: Option<&str>, todo: &str) {
        let meaning = match first.as_bytes()[8] {
            b'1' => "the table is not wholly in the capture",
            b'2' => "the table touches a grant: the guest can write its own stage 2",
            b'3' => "the entry leads to a table that is not listed one level lower down",
            _ => "the entry maps a range that is not inside one grant",
        };
        let entry = entry.map_or(String::new(), |entry| format!("the entry's value is {entry}\n"));
        self.run("").ends(1).prints(&format!("{first}\n{meaning}\n{entry}What to do: {todo}.\n")).says("");
    }
}

const CAPTURE_IT: &str = "capture the whole table and audit again: nothing is said about what is missing";
const TAKE_IT_OUT: &str = "take the table out of the grants, or the guest can map what it likes";
const LIST_IT: &str = "list the table one level below the entry's, or find out who wrote this entry";
const GRANT_IT: &str = "grant the range, or find out who wrote this entry";

#[test]
fn clean() {
    let expected = "clean\nevery access of the guest through the root and 2 listed tables stays in its 2 grants, whatever it does\n";
    Audit::case_m().run("").ends(0).prints(expected).says("");
    let json = Audit::case_m().run("--json").ends(0).json();
    let expected = json!({ "answer": "clean", "number": 0, "item": null, "address": null, "words": "clean", "what_to_do": null, "entry": null, "short_banks": [], "out_of_scope": [], "warning": null });
    assert_eq!(json, expected);
}

#[test]
fn the_samples_guests_are_clean() {
    let bench = Bench::sample();
    for (guest, lists) in [("plate", "2 listed tables stays in its 2 grants"), ("spectra", "1 listed table stays in its 3 grants")] {
        let expected = format!("clean\nevery access of the guest through the root and {lists}, whatever it does\n");
        let lists = format!("--grants {guest}.grants --tables {guest}.tables --registers {guest}.registers");
        bench.run(&format!("audit {lists} --capture capture.bin --base 0x40000000")).ends(0).prints(&expected);
    }
}

#[test]
fn finding_1() {
    let cut = |length| Audit { memory: Memory::cases().cut(length), ..Audit::case_m() };
    cut(0x2fff).finds("finding 1 0x40002000", None, CAPTURE_IT);
    cut(0x1fff).finds("finding 1 0x40001000", None, CAPTURE_IT);
    cut(0).finds("finding 1 0x40000000", None, CAPTURE_IT);
    // The guest's own tables are not audited.
    cut(0x3000).run("").ends(0);
}

#[test]
fn finding_2() {
    let grants = |grants| Audit { grants, ..Audit::case_m() };
    grants("0x90000 0x1000\n0x40002000 0x4000\n").finds("finding 2 0x40002000", None, TAKE_IT_OUT);
    grants("0x90000 0x1000\n0x40000000 0x6000\n").finds("finding 2 0x40000000", None, TAKE_IT_OUT);
}

#[test]
fn finding_3() {
    // Entry 0 of a table of level 2: 2 MiB from IPA 0 on.
    let tables = |tables| Audit { tables, ..Audit::case_m() };
    let entry = "0x40002003: at level 2 it leads to the table at 0x40002000, for IPAs 0x0 to 0x1fffff";
    tables("0x40001000 2\n").finds("finding 3 0x40001000", Some(entry), LIST_IT);
    tables("0x40001000 2\n0x40002000 2\n").finds("finding 3 0x40001000", Some(entry), LIST_IT);
    // Entry 0 of the root, of level 1: 1 GiB.
    let entry = "0x40001003: at level 1 it leads to the table at 0x40001000, for IPAs 0x0 to 0x3fffffff";
    tables("0x40002000 3\n").finds("finding 3 0x40000000", Some(entry), LIST_IT);
    // Entry 0x1f of the root, whose table is not in the capture either.
    let entry = "0xf00000050000003: at level 1 it leads to the table at 0x50000000, for IPAs 0x7c0000000 to 0x7ffffffff";
    Audit::with(&[(0x4000_00f8, 0x0f00_0000_5000_0003)]).finds("finding 3 0x400000f8", Some(entry), LIST_IT);
}

#[test]
fn finding_3_in_json() {
    let json = Audit { tables: "0x40001000 2\n", ..Audit::case_m() }.run("--json").ends(1).json();
    let expected = json!({
        "answer": "finding 3 0x40001000",
        "number": 3,
        "item": null,
        "address": "0x40001000",
        "words": "finding 3 at 0x40001000: the entry leads to a table that is not listed one level lower down",
        "what_to_do": LIST_IT,
        "entry": { "value": "0x40002003", "level": 2, "table": true, "to": "0x40002000", "size": "0x200000", "ipa": "0x0" },
        "short_banks": [],
        "out_of_scope": [],
        "warning": null,
    });
    assert_eq!(json, expected);
}

/// Entry 0x50 of the table of level 3: the page at IPA 0x50000.
#[test]
fn finding_4_by_a_page() {
    let grants = |grants| Audit { grants, ..Audit::case_m() };
    let entry = "0x907ff: at level 3 it maps physical 0x90000 to 0x90fff, for IPAs 0x50000 to 0x50fff";
    grants("0x40003000 0x3000\n").finds("finding 4 0x40002280", Some(entry), GRANT_IT);
    grants("0x8f000 0x1000\n0x40003000 0x3000\n").finds("finding 4 0x40002280", Some(entry), GRANT_IT);
    let json = grants("0x40003000 0x3000\n").run("--json").ends(1).json();
    assert_eq!(json["address"], json!("0x40002280"));
    let entry = json!({ "value": "0x907ff", "level": 3, "table": false, "to": "0x90000", "size": "0x1000", "ipa": "0x50000" });
    assert_eq!((&json["entry"], &json["what_to_do"]), (&entry, &json!(GRANT_IT)));
}

/// Entry 1 of a table of level 2 is IPAs 0x200000 on, of the root those from 1 GiB on.
#[test]
fn finding_4_by_a_block() {
    let entry = "0x400000800007fd: at level 2 it maps physical 0x80000000 to 0x801fffff, for IPAs 0x200000 to 0x3fffff";
    Audit::with(&[(0x4000_1008, 0x0040_0000_8000_07fd)]).finds("finding 4 0x40001008", Some(entry), GRANT_IT);
    let entry = "0x1c00007fd: at level 1 it maps physical 0x1c0000000 to 0x1ffffffff, for IPAs 0x40000000 to 0x7fffffff";
    Audit::with(&[(0x4000_0008, 0x1_c000_07fd)]).finds("finding 4 0x40000008", Some(entry), GRANT_IT);
    // Bits below a block's size are no part of its address.
    let entry = "0x801ff7fd: at level 2 it maps physical 0x80000000 to 0x801fffff, for IPAs 0x200000 to 0x3fffff";
    Audit::with(&[(0x4000_1008, 0x801f_f7fd)]).finds("finding 4 0x40001008", Some(entry), GRANT_IT);
}

/// What no access gets through today counts all the same: without an access flag, without rights, beyond the output size.
#[test]
fn finding_4_by_what_faults() {
    let entry = "0x903ff: at level 3 it maps physical 0x90000 to 0x90fff, for IPAs 0x51000 to 0x51fff";
    let page = |word| Audit { grants: "0x40003000 0x3000\n", ..Audit::with(&[(0x4000_2280, 0), (0x4000_2288, word)]) };
    page(0x9_03ff).finds("finding 4 0x40002288", Some(entry), GRANT_IT);
    page(0x9_073f).finds("finding 4 0x40002288", Some(&entry.replace("0x903ff", "0x9073f")), GRANT_IT);
    let entry = "0x8000000907ff: at level 3 it maps physical 0x800000090000 to 0x800000090fff, for IPAs 0x51000 to 0x51fff";
    page(0x8000_0009_07ff).finds("finding 4 0x40002288", Some(entry), GRANT_IT);
    // Attributes that have no meaning.
    let entry = "0x907f3: at level 3 it maps physical 0x90000 to 0x90fff, for IPAs 0x51000 to 0x51fff";
    page(0x9_07f3).finds("finding 4 0x40002288", Some(entry), GRANT_IT);
}

/// A root of two tables, one after the other: entry 600 is in the second.
#[test]
fn finding_4_in_a_long_root() {
    // An input size of 40 bits, of which the root's index has 10.
    let registers = Registers { vtcr_el2: 0x2_0058, ..Registers::cases() };
    let memory = Memory::zeros(0x4000_0000, 0x8000).with(&[(0x4000_12c0, 0x1_0000_07fd)]);
    let entry = "0x1000007fd: at level 1 it maps physical 0x100000000 to 0x13fffffff, for IPAs 0x9600000000 to 0x963fffffff";
    Audit { memory, registers, grants: GRANTS, tables: "" }.finds("finding 4 0x400012c0", Some(entry), GRANT_IT);
}

/// A table that is listed is audited though nothing leads to it.
#[test]
fn an_entry_that_no_ipa_goes_through() {
    let audit = Audit { tables: "0x40001000 2\n0x40002000 3\n0x40006000 3\n", ..Audit::with(&[(0x4000_6010, 0x7_77ff)]) };
    audit.finds(
        "finding 4 0x40006010",
        Some("0x777ff: at level 3 it maps physical 0x77000 to 0x77fff, and no IPA goes through it"),
        GRANT_IT,
    );
    let json = audit.run("--json").ends(1).json();
    let entry = json!({ "value": "0x777ff", "level": 3, "table": false, "to": "0x77000", "size": "0x1000", "ipa": null });
    assert_eq!(json["entry"], entry);
}

/// A table with two ways to it: the first IPA is told.
#[test]
fn an_entry_with_two_ways_to_it() {
    let audit = Audit { grants: "0x40003000 0x3000\n", ..Audit::with(&[(0x4000_1018, 0x4000_2003)]) };
    let entry = "0x907ff: at level 3 it maps physical 0x90000 to 0x90fff, for IPAs 0x50000 to 0x50fff";
    audit.finds("finding 4 0x40002280", Some(entry), GRANT_IT);
    // The way at IPA 0 is gone: entry 3 of the table of level 2 is IPAs 0x600000 on.
    let audit = Audit { grants: "0x40003000 0x3000\n", ..Audit::with(&[(0x4000_1000, 0), (0x4000_1018, 0x4000_2003)]) };
    audit.finds("finding 4 0x40002280", Some(&entry.replace("0x50", "0x650")), GRANT_IT);
}

/// A table that leads to itself is read at two levels on one walk. The finding is of its level 3: entry 1 of it as a table of level 2
/// leads to it, and entry 0 of it is then a page.
#[test]
fn an_entry_at_two_levels() {
    let audit = Audit { tables: "0x40001000 2\n0x40001000 3\n0x40002000 3\n", ..Audit::with(&[(0x4000_1008, 0x4000_17ff)]) };
    let entry = "0x40002003: at level 3 it maps physical 0x40002000 to 0x40002fff, for IPAs 0x200000 to 0x200fff";
    audit.finds("finding 4 0x40001000", Some(entry), GRANT_IT);
}

/// 512 ways to each of 512 ways to each entry: what an entry maps is found without going all of them.
#[test]
fn a_tree_that_is_shared() {
    let all = |table: u64, word: u64| (0..512).map(move |index| (table + 8 * index, word));
    let words = all(0x4000_0000, 0x4000_1003).chain(all(0x4000_1000, 0x4000_2003)).chain(all(0x4000_2000, 0x8000_07fd));
    let memory = Memory::zeros(0x4000_0000, 0x4000).with(&words.chain([(0x4000_3008, 0x7_77ff)]).collect::<Vec<_>>());
    // An input size of 48 bits, from level 0 on.
    let bench = Bench::new(&memory, &Registers { pamax: 48, vtcr_el2: 0x5_0090, ..Registers::cases() });
    bench.write("grants", "0x80000000 0x200000\n");
    bench.write("tables", "0x40001000 1\n0x40002000 2\n0x40003000 3\n");
    let mut command = bench.through("timeout", "5");
    command.arg(COMMAND).args(bench.words("audit --grants grants --tables tables").split_whitespace());
    Ran::of(command).ends(1).shows(&[
        "finding 4 0x40003008\n",
        "the entry's value is 0x777ff: at level 3 it maps physical 0x77000 to 0x77fff, and no IPA goes through it\n",
    ]);
}
