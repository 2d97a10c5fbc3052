//! `humpelkaas banks`: which physical memory a core file has, and what lies between.
mod common;

use common::core::{Bank, Core};
use common::{Bench, Ran};
use serde_json::json;
use std::fs::OpenOptions;

/// Banks of so many bytes at addresses.
fn core(banks: &[(u64, usize)]) -> Core {
    Core { banks: banks.iter().map(|&(address, length)| Bank { address, bytes: vec![0; length] }).collect() }
}

#[must_use]
fn banks(file: &[u8], more: &str) -> Ran {
    let bench = Bench::empty(None);
    bench.write("capture.bin", file);
    bench.run(&format!("banks --capture capture.bin {more}"))
}

/// Banks with gaps of many bytes and of one, two that touch, and an empty one in a gap.
fn many() -> Core {
    core(&[(0, 0x1000), (0x1001, 0xfff), (0x2000, 0x10), (0x8000_0000, 0), (0xffff_ffff_0000, 0x20)])
}

#[test]
fn the_table() {
    let expected = "\
5 banks, 3 gaps
  bank  physical                       offset  bytes
     1  0x0-0xfff                      0x19e   0x1000
        0x1000-0x1000                          0x1             gap: not in the file
     2  0x1001-0x1fff                  0x119e  0xfff
     3  0x2000-0x200f                  0x219d  0x10
        0x2010-0x7fffffff                      0x7fffdff0      gap: not in the file
     4  0x80000000                     0x21ad  0x0
        0x80000000-0xfffffffeffff              0xffff7fff0000  gap: not in the file
     5  0xffffffff0000-0xffffffff001f  0x21ad  0x20
";
    banks(&many().file(), "").ends(0).prints(expected).says("");
}

#[test]
fn in_json() {
    let bank = |bank: u64, address: &str, offset: &str, bytes: &str| json!({ "bank": bank, "address": address, "offset": offset, "bytes": bytes, "short": false });
    let expected = json!({
        "number": 0,
        "words": "5 banks, 3 gaps",
        "what_to_do": null,
        "banks": [
            bank(1, "0x0", "0x19e", "0x1000"),
            bank(2, "0x1001", "0x119e", "0xfff"),
            bank(3, "0x2000", "0x219d", "0x10"),
            bank(4, "0x80000000", "0x21ad", "0x0"),
            bank(5, "0xffffffff0000", "0x21ad", "0x20"),
        ],
        "gaps": [
            { "after": 1, "physical": ["0x1000", "0x1000"] },
            { "after": 3, "physical": ["0x2010", "0x7fffffff"] },
            { "after": 4, "physical": ["0x80000000", "0xfffffffeffff"] },
        ],
        "short_banks": [],
    });
    assert_eq!(banks(&many().file(), "--json").ends(0).says("").json(), expected);
}

/// A gap after a short bank begins where its bytes end.
#[test]
fn a_file_that_was_cut() {
    let core = core(&[(0x1000, 0x1000), (0x2000, 0x1000), (0x3000, 0x1000)]);
    banks(&core.file(), "").ends(0).shows(&["3 banks, 0 gaps\n"]).says("");
    let expected = "\
3 banks, 1 gap, 2 short
  bank  physical       offset  bytes
     1  0x1000-0x1fff  0x12e   0x1000
     2  0x2000-0x27ff  0x112e  0x800   short: the file was cut
        0x2800-0x2fff          0x800   gap: not in the file
     3  0x3000         0x212e  0x0     short: the file was cut
";
    let second = "bank 2 is short: the core file was cut, and only 0x2000-0x27ff of it is there";
    let third = "bank 3 is short: the core file was cut, and nothing of it, from 0x3000 on, is there";
    let said = format!("humpelkaas: warning: {second}\nhumpelkaas: warning: {third}\n");
    banks(&core.cut(1, 0x800), "").ends(1).prints(expected).says(&said);
    let json = banks(&core.cut(1, 0x800), "--json").ends(1).says(&said).json();
    let bank = |bank: u64, address: &str, offset: &str, bytes: &str, short: bool| json!({ "bank": bank, "address": address, "offset": offset, "bytes": bytes, "short": short });
    let expected = json!({
        "number": 0,
        "words": "3 banks, 1 gap, 2 short",
        "what_to_do": null,
        "banks": [
            bank(1, "0x1000", "0x12e", "0x1000", false),
            bank(2, "0x2000", "0x112e", "0x800", true),
            bank(3, "0x3000", "0x212e", "0x0", true),
        ],
        "gaps": [{ "after": 2, "physical": ["0x2800", "0x2fff"] }],
        "short_banks": [
            { "bank": 2, "address": "0x2000", "bytes": "0x800", "warning": second },
            { "bank": 3, "address": "0x3000", "bytes": "0x0", "warning": third },
        ],
    });
    assert_eq!(json, expected);
}

/// Between a cut bank and its end by its header lies no other bank, but the gap goes on to the next.
#[test]
fn a_gap_that_a_cut_makes_longer() {
    let core = core(&[(0x1000, 0x1000), (0x4000, 8)]);
    banks(&core.file(), "").ends(0).shows(&["        0x2000-0x3fff          0x2000  gap: not in the file\n"]);
    banks(&core.cut(0, 1), "").ends(1).shows(&["     1  0x1000-0x1000", "        0x1001-0x3fff          0x2fff  gap: not in the file\n"]);
    banks(&core.cut(0, 0), "").ends(1).shows(&["     1  0x1000  ", "        0x1000-0x3fff          0x3000  gap: not in the file\n"]);
}

#[test]
fn one_bank() {
    let expected = "1 bank, 0 gaps\n  bank  physical               offset  bytes\n     1  0x40000000-0x40000000  0xbe    0x1\n";
    banks(&core(&[(0x4000_0000, 1)]).file(), "").ends(0).prints(expected).says("");
}

#[test]
fn no_banks() {
    let said = "no banks: the headers name no memory";
    banks(&core(&[]).file(), "").ends(0).prints(&format!("{said}\n")).says("");
    let json = banks(&core(&[]).file(), "--json").ends(0).says("").json();
    assert_eq!(json, json!({ "number": 0, "words": said, "what_to_do": null, "banks": [], "gaps": [], "short_banks": [] }));
}

#[test]
fn a_refused_file_in_json() {
    let json = banks(b"\x7fELF", "--json").ends(2).says("").json();
    assert_eq!(json!([json["number"], json["banks"], json["gaps"], json["short_banks"]]), json!([17, [], [], []]));
    assert!(json["words"].as_str().expect("words").starts_with("refused: the file is no ELF64 core file"));
    assert!(json["what_to_do"].as_str().expect("advice").starts_with("dump physical memory again"));
}

#[test]
fn a_raw_capture() {
    let said = "humpelkaas: capture.bin is no core file, and raw bytes have no banks: is this the right file?\n";
    for bytes in [&b""[..], b"\x7fEL", &[0; 0x1000]] {
        banks(bytes, "").ends(3).prints("").says(said);
        banks(bytes, "--json").ends(3).prints("").says(said);
    }
}

#[test]
fn files_that_cannot_be_read_or_written() {
    let bench = Bench::empty(None);
    let said = "humpelkaas: cannot read the capture missing: No such file or directory (os error 2). Check the path.\n";
    bench.run("banks --capture missing").ends(3).prints("").says(said);
    bench.run("banks --capture .").ends(3).prints("").warns(&["Is a directory"]);
    bench.write("capture.bin", many().file());
    let mut command = bench.command("banks --capture capture.bin");
    command.stdout(OpenOptions::new().write(true).open("/dev/full").expect("/dev/full"));
    Ran::of(command).ends(3).warns(&["cannot write to standard output: No space left on device"]);
}
