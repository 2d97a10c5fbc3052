//! Two small samples.
//!
//! A raw capture of a board with two guests, one that moves the plate and one that converts the spectra. The first guest's tables are
//! document 01's: a walk of three levels at each stage, all of 4KB. The second has a granule of 64KB at stage 2 and of 16KB at stage 1: one
//! page of stage 2 has all its tables. It may not write its other page, nor run its block.
//!
//! A core file with the tables of a real guest, a Linux that KVM runs.
use crate::arguments::{Arguments, Sample};
use crate::results::Results;
use crate::trouble::{self, standard_output, Status, Trouble};
use clap::Parser;
use std::fs;
use std::io::{self, Write};
use std::path::Path;

const CAPTURE: &str = "capture.bin";
const BASE: u64 = 0x4000_0000;
const LENGTH: usize = 0x3_0000;

/// Each word of the capture that is not 0, with its physical address.
const WORDS: [(u64, u64); 19] = [
    // The plate's stage 2: tables of levels 1, 2 and 3; its pages are the guest's three tables and its data.
    (0x4000_0000, 0x4000_1003),
    (0x4000_1000, 0x4000_2003),
    (0x4000_2008, 0x4000_37ff),
    (0x4000_2010, 0x4000_47ff),
    (0x4000_2018, 0x4000_57ff),
    (0x4000_2280, 0x9_07ff),
    // Its stage 1: tables of levels 1, 2 and 3, at IPAs 0x1000, 0x2000 and 0x3000.
    (0x4000_3000, 0x2003),
    (0x4000_4000, 0x3003),
    (0x4000_5008, 0x5_0743),
    // The spectra's stage 2: a root of level 2 with a table and a block of 512 MiB, and the table of level 3 with two pages of 64 KiB.
    (0x4000_8000, 0x4001_0003),
    (0x4000_8008, 0x0040_0000_8000_07fd),
    (0x4001_0008, 0x4002_07ff),
    (0x4001_0028, 0xa_077f),
    // Its stage 1: tables of levels 1, 2 and 3, at IPAs 0x10000, 0x14000 and 0x18000, with a block of 32 MiB and three pages of 16 KiB.
    (0x4002_0000, 0x1_4003),
    (0x4002_4000, 0x1_8003),
    (0x4002_4008, 0x2000_0741),
    (0x4002_8008, 0x5_0743),
    (0x4002_8010, 0x6_0743),
    (0x4002_8018, 0x5_0343),
];

/// The real guest's files. Where they are from, tests/real/README.md says.
const LINUX: [(&str, &[u8]); 5] = [
    ("linux.core", include_bytes!("../../tests/real/guest-tables.core")),
    ("linux.registers", include_bytes!("../../tests/real/registers")),
    ("linux.addresses", include_bytes!("../../tests/real/addresses-el0-read")),
    ("linux.grants", include_bytes!("../../tests/real/grants")),
    ("linux.tables", include_bytes!("../../tests/real/tables")),
];

/// The registers of a guest, with those in which the two differ.
fn registers(vtcr: &str, vttbr: &str, tcr: &str, ttbr0: &str) -> Vec<u8> {
    let text = format!(
        "\
# What the hypervisor has for this guest, and the board's size of physical addresses
PAMAX = 40
HCR_EL2 = 0x80000001
VTCR_EL2 = {vtcr}
VTTBR_EL2 = {vttbr}
SCTLR_EL2 = 0
# The guest's own
SCTLR_EL1 = 0x5
TCR_EL1 = {tcr}
TTBR0_EL1 = {ttbr0}
TTBR1_EL1 = 0
MAIR_EL1 = 0xff
"
    );
    text.into_bytes()
}

fn capture() -> Vec<u8> {
    let mut bytes = vec![0; LENGTH];
    for (address, word) in WORDS {
        let at = (address - BASE) as usize;
        bytes[at..at + 8].copy_from_slice(&word.to_le_bytes());
    }
    bytes
}

/// The files of the raw capture.
fn files() -> Vec<(&'static str, Vec<u8>)> {
    let plate = registers("0x20059", "0x40000000", "0x200800019", "0x1000");
    let spectra = registers("0x24059 # TG0 is 1: 64KB", "0x40008000", "0x200808019 # TG0 is 2: 16KB", "0x10000");
    let text = |text: &str| text.as_bytes().to_vec();
    vec![
        (CAPTURE, capture()),
        ("plate.registers", plate),
        ("plate.addresses", text("0x1008\n0x2000\n")),
        ("plate.grants", text("# address bytes\n0x90000 0x1000\n0x40003000 0x3000\n")),
        ("plate.tables", text("# address level\n0x40001000 2\n0x40002000 3\n")),
        ("spectra.registers", spectra),
        ("spectra.addresses", text("0x4008\n0x8000\n0xc000\n0x2000000\n0x3fffff8\n0x4000000\n")),
        ("spectra.grants", text("# address bytes\n0xa0000 0x10000\n0x40020000 0x10000\n0x80000000 0x20000000\n")),
        ("spectra.tables", text("# address level\n0x40010000 3\n")),
    ]
}

/// Writes a file of the sample. One that is there already and is not the sample's is left as it is.
fn write(path: &Path, bytes: &[u8]) -> Result<(), Trouble> {
    match fs::read(path) {
        Ok(there) if there == bytes => Ok(()),
        Ok(_) => Err(Trouble::Usage(format!("{} is there and is not the sample's: name another folder", path.display()))),
        Err(error) if error.kind() == io::ErrorKind::NotFound => {
            let mut results = Results::open(Some(path))?;
            results.write(bytes)?;
            results.finish()
        }
        Err(error) => Err(trouble::file("read", path, error)),
    }
}

/// Refuses a folder that has something else, so that no result takes the place of a file that is not the sample's.
fn is_ours(folder: &Path) -> Result<(), Trouble> {
    let wrong = |error| trouble::file("read the folder", folder, error);
    let empty = fs::read_dir(folder).map_err(wrong)?.next().is_none();
    if empty || fs::read(folder.join(CAPTURE)).map_or(false, |there| there == capture()) {
        return Ok(());
    }
    Err(Trouble::Usage(format!("{} is not empty: name another folder", folder.display())))
}

/// What is run over the raw capture, in its folder.
const RUNS: [&str; 7] = [
    "ask 0x1008 --el 0 --capture capture.bin --base 0x40000000 --registers plate.registers",
    "ask 0x4008 --el 0 --capture capture.bin --base 0x40000000 --registers spectra.registers",
    "batch --el 0 --addresses plate.addresses --output plate.csv --capture capture.bin --base 0x40000000 --registers plate.registers",
    "batch --el 0 --addresses spectra.addresses --output spectra.csv --capture capture.bin --base 0x40000000 --registers spectra.registers",
    "audit --grants plate.grants --tables plate.tables --capture capture.bin --base 0x40000000 --registers plate.registers",
    "audit --grants spectra.grants --tables spectra.tables --capture capture.bin --base 0x40000000 --registers spectra.registers",
    "map --svg map.svg --capture capture.bin --base 0x40000000 --registers plate.registers --grants plate.grants --registers spectra.registers --grants spectra.grants",
];

/// What is run over the core file.
const LINUX_RUNS: [&str; 4] = [
    "banks --capture linux.core",
    "ask 0x400000 --el 0 --capture linux.core --registers linux.registers",
    "batch --el 0 --size 1 --addresses linux.addresses --output linux.csv --capture linux.core --registers linux.registers",
    "audit --grants linux.grants --tables linux.tables --capture linux.core --registers linux.registers",
];

fn run_one(line: &str, out: &mut dyn Write) -> Result<Status, Trouble> {
    writeln!(out, "\n$ humpelkaas {line}").map_err(standard_output)?;
    let words = std::iter::once("humpelkaas").chain(line.split(' '));
    let arguments = Arguments::try_parse_from(words).map_err(|wrong| Trouble::Usage(wrong.to_string()))?;
    crate::run(&arguments.verb, out)
}

/// Runs all lines under a heading. The worst status counts.
fn run_all(heading: &str, lines: &[&str], out: &mut dyn Write) -> Result<Status, Trouble> {
    writeln!(out, "{heading}").map_err(standard_output)?;
    lines.iter().try_fold(Status::Complete, |worst, line| Ok(worst.max(run_one(line, out)?)))
}

pub fn run(arguments: &Sample, out: &mut dyn Write) -> Result<Status, Trouble> {
    let folder = &arguments.folder;
    let wrong = |error| trouble::file("make the folder", folder, error);
    fs::create_dir_all(folder).map_err(wrong)?;
    is_ours(folder)?;
    for (name, bytes) in files() {
        write(&folder.join(name), &bytes)?;
    }
    for (name, bytes) in LINUX {
        write(&folder.join(name), bytes)?;
    }
    std::env::set_current_dir(folder).map_err(wrong)?;
    let raw = run_all(&format!("A sample capture of two guests is in {}. In that folder:", folder.display()), &RUNS, out)?;
    let core = run_all("\nBeside it is a core file with the tables of a Linux guest that KVM runs:", &LINUX_RUNS, out)?;
    Ok(raw.max(core))
}
