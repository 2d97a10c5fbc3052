//! What all tests share: a board's memory and registers as files, runs of the built command, and what they must leave.
#![allow(dead_code)] // No file of tests needs all of it.

pub mod core;
pub mod held;
pub mod system;
pub mod walk;

use self::core::Core;
use serde_json::Value;
use std::fmt::Debug;
use std::fs;
use std::path::{Path, PathBuf};
use std::process::{Command, Output, Stdio};
use tempfile::TempDir;

/// The built command.
pub const COMMAND: &str = env!("CARGO_BIN_EXE_humpelkaas");

/// The registers of a guest, and PAMax.
#[derive(Clone, Copy, Debug, Default)]
pub struct Registers {
    pub pamax: u64,
    pub hcr_el2: u64,
    pub vtcr_el2: u64,
    pub vttbr_el2: u64,
    pub sctlr_el2: u64,
    pub sctlr_el1: u64,
    pub tcr_el1: u64,
    pub ttbr0_el1: u64,
    pub ttbr1_el1: u64,
    pub mair_el1: u64,
}

impl Registers {
    /// Those of document 01's cases: both stages start at level 1.
    pub fn cases() -> Registers {
        Registers {
            pamax: 40,
            hcr_el2: 0x8000_0001,
            vtcr_el2: 0x2_0059,
            vttbr_el2: 0x4000_0000,
            sctlr_el2: 0,
            sctlr_el1: 5,
            tcr_el1: 0x2_0080_0019,
            ttbr0_el1: 0x1000,
            ttbr1_el1: 0,
            mair_el1: 0xff,
        }
    }

    /// Each with its name.
    pub fn named(&self) -> [(&'static str, u64); 10] {
        [
            ("PAMAX", self.pamax),
            ("HCR_EL2", self.hcr_el2),
            ("VTCR_EL2", self.vtcr_el2),
            ("VTTBR_EL2", self.vttbr_el2),
            ("SCTLR_EL2", self.sctlr_el2),
            ("SCTLR_EL1", self.sctlr_el1),
            ("TCR_EL1", self.tcr_el1),
            ("TTBR0_EL1", self.ttbr0_el1),
            ("TTBR1_EL1", self.ttbr1_el1),
            ("MAIR_EL1", self.mair_el1),
        ]
    }

    pub fn text(&self) -> String {
        self.named().iter().map(|(name, value)| format!("{name} = {value:#x}\n")).collect()
    }
}

/// Physical memory from an address on.
#[derive(Clone)]
pub struct Memory {
    pub base: u64,
    pub bytes: Vec<u8>,
}

impl Memory {
    pub fn zeros(base: u64, length: usize) -> Memory {
        Memory { base, bytes: vec![0; length] }
    }

    /// That of document 01's cases: stage 2's tables from 0x40000000 on, then the guest's.
    pub fn cases() -> Memory {
        Memory::zeros(0x4000_0000, 0x8000).with(&[
            (0x4000_0000, 0x4000_1003),
            (0x4000_1000, 0x4000_2003),
            (0x4000_2008, 0x4000_37ff),
            (0x4000_2010, 0x4000_47ff),
            (0x4000_2018, 0x4000_57ff),
            (0x4000_2280, 0x9_07ff),
            (0x4000_3000, 0x2003),
            (0x4000_4000, 0x3003),
            (0x4000_5008, 0x5_0743),
        ])
    }

    /// With words at addresses. The part of a word that lies outside is not in it.
    pub fn with(mut self, words: &[(u64, u64)]) -> Memory {
        for &(address, word) in words {
            for (byte, at) in word.to_le_bytes().into_iter().zip(address..) {
                if let Some(place) = at.checked_sub(self.base).and_then(|offset| self.bytes.get_mut(offset as usize)) {
                    *place = byte;
                }
            }
        }
        self
    }

    /// The word at an address, if all of it is here.
    pub fn descriptor(&self, address: u64) -> Option<u64> {
        let from = usize::try_from(address.checked_sub(self.base)?).ok()?;
        Some(u64::from_le_bytes(self.bytes.get(from..from.checked_add(8)?)?.try_into().ok()?))
    }

    pub fn cut(mut self, length: usize) -> Memory {
        self.bytes.truncate(length);
        self
    }
}

/// A folder with capture.bin and guest.registers, in which the command is run.
pub struct Bench {
    folder: TempDir,
    /// Of a raw capture.
    base: Option<u64>,
}

impl Bench {
    pub fn new(memory: &Memory, registers: &Registers) -> Bench {
        Bench::empty(Some(memory.base)).with(&memory.bytes, registers)
    }

    /// The same with a capture that is the bytes of a core file.
    pub fn core(file: &[u8], registers: &Registers) -> Bench {
        Bench::empty(None).with(file, registers)
    }

    fn with(self, capture: &[u8], registers: &Registers) -> Bench {
        self.write("capture.bin", capture);
        self.write("guest.registers", registers.text());
        self
    }

    pub fn empty(base: Option<u64>) -> Bench {
        Bench { folder: TempDir::new().expect("a folder for temporary files"), base }
    }

    /// Document 01's cases.
    pub fn cases() -> Bench {
        Bench::new(&Memory::cases(), &Registers::cases())
    }

    /// Document 01's cases as a core file, in one bank.
    pub fn core_cases() -> Bench {
        Bench::core(&Core::split(&Memory::cases(), &[]).file(), &Registers::cases())
    }

    /// The command's own sample, whose second guest (spectra) is the one asked.
    pub fn sample() -> Bench {
        let bench = Bench::empty(Some(0x4000_0000));
        bench.run("sample .").ends(0);
        fs::copy(bench.path("spectra.registers"), bench.path("guest.registers")).expect("the sample's registers");
        bench
    }

    pub fn path(&self, name: &str) -> PathBuf {
        self.folder.path().join(name)
    }

    pub fn write(&self, name: &str, content: impl AsRef<[u8]>) {
        fs::write(self.path(name), content).unwrap_or_else(|error| panic!("cannot write {name}: {error}"));
    }

    pub fn bytes(&self, name: &str) -> Vec<u8> {
        fs::read(self.path(name)).unwrap_or_else(|error| panic!("cannot read {name}: {error}"))
    }

    pub fn text(&self, name: &str) -> String {
        String::from_utf8(self.bytes(name)).expect("text")
    }

    /// All files of the folder, hidden ones too.
    pub fn names(&self) -> Vec<String> {
        let entries = fs::read_dir(self.folder.path()).expect("the folder");
        let mut names: Vec<String> = entries.map(|entry| entry.expect("an entry").file_name().to_string_lossy().into_owned()).collect();
        names.sort();
        names
    }

    /// Words over this capture and these registers, with their options at the end.
    pub fn words(&self, words: &str) -> String {
        let base = self.base.map_or(String::new(), |base| format!("--base {base:#x} "));
        format!("{words} --capture capture.bin {base}--registers guest.registers")
    }

    /// The command with words that have no spaces in them.
    pub fn command(&self, words: &str) -> Command {
        self.through(COMMAND, words)
    }

    /// A program of the system with such words, in the folder.
    pub fn through(&self, program: &str, words: &str) -> Command {
        let mut command = Command::new(program);
        command.args(words.split_whitespace()).current_dir(self.folder.path()).stdin(Stdio::null());
        command
    }

    #[must_use]
    pub fn run(&self, words: &str) -> Ran {
        Ran::of(self.command(words))
    }

    /// A verb over this capture and these registers.
    #[must_use]
    pub fn over(&self, words: &str) -> Ran {
        self.run(&self.words(words))
    }
}

/// How a run ended, and what it printed.
#[derive(Debug)]
pub struct Ran {
    /// None if a signal ended it.
    pub status: Option<i32>,
    pub stdout: String,
    pub stderr: String,
}

impl From<Output> for Ran {
    fn from(output: Output) -> Ran {
        let text = |bytes| String::from_utf8(bytes).expect("the command prints text");
        Ran { status: output.status.code(), stdout: text(output.stdout), stderr: text(output.stderr) }
    }
}

/// Two that must be the same, with all that the run printed if they are not.
#[track_caller]
fn same<T: PartialEq + Debug>(what: &str, found: T, expected: T, ran: &Ran) {
    assert!(
        found == expected,
        "{what} is {found:?}, expected {expected:?}\nstatus {:?}\nstandard output:\n{}\nstandard error:\n{}",
        ran.status,
        ran.stdout,
        ran.stderr
    );
}

impl Ran {
    #[must_use]
    pub fn of(mut command: Command) -> Ran {
        command.output().expect("the command runs").into()
    }

    #[track_caller]
    pub fn ends(self, status: i32) -> Ran {
        same("the status", self.status, Some(status), &self);
        self
    }

    /// All of standard output.
    #[track_caller]
    pub fn prints(self, stdout: &str) -> Ran {
        same("standard output", self.stdout.as_str(), stdout, &self);
        self
    }

    /// All of standard error.
    #[track_caller]
    pub fn says(self, stderr: &str) -> Ran {
        same("standard error", self.stderr.as_str(), stderr, &self);
        self
    }

    /// Parts of standard output.
    #[track_caller]
    pub fn shows(self, parts: &[&str]) -> Ran {
        for part in parts {
            same(&format!("that standard output has {part:?}"), self.stdout.contains(part), true, &self);
        }
        self
    }

    /// Parts of standard error, which is no panic.
    #[track_caller]
    pub fn warns(self, parts: &[&str]) -> Ran {
        same("that standard error has a panic", self.stderr.contains("panicked"), false, &self);
        for part in parts {
            same(&format!("that standard error has {part:?}"), self.stderr.contains(part), true, &self);
        }
        self
    }

    #[track_caller]
    pub fn has_no_ledger(self) -> Ran {
        same("that a ledger is printed", self.stdout.contains("asked"), false, &self);
        self
    }

    pub fn first_line(&self) -> &str {
        self.stdout.lines().next().unwrap_or("")
    }

    pub fn last_line(&self) -> &str {
        self.stdout.lines().last().unwrap_or("")
    }

    #[track_caller]
    pub fn json(&self) -> Value {
        serde_json::from_str(&self.stdout).unwrap_or_else(|error| panic!("no JSON ({error}):\n{}", self.stdout))
    }
}

/// The same file, byte for byte, as before.
pub struct Kept {
    path: PathBuf,
    bytes: Vec<u8>,
}

impl Kept {
    pub fn of(path: &Path) -> Kept {
        Kept { path: path.to_path_buf(), bytes: fs::read(path).expect("a file that is to be kept") }
    }

    #[track_caller]
    pub fn check(&self) {
        let now = fs::read(&self.path).unwrap_or_else(|error| panic!("{} is gone: {error}", self.path.display()));
        assert!(now == self.bytes, "{} changed", self.path.display());
    }
}
