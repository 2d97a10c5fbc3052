//! What the command is called with.
use crate::number;
use clap::{Args, Parser, Subcommand, ValueEnum};
use clap_complete::Shell;
use humpelkaas::{Access, Kind};
use std::path::PathBuf;

/// Where do a guest's addresses land? Answers from a memory capture of an Arm board, raw or a core file, by the proved VMSAv8-64 walk of
/// both stages, with granules of 4KB, 16KB and 64KB.
///
/// Numbers are decimal, or hexadecimal after 0x.
///
/// Exit status: 0 complete; 1 something is absent from the capture or unsettled by Arm, or there is a finding or a short bank; 2 refused;
/// 3 something could not be read or written; 64 wrong usage.
#[derive(Parser)]
#[command(name = "humpelkaas", version, max_term_width = 100)]
pub struct Arguments {
    #[command(subcommand)]
    pub verb: Verb,
}

#[derive(Subcommand)]
pub enum Verb {
    /// Say where one address lands, with each descriptor that is read on the way
    Ask(Ask),
    /// Say of each address of a file where it lands, and count the answers
    Batch(Batch),
    /// Say whether stage 2's tables keep a guest within the memory that it was granted
    Audit(Audit),
    /// Show what a guest can reach, as a table and as a picture
    Map(Map),
    /// List which physical memory a core file has
    Banks(Banks),
    /// Write two small samples, a raw capture and a core file, and run the other verbs over them
    Sample(Sample),
    /// Print a shell's completions of this command
    Completions {
        /// The shell
        shell: Shell,
    },
}

#[derive(Args)]
pub struct Memory {
    /// The capture: a core file of the debugger (ELF64), or raw bytes of physical memory
    #[arg(long, value_name = "FILE")]
    pub capture: PathBuf,
    /// The physical address of a raw capture's first byte. A core file's headers have its addresses
    #[arg(long, value_name = "ADDRESS", value_parser = number::parse)]
    pub base: Option<u64>,
    /// Take the capture as raw bytes, also if they begin like a core file
    #[arg(long, requires = "base")]
    pub raw: bool,
}

#[derive(Args)]
pub struct Guest {
    /// The registers: lines NAME = VALUE, for SCTLR_EL1, TCR_EL1, TTBR0_EL1, TTBR1_EL1, MAIR_EL1, HCR_EL2, VTCR_EL2, VTTBR_EL2,
    /// SCTLR_EL2 and PAMAX
    #[arg(long, value_name = "FILE")]
    pub registers: PathBuf,
}

#[derive(Args)]
pub struct Manner {
    /// read, write or fetch (or 0, 1, 2)
    #[arg(long, default_value = "read", value_parser = kind)]
    pub kind: Kind,
    /// The exception level: 0 or 1
    #[arg(long, default_value = "1", value_parser = level)]
    pub el: u64,
    /// The size in bytes: 1, 2, 4, 8 or 16 (or byte, halfword, word, doubleword, quadword)
    #[arg(long, default_value = "8", value_parser = size)]
    pub size: u64,
}

#[derive(Args)]
pub struct Ask {
    /// The guest's virtual address
    #[arg(value_parser = number::parse)]
    pub address: u64,
    #[command(flatten)]
    pub memory: Memory,
    #[command(flatten)]
    pub guest: Guest,
    #[command(flatten)]
    pub manner: Manner,
    /// Print JSON
    #[arg(long)]
    pub json: bool,
}

#[derive(Clone, Copy, ValueEnum)]
pub enum Format {
    /// The header address,answer,output and a line for each address
    Csv,
    /// A line of JSON for each address
    Json,
}

#[derive(Args)]
pub struct Batch {
    #[command(flatten)]
    pub memory: Memory,
    #[command(flatten)]
    pub guest: Guest,
    #[command(flatten)]
    pub manner: Manner,
    /// The addresses, one a line; - is standard input
    #[arg(long, value_name = "FILE")]
    pub addresses: PathBuf,
    /// Where the results go: standard output if this is not given. The file is there only when it is whole
    #[arg(long, value_name = "FILE")]
    pub output: Option<PathBuf>,
    /// The form of the results
    #[arg(long, value_enum, default_value = "csv")]
    pub format: Format,
}

#[derive(Args)]
pub struct Audit {
    #[command(flatten)]
    pub memory: Memory,
    #[command(flatten)]
    pub guest: Guest,
    /// What the guest was granted: lines ADDRESS BYTES, in multiples of 4,096
    #[arg(long, value_name = "FILE")]
    pub grants: PathBuf,
    /// Stage 2's tables but the root: lines ADDRESS LEVEL, with addresses in multiples of stage 2's granule
    #[arg(long, value_name = "FILE")]
    pub tables: PathBuf,
    /// Print JSON
    #[arg(long)]
    pub json: bool,
}

#[derive(Args)]
pub struct Map {
    #[command(flatten)]
    pub memory: Memory,
    /// A guest's registers, as for ask. Give it once more for a second guest
    #[arg(long, value_name = "FILE", required = true)]
    pub registers: Vec<PathBuf>,
    /// What the guest was granted: lines ADDRESS BYTES; for two guests, once for each
    #[arg(long, value_name = "FILE")]
    pub grants: Vec<PathBuf>,
    /// Write the picture of physical memory to this file
    #[arg(long, value_name = "FILE")]
    pub svg: Option<PathBuf>,
    /// Print JSON
    #[arg(long)]
    pub json: bool,
}

#[derive(Args)]
pub struct Banks {
    /// The core file
    #[arg(long, value_name = "FILE")]
    pub capture: PathBuf,
    /// Print JSON
    #[arg(long)]
    pub json: bool,
}

#[derive(Args)]
pub struct Sample {
    /// The folder to write to; it is made if it is not there
    #[arg(value_name = "DIR")]
    pub folder: PathBuf,
}

impl Manner {
    pub fn access(&self) -> Access {
        Access { kind: self.kind, el: self.el, size: self.size }
    }
}

/// A word of a list, or any number: those that are not listed the library refuses.
fn word_or_number(text: &str, words: &[(&str, u64)]) -> Result<u64, String> {
    match words.iter().find(|(word, _)| word.eq_ignore_ascii_case(text)) {
        Some((_, number)) => Ok(*number),
        None => number::parse(text).map_err(|_| {
            let known: Vec<&str> = words.iter().map(|(word, _)| *word).collect();
            format!("write a number, or one of {}", known.join(", "))
        }),
    }
}

fn kind(text: &str) -> Result<Kind, String> {
    word_or_number(text, &[("read", 0), ("write", 1), ("fetch", 2)]).map(Kind::from)
}

fn level(text: &str) -> Result<u64, String> {
    word_or_number(text, &[("EL0", 0), ("EL1", 1)])
}

fn size(text: &str) -> Result<u64, String> {
    word_or_number(text, &[("byte", 1), ("halfword", 2), ("word", 4), ("doubleword", 8), ("quadword", 16)])
}
