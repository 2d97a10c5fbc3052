//! A file of addresses: blocks of it go through the library on all cores, and results are written in their order.
use crate::addresses::{self, Addresses, Block, Wrong};
use crate::arguments::{Batch, Format};
use crate::capture::CaptureFile;
use crate::progress::Progress;
use crate::refused;
use crate::registers;
use crate::results::{self, Results, STANDARD_INPUT};
use crate::scope;
use crate::short;
use crate::trouble::{say, standard_output, Status, Trouble};
use humpelkaas::{batch, Access, Capture, Entries, Ledger, Refusal, Registers, BATCH};
use rayon::prelude::*;
use serde::Serialize;
use std::io::Write;
use std::path::Path;

/// How many blocks each core has at a time: enough that none waits long for the others.
const BLOCKS: usize = 4;

/// What all addresses share.
struct Question<'a> {
    capture: Capture<'a>,
    registers: &'a Registers,
    access: Access,
    format: Format,
    short_banks: &'a [usize],
    out_of_scope: &'a [&'static str],
    warning: Option<&'a str>,
}

/// One result, as a line of JSON.
#[derive(Serialize)]
struct Line<'a> {
    address: String,
    answer: u64,
    output: String,
    #[serde(skip_serializing_if = "<[_]>::is_empty")]
    short_banks: &'a [usize],
    #[serde(skip_serializing_if = "<[_]>::is_empty")]
    out_of_scope: &'a [&'static str],
    #[serde(skip_serializing_if = "Option::is_none")]
    warning: Option<&'a str>,
}

/// What became of a block.
struct Done {
    text: Vec<u8>,
    ledger: Ledger,
}

enum Failed {
    Line(Wrong),
    Refused(Refusal),
}

impl Question<'_> {
    /// The answers of one batch.
    fn answer(&self, addresses: &[u64], entries: &mut Entries) -> Result<Ledger, Refusal> {
        batch(self.capture, self.registers, self.access, addresses, entries)
    }

    fn csv(&self, addresses: &[u64], entries: &Entries, text: &mut Vec<u8>) {
        let mut writer = csv::WriterBuilder::new().has_headers(false).from_writer(text);
        for ((address, number), output) in addresses.iter().zip(&entries.numbers).zip(&entries.outputs) {
            // Writing to memory cannot fail.
            let _ = writer.write_record(&[format!("{address:#x}"), number.to_string(), format!("{output:#x}")]);
        }
    }

    fn json(&self, addresses: &[u64], entries: &Entries, text: &mut Vec<u8>) {
        for ((address, number), output) in addresses.iter().zip(&entries.numbers).zip(&entries.outputs) {
            let (address, output) = (format!("{address:#x}"), format!("{output:#x}"));
            let Question { short_banks, out_of_scope, warning, .. } = *self;
            let line = Line { address, answer: *number, output, short_banks, out_of_scope, warning };
            let _ = serde_json::to_writer(&mut *text, &line);
            text.push(b'\n');
        }
    }

    /// The results of a block, as text.
    fn block(&self, block: &Block) -> Result<Done, Failed> {
        let addresses = addresses::parse(block).map_err(Failed::Line)?;
        let mut done = Done { text: Vec::with_capacity(addresses.len() * 40), ledger: Ledger::default() };
        let mut entries = Entries::default();
        for part in addresses.chunks(BATCH) {
            done.ledger = done.ledger + self.answer(part, &mut entries).map_err(Failed::Refused)?;
            match self.format {
                Format::Csv => self.csv(part, &entries, &mut done.text),
                Format::Json => self.json(part, &entries, &mut done.text),
            }
        }
        Ok(done)
    }
}

/// The next blocks, one or more for each core.
fn blocks(addresses: &mut Addresses) -> Result<Vec<Block>, Trouble> {
    let mut blocks = Vec::new();
    while blocks.len() < BLOCKS * rayon::current_num_threads() {
        match addresses.block()? {
            Some(block) => blocks.push(block),
            None => break,
        }
    }
    Ok(blocks)
}

/// Puts all addresses through the library.
fn answer_all(question: &Question, addresses: &mut Addresses, results: &mut Results) -> Result<Ledger, Trouble> {
    if let Format::Csv = question.format {
        results.write(b"address,answer,output\n")?;
    }
    let progress = Progress::of_bytes(addresses.length);
    let mut whole = Ledger::default();
    loop {
        let blocks = blocks(addresses)?;
        if blocks.is_empty() {
            progress.end();
            return Ok(whole);
        }
        let done: Vec<_> = blocks.par_iter().map(|block| question.block(block)).collect();
        for (block, done) in blocks.iter().zip(done) {
            let done = done.map_err(|failed| match failed {
                Failed::Line(wrong) => addresses.wrong(&wrong),
                // The first batch was accepted, and no later one has other registers.
                Failed::Refused(refusal) => Trouble::Io(format!("a later batch was refused: {refusal}")),
            })?;
            results.write(&done.text)?;
            whole = whole + done.ledger;
            progress.pass(block.bytes.len() as u64, whole.asked);
        }
    }
}

pub fn run(arguments: &Batch, out: &mut dyn Write) -> Result<Status, Trouble> {
    let addresses = match &arguments.addresses {
        dash if dash == Path::new("-") => Path::new(STANDARD_INPUT),
        file => file,
    };
    results::not_an_input(arguments.output.as_deref(), &[&arguments.memory.capture, &arguments.guest.registers, addresses])?;
    let registers = registers::read(&arguments.guest.registers)?;
    let out_of_scope = scope::bits(&registers);
    scope::warn(&out_of_scope);
    let warning = scope::words(&out_of_scope);
    let mut addresses = Addresses::open(&arguments.addresses)?;
    let capture = CaptureFile::read(&arguments.memory)?;
    let short_banks = short::numbers(capture.banks());
    let question = Question {
        capture: capture.capture(),
        registers: &registers,
        access: arguments.manner.access(),
        format: arguments.format,
        short_banks: &short_banks,
        out_of_scope: &out_of_scope,
        warning: warning.as_deref(),
    };
    // A refusal does not depend on the addresses: it is known before anything is written.
    if let Err(refusal) = question.answer(&[], &mut Entries::default()) {
        say(&format!("{}: {}", refused::numbers(refusal), refused::explained(refusal)));
        return Ok(Status::Refused);
    }
    let mut results = Results::open(arguments.output.as_deref())?;
    let ledger = answer_all(&question, &mut addresses, &mut results)?;
    capture.unchanged()?;
    results.finish()?;
    writeln!(out, "{ledger}").and_then(|()| out.flush()).map_err(standard_output)?;
    Ok(if ledger.absent + ledger.unsettled > 0 { Status::Incomplete } else { Status::Complete })
}
