//! The banks of a core file: which physical memory it has, and what lies between.
use crate::arguments::Banks;
use crate::ask::hex;
use crate::audit::counted;
use crate::capture::is_core;
use crate::ranges::Range;
use crate::refused;
use crate::results;
use crate::short;
use crate::trouble::{standard_output, Status, Trouble};
use crate::whole::Whole;
use humpelkaas::{banks, Bank, Refusal};
use serde_json::{json, Value};
use std::fmt::Write as _;
use std::io::Write;

/// Addresses between a bank and the next that the file has not. After a short bank they begin where its bytes end.
fn gap(bank: &Bank, next: &Bank) -> Option<Range> {
    let gap = Range { start: bank.address + bank.length, end: next.address };
    (gap.start < gap.end).then_some(gap)
}

/// The gaps, each with the number of the bank before it. The first bank is number 1.
fn gaps(banks: &[Bank]) -> Vec<(usize, Range)> {
    (1..).zip(banks).filter_map(|(number, bank)| Some((number, gap(bank, banks.get(number)?)?))).collect()
}

/// A row of the table: the bank's number, addresses, offset in the file, bytes, and what is to be said of it.
type Row = [String; 5];

fn bank_row(number: usize, bank: &Bank) -> Row {
    let said = if bank.short { "short: the file was cut" } else { "" };
    [number.to_string(), short::range(bank), hex(bank.offset), hex(bank.length), said.to_string()]
}

fn gap_row(gap: Range) -> Row {
    [String::new(), gap.to_string(), String::new(), hex(gap.size()), "gap: not in the file".to_string()]
}

/// Each bank, and after it the gap that follows it.
fn rows(banks: &[Bank]) -> Vec<Row> {
    let mut rows = Vec::new();
    for (number, bank) in (1..).zip(banks) {
        rows.push(bank_row(number, bank));
        rows.extend(banks.get(number).and_then(|next| gap(bank, next)).map(gap_row));
    }
    rows
}

/// The first line.
fn first(banks: &[Bank]) -> String {
    let short = match short::numbers(banks).len() {
        0 => String::new(),
        count => format!(", {count} short"),
    };
    match banks {
        [] => "no banks: the headers name no memory".to_string(),
        banks => format!("{}, {}{short}", counted(banks.len(), "bank"), counted(gaps(banks).len(), "gap")),
    }
}

fn table(banks: &[Bank]) -> String {
    let header = ["bank", "physical", "offset", "bytes", ""].map(String::from);
    let rows = rows(banks);
    let width = |column: usize| rows.iter().chain([&header]).map(|row| row[column].len()).max().unwrap_or(0);
    let [a, b, c, d] = [width(0), width(1), width(2), width(3)];
    let mut table = String::new();
    for [number, physical, offset, bytes, said] in [&header].into_iter().chain(&rows) {
        let line = format!("  {number:>a$}  {physical:<b$}  {offset:<c$}  {bytes:<d$}  {said}");
        let _ = writeln!(table, "{}", line.trim_end());
    }
    table
}

fn text(listed: &Result<Vec<Bank>, Refusal>) -> String {
    match listed {
        Ok(banks) if banks.is_empty() => format!("{}\n", first(banks)),
        Ok(banks) => format!("{}\n{}", first(banks), table(banks)),
        Err(refusal) => format!("{}\n{}\n", refused::numbers(*refusal), refused::explained(*refusal)),
    }
}

fn bank_json(number: usize, bank: &Bank) -> Value {
    json!({
        "bank": number,
        "address": hex(bank.address),
        "offset": hex(bank.offset),
        "bytes": hex(bank.length),
        "short": bank.short,
    })
}

fn all_json(listed: &Result<Vec<Bank>, Refusal>) -> Value {
    let (number, words, what_to_do, banks) = match listed {
        Ok(banks) => (0, first(banks), None, banks.as_slice()),
        Err(refusal) => (refusal.number(), format!("refused: {refusal}"), Some(refused::advice(*refusal)), &[][..]),
    };
    let gap = |(after, gap): &(usize, Range)| json!({ "after": after, "physical": [hex(gap.start), hex(gap.end - 1)] });
    json!({
        "number": number,
        "words": words,
        "what_to_do": what_to_do,
        "banks": (1..).zip(banks).map(|(number, bank)| bank_json(number, bank)).collect::<Vec<_>>(),
        "gaps": gaps(banks).iter().map(gap).collect::<Vec<_>>(),
        "short_banks": short::json(banks),
    })
}

pub fn run(arguments: &Banks, out: &mut dyn Write) -> Result<Status, Trouble> {
    results::not_an_input(None, &[&arguments.capture])?;
    let file = Whole::read(&arguments.capture)?;
    if !is_core(&file.bytes) {
        let path = file.path.display();
        return Err(Trouble::Io(format!("{path} is no core file, and raw bytes have no banks: is this the right file?")));
    }
    let listed = banks(&file.bytes);
    let status = match &listed {
        Ok(banks) if banks.iter().any(|bank| bank.short) => Status::Incomplete,
        Ok(_) => Status::Complete,
        Err(_) => Status::Refused,
    };
    short::warn(listed.as_deref().unwrap_or_default());
    file.unchanged()?;
    let printed = if arguments.json { format!("{:#}\n", all_json(&listed)) } else { text(&listed) };
    out.write_all(printed.as_bytes()).and_then(|()| out.flush()).map_err(standard_output)?;
    Ok(status)
}
