//! The audit: clean, or what is wrong first, in words.
use crate::arguments::Audit;
use crate::ask::hex;
use crate::capture::CaptureFile;
use crate::granule::Granule;
use crate::layout::is_table;
use crate::lists;
use crate::reach;
use crate::refused;
use crate::registers;
use crate::results;
use crate::scope;
use crate::short;
use crate::trouble::{standard_output, Status, Trouble};
use humpelkaas::{audit, AuditAnswer, Finding, Grant, Registers, Table};
use serde_json::{json, Value};
use std::io::Write;
use std::path::PathBuf;

/// What an entry of stage 2's tables maps.
struct Maps {
    value: u64,
    level: u64,
    /// The first of the IPAs that go through it, if any do.
    ipa: Option<u64>,
    /// The physical address that it leads to.
    to: u64,
    /// How many bytes of IPAs it is for.
    size: u64,
    table: bool,
}

/// The lists of an audit.
struct Lists {
    grants: Vec<Grant>,
    tables: Vec<Table>,
}

impl Lists {
    /// The entry is what a finding says, as one of a level.
    fn is_found(&self, finding: Finding, granule: Granule, value: u64, level: u64) -> bool {
        match finding {
            Finding::UnlistedTable => {
                let next = Table { address: granule.table(value), level: level + 1 };
                is_table(value, level) && !self.tables.contains(&next)
            }
            Finding::OutsideGrants => {
                let (from, size) = (granule.leaf(value, level), granule.span(level));
                let holds = |grant: &Grant| grant.address <= from && from + size <= grant.address + grant.bytes;
                granule.is_leaf(value, level) && !self.grants.iter().any(holds)
            }
            Finding::NotCaptured | Finding::TouchesGrant => false,
        }
    }

    /// What the entry of a finding maps. A table may be audited at several levels, in their order after the root's.
    fn maps(&self, capture: &CaptureFile, registers: &Registers, finding: Finding, entry: u64) -> Option<Maps> {
        let value = capture.descriptor(entry)?;
        let granule = Granule::stage2(registers);
        let tree = reach::Tables::of(capture.capture(), registers);
        let root = tree.root.contains(&entry).then_some(tree.start);
        let listed = self.tables.iter().filter(|table| table.address == granule.table(entry)).map(|table| table.level);
        let level = root.into_iter().chain(listed).find(|level| self.is_found(finding, granule, value, *level))?;
        let table = is_table(value, level);
        let to = if table { granule.table(value) } else { granule.leaf(value, level) };
        Some(Maps { value, level, ipa: tree.lowest_ipa(entry, level), to, size: granule.span(level), table })
    }
}

/// The first line: what scripts go by.
fn first(answer: &AuditAnswer) -> String {
    match answer {
        AuditAnswer::Clean => "clean".to_string(),
        AuditAnswer::Found { finding, address } => format!("finding {} {address:#x}", finding.number()),
        AuditAnswer::Refused(refusal) => refused::numbers(*refusal),
    }
}

impl Maps {
    fn words(&self) -> String {
        let (value, level, to, last) = (self.value, self.level, self.to, self.size - 1);
        let leads =
            if self.table { format!("leads to the table at {to:#x}") } else { format!("maps physical {to:#x} to {:#x}", to + last) };
        let whose = match self.ipa {
            Some(ipa) => format!("for IPAs {ipa:#x} to {:#x}", ipa + last),
            None => "and no IPA goes through it".to_string(),
        };
        format!("the entry's value is {value:#x}: at level {level} it {leads}, {whose}")
    }

    fn json(&self) -> Value {
        json!({
            "value": hex(self.value),
            "level": self.level,
            "table": self.table,
            "to": hex(self.to),
            "size": hex(self.size),
            "ipa": self.ipa.map(hex),
        })
    }
}

/// So many of something.
pub fn counted(count: usize, what: &str) -> String {
    format!("{count} {what}{}", if count == 1 { "" } else { "s" })
}

/// What to do about a finding.
fn advice(finding: Finding) -> &'static str {
    match finding {
        Finding::NotCaptured => "capture the whole table and audit again: nothing is said about what is missing",
        Finding::TouchesGrant => "take the table out of the grants, or the guest can map what it likes",
        Finding::UnlistedTable => "list the table one level below the entry's, or find out who wrote this entry",
        Finding::OutsideGrants => "grant the range, or find out who wrote this entry",
    }
}

fn text(answer: &AuditAnswer, maps: Option<&Maps>, lists: &Lists) -> String {
    let explained = match answer {
        AuditAnswer::Clean => format!(
            "every access of the guest through the root and {} stays in its {}, whatever it does",
            counted(lists.tables.len(), "listed table"),
            counted(lists.grants.len(), "grant")
        ),
        AuditAnswer::Found { finding, .. } => {
            let maps = maps.map_or(String::new(), |maps| format!("\n{}", maps.words()));
            format!("{finding}{maps}\nWhat to do: {}.", advice(*finding))
        }
        AuditAnswer::Refused(refusal) => refused::explained(*refusal),
    };
    format!("{}\n{explained}\n", first(answer))
}

fn answer_json(answer: &AuditAnswer, maps: Option<&Maps>, capture: &CaptureFile, out_of_scope: &[&str]) -> Value {
    let (number, item, address, what_to_do) = match answer {
        AuditAnswer::Clean => (0, None, None, None),
        AuditAnswer::Found { finding, address } => (finding.number(), None, Some(hex(*address)), Some(advice(*finding))),
        AuditAnswer::Refused(refusal) => (refusal.number(), refusal.item(), None, Some(refused::advice(*refusal))),
    };
    json!({
        "answer": first(answer),
        "number": number,
        "item": item,
        "address": address,
        "words": answer.to_string(),
        "what_to_do": what_to_do,
        "entry": maps.map(Maps::json),
        "short_banks": short::json(capture.banks()),
        "out_of_scope": out_of_scope,
        "warning": scope::words(out_of_scope),
    })
}

pub fn run(arguments: &Audit, out: &mut dyn Write) -> Result<Status, Trouble> {
    let inputs = [&arguments.memory.capture, &arguments.guest.registers, &arguments.grants, &arguments.tables];
    results::not_an_input(None, &inputs.map(PathBuf::as_path))?;
    let registers = registers::read(&arguments.guest.registers)?;
    let out_of_scope = scope::bits(&registers);
    scope::warn(&out_of_scope);
    let lists = Lists { grants: lists::grants(&arguments.grants)?, tables: lists::tables(&arguments.tables)? };
    let capture = CaptureFile::read(&arguments.memory)?;
    let answer = audit(capture.capture(), &registers.el2, &lists.grants, &lists.tables);
    let maps = match answer {
        AuditAnswer::Found { finding, address } => lists.maps(&capture, &registers, finding, address),
        _ => None,
    };
    capture.unchanged()?;
    let printed = if arguments.json {
        format!("{:#}\n", answer_json(&answer, maps.as_ref(), &capture, &out_of_scope))
    } else {
        text(&answer, maps.as_ref(), &lists)
    };
    out.write_all(printed.as_bytes()).and_then(|()| out.flush()).map_err(standard_output)?;
    Ok(match answer {
        AuditAnswer::Clean => Status::Complete,
        AuditAnswer::Found { .. } => Status::Incomplete,
        AuditAnswer::Refused(_) => Status::Refused,
    })
}
