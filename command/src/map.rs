//! What guests can reach: a table, a picture, and what is wrong with it.
use crate::arguments::Map;
use crate::ask::hex;
use crate::capture::CaptureFile;
use crate::guest::Guest;
use crate::lists;
use crate::picture;
use crate::probe::letters;
use crate::ranges::{joined, shared, without, Range};
use crate::refused;
use crate::registers;
use crate::results::{self, Results};
use crate::scope;
use crate::short;
use crate::trouble::{say, standard_output, Status, Trouble};
use humpelkaas::{audit, AuditAnswer, Capture, Grant, Refusal, Registers};
use serde_json::{json, Value};
use std::fmt::{self, Write as _};
use std::io::Write;
use std::path::{Path, PathBuf};

/// Something that should not be.
pub struct Finding {
    pub frames: Range,
    pub what: String,
}

impl fmt::Display for Finding {
    fn fmt(&self, f: &mut fmt::Formatter) -> fmt::Result {
        write!(f, "{}: {}", self.frames, self.what)
    }
}

/// A number of bytes as people say it.
fn bytes(size: u64) -> String {
    const UNITS: [&str; 6] = ["B", "KiB", "MiB", "GiB", "TiB", "PiB"];
    let mut unit = 0;
    let mut number = size;
    while number >= 1024 && number % 1024 == 0 && unit + 1 < UNITS.len() {
        number /= 1024;
        unit += 1;
    }
    format!("{number} {}", UNITS[unit])
}

fn granted(grants: Vec<Grant>) -> Vec<Range> {
    joined(grants.iter().map(|grant| Range::new(grant.address, grant.bytes)).collect())
}

/// What two guests both reach, what a guest reaches of stage 2's tables, and what it reaches beyond its grants.
fn findings(guests: &[Guest]) -> Vec<Finding> {
    let mut findings = Vec::new();
    let mut add = |frames: Vec<Range>, what: String| {
        findings.extend(frames.into_iter().map(|frames| Finding { frames, what: what.clone() }));
    };
    for (index, guest) in guests.iter().enumerate() {
        for other in &guests[index + 1..] {
            add(shared(&guest.frames, &other.frames), format!("{} and {} both reach this", guest.name, other.name));
        }
        for owner in guests {
            add(shared(&guest.frames, &owner.tables), format!("{} reaches stage 2 tables of {}", guest.name, owner.name));
        }
        if let Some(grants) = &guest.grants {
            add(without(&guest.frames, grants), format!("{} reaches this beyond its grants", guest.name));
        }
    }
    findings
}

fn guest_text(guest: &Guest) -> String {
    let mut text = format!("{}\n", guest.name);
    let rows: Vec<[String; 5]> = guest
        .mapped
        .iter()
        .map(|m| [m.ipas.to_string(), m.frames.to_string(), bytes(m.ipas.size()), letters(m.rights), m.attributes.to_string()])
        .collect();
    let header = ["IPA", "physical", "size", "rights", "attributes"].map(String::from);
    let width = |column: usize| rows.iter().chain([&header]).map(|row| row[column].len()).max().unwrap_or(0);
    let widths = [width(0), width(1), width(2), width(3)];
    for row in [&header].into_iter().chain(&rows) {
        let [ipa, physical, size, rights, attributes] = row;
        let [a, b, c, d] = widths;
        let _ = writeln!(text, "  {ipa:<a$}  {physical:<b$}  {size:>c$}  {rights:<d$}  {attributes}");
    }
    for (ipas, address) in &guest.absent {
        let _ = writeln!(text, "  {ipas}: not in the capture (first missing: the descriptor at {address:#x})");
    }
    for ipas in &guest.unsettled {
        let _ = writeln!(text, "  {ipas}: unsettled by Arm");
    }
    let tables: Vec<String> = guest.tables.iter().map(Range::to_string).collect();
    let _ = writeln!(text, "  stage 2's tables, granule {}: {}", bytes(guest.granule.bytes()), tables.join(", "));
    text
}

fn text(guests: &[Guest], findings: &[Finding]) -> String {
    let mut text: String = guests.iter().map(guest_text).collect();
    for finding in findings {
        let _ = writeln!(text, "! {finding}");
    }
    if guests.len() > 1 && findings.is_empty() && guests.iter().all(Guest::is_whole) {
        text += "no two guests reach the same memory, and none reaches stage 2's tables\n";
    }
    text
}

fn guest_json(guest: &Guest) -> Value {
    let range = |range: &Range| json!([hex(range.start), hex(range.end - 1)]);
    let mapped = guest.mapped.iter().map(|mapped| {
        json!({
            "ipa": range(&mapped.ipas),
            "physical": range(&mapped.frames),
            "size": hex(mapped.ipas.size()),
            "rights": letters(mapped.rights),
            "memory": mapped.attributes.memory.to_string(),
            "shareability": mapped.attributes.shareability.to_string(),
        })
    });
    json!({
        "guest": guest.name,
        "mapped": mapped.collect::<Vec<_>>(),
        "granule": hex(guest.granule.bytes()),
        "tables": guest.tables.iter().map(range).collect::<Vec<_>>(),
        "absent": guest.absent.iter().map(|(ipas, at)| json!({ "ipa": range(ipas), "descriptor": hex(*at) })).collect::<Vec<_>>(),
        "unsettled": guest.unsettled.iter().map(range).collect::<Vec<_>>(),
    })
}

fn all_json(guests: &[Guest], findings: &[Finding], capture: &CaptureFile, out_of_scope: &[String]) -> Value {
    let finding =
        |finding: &Finding| json!({ "physical": [hex(finding.frames.start), hex(finding.frames.end - 1)], "words": finding.what });
    json!({
        "guests": guests.iter().map(guest_json).collect::<Vec<_>>(),
        "findings": findings.iter().map(finding).collect::<Vec<_>>(),
        "short_banks": short::json(capture.banks()),
        "out_of_scope": out_of_scope,
        "warning": scope::words(out_of_scope),
    })
}

/// A guest is called by its file of registers, in short where that tells it from the others.
fn name(path: &Path, all: &[PathBuf]) -> String {
    let short = path.file_stem().unwrap_or(path.as_os_str());
    match all.iter().filter(|other| other.file_stem() == Some(short)).count() {
        1 => short.to_string_lossy().into_owned(),
        _ => path.display().to_string(),
    }
}

fn draw(target: &Path, guests: &[Guest], findings: &[Finding]) -> Result<(), Trouble> {
    let mut results = Results::open(Some(target))?;
    results.write(picture::svg(guests, findings).as_bytes())?;
    results.finish()
}

/// Why a guest's registers or grants are refused: for what an audit refuses them, in its order.
fn refusal(capture: Capture, registers: &Registers, grants: Option<&[Grant]>) -> Option<Refusal> {
    match audit(capture, &registers.el2, grants.unwrap_or(&[]), &[]) {
        AuditAnswer::Refused(refusal) => Some(refusal),
        _ => None,
    }
}

/// The file that a refusal is about.
fn about<'a>(refusal: Refusal, capture: &'a Path, registers: &'a Path) -> &'a Path {
    match refusal {
        Refusal::CoreFile => capture,
        _ => registers,
    }
}

pub fn run(arguments: &Map, out: &mut dyn Write) -> Result<Status, Trouble> {
    if !arguments.grants.is_empty() && arguments.grants.len() != arguments.registers.len() {
        return Err(Trouble::Usage("give --grants once for each --registers, in the same order".to_string()));
    }
    let inputs = [&arguments.memory.capture].into_iter().chain(&arguments.registers).chain(&arguments.grants);
    results::not_an_input(arguments.svg.as_deref(), &inputs.map(PathBuf::as_path).collect::<Vec<_>>())?;
    let capture = CaptureFile::read(&arguments.memory)?;
    let mut guests = Vec::new();
    let mut out_of_scope = Vec::new();
    for (index, path) in arguments.registers.iter().enumerate() {
        let registers = registers::read(path)?;
        let name = name(path, &arguments.registers);
        let bits: Vec<String> = scope::bits(&registers).iter().map(|bit| format!("{name}: {bit}")).collect();
        scope::warn(&bits);
        out_of_scope.extend(bits);
        let grants = arguments.grants.get(index).map(|path| lists::grants(path)).transpose()?;
        if let Some(refusal) = refusal(capture.capture(), &registers, grants.as_deref()) {
            let path = about(refusal, &arguments.memory.capture, path);
            say(&format!("{}: {}: {}", path.display(), refused::numbers(refusal), refused::explained(refusal)));
            return Ok(Status::Refused);
        }
        guests.push(Guest::gather(name, capture.capture(), &registers, grants.map(granted))?);
    }
    capture.unchanged()?;
    let findings = findings(&guests);
    if let Some(target) = &arguments.svg {
        draw(target, &guests, &findings)?;
    }
    let printed =
        if arguments.json { format!("{:#}\n", all_json(&guests, &findings, &capture, &out_of_scope)) } else { text(&guests, &findings) };
    out.write_all(printed.as_bytes()).and_then(|()| out.flush()).map_err(standard_output)?;
    let whole = guests.iter().all(Guest::is_whole);
    Ok(if whole && findings.is_empty() { Status::Complete } else { Status::Incomplete })
}
