//! One address, for people: the answer in words, and the walk step by step.
use crate::arguments::Ask;
use crate::capture::CaptureFile;
use crate::refused;
use crate::registers;
use crate::results;
use crate::scope;
use crate::short;
use crate::steps::{self, Says, Step};
use crate::trouble::{standard_output, Status, Trouble};
use humpelkaas::{translate, Answer, Fault, Stage, Told};
use serde_json::{json, Map, Value};
use std::fmt::Write as _;
use std::io::Write;

/// A number as people read addresses.
pub fn hex(number: u64) -> String {
    format!("{number:#x}")
}

pub fn status(answer: &Answer) -> Status {
    match answer {
        Answer::Translated { .. } | Answer::Fault { .. } | Answer::Misaligned { .. } => Status::Complete,
        Answer::Absent { .. } | Answer::Unsettled { .. } => Status::Incomplete,
        Answer::Refused(_) => Status::Refused,
    }
}

/// Why a walk ended at the descriptor that was read last.
fn ending(answer: &Answer) -> Option<&'static str> {
    match answer {
        Answer::Fault { fault: Fault::Translation, .. } => Some("translation fault"),
        Answer::Fault { fault: Fault::AddressSize, stage: Stage::One, .. } => Some("its address has more bits than IPS or PAMax allows"),
        Answer::Fault { fault: Fault::AddressSize, .. } => Some("its address has more bits than PS or PAMax allows"),
        Answer::Fault { fault: Fault::AccessFlag, .. } => Some("access flag clear"),
        Answer::Fault { fault: Fault::Permission, .. } => Some("this access is not permitted"),
        Answer::Misaligned { .. } => Some("Device memory, and the access is not aligned"),
        Answer::Unsettled { .. } => Some("unsettled by Arm"),
        Answer::Translated { .. } | Answer::Absent { .. } | Answer::Refused(_) => None,
    }
}

/// The answer is about this step's descriptor.
fn ends_at(step: &Step, answer: &Answer) -> bool {
    match *answer {
        Answer::Fault { stage, level, .. } | Answer::Unsettled { stage, level } => (step.stage, step.level) == (stage, level),
        Answer::Misaligned { stage, .. } => step.stage == stage,
        _ => false,
    }
}

/// What a step says, and for the last one how the walk ends there.
fn said(step: &Step, last: bool, answer: &Answer) -> String {
    match ending(answer) {
        Some(ending) if last && ends_at(step, answer) => match step.says {
            Says::Invalid => step.says.to_string(),
            _ => format!("{}: {ending}", step.says),
        },
        _ => step.says.to_string(),
    }
}

/// The steps as a table.
fn table(steps: &[Step], answer: &Answer) -> String {
    let mut table = format!("  {:>4}  {:<7}  {:>5}  {:<16}  {:<18}  says\n", "read", "stage", "level", "at", "value");
    for (index, step) in steps.iter().enumerate() {
        let stage = if step.stage.onwalk() { "2 for 1".to_string() } else { step.stage.number().to_string() };
        let says = said(step, index + 1 == steps.len(), answer);
        let _ = writeln!(
            table,
            "  {:>4}  {stage:<7}  {:>5}  {:<16}  {:<18}  {says}",
            index + 1,
            step.level,
            hex(step.address),
            hex(step.value)
        );
    }
    table
}

fn text(ask: &Ask, told: &Told, steps: &[Step]) -> String {
    let mut text = format!("{:#x}, {}: ", ask.address, ask.manner.access());
    match told.answer {
        Answer::Refused(refusal) => {
            let _ = writeln!(text, "{}: {}", refused::numbers(refusal), refused::explained(refusal));
        }
        answer => {
            let _ = writeln!(text, "{answer} (answer {}, {} descriptors read)", answer.number(), told.reads.len());
        }
    }
    if !steps.is_empty() {
        text += &table(steps, &told.answer);
    }
    text
}

/// The values of an answer, by name.
pub fn answer_json(answer: &Answer) -> Value {
    let mut fields = Map::new();
    fields.insert("number".into(), json!(answer.number()));
    fields.insert("words".into(), json!(answer.to_string()));
    let mut put = |name: &str, value: Value| fields.insert(name.into(), value);
    match *answer {
        Answer::Translated { address, attributes, level1, level2 } => {
            put("address", json!(hex(address)));
            put("memory", json!(attributes.memory.to_string()));
            put("shareability", json!(attributes.shareability.to_string()));
            put("level1", json!(level1));
            put("level2", json!(level2));
        }
        Answer::Fault { stage, level, ipa, .. } => {
            put("stage", json!(stage.number()));
            put("level", json!(level));
            put("on_walk", json!(stage.onwalk()));
            put("ipa", json!(ipa.map(hex)));
        }
        Answer::Misaligned { stage, ipa } => {
            put("stage", json!(stage.number()));
            put("ipa", json!(ipa.map(hex)));
        }
        Answer::Absent { address, stage, level } => {
            put("address", json!(hex(address)));
            put("stage", json!(stage.number()));
            put("level", json!(level));
            put("on_walk", json!(stage.onwalk()));
        }
        Answer::Unsettled { stage, level } => {
            put("stage", json!(stage.number()));
            put("level", json!(level));
            put("on_walk", json!(stage.onwalk()));
        }
        Answer::Refused(refusal) => {
            put("item", json!(refusal.item()));
            put("what_to_do", json!(refused::advice(refusal)));
        }
    }
    Value::Object(fields)
}

fn steps_json(steps: &[Step], answer: &Answer) -> Vec<Value> {
    let step = |(index, step): (usize, &Step)| {
        json!({
            "read": index + 1,
            "stage": step.stage.number(),
            "on_walk": step.stage.onwalk(),
            "level": step.level,
            "address": hex(step.address),
            "value": hex(step.value),
            "says": said(step, index + 1 == steps.len(), answer),
        })
    };
    steps.iter().enumerate().map(step).collect()
}

pub fn run(ask: &Ask, out: &mut dyn Write) -> Result<Status, Trouble> {
    results::not_an_input(None, &[&ask.memory.capture, &ask.guest.registers])?;
    let registers = registers::read(&ask.guest.registers)?;
    let beyond = scope::bits(&registers);
    scope::warn(&beyond);
    let capture = CaptureFile::read(&ask.memory)?;
    let access = ask.manner.access();
    let told = translate(capture.capture(), &registers, access, ask.address);
    let steps = steps::steps(&capture, &registers, access, ask.address, &told)
        .ok_or_else(|| Trouble::Io(format!("the steps do not fit the answer, {}: please report this with the capture", told.answer)))?;
    capture.unchanged()?;
    let printed = if ask.json {
        let question = json!({
            "address": hex(ask.address),
            "kind": access.kind.to_string(),
            "el": access.el,
            "size": access.size,
        });
        let whole = json!({
            "question": question,
            "answer": answer_json(&told.answer),
            "reads": told.reads.len(),
            "steps": steps_json(&steps, &told.answer),
            "short_banks": short::json(capture.banks()),
            "out_of_scope": beyond,
            "warning": scope::words(&beyond),
        });
        format!("{whole:#}\n")
    } else {
        text(ask, &told, &steps)
    };
    out.write_all(printed.as_bytes()).and_then(|()| out.flush()).map_err(standard_output)?;
    Ok(status(&told.answer))
}
