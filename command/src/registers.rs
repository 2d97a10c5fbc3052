//! The file of registers.
use crate::text::{Text, Word};
use crate::trouble::Trouble;
use humpelkaas::Registers;
use std::path::Path;

type Field = fn(&mut Registers) -> &mut u64;

/// Each name with its place.
const FIELDS: [(&str, Field); 10] = [
    ("PAMAX", |r| &mut r.el2.pamax),
    ("HCR_EL2", |r| &mut r.el2.hcr_el2),
    ("VTCR_EL2", |r| &mut r.el2.vtcr_el2),
    ("VTTBR_EL2", |r| &mut r.el2.vttbr_el2),
    ("SCTLR_EL2", |r| &mut r.el2.sctlr_el2),
    ("SCTLR_EL1", |r| &mut r.el1.sctlr_el1),
    ("TCR_EL1", |r| &mut r.el1.tcr_el1),
    ("TTBR0_EL1", |r| &mut r.el1.ttbr0_el1),
    ("TTBR1_EL1", |r| &mut r.el1.ttbr1_el1),
    ("MAIR_EL1", |r| &mut r.el1.mair_el1),
];

fn names(fields: impl Iterator<Item = usize>) -> String {
    fields.map(|field| FIELDS[field].0).collect::<Vec<_>>().join(", ")
}

/// Which register a word names, in capitals or not.
fn field(text: &Text, name: Word) -> Result<usize, Trouble> {
    FIELDS.iter().position(|(known, _)| known.eq_ignore_ascii_case(name.text)).ok_or_else(|| {
        let known = names(0..FIELDS.len());
        text.wrong(name, &format!("'{}' is not a register that is asked for ({known}): leave the line out", name.text))
    })
}

/// The decimal form, which gdb prints with a sign where the top bit is set.
fn signed(text: &Text, word: Word) -> Result<u64, Trouble> {
    match word.text.parse::<i64>() {
        Ok(number) => Ok(number as u64),
        Err(_) => text.number(word),
    }
}

/// The value of a line. Debuggers print more beside it: the size as (/64) before it, the same in decimal or its flags in brackets after it.
fn value(text: &Text, name: Word, rest: &[Word]) -> Result<u64, Trouble> {
    let rest = if rest.first().map_or(false, |word| word.text == "(/64)") { &rest[1..] } else { rest };
    let (first, more) = rest.split_first().ok_or_else(|| text.wrong(name, &format!("'{}' has no value", name.text)))?;
    let value = text.number(*first)?;
    match more {
        [] => Ok(value),
        [flags, ..] if flags.text.starts_with('[') => Ok(value),
        [again] if signed(text, *again)? == value => Ok(value),
        [other, ..] => Err(text.wrong(*other, &format!("'{}' is not the value that stands before it", other.text))),
    }
}

/// Reads a file of registers: all ten, each once. None is ever taken as 0.
pub fn read(path: &Path) -> Result<Registers, Trouble> {
    let text = Text::read(path)?;
    let mut registers = Registers::default();
    let mut seen = [false; FIELDS.len()];
    for words in text.lines(&['=', ':']) {
        let (name, rest) = (words[0], &words[1..]);
        let at = field(&text, name)?;
        if seen[at] {
            return Err(text.wrong(name, &format!("{} stands here a second time", FIELDS[at].0)));
        }
        seen[at] = true;
        *FIELDS[at].1(&mut registers) = value(&text, name, rest)?;
    }
    if seen.contains(&false) {
        let missing = names((0..FIELDS.len()).filter(|at| !seen[*at]));
        return Err(text.lacks(&format!("no value for {missing}: add a line NAME = VALUE for each")));
    }
    Ok(registers)
}
