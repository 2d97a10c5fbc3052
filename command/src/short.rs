//! Short banks: a core file has fewer of their bytes than its headers say, so it was cut.
use crate::ask::hex;
use crate::trouble::say;
use humpelkaas::Bank;
use serde_json::{json, Value};

/// The first and the last address of what a file has of a bank; of one without bytes its address.
pub fn range(bank: &Bank) -> String {
    match u128::from(bank.length).checked_sub(1) {
        Some(last) => format!("{:#x}-{:#x}", bank.address, u128::from(bank.address) + last),
        None => hex(bank.address),
    }
}

/// The short ones, each with its number. The first bank of a file is number 1.
fn short(banks: &[Bank]) -> impl Iterator<Item = (usize, &Bank)> {
    (1..).zip(banks).filter(|(_, bank)| bank.short)
}

/// The numbers of the short ones.
pub fn numbers(banks: &[Bank]) -> Vec<usize> {
    short(banks).map(|(number, _)| number).collect()
}

fn words(number: usize, bank: &Bank) -> String {
    let range = range(bank);
    let there = if bank.length == 0 { format!("nothing of it, from {range} on,") } else { format!("only {range} of it") };
    format!("bank {number} is short: the core file was cut, and {there} is there")
}

/// Says so on the error stream, a line for each.
pub fn warn(banks: &[Bank]) {
    for (number, bank) in short(banks) {
        say(&format!("warning: {}", words(number, bank)));
    }
}

pub fn json(banks: &[Bank]) -> Vec<Value> {
    let one = |(number, bank): (usize, &Bank)| {
        json!({
            "bank": number,
            "address": hex(bank.address),
            "bytes": hex(bank.length),
            "warning": words(number, bank),
        })
    };
    short(banks).map(one).collect()
}
