//! The outside answers of tests/vectors, put to the built command: all that it says of a question or an audit is held against them.
mod common;

use common::walk::{self, Granule, Question};
use common::{Bench, Memory, Registers};
use serde_json::{json, Value};
use std::fs;
use std::thread;

fn hex(text: &str) -> u64 {
    u64::from_str_radix(text, 16).unwrap_or_else(|_| panic!("'{text}' is not hexadecimal"))
}

fn decimal(text: &str) -> u64 {
    text.parse().unwrap_or_else(|_| panic!("'{text}' is not decimal"))
}

/// A line's parts, split at its bars and then at spaces.
fn parts(line: &str) -> Vec<Vec<&str>> {
    line.split('|').map(|part| part.split_whitespace().collect()).collect()
}

fn words(pairs: &[&str]) -> Vec<(u64, u64)> {
    let word = |pair: &&str| {
        let (address, word) = pair.split_once('=').expect("ADDRESS=WORD");
        (hex(address), hex(word))
    };
    pairs.iter().map(word).collect()
}

/// From PAMAX KIND EL SIZE, the registers, and the address.
fn question(fields: &[&str], memory: Memory) -> Question {
    let registers = Registers {
        pamax: decimal(fields[0]),
        sctlr_el1: hex(fields[4]),
        tcr_el1: hex(fields[5]),
        ttbr0_el1: hex(fields[6]),
        ttbr1_el1: hex(fields[7]),
        mair_el1: hex(fields[8]),
        hcr_el2: hex(fields[9]),
        vtcr_el2: hex(fields[10]),
        vttbr_el2: hex(fields[11]),
        sctlr_el2: hex(fields[12]),
    };
    let access = format!("--kind {} --el {} --size {}", fields[1], fields[2], fields[3]);
    Question { registers, access, address: hex(fields[13]), memory }
}

/// The memory type in words.
fn memory_words(text: &str) -> String {
    let cacheability = |code| match code {
        "NC" => "Non-cacheable",
        "WT" => "Write-Through",
        "WB" => "Write-Back",
        other => panic!("cacheability {other}"),
    };
    match text.split(':').collect::<Vec<_>>()[..] {
        ["device", number] => format!("Device {}", ["nGnRnE", "nGnRE", "nGRE", "GRE"][decimal(number) as usize]),
        ["normal", outer, inner] if outer == inner => format!("Normal {}", cacheability(outer)),
        ["normal", outer, inner] => format!("Normal outer {} inner {}", cacheability(outer), cacheability(inner)),
        _ => panic!("memory {text}"),
    }
}

fn shareability_words(text: &str) -> &'static str {
    match text {
        "0" => "non-shareable",
        "2" => "outer shareable",
        "3" => "inner shareable",
        other => panic!("shareability {other}"),
    }
}

/// A vector's answer as the command's JSON has it, but for its words and advice.
fn answer(fields: &[&str]) -> Value {
    let number = decimal(fields[0]);
    let mut answer = json!({ "number": number });
    let mut put = |name: &str, value: Value| answer[name] = value;
    match number {
        1..=4 => put("ipa", Value::Null),
        5 => put("ipa", Value::Null),
        10.. => put("item", Value::Null),
        _ => {}
    }
    for field in &fields[1..] {
        let (name, value) = field.split_once('=').expect("NAME=VALUE");
        match name {
            "address" | "ipa" => put(name, json!(format!("{:#x}", hex(value)))),
            "memory" => put(name, json!(memory_words(value))),
            "sh" => put("shareability", json!(shareability_words(value))),
            "onwalk" => put("on_walk", json!(value == "1")),
            "reads" => {}
            _ => put(name, json!(decimal(value))),
        }
    }
    answer
}

fn status(number: u64) -> i32 {
    match number {
        0..=5 => 0,
        6 | 7 => 1,
        _ => 2,
    }
}

/// Runs a check of each line that is asked for on two threads, and names the file's line in what fails.
fn each_line(name: &str, verb: &str, check: fn(&str)) -> usize {
    let path = format!("{}/../tests/vectors/{name}", env!("CARGO_MANIFEST_DIR"));
    let text = fs::read_to_string(&path).unwrap_or_else(|error| panic!("{path}: {error}"));
    let lines: Vec<(usize, &str)> = (1..).zip(text.lines()).filter(|(_, line)| !line.starts_with('#') && line.starts_with(verb)).collect();
    let run = |part: usize| {
        let mut failed = Vec::new();
        for (number, line) in lines.iter().skip(part).step_by(2) {
            if thread::Builder::new()
                .name(format!("{name}:{number}"))
                .spawn({
                    let line = line.to_string();
                    move || check(&line)
                })
                .expect("a thread")
                .join()
                .is_err()
            {
                failed.push(*number);
            }
        }
        failed
    };
    let failed = thread::scope(|scope| {
        let other = scope.spawn(|| run(1));
        [run(0), other.join().expect("the other half")].concat()
    });
    assert!(failed.is_empty(), "{name}: {} of {} lines differ: {failed:?}", failed.len(), lines.len());
    lines.len()
}

fn check_question(line: &str) {
    let parts = parts(line);
    let fields = &parts[0];
    let memory = Memory::zeros(hex(fields[15]), hex(fields[16]) as usize).with(&words(&parts[1]));
    let question = question(&fields[1..], memory);
    let mut expected = answer(&parts[2]);
    let number = expected["number"].as_u64().expect("a number");
    // The command lends a log of its own.
    if number == 10 {
        return;
    }
    let log: Vec<u64> = parts[3].iter().map(|address| hex(address)).collect();
    let told = question.ask().ends(status(number)).json();
    for name in ["words", "what_to_do"] {
        if let Some(said) = told["answer"].get(name) {
            expected[name] = said.clone();
        }
    }
    assert_eq!(told["answer"], expected);
    let batch = question.batch().ends(status(number));
    if number < 10 {
        let output = if number == 0 { expected["address"].as_str().unwrap_or("") } else { "0x0" };
        assert_eq!(batch.stdout.lines().nth(1), Some(format!("{:#x},{number},{output}", question.address).as_str()));
    } else {
        batch.prints("").warns(&[&format!("refused {number}")]);
    }
    assert_eq!(told["reads"], json!(log.len()));
    assert_eq!(walk::check_steps(&question, &told), log);
}

fn check_emulated(line: &str) {
    let parts = parts(line);
    let question = question(&parts[0], Memory::zeros(0x4000_0000, 0x40_0000).with(&words(&parts[1])));
    let told = question.ask().ends(0).json();
    let found = &told["answer"];
    match parts[2][..] {
        // A fetch that translates: the emulator tells no more.
        ["0"] => assert_eq!(found["number"], json!(0)),
        ["0", address, "device"] => {
            assert_eq!((&found["number"], &found["address"]), (&json!(0), &json!(format!("0x{address}"))));
            assert!(found["memory"].as_str().expect("a type").starts_with("Device "), "{found}");
        }
        ["0", address, "normal", outer, inner, shareability] => {
            assert_eq!((&found["number"], &found["address"]), (&json!(0), &json!(format!("0x{address}"))));
            assert_eq!(found["memory"], json!(memory_words(&format!("normal:{outer}:{inner}"))));
            assert_eq!(found["shareability"], json!(shareability_words(shareability)));
        }
        [number, stage, level, on_walk] => {
            let expected = json!([decimal(number), decimal(stage), decimal(level), on_walk == "1"]);
            assert_eq!(json!([found["number"], found["stage"], found["level"], found["on_walk"]]), expected);
        }
        _ => panic!("no answer of an emulator: {line}"),
    }
    walk::check_steps(&question, &told);
}

fn check_audit(line: &str) {
    let parts = parts(line);
    let fields = &parts[0];
    let memory = Memory::zeros(hex(fields[6]), hex(fields[7]) as usize).with(&words(&parts[1]));
    let registers = Registers {
        pamax: decimal(fields[1]),
        hcr_el2: hex(fields[2]),
        vtcr_el2: hex(fields[3]),
        vttbr_el2: hex(fields[4]),
        sctlr_el2: hex(fields[5]),
        ..Registers::default()
    };
    let bench = Bench::new(&memory, &registers);
    let list = |at: usize| -> Vec<&str> { parts[2][at].split(',').filter(|item| *item != "-").collect() };
    let lines = |first: Vec<&str>, second: Vec<&str>, prefix: &str| -> Option<String> {
        // Lists of different lengths cannot be written as lines of two.
        (first.len() == second.len())
            .then(|| first.iter().zip(second).map(|(first, second)| format!("0x{first} {prefix}{second}\n")).collect())
    };
    let (grants, tables) = match (lines(list(0), list(1), "0x"), lines(list(2), list(3), "")) {
        (Some(grants), Some(tables)) => (grants, tables),
        _ => return,
    };
    bench.write("grants", grants);
    bench.write("tables", tables);
    let first = match parts[3][..] {
        ["finding", number, address] => format!("finding {number} 0x{address}"),
        _ => parts[3].join(" "),
    };
    let status = match parts[3][0] {
        "clean" => 0,
        "finding" => 1,
        _ => 2,
    };
    let ran = bench.over("audit --grants grants --tables tables").ends(status);
    assert_eq!(ran.first_line(), first);
    match parts[3][..] {
        // Whatever the guest does, it stays within its grants and does not reach stage 2's tables.
        ["clean"] => assert_eq!(bench.over("map --grants grants --json").json()["findings"], json!([])),
        ["finding", number, address] => check_entry(&bench, &memory, &registers, number, hex(address)),
        _ => {}
    }
}

/// What an audit says of an entry: its value, and the first IPAs that go through it.
fn check_entry(bench: &Bench, memory: &Memory, registers: &Registers, number: &str, address: u64) {
    let told = bench.over("audit --grants grants --tables tables --json").ends(1).json();
    let table = match number {
        "3" => true,
        "4" => false,
        _ => return assert_eq!(told["entry"], Value::Null),
    };
    let value = memory.descriptor(address).expect("the entry");
    let through = walk::through(memory, registers, address, table);
    assert_eq!(told["entry"]["ipa"], json!(through.map(|(ipa, _)| format!("{ipa:#x}"))));
    // Where no IPA goes through it, only the lists say which level it is of.
    let size = through.map_or_else(|| told["entry"]["size"].clone(), |(_, size)| json!(format!("{size:#x}")));
    assert_eq!((&told["entry"]["value"], &told["entry"]["size"]), (&json!(format!("{value:#x}")), &size));
    let granule = Granule::of_tg0(registers.vtcr_el2);
    let level = told["entry"]["level"].as_u64().expect("a level");
    assert_eq!(size, json!(format!("{:#x}", granule.span(level))));
    let to = if table { granule.table(value) } else { granule.leaf(value, level) };
    assert_eq!((&told["entry"]["to"], &told["entry"]["table"]), (&json!(format!("{to:#x}")), &json!(table)));
}

#[test]
fn questions_of_a_model() {
    assert!(each_line("model-4k.txt", "ask", check_question) > 100);
}

#[test]
fn questions_of_a_model_with_larger_granules() {
    assert!(each_line("model-granules.txt", "ask", check_question) > 100);
}

#[test]
fn audits_of_a_model() {
    assert!(each_line("model-4k.txt", "audit", check_audit) + each_line("audits-4k.txt", "audit", check_audit) > 400);
}

#[test]
fn audits_of_a_model_with_larger_granules() {
    assert!(each_line("model-granules.txt", "audit", check_audit) > 5);
}

#[test]
fn questions_of_an_emulator() {
    assert!(each_line("emulator-4k.txt", "", check_emulated) > 300);
}

#[test]
fn questions_of_an_emulator_with_larger_granules() {
    assert!(each_line("emulator-granules.txt", "", check_emulated) > 100);
}
