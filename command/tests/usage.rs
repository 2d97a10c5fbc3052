//! Wrong usage exits with 64 and says what is wrong; help, version and completions are complete.
mod common;

use common::{Bench, Ran};
use std::fs::OpenOptions;

#[test]
fn wrong_usage() {
    let bench = Bench::cases();
    let over = |words: &str| bench.words(words);
    for words in [
        "".to_string(),
        "translate".to_string(),
        "--kind".to_string(),
        over("ask"),
        over("ask 0x1008 0x2000"),
        over("ask 0x1008 --el"),
        over("ask 0x1008 --format csv"),
        over("ask 0x1008 --capture capture.bin"),
        "ask 0x1008 --capture capture.bin --registers guest.registers".to_string(),
        "ask 0x1008 --base 0x40000000 --registers guest.registers".to_string(),
        "ask 0x1008 --capture capture.bin --base 0x40000000".to_string(),
        over("batch"),
        over("batch --addresses guest.registers --format xml"),
        over("audit --grants guest.registers"),
        over("audit --tables guest.registers"),
        "map --capture capture.bin --base 0".to_string(),
        "banks".to_string(),
        "banks --capture capture.bin --base 0x40000000".to_string(),
        "banks --capture capture.bin --raw".to_string(),
        "sample".to_string(),
        "completions".to_string(),
        "completions cmd".to_string(),
    ] {
        let ran = bench.run(&words).ends(64).prints("");
        assert!(!ran.stderr.is_empty(), "nothing is said about: {words}");
    }
    assert_eq!(bench.names(), ["capture.bin", "guest.registers"]);
}

/// Numbers that are none are named, and what may be written instead.
#[test]
fn wrong_numbers() {
    let bench = Bench::cases();
    let not_a_number = "is not a number: write it in decimal, or in hexadecimal after 0x";
    for (words, said) in [
        ("ask 0x10g8", not_a_number),
        ("ask 1008h", not_a_number),
        ("ask 0x", not_a_number),
        ("ask 0x10000000000000000", "is over 64 bits"),
        ("ask 00001008", "begins with 0: write 0x before it if it is hexadecimal"),
        ("ask 0x1008 --kind execute", "write a number, or one of read, write, fetch"),
        ("ask 0x1008 --el EL3", "write a number, or one of EL0, EL1"),
        ("ask 0x1008 --size bytes", "write a number, or one of byte, halfword, word, doubleword, quadword"),
    ] {
        bench.over(words).ends(64).prints("").warns(&[said]);
    }
    bench.run("ask 0x1008 --capture capture.bin --registers guest.registers --base 4000000g").ends(64).warns(&["--base", not_a_number]);
}

#[test]
fn help_and_version() {
    let bench = Bench::cases();
    let verbs = ["ask", "batch", "audit", "map", "banks", "sample", "completions"];
    for help in ["--help", "-h", "help"] {
        bench.run(help).ends(0).shows(&verbs).says("");
    }
    bench.run("--help").ends(0).shows(&["Exit status: 0 complete; 1 something is absent", "2 refused", "64 wrong usage"]);
    for verb in verbs {
        bench.run(&format!("{verb} --help")).ends(0).shows(&["Usage: humpelkaas", verb]).says("");
    }
    for version in ["--version", "-V"] {
        bench.run(version).ends(0).prints(&format!("humpelkaas {}\n", env!("CARGO_PKG_VERSION"))).says("");
    }
}

/// Each option that a verb has stands in its help, and in the manual page.
#[test]
fn options() {
    let page = std::fs::read_to_string(concat!(env!("CARGO_MANIFEST_DIR"), "/../packaging/humpelkaas.1")).expect("the manual page");
    let synopsis = page.split(".SH DESCRIPTION").next().expect("a synopsis").replace("\\-", "-");
    let bench = Bench::cases();
    for verb in ["ask", "batch", "audit", "map", "banks"] {
        let help = bench.run(&format!("{verb} --help")).ends(0).stdout;
        let of_help = words_with(&help, "--");
        let part = synopsis.split(".SY \"humpelkaas ").find(|part| part.starts_with(verb)).expect("the verb in the manual page");
        let of_page = words_with(part.split(".YS").next().unwrap_or(part), "--");
        assert_eq!(of_help.iter().filter(|word| **word != "--help").collect::<Vec<_>>(), of_page.iter().collect::<Vec<_>>(), "{verb}");
    }
}

/// The options that a text names, in order, each once.
fn words_with(text: &str, start: &str) -> Vec<String> {
    let option = |at: usize| {
        let rest = &text[at + start.len()..];
        format!("{start}{}", &rest[..rest.find(|c: char| !c.is_ascii_lowercase()).unwrap_or(rest.len())])
    };
    let mut words: Vec<String> = text.match_indices(start).map(|(at, _)| option(at)).filter(|word| word != start).collect();
    words.sort();
    words.dedup();
    words
}

#[test]
fn completions() {
    let bench = Bench::cases();
    for (shell, part) in [("bash", "complete -F"), ("zsh", "#compdef humpelkaas"), ("fish", "complete -c humpelkaas")] {
        let ran = bench.run(&format!("completions {shell}")).ends(0).shows(&[part, "audit", "addresses"]).says("");
        assert!(ran.stdout.len() > 1000, "{shell}");
    }
}

/// What cannot be printed is no success.
#[test]
fn help_and_completions_on_a_full_disk() {
    let bench = Bench::cases();
    for words in ["--help", "--version", "ask --help", "completions bash"] {
        let mut command = bench.command(words);
        command.stdout(OpenOptions::new().write(true).open("/dev/full").expect("/dev/full"));
        Ran::of(command).ends(3);
    }
}
