//! The README shows the sample's real output.
use std::fs;
use std::path::Path;
use std::process::Command;

/// The indented block of the README that begins with a line.
fn block(readme: &str, first: &str) -> String {
    let lines = readme.lines().skip_while(|line| line.trim_start() != first);
    let indented = lines.take_while(|line| line.is_empty() || line.starts_with("    "));
    let text: Vec<&str> = indented.map(|line| line.strip_prefix("    ").unwrap_or(line)).collect();
    text.join("\n").trim_end().to_string()
}

/// A line of the README for lines that it leaves out.
const LEFT_OUT: &str = "     ..";

/// Holds printed lines against those shown. After lines that are left out, it goes on where the next shown one is printed.
fn check(printed: &str, shown: &str) {
    let mut printed = printed.trim_end().lines();
    let mut skips = false;
    for line in shown.lines() {
        if line == LEFT_OUT {
            skips = true;
            continue;
        }
        let found = if skips { printed.by_ref().find(|printed| *printed == line) } else { printed.next() };
        assert_eq!(found, Some(line));
        skips = false;
    }
    assert_eq!(printed.next(), None);
}

#[test]
fn the_sample_prints_what_the_readme_shows() {
    let folder = tempfile::tempdir().unwrap();
    let sample = Command::new(env!("CARGO_BIN_EXE_humpelkaas")).args(["sample", "target/sample"]).current_dir(&folder).output().unwrap();
    assert!(sample.status.success());
    let printed = String::from_utf8(sample.stdout).unwrap();
    let readme = fs::read_to_string(Path::new(env!("CARGO_MANIFEST_DIR")).join("../README.md")).unwrap();
    let (raw, core) = printed.split_at(printed.find("Beside it is a core file").unwrap());
    for part in [raw, core] {
        check(part, &block(&readme, part.lines().next().unwrap()));
    }
    assert!(!block(&readme, raw.lines().next().unwrap()).contains(LEFT_OUT), "only banks are left out");
    assert!(folder.path().join("target/sample/map.svg").is_file());
}
