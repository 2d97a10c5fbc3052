//! `humpelkaas sample`: what a newcomer runs first.
mod common;

use common::{Bench, Kept};

const FILES: [&str; 18] = [
    "capture.bin",
    "linux.addresses",
    "linux.core",
    "linux.csv",
    "linux.grants",
    "linux.registers",
    "linux.tables",
    "map.svg",
    "plate.addresses",
    "plate.csv",
    "plate.grants",
    "plate.registers",
    "plate.tables",
    "spectra.addresses",
    "spectra.csv",
    "spectra.grants",
    "spectra.registers",
    "spectra.tables",
];

/// What is said of the real guest's registers.
const WARNING: &str = "humpelkaas: warning: set and out of scope: VTCR_EL2.HA: \
    answers are those of Arm's first edition, which has none of these\n";

const HEADING: &str = "\nBeside it is a core file with the tables of a Linux guest that KVM runs:\n";

/// What is run over the samples is what each verb alone prints.
#[test]
fn all_that_it_prints() {
    let bench = Bench::empty(None);
    let ran = bench.run("sample .").ends(0).says(&WARNING.repeat(3));
    let (raw, core) = ran.stdout.split_once(HEADING).expect("two samples");
    assert_eq!(
        verbs(&bench, raw, "A sample capture of two guests is in .. In that folder:\n"),
        ["ask", "ask", "batch", "batch", "audit", "audit", "map"]
    );
    assert_eq!(verbs(&bench, core, ""), ["banks", "ask", "batch", "audit"]);
    assert_eq!(bench.names(), FILES);
    assert_eq!(bench.text("plate.csv"), "address,answer,output\n0x1008,0,0x90008\n0x2000,1,0x0\n");
}

/// The verbs of what is printed under a heading, each of which prints the same alone.
fn verbs<'a>(bench: &Bench, printed: &'a str, heading: &str) -> Vec<&'a str> {
    let mut parts = printed.split("\n$ humpelkaas ");
    assert_eq!(parts.next(), Some(heading));
    let one = |part: &'a str| {
        let (words, printed) = part.split_once('\n').expect("a line and what it prints");
        let of_the_real_guest = words.contains("linux.registers");
        bench.run(words).ends(0).prints(printed).says(if of_the_real_guest { WARNING } else { "" });
        words.split(' ').next().unwrap_or("")
    };
    parts.map(one).collect()
}

/// It may be run again, and in a folder that is there.
#[test]
fn again() {
    let bench = Bench::empty(None);
    let first = bench.run("sample .").ends(0);
    assert_eq!(bench.names(), FILES);
    bench.run("sample .").ends(0).prints(&first.stdout).says(&first.stderr);
    let mut command = bench.command("sample");
    command.arg("folder of two/with spaces");
    common::Ran::of(command).ends(0);
    assert_eq!(bench.bytes("folder of two/with spaces/capture.bin"), bench.bytes("capture.bin"));
}

/// Files that are there already and are not the sample's are left as they are, be they read or written by it.
#[test]
fn files_of_ones_own() {
    for name in FILES {
        let bench = Bench::empty(None);
        bench.write(name, "my own");
        let kept = Kept::of(&bench.path(name));
        let ran = bench.run("sample .");
        kept.check();
        ran.ends(64).prints("").warns(&["name another folder"]);
        assert_eq!(bench.names(), [name]);
    }
}

#[test]
fn a_folder_that_cannot_be() {
    let bench = Bench::empty(None);
    bench.write("file", "");
    bench.run("sample file").ends(3).prints("").warns(&["cannot make the folder file: "]);
    bench.run("sample file/folder").ends(3).prints("").warns(&["cannot make the folder file/folder: Not a directory"]);
    bench.run("sample /proc/sample").ends(3).prints("").warns(&["cannot make the folder /proc/sample: "]);
}
