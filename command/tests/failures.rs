//! What goes wrong around a run: full disks, closed pipes, a capture that changes, a run that is killed. None of it is a success, none
//! leaves half a result, and none is said to be complete.
mod common;

use common::held::{Held, LINES};
use common::{system, Bench, Kept, Ran, COMMAND};
use std::fs::{self, File, OpenOptions};
use std::io::{Read, Write};
use std::os::unix::fs::{symlink, MetadataExt, PermissionsExt};
use std::process::{Command, Stdio};
use std::thread;
use std::time::Duration;

const LEDGER: &str = "asked 2 translated 1 faulted 1 absent 0 unsettled 0\n";
const RESULTS: &str = "address,answer,output\n0x1008,0,0x90008\n0x2000,1,0x0\n";

/// The cases with a short list.
fn bench() -> Bench {
    let bench = Bench::cases();
    bench.write("list", "0x1008\n0x2000\n");
    bench.write("grants", "0x90000 0x1000\n0x40003000 0x3000\n");
    bench.write("tables", "0x40001000 2\n0x40002000 3\n");
    bench
}

const FILES: [&str; 5] = ["capture.bin", "grants", "guest.registers", "list", "tables"];

/// All verbs that print an answer.
const VERBS: [&str; 5] =
    ["ask 0x1008", "ask 0x1008 --json", "batch --addresses list", "audit --grants grants --tables tables", "map --grants grants"];

fn full() -> File {
    OpenOptions::new().write(true).open("/dev/full").expect("/dev/full")
}

/// A pipe whose reader has gone.
fn closed_pipe() -> Stdio {
    let mut reader = Command::new("true").stdin(Stdio::piped()).spawn().expect("true runs");
    // Taken, or waiting would close it.
    let mut pipe = reader.stdin.take().expect("its standard input");
    reader.wait().expect("true ends");
    // A program that another test is about to start has the reading end too, until it runs.
    while pipe.write(b" ").is_ok() {
        thread::sleep(Duration::from_millis(1));
    }
    pipe.into()
}

// Outputs that are inputs

#[test]
fn an_output_that_is_an_input() {
    let bench = bench();
    for input in ["capture.bin", "guest.registers", "list"] {
        let kept = Kept::of(&bench.path(input));
        symlink(bench.path(input), bench.path("link")).expect("a link");
        symlink("link", bench.path("link to a link")).expect("a link");
        fs::hard_link(bench.path(input), bench.path("hard")).expect("a hard link");
        let absolute = bench.path(input).display().to_string();
        for target in [input, "link", "link to a link", "hard", &format!("./{input}"), &absolute] {
            let mut command = bench.command(&bench.words("batch --addresses list"));
            command.args(["--output", target]);
            let said = format!("humpelkaas: {target} is the input {input}: write to another file\n");
            Ran::of(command).ends(64).prints("").says(&said);
            kept.check();
        }
        for link in ["link", "link to a link", "hard"] {
            fs::remove_file(bench.path(link)).expect("the link");
        }
    }
    assert_eq!(bench.names(), FILES);
}

/// Standard input is read too.
#[test]
fn an_output_that_is_standard_input() {
    let bench = bench();
    let kept = Kept::of(&bench.path("list"));
    let mut command = bench.command(&bench.words("batch --addresses - --output list"));
    command.stdin(File::open(bench.path("list")).expect("the list"));
    Ran::of(command).ends(64).prints("").warns(&["list"]);
    kept.check();
}

/// Standard output must not be the capture either, as `>> capture.bin` makes it.
#[test]
fn standard_output_that_is_the_capture() {
    for verb in VERBS {
        let bench = bench();
        let kept = Kept::of(&bench.path("capture.bin"));
        let mut command = bench.command(&bench.words(verb));
        command.stdout(OpenOptions::new().append(true).open(bench.path("capture.bin")).expect("the capture"));
        let ran = Ran::of(command);
        kept.check();
        ran.ends(64).warns(&["capture.bin"]);
    }
}

// Full disks

#[test]
fn an_output_on_a_full_disk() {
    let bench = bench();
    let said = "humpelkaas: cannot write /dev/full: No space left on device (os error 28). Make room and run again: nothing was put in the place of a result.\n";
    bench.over("batch --addresses list --output /dev/full").ends(3).prints("").says(said);
    bench.over("map --svg /dev/full").ends(3).prints("").says(said);
    // So many results that they do not wait to be written until the end.
    bench.write("list", "0x1008\n".repeat(100_000));
    bench.over("batch --addresses list --output /dev/full").ends(3).prints("").says(said);
    assert_eq!(bench.names(), FILES);
}

#[test]
fn standard_output_on_a_full_disk() {
    let bench = bench();
    let said = "humpelkaas: cannot write to standard output: No space left on device (os error 28)";
    for verb in VERBS.iter().chain(&["batch --addresses list --format json", "batch --addresses /dev/null", "map --json"]) {
        let mut command = bench.command(&bench.words(verb));
        command.stdout(full());
        Ran::of(command).ends(3).warns(&[said]);
    }
    let mut command = bench.command("sample sample");
    command.stdout(full());
    Ran::of(command).ends(3).warns(&[said]);
}

/// The ledger alone cannot be printed: the results are there, but the run is not complete.
#[test]
fn a_ledger_on_a_full_disk() {
    let bench = bench();
    let mut command = bench.command(&bench.words("batch --addresses list --output out.csv"));
    command.stdout(full());
    Ran::of(command).ends(3).warns(&["cannot write to standard output"]);
    assert_eq!(bench.text("out.csv"), RESULTS);
}

/// Ten thousand results take far more than the 64 KB that there are.
#[test]
fn a_tiny_file_system() {
    let bench = bench();
    bench.write("list", "0x1008\n".repeat(10_000));
    let batch = bench.words("batch --addresses list --output tiny/out.csv");
    let said =
        &["tiny/out.csv: No space left on device (os error 28). Make room and run again: nothing was put in the place of a result.\n"];
    let script = format!("\"$0\" {batch}; status=$?; ls -A tiny; exit $status");
    system::with_tiny_file_system(&bench, &script).ends(3).prints("").warns(said);
    // What has the name already is kept.
    let script = format!("echo old >tiny/out.csv; \"$0\" {batch}; status=$?; ls -A tiny; cat tiny/out.csv; exit $status");
    system::with_tiny_file_system(&bench, &script).ends(3).prints("out.csv\nold\n").warns(said);
}

/// What fits is written, and needs the room of the old results beside that of the new.
#[test]
fn results_that_fit_a_tiny_file_system() {
    let bench = bench();
    bench.write("list", "0x1008\n0x2000\n");
    let batch = bench.words("batch --addresses list --output tiny/out.csv");
    let script = format!("echo old >tiny/out.csv; \"$0\" {batch}; status=$?; ls -A tiny; cat tiny/out.csv; exit $status");
    system::with_tiny_file_system(&bench, &script).ends(0).prints(&format!("{LEDGER}out.csv\n{RESULTS}")).says("");
}

#[test]
fn a_picture_on_a_tiny_file_system() {
    let bench = bench();
    let map = bench.words("map --svg tiny/map.svg");
    let script = format!("head -c 65536 /dev/zero >tiny/fill 2>/dev/null; \"$0\" {map}; status=$?; ls -A tiny; exit $status");
    system::with_tiny_file_system(&bench, &script).ends(3).prints("fill\n").warns(&["cannot write tiny/map.svg: No space left on device"]);
}

/// A sample of which the capture alone fits leaves no file of which a part is missing.
#[test]
fn a_sample_on_a_tiny_file_system() {
    let bench = Bench::empty(None);
    bench.run("sample whole").ends(0);
    let script = "\"$0\" sample tiny >/dev/null; status=$?; for file in tiny/*; do cmp -s $file whole/${file#tiny/} || echo half: $file; done; exit $status";
    let kilobytes = bench.bytes("whole/capture.bin").len() as u64 >> 10;
    system::with_file_system(&bench, kilobytes, script).ends(3).prints("").warns(&["No space left on device"]);
}

// Outputs that cannot be

#[test]
fn outputs_that_cannot_be() {
    let bench = bench();
    fs::create_dir(bench.path("folder")).expect("a folder");
    bench.over("batch --addresses list --output folder").ends(64).prints("").says("humpelkaas: folder is a folder: name a file in it\n");
    bench.over("map --svg folder").ends(64).prints("").says("humpelkaas: folder is a folder: name a file in it\n");
    for (target, why) in [("missing/out", "No such file or directory (os error 2)"), ("list/out", "Not a directory (os error 20)")] {
        let said = format!("humpelkaas: cannot write {target}: {why}");
        bench.over(&format!("batch --addresses list --output {target}")).ends(3).prints("").warns(&[&said]);
        bench.over(&format!("map --svg {target}")).ends(3).prints("").warns(&[&said]);
    }
    fs::set_permissions(bench.path("folder"), PermissionsExt::from_mode(0o555)).expect("permissions");
    let words = bench.words("batch --addresses list --output folder/out");
    let said = "humpelkaas: cannot write folder/out: Permission denied (os error 13)";
    system::unprivileged(&bench, &words).ends(3).prints("").warns(&[said]);
    assert_eq!(fs::read_dir(bench.path("folder")).expect("the folder").count(), 0);
}

// Closed pipes

#[test]
fn standard_output_that_is_closed() {
    let bench = bench();
    bench.write("long", "0x1008\n".repeat(100_000));
    for verb in VERBS.iter().chain(&["batch --addresses long", "batch --addresses list --output out.csv"]) {
        let mut command = bench.command(&bench.words(verb));
        command.stdout(closed_pipe());
        let said = "humpelkaas: cannot write to standard output: Broken pipe (os error 32). Whoever was reading has gone: the results are not complete.\n";
        Ran::of(command).ends(3).says(said);
    }
}

/// `2>&1 | head`: nothing can be said any more, but the status still tells.
#[test]
fn both_streams_closed() {
    let bench = bench();
    let mut command = bench.command(&bench.words("batch --addresses list"));
    command.stdout(closed_pipe()).stderr(closed_pipe());
    Ran::of(command).ends(3);
}

/// A warning or an error that cannot be printed changes neither the answer nor the status.
#[test]
fn an_error_stream_that_takes_nothing() {
    let bench = bench();
    let status = |words: &str| {
        let mut command = bench.command(&bench.words(words));
        command.stderr(full());
        Ran::of(command)
    };
    status("batch --addresses missing").ends(3);
    status("batch --addresses list --el 2").ends(2);
    status("batch --addresses list --output list").ends(64);
    bench.write("guest.registers", bench.text("guest.registers").replace("TCR_EL1 = 0x200800019", "TCR_EL1 = 0x8200800019"));
    status("ask 0x1008").ends(0).shows(&["translated to 0x90008"]);
    status("batch --addresses list").ends(0).prints(&format!("{RESULTS}{LEDGER}"));
}

// Reads that fail

/// A file that opens and then cannot be read.
#[test]
fn a_read_that_fails() {
    let bench = bench();
    let said = "/proc/self/mem: Input/output error (os error 5)";
    bench.over("batch --output out.csv --addresses /proc/self/mem").ends(3).prints("").warns(&[said]);
    bench.run("ask 0x1008 --base 0 --registers guest.registers --capture /proc/self/mem").ends(3).prints("").warns(&[said]);
    bench.run("ask 0x1008 --base 0 --capture capture.bin --registers /proc/self/mem").ends(3).prints("").warns(&[said]);
    assert_eq!(bench.names(), FILES);
}

// A capture that changes

type Change = fn(&Bench);

const CHANGES: [(&str, Change); 6] = [
    ("written to", |bench| {
        let mut capture = OpenOptions::new().write(true).open(bench.path("capture.bin")).expect("the capture");
        capture.write_all(&[0]).expect("a byte");
    }),
    ("longer", |bench| {
        let mut capture = OpenOptions::new().append(true).open(bench.path("capture.bin")).expect("the capture");
        capture.write_all(&[0; 8]).expect("bytes");
    }),
    ("truncated", |bench| {
        let capture = OpenOptions::new().write(true).open(bench.path("capture.bin")).expect("the capture");
        capture.set_len(0x4000).expect("a length");
    }),
    ("emptied", |bench| bench.write("capture.bin", "")),
    ("replaced", |bench| {
        fs::copy(bench.path("capture.bin"), bench.path("other")).expect("another");
        fs::rename(bench.path("other"), bench.path("capture.bin")).expect("a name");
    }),
    ("removed", |bench| fs::remove_file(bench.path("capture.bin")).expect("the capture")),
];

/// A bench with a capture that is older than any tick of a file system's clock.
fn of_yesterday(bench: Bench) -> Bench {
    assert!(bench.through("touch", "-d yesterday capture.bin").status().expect("touch runs").success());
    bench
}

/// Each change of a raw capture and of a core file.
fn changes() -> impl Iterator<Item = (&'static str, Change, Bench)> {
    let both = |(name, change): (&'static str, Change)| [(name, change, Bench::cases()), (name, change, Bench::core_cases())];
    CHANGES.into_iter().flat_map(both).map(|(name, change, bench)| (name, change, of_yesterday(bench)))
}

const CHANGED: &str = "humpelkaas: the capture capture.bin changed while it was used: run again when nothing writes to it\n";

#[test]
fn a_capture_that_changes_during_a_batch() {
    for (name, change, bench) in changes() {
        println!("{name}");
        bench.write("out.csv", "old");
        let held = Held::batch(&bench, "--output out.csv");
        change(&bench);
        held.end().ends(3).prints("").says(CHANGED);
        assert_eq!(bench.text("out.csv"), "old");
        let expected: &[&str] =
            if name == "removed" { &["guest.registers", "out.csv"] } else { &["capture.bin", "guest.registers", "out.csv"] };
        assert_eq!(bench.names(), expected);
    }
}

/// Results that are on standard output already are not said to be complete.
#[test]
fn a_capture_that_changes_before_results_are_printed() {
    for (name, change, bench) in changes() {
        println!("{name}");
        let mut command = bench.command(&bench.words("batch --addresses -"));
        command.stdin(Stdio::piped()).stdout(Stdio::piped()).stderr(Stdio::piped());
        let mut child = command.spawn().expect("the command runs");
        let mut addresses = child.stdin.take().expect("its standard input");
        // More than a pipe holds, so that the capture has been read, and less than a block.
        addresses.write_all(&b"0x1008\n".repeat(30_000)).expect("addresses");
        change(&bench);
        drop(addresses);
        Ran::from(child.wait_with_output().expect("the command ends")).ends(3).has_no_ledger().says(CHANGED);
    }
}

/// A map reads its capture before the registers, for which it waits here.
#[test]
fn a_capture_that_changes_during_a_map() {
    for (name, change, bench) in changes() {
        println!("{name}");
        let registers = bench.text("guest.registers");
        fs::remove_file(bench.path("guest.registers")).expect("the registers");
        assert!(bench.through("mkfifo", "guest.registers").status().expect("mkfifo runs").success());
        let mut command = bench.command(&bench.words("map --svg map.svg"));
        command.stdout(Stdio::piped()).stderr(Stdio::piped());
        let child = command.spawn().expect("the command runs");
        // Opened only once the command opens it too, and not waited for if it never does.
        let mut writer = bench.through("timeout", "10 sh -c");
        writer.arg("exec 3>guest.registers; echo open; cat >&3").stdin(Stdio::piped()).stdout(Stdio::piped());
        let mut writer = writer.spawn().expect("sh runs");
        let mut opened = [0; 4];
        writer.stdout.take().expect("its output").read_exact(&mut opened).expect("the command opens the registers");
        change(&bench);
        writer.stdin.take().expect("its input").write_all(registers.as_bytes()).expect("registers");
        assert!(writer.wait().expect("sh ends").success());
        Ran::from(child.wait_with_output().expect("the command ends")).ends(3).prints("").says(CHANGED);
        assert!(!bench.path("map.svg").exists());
    }
}

/// Reading a capture meanwhile, or copying it, is no change of it.
#[test]
fn a_capture_that_is_only_read_meanwhile() {
    let bench = of_yesterday(Bench::cases());
    let held = Held::batch(&bench, "--output out.csv");
    fs::copy(bench.path("capture.bin"), bench.path("copy")).expect("a copy");
    bench.over("ask 0x1008").ends(0);
    held.end().ends(0).prints(&format!("asked {LINES} translated {LINES} faulted 0 absent 0 unsettled 0\n")).says("");
    assert_eq!(bench.text("out.csv").lines().count(), 1 + LINES);
}

// A run that is killed

/// By signals that tests themselves do not ignore: INT and HUP are ignored by what runs in the background.
#[test]
fn a_run_that_is_killed() {
    for signal in ["KILL", "TERM"] {
        println!("{signal}");
        let bench = Bench::cases();
        let before = bench.names();
        let ran = Held::batch(&bench, "--output out.csv").signal(signal).has_no_ledger();
        assert_eq!(ran.status, None, "the signal ends it");
        assert_eq!(bench.names(), before);
        bench.write("out.csv", "old");
        let ran = Held::batch(&bench, "--output out.csv").signal(signal).has_no_ledger();
        assert_eq!(ran.status, None, "the signal ends it");
        assert_eq!(bench.text("out.csv"), "old");
        assert_eq!(bench.names(), ["capture.bin", "guest.registers", "out.csv"]);
    }
}

/// An address that is wrong after all those that were answered leaves no results either.
#[test]
fn a_run_that_fails_late() {
    let bench = Bench::cases();
    bench.write("out.csv", "old");
    let mut held = Held::batch(&bench, "--output out.csv");
    held.feed(b"here\n");
    let said = format!("humpelkaas: -:{}:1: 'here' is not a number: write it in decimal, or in hexadecimal after 0x\n", LINES + 1);
    held.end().ends(3).prints("").says(&said);
    assert_eq!(bench.text("out.csv"), "old");
    assert_eq!(bench.names(), ["capture.bin", "guest.registers", "out.csv"]);
}

// Results that take the place of others

/// Runs under a mask for the permissions of new files, and gives those of the results.
fn permissions(bench: &Bench, mask: &str) -> u32 {
    let mut command = bench.through("sh", "");
    command.args(["-c", &format!("umask {mask}; exec \"$0\" \"$@\""), COMMAND]);
    command.args(bench.words("batch --addresses list --output out.csv").split_whitespace());
    Ran::of(command).ends(0).prints(LEDGER);
    assert_eq!(bench.text("out.csv"), RESULTS);
    fs::metadata(bench.path("out.csv")).expect("the results").mode() & 0o7777
}

#[test]
fn results_have_the_usual_permissions() {
    for (mask, expected) in [("022", 0o644), ("027", 0o640), ("077", 0o600), ("000", 0o666)] {
        let bench = bench();
        assert_eq!(permissions(&bench, mask), expected, "umask {mask}");
        bench.write("out.csv", "old");
        assert_eq!(permissions(&bench, mask), expected, "umask {mask}, in the place of others");
    }
}

/// Whoever reads the old results while new ones are written reads the old ones to their end.
#[test]
fn old_results_are_replaced_at_once() {
    let bench = bench();
    bench.write("out.csv", "old");
    let mut old = File::open(bench.path("out.csv")).expect("the old results");
    bench.over("batch --addresses list --output out.csv").ends(0).prints(LEDGER);
    let mut read = String::new();
    old.read_to_string(&mut read).expect("text");
    assert_eq!(read, "old");
    assert_eq!(bench.text("out.csv"), RESULTS);
}

/// A link stays a link, and what it leads to is replaced, or made.
#[test]
fn an_output_through_a_link() {
    let bench = bench();
    fs::create_dir(bench.path("results")).expect("a folder");
    bench.write("results/out.csv", "old");
    symlink("results/out.csv", bench.path("link")).expect("a link");
    bench.over("batch --addresses list --output link").ends(0).prints(LEDGER);
    assert!(fs::symlink_metadata(bench.path("link")).expect("the link").file_type().is_symlink(), "the link was replaced");
    assert_eq!(bench.text("results/out.csv"), RESULTS);
    fs::remove_file(bench.path("results/out.csv")).expect("the results");
    bench.over("batch --addresses list --output link").ends(0).prints(LEDGER);
    assert!(fs::symlink_metadata(bench.path("link")).expect("the link").file_type().is_symlink(), "the link was replaced");
    assert_eq!(bench.text("results/out.csv"), RESULTS);
    // Links in a circle lead to no file.
    symlink("round", bench.path("round")).expect("a link");
    bench.over("batch --addresses list --output round").ends(3).prints("").warns(&["cannot write round"]);
}

/// A pipe as output gets the results, and the ledger goes to standard output.
#[test]
fn an_output_that_is_a_pipe() {
    let bench = bench();
    assert!(bench.through("mkfifo", "pipe").status().expect("mkfifo runs").success());
    // A pipe that nobody opens would be waited for.
    let mut reader = bench.through("timeout", "10 cat pipe");
    let reader = reader.stdout(Stdio::piped()).spawn().expect("cat runs");
    bench.over("batch --addresses list --output pipe").ends(0).prints(LEDGER);
    Ran::from(reader.wait_with_output().expect("cat ends")).ends(0).prints(RESULTS);
}
