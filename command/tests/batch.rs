//! `humpelkaas batch`: results, ledger and exit status, for lists of any length.
mod common;

use common::{Bench, Memory, Ran, Registers, COMMAND};
use serde_json::{json, Value};
use std::io::Write;
use std::process::{Child, Stdio};
use std::time::Duration;

const HEADER: &str = "address,answer,output\n";

/// The addresses that are asked of the sample's second guest, and what document 01 says of them. Its stage 1 has pages of 16 KiB and maps
/// page 1, page 2 to an IPA without memory, page 3 without an access flag, and the second 32 MiB.
fn answered(address: u64) -> (u64, u64) {
    match address >> 14 {
        1 => (0, 0xa_0000 + (address & 0x3fff)),
        3 => (3, 0),
        0x800..=0xfff => (0, 0x8000_0000 + (address - 0x200_0000)),
        _ => (1, 0),
    }
}

fn csv_line(address: u64) -> String {
    let (number, output) = answered(address);
    format!("{address:#x},{number},{output:#x}\n")
}

/// The results of a list as lines of CSV, and its ledger's line.
fn expected(addresses: &[u64]) -> (String, String) {
    let lines: String = addresses.iter().map(|address| csv_line(*address)).collect();
    let translated = addresses.iter().filter(|address| answered(**address).0 == 0).count();
    let faulted = addresses.len() - translated;
    let ledger = format!("asked {} translated {translated} faulted {faulted} absent 0 unsettled 0\n", addresses.len());
    (format!("{HEADER}{lines}"), ledger)
}

const ASKED: [u64; 6] = [0x4008, 0x8000, 0xc000, 0x200_0000, 0x3ff_fff8, 0x400_0000];

#[test]
fn results_on_standard_output() {
    let expected = "\
address,answer,output
0x4008,0,0xa0008
0x8000,1,0x0
0xc000,3,0x0
0x2000000,0,0x80000000
0x3fffff8,0,0x81fffff8
0x4000000,1,0x0
asked 6 translated 3 faulted 3 absent 0 unsettled 0
";
    Bench::sample().over("batch --addresses spectra.addresses --el 0").ends(0).prints(expected).says("");
}

/// Document 01's ledger.
#[test]
fn results_in_a_file() {
    let bench = Bench::cases();
    bench.write("list", "0x1008\n0x2000\n");
    bench.over("batch --addresses list --output out.csv").ends(0).prints("asked 2 translated 1 faulted 1 absent 0 unsettled 0\n").says("");
    assert_eq!(bench.text("out.csv"), "address,answer,output\n0x1008,0,0x90008\n0x2000,1,0x0\n");
    assert_eq!(bench.names(), ["capture.bin", "guest.registers", "list", "out.csv"]);
}

#[test]
fn results_in_json() {
    let bench = Bench::sample();
    let ran = bench.over("batch --addresses spectra.addresses --el 0 --format json --output out.json").ends(0);
    assert_eq!(ran.stdout, expected(&ASKED).1);
    let lines: Vec<Value> = bench.text("out.json").lines().map(|line| serde_json::from_str(line).expect("a line of JSON")).collect();
    let line = |address: &u64| {
        let (number, output) = answered(*address);
        json!({ "address": format!("{address:#x}"), "answer": number, "output": format!("{output:#x}") })
    };
    assert_eq!(lines, ASKED.iter().map(line).collect::<Vec<_>>());
}

/// The kind, EL and size are those of all addresses.
#[test]
fn the_manner_of_a_batch() {
    let bench = Bench::sample();
    bench.write("list", "0x4008\n0x2000004\n");
    for (manner, first, second) in [("--kind read", 0, 0), ("--kind write", 4, 0), ("--kind fetch --el 0", 0, 4), ("--kind 2 --el 1", 4, 4)]
    {
        let ran = bench.over(&format!("batch --addresses list {manner}")).ends(0);
        let numbers: Vec<&str> = ran.stdout.lines().skip(1).take(2).map(|line| line.split(',').nth(1).unwrap()).collect();
        assert_eq!(numbers, [first.to_string(), second.to_string()], "{manner}");
    }
}

/// A truncated capture and memory of which Arm says nothing are no success.
#[test]
fn what_is_absent_or_unsettled() {
    let cut = Bench::new(&Memory::cases().cut(0x4000), &Registers::cases());
    cut.write("list", "0x1008\n0x8000000000\n0x2008\n");
    cut.over("batch --addresses list --output out.csv").ends(1).prints("asked 3 translated 0 faulted 1 absent 2 unsettled 0\n");
    assert_eq!(cut.text("out.csv"), "address,answer,output\n0x1008,6,0x0\n0x8000000000,1,0x0\n0x2008,6,0x0\n");
    let open = Bench::new(&Memory::cases().with(&[(0x4000_2280, 0x9_07f3)]), &Registers::cases());
    open.write("list", "0x1008\n0x2008");
    let results = "address,answer,output\n0x1008,7,0x0\n0x2008,1,0x0\n";
    open.over("batch --addresses list").ends(1).prints(&format!("{results}asked 2 translated 0 faulted 1 absent 0 unsettled 1\n"));
}

#[test]
fn an_empty_list() {
    let bench = Bench::cases();
    let ledger = "asked 0 translated 0 faulted 0 absent 0 unsettled 0\n";
    for list in ["", "\n", "# nothing\n\n  # more of it\n", "\r\n", "   "] {
        bench.write("list", list);
        bench.over("batch --addresses list").ends(0).prints(&format!("{HEADER}{ledger}")).says("");
        bench.over("batch --addresses list --output out.csv").ends(0).prints(ledger).says("");
        assert_eq!(bench.text("out.csv"), HEADER);
        bench.over("batch --addresses list --format json").ends(0).prints(ledger);
    }
    bench.over("batch --addresses /dev/null").ends(0).prints(&format!("{HEADER}{ledger}"));
    bench.over("batch --addresses -").ends(0).prints(&format!("{HEADER}{ledger}"));
}

#[test]
fn forms_of_addresses() {
    let bench = Bench::sample();
    let list = "# what was seen on the bench\r\n\
        0x4008\r\n\
        \t 0X2000000  # a block\n\
        \n\
        16392\n\
        0x0000000000004010\n\
        0x200_0008#near\n\
        0x7FF8\n\
        0x7ff8";
    bench.write("list", list);
    let (results, ledger) = expected(&[0x4008, 0x200_0000, 0x4008, 0x4010, 0x200_0008, 0x7ff8, 0x7ff8]);
    bench.over("batch --addresses list --el 0").ends(0).prints(&(results + &ledger));
}

/// The highest address there is, in both notations.
#[test]
fn the_last_address() {
    let bench = Bench::cases();
    bench.write("list", "18446744073709551615\n0xFFFFFFFFFFFFFFFF\n");
    let line = "0xffffffffffffffff,1,0x0\n";
    bench
        .over("batch --addresses list")
        .ends(0)
        .prints(&format!("{HEADER}{line}{line}asked 2 translated 0 faulted 2 absent 0 unsettled 0\n"));
}

/// Numbers that spread over all that the sample's second guest has, and beyond.
fn spread(count: usize) -> Vec<u64> {
    let mut state = 1_u64;
    let mut next = || {
        // The multiplier of Knuth's MMIX.
        state = state.wrapping_mul(6_364_136_223_846_793_005).wrapping_add(1_442_695_040_888_963_407);
        state >> 33
    };
    let one = |number: u64| match number % 4 {
        0 => 0x4000 + number / 4 % 0xc000,
        1 => 0x200_0000 + number / 4 % 0x200_0000,
        2 => number / 4 % 0x600_0000,
        _ => number,
    };
    (0..count).map(|_| one(next())).collect()
}

/// The most memory that a process has had, in kilobytes, while there is such a process.
fn most_memory(process: u32) -> Option<u64> {
    let status = std::fs::read_to_string(format!("/proc/{process}/status")).ok()?;
    let line = status.lines().find_map(|line| line.strip_prefix("VmHWM:"))?;
    line.trim().trim_end_matches(" kB").parse().ok()
}

/// Looks at a run's memory until it ends, and gives the most that it had.
fn watched(mut child: Child) -> (u64, Ran) {
    let mut most = 0;
    while child.try_wait().expect("the command ends").is_none() {
        most = most_memory(child.id()).unwrap_or(most);
        std::thread::sleep(Duration::from_millis(1));
    }
    (most, child.wait_with_output().expect("what it printed").into())
}

/// Two million addresses come out in order, all of them, in bounded memory.
#[test]
fn two_million_addresses() {
    let bench = Bench::sample();
    let addresses = spread(2_000_000);
    let list: String = addresses.iter().map(|address| format!("{address:#x}\n")).collect();
    let mut command = bench.command(&bench.words("batch --addresses - --el 0 --output out.csv"));
    // So that what fits into memory does not depend on the machine.
    command.env("RAYON_NUM_THREADS", "2").stdin(Stdio::piped()).stdout(Stdio::piped()).stderr(Stdio::piped());
    let mut child = command.spawn().expect("the command runs");
    let mut stdin = child.stdin.take().expect("its standard input");
    stdin.write_all(list.as_bytes()).expect("the command takes addresses");
    drop(stdin);
    let (kilobytes, ran) = watched(child);
    let (results, ledger) = expected(&addresses);
    ran.ends(0).prints(&ledger).says("");
    let found = bench.text("out.csv");
    assert_eq!(found.lines().count(), 2_000_001);
    let different = found.lines().zip(results.lines()).enumerate().find(|(_, (found, expected))| found != expected);
    assert_eq!(different, None);
    assert_eq!(found.len(), results.len());
    let bounds = 1 << 10..24 << 10;
    assert!(bounds.contains(&kilobytes), "{kilobytes} KB for a list of {} KB and results of {} KB", list.len() >> 10, results.len() >> 10);
    for line in found.lines().skip(1).step_by(66_667) {
        let fields: Vec<&str> = line.split(',').collect();
        let told = bench.over(&format!("ask {} --json --el 0", fields[0])).ends(0).json();
        assert_eq!(told["answer"]["number"].to_string(), fields[1], "{line}");
        assert_eq!(told["answer"]["address"].as_str().unwrap_or("0x0"), fields[2], "{line}");
    }
}

/// On a terminal a batch shows how far it is, at what rate and how long it will take. Elsewhere it shows nothing, which other tests hold.
#[test]
fn progress_on_a_terminal() {
    let bench = Bench::cases();
    bench.write("list", "0x1008\n".repeat(4_000_000));
    let mut terminal = bench.through("script", "-qec");
    terminal.arg(format!("{COMMAND} {}", bench.words("batch --addresses list --output out.csv"))).arg("/dev/null");
    Ran::of(terminal).ends(0).shows(&[" % ", " addresses, ", " a second, ", " left", "asked 4000000 translated 4000000"]);
}

/// The file gives the same as a pipe does, on any number of cores.
#[test]
fn cores_make_no_difference() {
    let bench = Bench::sample();
    let addresses = spread(200_000);
    bench.write("list", addresses.iter().map(|address| format!("{address}\n")).collect::<String>());
    let (results, ledger) = expected(&addresses);
    for cores in ["1", "2", "7"] {
        let mut command = bench.command(&bench.words("batch --addresses list --el 0"));
        command.env("RAYON_NUM_THREADS", cores);
        let ran = Ran::of(command).ends(0);
        assert!(ran.stdout == format!("{results}{ledger}"), "on {cores} cores results are others");
    }
}

/// A list of so many lines with one that is wrong, of lines of seven or eight bytes.
fn list_with(wrong: usize, text: &str, count: usize, end: &str) -> String {
    let line = |number: usize| if number == wrong { format!("{text}{end}") } else { format!("0x1008{end}") };
    (1..=count).map(line).collect()
}

/// A wrong line is named wherever it stands: in the first block of 256 KB, around the end of one, far inside, and at the end.
#[test]
fn a_wrong_line_deep_inside() {
    let bench = Bench::cases();
    let last = 300_000;
    for end in ["\n", "\r\n"] {
        let block = (1 << 18) / ("0x1008".len() + end.len());
        for wrong in [1, block - 1, block, block + 1, block + 2, 2 * block + 1, 123_456, last] {
            let text = "  0x10g8 # what is this";
            let mut list = list_with(wrong, text, last, end);
            if wrong == last {
                list.truncate(list.len() - end.len());
            }
            bench.write("list", list);
            let said = format!("humpelkaas: list:{wrong}:3: '0x10g8' is not a number: write it in decimal, or in hexadecimal after 0x\n");
            bench.over("batch --addresses list --output out.csv").ends(3).prints("").says(&said);
            assert_eq!(bench.names(), ["capture.bin", "guest.registers", "list"]);
        }
    }
}

/// Of two wrong lines the first is named, though blocks are worked at side by side.
#[test]
fn the_first_wrong_line() {
    let bench = Bench::cases();
    let list = list_with(90_000, "first", 300_000, "\n") + "second\n";
    bench.write("list", list);
    bench.over("batch --addresses list --output out.csv").ends(3).has_no_ledger().warns(&["list:90000:1: 'first' is not a number"]);
}

/// Lines without an address count too, and columns are those of characters.
#[test]
fn where_a_wrong_line_is() {
    let bench = Bench::cases();
    for (list, said) in [
        ("# one\n\n\r\n0x1008\nx\n", "list:5:1: 'x' is not a number"),
        ("0x1008 # ä\n\t\u{e4}\n", "list:2:2: 'ä' is not a number"),
        ("0x1008\n0x2000 0x3000\n", "list:2:"),
        ("0x1008\n0x10000000000000000\n", "list:2:1: '0x10000000000000000' is over 64 bits"),
        ("18446744073709551616", "list:1:1: '18446744073709551616' is over 64 bits"),
        ("0x1008\n -1", "list:2:2: '-1' is not a number"),
        ("0x\n", "list:1:1: '0x' is not a number"),
        ("0x1008\r\n00001008\r\n", "list:2:1: '00001008' begins with 0: write 0x before it if it is hexadecimal"),
        ("0x1008\n1008h\n", "list:2:1: '1008h' is not a number"),
    ] {
        bench.write("list", list);
        bench.over("batch --addresses list --output out.csv").ends(3).prints("").warns(&[said]);
    }
    bench.write("list", b"0x1008\n\xff\xfe\x00\n");
    bench.over("batch --addresses list").ends(3).has_no_ledger().warns(&["list:2:1: "]);
}

/// A block may end within a comment, a line of any length, or between CR and LF.
#[test]
fn long_lines_and_blocks() {
    let bench = Bench::cases();
    let long = format!("0x1008 # {}\n", "-".repeat(200_000));
    bench.write("list", format!("{long}0x2000\n{long}0x1008"));
    let results = "0x1008,0,0x90008\n0x2000,1,0x0\n0x1008,0,0x90008\n0x1008,0,0x90008\n";
    let ledger = "asked 4 translated 3 faulted 1 absent 0 unsettled 0\n";
    bench.over("batch --addresses list").ends(0).prints(&format!("{HEADER}{results}{ledger}"));
    for pad in 0..3 {
        // The bytes around 256 KB are the CR and LF of a line, one after the other.
        let comment = format!("#{}\r\n", "x".repeat((1 << 18) - 12 + pad));
        bench.write("list", format!("{comment}0x1008\r\n0x2000\r\nwrong\r\n"));
        bench.over("batch --addresses list").ends(3).warns(&["list:4:1: 'wrong' is not a number"]);
    }
}

/// A file that is no list, as a capture is: it is named, and neither read to its end nor printed.
#[test]
fn a_line_without_an_end() {
    let bench = Bench::cases();
    let said = "a line is over 262144 bytes: is this the file of addresses?\n";
    bench.write("list", vec![0; 1 << 20]);
    let ran = bench.over("batch --addresses list --output out.csv").ends(3).prints("").warns(&["list:1", said]);
    assert!(ran.stderr.len() < 200, "{} bytes on the error stream", ran.stderr.len());
    bench.write("list", ["0x1008\n".as_bytes(), &vec![0; 1 << 20]].concat());
    bench.over("batch --addresses list --output out.csv").ends(3).prints("").warns(&["list:2", said]);
    // One that has no end to be read.
    bench.over("batch --addresses /dev/zero --output out.csv").ends(3).prints("").warns(&["/dev/zero", said]);
    assert_eq!(bench.names(), ["capture.bin", "guest.registers", "list"]);
}
