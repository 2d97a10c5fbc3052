//! What needs the system's help: a run without root's rights, and a file system that is soon full.
use super::{Bench, Ran, COMMAND};
use std::fs;
use std::os::unix::fs::MetadataExt;
use std::process::Command;

fn is_root() -> bool {
    fs::metadata("/proc/self").expect("/proc").uid() == 0
}

fn works(command: &mut Command) -> bool {
    command.output().map_or(false, |output| output.status.success())
}

/// A run that may read only what files permit, as root may read all.
pub fn unprivileged(bench: &Bench, words: &str) -> Ran {
    if !is_root() {
        return bench.run(words);
    }
    let setpriv = || bench.through("setpriv", "--inh-caps=-all --bounding-set=-all");
    assert!(works(setpriv().arg("true")), "root's rights cannot be given up here: setpriv is missing, or is not allowed to");
    let mut command = setpriv();
    command.arg(COMMAND).args(words.split_whitespace());
    Ran::of(command)
}

/// Runs a script of `sh` with the command as $0, in the bench's folder, where `tiny` is a file system of 64 KB.
pub fn with_tiny_file_system(bench: &Bench, script: &str) -> Ran {
    with_file_system(bench, 64, script)
}

/// The same with `tiny` of so many kilobytes.
pub fn with_file_system(bench: &Bench, kilobytes: u64, script: &str) -> Ran {
    fs::create_dir_all(bench.path("tiny")).expect("a folder to mount on");
    let mount = &format!("mount -t tmpfs -o size={kilobytes}k none tiny");
    // The mount is seen by the script alone, and goes with it. Root has the right to it; others have it in a name space of their own.
    for spaces in ["--mount", "--user --map-root-user --mount"] {
        let shell = |script: &str| {
            let mut command = bench.through("unshare", spaces);
            command.args(["sh", "-c", script, COMMAND]);
            command
        };
        if works(&mut shell(mount)) {
            return Ran::of(shell(&format!("{mount}\n{script}")));
        }
    }
    panic!("a tiny file system cannot be mounted: neither `unshare --mount` nor `unshare --user --map-root-user --mount` may {mount}");
}
