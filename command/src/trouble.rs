//! How a run ends: the exit status, and what is said when it cannot go on.
use std::fmt;
use std::io::{self, Write};
use std::path::Path;

/// How a run ended that could be carried out.
#[derive(Clone, Copy, Debug, PartialEq, Eq, PartialOrd, Ord)]
pub enum Status {
    Complete = 0,
    /// Something was absent or unsettled, or there is a finding, or the file that was listed was cut.
    Incomplete = 1,
    Refused = 2,
}

/// Why a run could not be carried out.
#[derive(Debug)]
pub enum Trouble {
    /// Something could not be read or written.
    Io(String),
    /// The command was not called as it should be.
    Usage(String),
}

impl Trouble {
    pub fn status(&self) -> u8 {
        match self {
            Trouble::Io(_) => 3,
            Trouble::Usage(_) => 64,
        }
    }
}

impl fmt::Display for Trouble {
    fn fmt(&self, f: &mut fmt::Formatter) -> fmt::Result {
        match self {
            Trouble::Io(what) | Trouble::Usage(what) => f.write_str(what),
        }
    }
}

/// What to do about the errors that a bench meets most.
fn advice(error: &io::Error) -> &'static str {
    match error.kind() {
        io::ErrorKind::NotFound => " Check the path.",
        io::ErrorKind::PermissionDenied => " Check who may use it.",
        io::ErrorKind::BrokenPipe => " Whoever was reading has gone: the results are not complete.",
        // Full disks have no kind of their own in older compilers: 28 is ENOSPC.
        _ if error.raw_os_error() == Some(28) => " Make room and run again: nothing was put in the place of a result.",
        _ => "",
    }
}

/// Says something on the error stream. If nobody can read it there, that is no reason to end otherwise.
pub fn say(what: &str) {
    let _ = writeln!(io::stderr(), "humpelkaas: {what}");
}

/// An error over a file.
pub fn file(verb: &str, path: &Path, error: io::Error) -> Trouble {
    Trouble::Io(format!("cannot {verb} {}: {error}.{}", path.display(), advice(&error)))
}

/// An error over standard output.
pub fn standard_output(error: io::Error) -> Trouble {
    Trouble::Io(format!("cannot write to standard output: {error}.{}", advice(&error)))
}
