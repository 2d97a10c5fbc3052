//! Where results go. A file is there only when it is whole, and is never one that was read.
use crate::trouble::{self, standard_output, Trouble};
use rustix::fs::{cwd, fcntl_getfl, linkat, AtFlags, OFlags};
use std::fs::{self, File, OpenOptions};
use std::io::{self, BufWriter, Write};
use std::os::unix::fs::{MetadataExt, OpenOptionsExt};
use std::os::unix::io::AsRawFd;
use std::path::{Path, PathBuf};

/// Files that were opened for this command before it ran.
pub const STANDARD_INPUT: &str = "/proc/self/fd/0";
const STANDARD_OUTPUT: &str = "/proc/self/fd/1";
const NULL: &str = "/dev/null";

/// A file without a name, which is gone if the run is killed.
const UNNAMED: i32 = OFlags::TMPFILE.bits() as i32;

/// Which file a path leads to.
fn identity(path: &Path) -> Option<(u64, u64)> {
    fs::metadata(path).ok().map(|file| (file.dev(), file.ino()))
}

/// How people call a file.
fn called(path: &Path) -> String {
    match path {
        path if path == Path::new(STANDARD_INPUT) => "standard input".to_string(),
        path if path == Path::new(STANDARD_OUTPUT) => "standard output".to_string(),
        path => path.display().to_string(),
    }
}

/// Refuses to write over a file that the run reads, under whatever name, by the target or by standard output.
pub fn not_an_input(target: Option<&Path>, inputs: &[&Path]) -> Result<(), Trouble> {
    let regular = |path: &Path| fs::metadata(path).map_or(false, |file| file.is_file());
    for target in target.into_iter().chain([Path::new(STANDARD_OUTPUT)]) {
        if let Some(input) = inputs.iter().find(|input| regular(target) && identity(target) == identity(input)) {
            return Err(Trouble::Usage(format!("{} is the input {}: write to another file", called(target), called(input))));
        }
    }
    Ok(())
}

/// A closed standard output was replaced by the null device, open for reading too, before this command began: nobody would miss what is
/// written there.
pub fn standard_output_is_open() -> Result<(), Trouble> {
    let both_ways = fcntl_getfl(io::stdout()).map_or(false, |flags| flags.contains(OFlags::RDWR));
    if both_ways && identity(Path::new(STANDARD_OUTPUT)) == identity(Path::new(NULL)) {
        return Err(Trouble::Io("standard output is closed".to_string()));
    }
    Ok(())
}

/// Results on their way.
pub enum Results {
    /// To standard output, or to what is no regular file, as a pipe or a device.
    Straight { target: Option<PathBuf>, writer: BufWriter<Box<dyn Write>> },
    /// To a file in the target's folder that has no name, or one of its own where the file system has none without.
    Beside { target: PathBuf, name: Name, writer: BufWriter<File> },
}

/// The name of a file that is not whole. It goes with this, unless it was taken away.
pub struct Name(Option<PathBuf>);

impl Drop for Name {
    fn drop(&mut self) {
        if let Some(name) = &self.0 {
            let _ = fs::remove_file(name);
        }
    }
}

fn folder(target: &Path) -> &Path {
    match target.parent() {
        Some(parent) if !parent.as_os_str().is_empty() => parent,
        _ => Path::new("."),
    }
}

/// Makes something under a name beside the target that no file has yet.
fn beside<T>(target: &Path, make: impl Fn(&Path) -> io::Result<T>) -> io::Result<(T, Name)> {
    let mut attempt = 0;
    loop {
        let mut name = std::ffi::OsString::from(".");
        name.push(target.file_name().unwrap_or_default());
        name.push(format!(".{}.{attempt}", std::process::id()));
        let name = folder(target).join(name);
        match make(&name) {
            Ok(made) => return Ok((made, Name(Some(name)))),
            Err(error) if error.kind() == io::ErrorKind::AlreadyExists => attempt += 1,
            Err(error) => return Err(error),
        }
    }
}

/// A file beside the target.
fn open_beside(target: &Path) -> io::Result<(File, Name)> {
    match OpenOptions::new().write(true).custom_flags(UNNAMED).mode(0o666).open(folder(target)) {
        Ok(file) => Ok((file, Name(None))),
        Err(_) => beside(target, |name| OpenOptions::new().write(true).create_new(true).open(name)),
    }
}

/// Gives a file that is whole the target's name, in the place of what has it. A link cannot replace a file, but a renamed one can.
fn publish(file: &File, name: &mut Name, target: &Path) -> io::Result<()> {
    file.sync_all()?;
    if name.0.is_none() {
        let unnamed = format!("/proc/self/fd/{}", file.as_raw_fd());
        let link = |name: &Path| Ok(linkat(cwd(), unnamed.as_str(), cwd(), name, AtFlags::SYMLINK_FOLLOW)?);
        *name = beside(target, link)?.1;
    }
    if let Some(whole) = &name.0 {
        fs::rename(whole, target)?;
        name.0 = None;
    }
    // The new name is safe once its folder is.
    File::open(folder(target))?.sync_all()
}

/// Where links lead, so that the file there is replaced, or made, and not the link. Of links that lead in a circle the system says so.
fn followed(target: &Path) -> io::Result<PathBuf> {
    let mut followed = target.to_path_buf();
    while let Ok(next) = fs::read_link(&followed) {
        if let Err(error) = fs::metadata(target) {
            if error.kind() != io::ErrorKind::NotFound {
                return Err(error);
            }
        }
        followed = folder(&followed).join(next);
    }
    Ok(followed)
}

impl Results {
    pub fn open(target: Option<&Path>) -> Result<Results, Trouble> {
        let straight = |target: Option<&Path>, file: Box<dyn Write>| {
            Ok(Results::Straight { target: target.map(Path::to_path_buf), writer: BufWriter::new(file) })
        };
        let target = match target {
            Some(target) if identity(target).is_none() || identity(target) != identity(Path::new(STANDARD_OUTPUT)) => target,
            _ => return straight(None, Box::new(io::stdout())),
        };
        let wrong = |error| trouble::file("write", target, error);
        match fs::metadata(target) {
            Ok(there) if there.is_dir() => return Err(Trouble::Usage(format!("{} is a folder: name a file in it", target.display()))),
            Ok(there) if !there.is_file() => {
                return straight(Some(target), Box::new(OpenOptions::new().write(true).open(target).map_err(wrong)?));
            }
            _ => {}
        }
        let followed = followed(target).map_err(wrong)?;
        let (file, name) = open_beside(&followed).map_err(wrong)?;
        Ok(Results::Beside { target: followed, name, writer: BufWriter::new(file) })
    }

    fn wrong(&self, error: io::Error) -> Trouble {
        match self {
            Results::Straight { target: None, .. } => standard_output(error),
            Results::Straight { target: Some(target), .. } | Results::Beside { target, .. } => trouble::file("write", target, error),
        }
    }

    pub fn write(&mut self, bytes: &[u8]) -> Result<(), Trouble> {
        let written = match self {
            Results::Straight { writer, .. } => writer.write_all(bytes),
            Results::Beside { writer, .. } => writer.write_all(bytes),
        };
        written.map_err(|error| self.wrong(error))
    }

    /// All is written: make it safe, and give it its name.
    pub fn finish(mut self) -> Result<(), Trouble> {
        let finished = match &mut self {
            Results::Straight { writer, .. } => writer.flush(),
            Results::Beside { target, name, writer } => writer.flush().and_then(|()| publish(writer.get_ref(), name, target)),
        };
        finished.map_err(|error| self.wrong(error))
    }
}
