//! A file that is read whole: one that shrinks under a mapping would end the run without a word.
use crate::trouble::{self, Trouble};
use std::fs::{File, Metadata};
use std::io::Read;
use std::os::unix::fs::MetadataExt;
use std::path::{Path, PathBuf};

/// What changes when somebody writes to a file or puts another in its place.
#[derive(PartialEq, Eq)]
struct Stamp {
    file: (u64, u64),
    length: u64,
    modified: (i64, i64),
}

impl Stamp {
    fn of(metadata: &Metadata) -> Stamp {
        Stamp { file: (metadata.dev(), metadata.ino()), length: metadata.len(), modified: (metadata.mtime(), metadata.mtime_nsec()) }
    }
}

/// A capture's file in memory.
pub struct Whole {
    pub path: PathBuf,
    pub bytes: Vec<u8>,
    /// Of a regular file. A pipe has none.
    stamp: Option<Stamp>,
}

impl Whole {
    pub fn read(path: &Path) -> Result<Whole, Trouble> {
        let wrong = |error| trouble::file("read the capture", path, error);
        let mut file = File::open(path).map_err(wrong)?;
        let metadata = file.metadata().map_err(wrong)?;
        let mut bytes = Vec::new();
        bytes.try_reserve_exact(metadata.len() as usize).map_err(|_| {
            Trouble::Io(format!("cannot read the capture {}: its {} bytes do not fit into memory", path.display(), metadata.len()))
        })?;
        file.read_to_end(&mut bytes).map_err(wrong)?;
        let stamp = metadata.is_file().then(|| Stamp::of(&metadata));
        let whole = Whole { path: path.to_path_buf(), bytes, stamp };
        whole.unchanged()?;
        Ok(whole)
    }

    /// Refuses a file that is not what was read: its length is another, or somebody has written to it or replaced it since.
    pub fn unchanged(&self) -> Result<(), Trouble> {
        let stamp = match &self.stamp {
            Some(stamp) => stamp,
            None => return Ok(()),
        };
        let now = std::fs::metadata(&self.path).ok().map(|metadata| Stamp::of(&metadata));
        if now.as_ref() == Some(stamp) && stamp.length == self.bytes.len() as u64 {
            return Ok(());
        }
        Err(Trouble::Io(format!("the capture {} changed while it was used: run again when nothing writes to it", self.path.display())))
    }
}
