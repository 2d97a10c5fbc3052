//! A file of addresses of any length, taken in blocks of whole lines.
use crate::number;
use crate::trouble::{self, Trouble};
use std::fs::File;
use std::io::{self, Read};
use std::path::{Path, PathBuf};

/// How many bytes a block has, but for the rest of its last line.
const BLOCK: usize = 1 << 18;

/// The file, read from its start.
pub struct Addresses {
    path: PathBuf,
    reader: Box<dyn Read>,
    /// What was read of the next block already.
    rest: Vec<u8>,
    ended: bool,
    /// How many lines the blocks before it have.
    lines: u64,
    /// How many bytes the file has, if that is known.
    pub length: Option<u64>,
}

/// Whole lines, and how many come before them.
pub struct Block {
    pub bytes: Vec<u8>,
    before: u64,
}

/// A line that is no address.
pub struct Wrong {
    line: u64,
    column: usize,
    what: String,
}

impl Addresses {
    /// Opens a file; `-` is standard input.
    pub fn open(path: &Path) -> Result<Addresses, Trouble> {
        let wrong = |error| trouble::file("read the addresses", path, error);
        let (reader, length): (Box<dyn Read>, _) = if path == Path::new("-") {
            (Box::new(io::stdin()), None)
        } else {
            let file = File::open(path).map_err(wrong)?;
            let metadata = file.metadata().map_err(wrong)?;
            if metadata.is_dir() {
                return Err(wrong(io::Error::from_raw_os_error(21)));
            }
            (Box::new(file), metadata.is_file().then_some(metadata.len()))
        };
        Ok(Addresses { path: path.to_path_buf(), reader, rest: Vec::new(), ended: false, lines: 0, length })
    }

    /// The next lines; none at the end.
    pub fn block(&mut self) -> Result<Option<Block>, Trouble> {
        let mut bytes = std::mem::take(&mut self.rest);
        while !self.ended && bytes.len() < BLOCK {
            let taken = self.reader.by_ref().take(BLOCK as u64).read_to_end(&mut bytes);
            let taken = taken.map_err(|error| trouble::file("read the addresses", &self.path, error))?;
            self.ended = taken == 0;
        }
        let before = self.lines;
        if !self.ended {
            let last = bytes.iter().rposition(|byte| *byte == b'\n').ok_or_else(|| {
                let what = format!("a line is over {BLOCK} bytes: is this the file of addresses?");
                self.wrong(&Wrong { line: before + 1, column: 1, what })
            })?;
            self.rest = bytes.split_off(last + 1);
        }
        self.lines += lines(&bytes);
        Ok((!bytes.is_empty()).then_some(Block { bytes, before }))
    }

    /// The error of a line.
    pub fn wrong(&self, wrong: &Wrong) -> Trouble {
        Trouble::Io(format!("{}:{}:{}: {}", self.path.display(), wrong.line, wrong.column, wrong.what))
    }
}

fn lines(bytes: &[u8]) -> u64 {
    bytes.iter().filter(|byte| **byte == b'\n').count() as u64
}

/// The number of a line in the form that files of addresses mostly have.
fn plain(line: &[u8]) -> Option<u64> {
    let digits = line.strip_prefix(b"0x")?;
    if digits.is_empty() || digits.len() > 16 {
        return None;
    }
    digits.iter().try_fold(0, |number, digit| Some(number << 4 | (*digit as char).to_digit(16)? as u64))
}

/// The address of a line, or none if it has only a comment.
fn address(line: &[u8]) -> Result<Option<u64>, (usize, String)> {
    if let Some(number) = plain(line) {
        return Ok(Some(number));
    }
    let text = String::from_utf8_lossy(line);
    let said = text.split('#').next().unwrap_or("").trim_end();
    let word = said.trim_start();
    let column = 1 + said.chars().count() - word.chars().count();
    if word.is_empty() {
        return Ok(None);
    }
    number::parse(word).map(Some).map_err(|what| (column, what))
}

/// The addresses of a block.
pub fn parse(block: &Block) -> Result<Vec<u64>, Wrong> {
    let mut addresses = Vec::with_capacity(block.bytes.len() / 8);
    for (index, line) in block.bytes.split(|byte| *byte == b'\n').enumerate() {
        let line = line.strip_suffix(b"\r").unwrap_or(line);
        match address(line) {
            Ok(Some(address)) => addresses.push(address),
            Ok(None) => {}
            Err((column, what)) => return Err(Wrong { line: block.before + index as u64 + 1, column, what }),
        }
    }
    Ok(addresses)
}
