//! Small text files: lines of words, with `#` comments. A malformed one is named with line and column.
use crate::number;
use crate::trouble::{self, Trouble};
use std::path::{Path, PathBuf};

/// A file, read.
pub struct Text {
    path: PathBuf,
    text: String,
}

/// A word of a line, and where it stands.
#[derive(Clone, Copy)]
pub struct Word<'a> {
    pub text: &'a str,
    line: usize,
    column: usize,
}

impl Text {
    pub fn read(path: &Path) -> Result<Text, Trouble> {
        let bytes = std::fs::read(path).map_err(|error| trouble::file("read", path, error))?;
        let text = String::from_utf8(bytes).map_err(|error| {
            let valid = error.utf8_error().valid_up_to();
            let before = String::from_utf8_lossy(&error.as_bytes()[..valid]);
            let last = before.rsplit('\n').next().unwrap_or("");
            let (line, column) = (before.split('\n').count(), 1 + last.chars().count());
            Trouble::Io(format!("{}:{line}:{column}: not text: is this the right file?", path.display()))
        })?;
        Ok(Text { path: path.to_path_buf(), text })
    }

    /// The words of each line that has any, parted by spaces and by the characters that `parts` names.
    pub fn lines<'a>(&'a self, parts: &'a [char]) -> impl Iterator<Item = Vec<Word<'a>>> {
        self.text.lines().enumerate().map(move |(index, line)| words(index + 1, line, parts)).filter(|words| !words.is_empty())
    }

    /// An error at a word.
    pub fn wrong(&self, word: Word, what: &str) -> Trouble {
        Trouble::Io(format!("{}:{}:{}: {what}", self.path.display(), word.line, word.column))
    }

    /// An error of the file as a whole.
    pub fn lacks(&self, what: &str) -> Trouble {
        Trouble::Io(format!("{}: {what}", self.path.display()))
    }

    pub fn number(&self, word: Word) -> Result<u64, Trouble> {
        number::parse(word.text).map_err(|what| self.wrong(word, &what))
    }

    /// The two numbers of a line.
    pub fn pair(&self, words: &[Word], form: &str) -> Result<(u64, u64), Trouble> {
        match words {
            [first, second] => Ok((self.number(*first)?, self.number(*second)?)),
            [first] => Err(self.wrong(*first, &format!("the line has one word: write {form}"))),
            more => Err(self.wrong(more[2], &format!("the line has more than two words: write {form}"))),
        }
    }
}

/// The words of a line up to its comment.
fn words<'a>(line: usize, text: &'a str, parts: &[char]) -> Vec<Word<'a>> {
    let text = text.split('#').next().unwrap_or("");
    text.split(|c: char| c.is_whitespace() || parts.contains(&c))
        .filter(|word| !word.is_empty())
        .map(|word| {
            let before = word.as_ptr() as usize - text.as_ptr() as usize;
            Word { text: word, line, column: 1 + text[..before].chars().count() }
        })
        .collect()
}
