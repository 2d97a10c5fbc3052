//! The files of grants and of tables.
use crate::text::Text;
use crate::trouble::Trouble;
use humpelkaas::{Grant, Table};
use std::path::Path;

fn pairs(path: &Path, form: &str) -> Result<Vec<(u64, u64)>, Trouble> {
    let text = Text::read(path)?;
    text.lines(&[]).map(|words| text.pair(&words, form)).collect()
}

pub fn grants(path: &Path) -> Result<Vec<Grant>, Trouble> {
    Ok(pairs(path, "ADDRESS BYTES")?.into_iter().map(|(address, bytes)| Grant { address, bytes }).collect())
}

pub fn tables(path: &Path) -> Result<Vec<Table>, Trouble> {
    Ok(pairs(path, "ADDRESS LEVEL")?.into_iter().map(|(address, level)| Table { address, level }).collect())
}
