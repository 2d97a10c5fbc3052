//! Counts by class, so that a generator that no longer reaches some class is seen.
use std::collections::BTreeMap;

/// Classes by row and column, each with how often it was met.
#[derive(Default)]
pub struct Counts(BTreeMap<(String, String), u64>);

impl Counts {
    /// Adds classes that are not met yet.
    pub fn add<T: ToString>(&mut self, row: &str, columns: impl IntoIterator<Item = T>) {
        for column in columns {
            self.0.insert((row.to_string(), column.to_string()), 0);
        }
    }

    pub fn count(&mut self, row: &str, column: impl ToString) {
        *self.0.entry((row.to_string(), column.to_string())).or_insert(0) += 1;
    }

    /// Prints a line for each row.
    pub fn print(&self) {
        let mut last = "";
        for ((row, column), count) in &self.0 {
            if row != last {
                print!("{}{row}:", if last.is_empty() { "" } else { "\n" });
                last = row;
            }
            print!(" {column}{}{count}", if column.is_empty() { "" } else { "=" });
        }
        println!();
    }

    /// The classes that were never met.
    pub fn missed(&self) -> Vec<String> {
        self.0.iter().filter(|(_, &count)| count == 0).map(|((row, column), _)| format!("{row} {column}").trim().to_string()).collect()
    }
}
