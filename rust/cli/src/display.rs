//! Listings as they are shown: the bytes themselves, or row by row with escapes and a margin.
use crate::console::shown;
use std::io::{self, Write};

/// What is done to a listing before it is written; nothing, for a pipe or a file, unless it is asked for.
#[derive(Clone, Copy, PartialEq, Eq)]
pub struct Display {
    /// Control characters and bidirectional marks of the pool's texts as escapes.
    pub escapes: bool,
    /// A margin with the number of each row, and a mark before lines that a text's own newline starts.
    pub numbers: bool,
}

impl Display {
    pub fn is_plain(self) -> bool {
        !self.escapes && !self.numbers
    }

    /// A listing whose rows start at these bytes; a newline ends it.
    pub fn write(self, out: &mut impl Write, listing: &[u8], starts: &[usize]) -> io::Result<()> {
        let width = starts.len().to_string().len().max(3);
        let ends = starts[1..].iter().map(|next| next - 1).chain([listing.len()]);
        for (number, (&start, end)) in starts.iter().zip(ends).enumerate() {
            self.row(out, &listing[start..end], number + 1, width)?;
        }
        Ok(())
    }

    /// One row, which is several lines where a text has newlines and they are not shown as escapes.
    fn row(self, out: &mut impl Write, row: &[u8], number: usize, width: usize) -> io::Result<()> {
        // an accepted pool's strings are UTF-8, and a row ends between two of a document's texts
        let row = String::from_utf8_lossy(row);
        let row = if self.escapes { shown(&row) } else { row.into_owned() };
        for (i, line) in row.split('\n').enumerate() {
            let margin = match (self.numbers, i) {
                (false, _) => String::new(),
                (true, 0) => format!("{number:width$} |"),
                (true, _) => format!("{:width$} +", ""),
            };
            let between = if margin.is_empty() || line.is_empty() { "" } else { " " };
            writeln!(out, "{margin}{between}{line}")?;
        }
        Ok(())
    }
}
