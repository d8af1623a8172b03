//! The text form of pools: docs/POOL-FILE.md. It is read into items (`reader`), and these are made into rows (`forms`, `terms`,
//! `builder`).
mod builder;
mod forms;
pub(crate) mod names;
mod reader;
mod terms;

pub(crate) use forms::DECLARATIONS;

use crate::pool::Pool;
use crate::stack::with_stack;
use std::fmt;

/// Are equal rows one row, or does each one typed get its own?
#[derive(Clone, Copy, Debug, PartialEq, Eq)]
pub enum Sharing {
    Shared,
    Apart,
}

/// A place in the text, from 1.
#[derive(Clone, Copy, Debug, PartialEq, Eq)]
pub struct At {
    pub line: usize,
    pub column: usize,
}

/// What is wrong with a text, and where.
#[derive(Clone, Debug, PartialEq, Eq)]
pub struct Mistake {
    pub at: At,
    pub what: String,
}

impl fmt::Display for Mistake {
    fn fmt(&self, f: &mut fmt::Formatter<'_>) -> fmt::Result {
        write!(f, "{}:{}: {}", self.at.line, self.at.column, self.what)
    }
}

impl std::error::Error for Mistake {}

fn mistake<T>(at: At, what: impl Into<String>) -> Result<T, Mistake> {
    Err(Mistake { at, what: what.into() })
}

/// A pool, and the expression rows of what `define` named, in the text's order.
#[derive(Clone, Debug, PartialEq, Eq)]
pub struct Packed {
    pub pool: Pool,
    pub defined: Vec<(String, u32)>,
}

/// The pool of a text. It is not checked: a text may mean a pool that is refused.
pub fn pack(text: &str, sharing: Sharing) -> Result<Packed, Mistake> {
    if text.starts_with('\u{feff}') {
        return mistake(At { line: 1, column: 1 }, "the text begins with a byte order mark (U+FEFF): save it as UTF-8 without one");
    }
    // items nest up to reader::MOST_NESTED deep, and so do the functions that read them
    with_stack(|| forms::packed(&reader::items(text)?, sharing))
}
