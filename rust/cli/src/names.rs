//! `names`: the declarations of a pool, and the ones that a command line chooses by name.
use crate::console::{failed, output, shown};
use crate::list::accepted;
use crate::{Failure, Outcome};
use std::io::{BufWriter, Write};
use std::path::Path;
use tilusorgu::{DeclarNames, Pool, Root, Table};

/// Bytes of a name that are shown: no listing has room for more.
const MOST: usize = 65_536;

/// Row, kind and name of every declaration, each in a line: escapes keep it one.
pub fn names(path: &Path) -> Result<Outcome, Failure> {
    let pool = accepted(path)?;
    let mut out = BufWriter::new(output()?);
    for row in 0..pool.count(Table::Declars) {
        let (kind, name) = (pool.declar_kind(row).unwrap_or("?"), pool.declar_typed(row, MOST).unwrap_or_default());
        writeln!(out, "{row} {kind} {}", shown(&name)).map_err(failed)?;
    }
    out.flush().map_err(failed)?;
    Ok(Outcome::Done)
}

/// The declarations of a name. The index is made when the first one is asked for.
pub fn named<'a>(pool: &'a Pool, index: &mut Option<DeclarNames<'a>>, name: &str) -> Result<Vec<Root>, Failure> {
    let index = index.get_or_insert_with(|| DeclarNames::new(pool));
    let rows = index.find(name);
    if rows.is_empty() {
        let near = index.near(name).map_or(String::new(), |near| format!("; is {near} meant?"));
        return Err(Failure::Trouble(format!("no declaration is named {name} (the pool has {}){near}", pool.count_in_words(Table::Declars))));
    }
    Ok(rows.into_iter().map(Root::Declar).collect())
}
