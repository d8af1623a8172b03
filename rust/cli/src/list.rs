//! `check` and `list`.
use crate::console::{failed, output, print, say, shown};
use crate::display::Display;
use crate::names::named;
use crate::options::{Chosen, List};
use crate::progress::Progress;
use crate::{files, Failure, Outcome};
use std::io::{self, BufWriter, IsTerminal, Write};
use std::path::Path;
use tilusorgu::{Areas, Counts, Pool, Refusal, Root, Table};

/// Bytes of a name that a message shows.
const TITLE: usize = 100;

/// An accepted pool, of a file that standard output does not go to.
pub fn accepted(path: &Path) -> Result<Pool, Failure> {
    files::apart(path, Path::new("-"))?;
    let pool = files::read_pool(path)?;
    match pool.check() {
        Ok(()) => Ok(pool),
        Err(refusal) => Err(Failure::Refused(format!("{}: {}", files::name(path), pool.explain(refusal)))),
    }
}

pub fn check(path: &Path) -> Result<Outcome, Failure> {
    let pool = accepted(path)?;
    print(&format!("{}: accepted ({})\n", files::name(path), pool.counted()))?;
    Ok(Outcome::Done)
}

/// The roots to be listed, in the order of the command line; without any, all declarations.
fn roots(pool: &Pool, chosen: &[Chosen]) -> Result<Vec<Root>, Failure> {
    if chosen.is_empty() {
        return Ok((0..pool.count(Table::Declars)).map(Root::Declar).collect());
    }
    let (mut roots, mut index) = (Vec::new(), None);
    for one in chosen {
        match one {
            Chosen::Declar(row) => roots.push(Root::Declar(*row)),
            Chosen::Expr(row) => roots.push(Root::Expr(*row)),
            Chosen::Name(name) => roots.extend(named(pool, &mut index, name)?),
        }
    }
    Ok(roots)
}

/// A root for a message.
fn titled(pool: &Pool, root: Root) -> String {
    match root {
        Root::Expr(row) => format!("expression row {row}"),
        Root::Declar(row) => match pool.declar_typed(row, TITLE) {
            Some(name) => format!("declaration row {row} ({})", shown(&name)),
            None => format!("declaration row {row}"),
        },
    }
}

/// A refusal of one root, with what the pool has instead where there is no such root.
pub fn refused(pool: &Pool, root: Root, refusal: Refusal) -> String {
    let table = if matches!(root, Root::Expr(_)) { Table::Exprs } else { Table::Declars };
    let there = match (refusal.number, pool.count(table)) {
        (5, 0) => format!(" (it has no {}s)", table.row_name()),
        (5, n) => format!(" (its {} rows are 0 to {})", table.row_name(), n - 1),
        _ => String::new(),
    };
    format!("{}: {refusal}{there}", titled(pool, root))
}

fn counts_line(counts: &Counts) -> String {
    format!(
        "document rows {}, text bytes {}, listing length {}, lines {}, longest row {}, fit tests {}",
        counts.document_rows, counts.text_bytes, counts.listing_length, counts.lines, counts.longest_row, counts.fit_tests
    )
}

pub fn list(list: &List) -> Result<Outcome, Failure> {
    let pool = accepted(&list.file)?;
    let roots = roots(&pool, &list.chosen)?;
    if roots.is_empty() {
        say(&format!("{} has no declarations", files::name(&list.file)));
    }
    let display = Display { escapes: io::stdout().is_terminal() && !list.raw, numbers: list.numbers };
    let mut out = BufWriter::with_capacity(1 << 16, output()?);
    let (mut areas, mut progress) = (Areas::default(), Progress::new(roots.len(), list.progress));
    let (mut outcome, mut first) = (Outcome::Done, true);
    for &root in &roots {
        let message = match areas.print(&pool, root, list.sizes) {
            // the same for every root
            Err(refusal) if refusal.number == 6 => return Err(Failure::Refused(refusal.to_string())),
            Err(refusal) => {
                outcome = Outcome::SomeRefused;
                Some(refused(&pool, root, refusal))
            }
            Ok(counts) => {
                write_listing(&mut out, &areas, &counts, display, first).map_err(failed)?;
                first = false;
                list.counts.then(|| format!("{}: {}", titled(&pool, root), counts_line(&counts)))
            }
        };
        progress.step();
        if let Some(message) = message {
            // what was listed before the message is to be seen before it
            out.flush().map_err(failed)?;
            progress.clear();
            say(&message);
        }
    }
    out.flush().map_err(failed)?;
    Ok(outcome)
}

/// A listing ends with a newline, and an empty line stands between two.
fn write_listing(out: &mut impl Write, areas: &Areas, counts: &Counts, display: Display, first: bool) -> io::Result<()> {
    if !first {
        out.write_all(b"\n")?;
    }
    if !display.is_plain() {
        return display.write(out, areas.listing(counts), &areas.row_starts(counts));
    }
    out.write_all(areas.listing(counts))?;
    out.write_all(b"\n")
}
