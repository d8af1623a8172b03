//! `compare`: are two expressions of a pool the same tree, and if not, where do they part?
use crate::console::{print, shown};
use crate::list::{accepted, refused};
use crate::options::Compare;
use crate::{Failure, Outcome};
use tilusorgu::{Comparison, Pool, Root, Sizes, Table};

/// Characters of an expression that are shown.
const MOST: usize = 100;
/// No row is broken, but for the longest.
const ONE_ROW: Sizes = Sizes { indent: 0, width: 65_535 };

pub fn compare(compare: &Compare) -> Result<Outcome, Failure> {
    let (pool, [first, second]) = (accepted(&compare.file)?, compare.rows);
    let answer = pool.compare(first, second).map_err(|refusal| {
        let missing = if first >= pool.count(Table::Exprs) { first } else { second };
        Failure::Refused(refused(&pool, Root::Expr(missing), refusal))
    })?;
    print(&match answer {
        Comparison::Equal => "equal\n".to_string(),
        Comparison::Differ(a, b) => {
            let what = pool.first_different_field(a, b).unwrap_or("fields");
            format!("differ: expression rows {a} and {b}, in their {what}\n{}{}", row_line(&pool, a), row_line(&pool, b))
        }
    })?;
    Ok(Outcome::Done)
}

/// A row's number, kind and words, and the start of its listing where it has one.
fn row_line(pool: &Pool, row: u32) -> String {
    let words = pool.row(Table::Exprs, u64::from(row)).unwrap_or_default();
    let words = words.iter().map(u32::to_string).collect::<Vec<_>>().join(" ");
    let listing = pool.list_expr(row, ONE_ROW).map_or(String::new(), |listing| format!(": {}", start(&shown(&listing.text))));
    format!("row {row} ({}, words {words}){listing}\n", pool.expr_kind(row).unwrap_or("?"))
}

/// The first characters of a text, then two dots if it goes on.
fn start(text: &str) -> String {
    match text.char_indices().nth(MOST) {
        Some((end, _)) => format!("{}..", &text[..end]),
        None => text.to_string(),
    }
}
