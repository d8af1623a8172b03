//! Kinds and fields of expression rows in words.
use crate::pool::{Pool, Table};

const KINDS: [&str; 10] = ["variable", "sort", "constant", "application", "pi", "lambda", "let", "projection", "natural", "string literal"];
/// The fields that are no expressions, but for names.
const OTHERS: [&str; 10] = ["indices", "levels", "levels", "", "styles", "styles", "nondep words", "indices", "numbers", "texts"];
/// The kinds that have a name: constants, pis, lambdas, lets and projections.
const NAMED: [usize; 5] = [2, 4, 5, 6, 7];

impl Pool {
    /// What an expression row is called by its kind.
    pub fn expr_kind(&self, row: u32) -> Option<&'static str> {
        KINDS.get(*self.row(Table::Exprs, u64::from(row))?.first()? as usize).copied()
    }

    /// What two expression rows that [`Pool::compare`] gave differ in: their kinds, or else the first field that does, of those that are no expressions.
    pub fn first_different_field(&self, first: u32, second: u32) -> Option<&'static str> {
        let (a, b) = (self.row(Table::Exprs, u64::from(first))?, self.row(Table::Exprs, u64::from(second))?);
        if a[0] != b[0] {
            return Some("kinds");
        }
        let kind = a[0] as usize;
        // a row of these kinds has one field more that is no expression, so that it is told by the name alone
        if NAMED.contains(&kind) && !self.same_name(a[1], b[1]) {
            return Some("names");
        }
        OTHERS.get(kind).copied()
    }
}
