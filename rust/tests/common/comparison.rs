//! Two expression rows of an accepted pool compared by document 02's words (P3), pair by pair; pairs found equal are kept.
use std::collections::HashSet;
use tilusorgu::{Comparison, Pool, Table};

/// What a field of an expression row is.
#[derive(Clone, Copy, PartialEq, Eq)]
enum Field {
    Number,
    String,
    Name,
    Level,
    List,
    Expr,
}
use Field::*;

/// The fields of each kind, in the order of the words.
const FIELDS: [&[Field]; 10] = [
    &[Number],
    &[Level],
    &[Name, List],
    &[Expr, Expr],
    &[Name, Number, Expr, Expr],
    &[Name, Number, Expr, Expr],
    &[Name, Expr, Expr, Expr, Number],
    &[Name, Number, Expr],
    &[String],
    &[String],
];

pub fn compared(pool: &Pool, first: u32, second: u32) -> Comparison {
    let mut known = Known { pool, levels: HashSet::new(), exprs: HashSet::new() };
    known.differing(first, second).map_or(Comparison::Equal, |(a, b)| Comparison::Differ(a, b))
}

/// The pairs that were found equal.
struct Known<'a> {
    pool: &'a Pool,
    levels: HashSet<(u32, u32)>,
    exprs: HashSet<(u32, u32)>,
}

impl<'a> Known<'a> {
    fn row(&self, table: Table, row: u32) -> &'a [u32] {
        self.pool.row(table, u64::from(row)).expect("the pool is accepted")
    }

    /// "the first pair of rows whose kinds, or fields (as trees) that are no expressions, differ; a row comes before its children, these last field first"
    fn differing(&mut self, a: u32, b: u32) -> Option<(u32, u32)> {
        if self.exprs.contains(&(a, b)) {
            return None;
        }
        let (x, y) = (self.row(Table::Exprs, a), self.row(Table::Exprs, b));
        if x[0] != y[0] {
            return Some((a, b));
        }
        let fields = || FIELDS[x[0] as usize].iter().zip(x[1..].iter().zip(&y[1..])).map(|(&field, (&p, &q))| (field, p, q));
        if !fields().filter(|f| f.0 != Expr).all(|(field, p, q)| self.same(field, p, q)) {
            return Some((a, b));
        }
        let mut children: Vec<_> = fields().filter(|f| f.0 == Expr).collect();
        children.reverse();
        let found = children.into_iter().find_map(|(_, p, q)| self.differing(p, q));
        if found.is_none() {
            self.exprs.insert((a, b));
        }
        found
    }

    fn same(&mut self, field: Field, p: u32, q: u32) -> bool {
        match field {
            Number => p == q,
            String => self.pool.string(p) == self.pool.string(q),
            Name => self.same_name(p, q),
            Level => self.same_level(p, q),
            List => {
                let (x, y) = (self.row(Table::Lists, p), self.row(Table::Lists, q));
                x[1] == y[1] && (0..x[1]).all(|i| self.same_level(self.row(Table::ListWords, x[0] + i)[0], self.row(Table::ListWords, y[0] + i)[0]))
            }
            Expr => unreachable!("parts are compared by `differing`"),
        }
    }

    fn same_name(&mut self, p: u32, q: u32) -> bool {
        let (x, y) = (self.row(Table::Names, p), self.row(Table::Names, q));
        match (x[0], y[0]) {
            (0, 0) => true,
            (1, 1) => self.same(String, x[2], y[2]) && self.same_name(x[1], y[1]),
            (2, 2) => x[2..] == y[2..] && self.same_name(x[1], y[1]),
            _ => false,
        }
    }

    fn same_level(&mut self, p: u32, q: u32) -> bool {
        if self.levels.contains(&(p, q)) {
            return true;
        }
        let (x, y) = (self.row(Table::Levels, p), self.row(Table::Levels, q));
        let same = x[0] == y[0]
            && match x[0] {
                0 => true,
                1 => self.same_level(x[1], y[1]),
                4 => self.same_name(x[1], y[1]),
                _ => self.same_level(x[1], y[1]) && self.same_level(x[2], y[2]),
            };
        if same {
            self.levels.insert((p, q));
        }
        same
    }
}
