//! Pools, their tables, and what to say of a row.
use crate::refusal::Refusal;
use crate::rules::{breaks_notation_rule, rule};

/// Counts before the tables.
const HEAD: usize = Table::ALL.len();
/// Rows that a table may have.
const MOST_ROWS: u32 = 65_536;
/// Bytes that the byte area may have.
const MOST_POOL_BYTES: usize = 1 << 24;

/// A byte area and words: eight counts, then the tables in the order of [`Table`].
#[derive(Clone, Debug, Default, PartialEq, Eq)]
pub struct Pool {
    pub bytes: Vec<u8>,
    pub words: Vec<u32>,
}

/// A pool's tables in their order.
#[derive(Clone, Copy, Debug, PartialEq, Eq, Hash)]
pub enum Table {
    Strings,
    Names,
    Levels,
    Lists,
    ListWords,
    Exprs,
    Declars,
    /// Operators: a name, a kind (0 prefix, 1 infix, 2 postfix), a priority and a string each.
    Notations,
}

impl Table {
    pub const ALL: [Table; 8] =
        [Table::Strings, Table::Names, Table::Levels, Table::Lists, Table::ListWords, Table::Exprs, Table::Declars, Table::Notations];

    /// Words of a row.
    pub fn row_words(self) -> usize {
        [2, 4, 3, 2, 1, 8, 5, 4][self as usize]
    }

    /// What one row is called.
    pub fn row_name(self) -> &'static str {
        ["string", "name", "level", "list", "list word", "expression", "declaration", "notation"][self as usize]
    }
}

impl Pool {
    /// The table's count as the head has it; 0 without a head.
    pub fn count(&self, table: Table) -> u32 {
        if self.words.len() < HEAD {
            return 0;
        }
        self.words[table as usize]
    }

    /// The words of a row, or nothing where the words end before it.
    pub fn row(&self, table: Table, row: u64) -> Option<&[u32]> {
        if row >= u64::from(self.count(table)) {
            return None;
        }
        let before = Table::ALL[..table as usize].iter();
        let start = before.fold(HEAD as u64, |at, &t| at + u64::from(self.count(t)) * t.row_words() as u64);
        let at = usize::try_from(start + row * table.row_words() as u64).ok()?;
        self.words.get(at..at + table.row_words())
    }

    /// All words of a table, or nothing where the words end before its end.
    fn rows(&self, table: Table) -> Option<Vec<u32>> {
        (0..u64::from(self.count(table))).try_fold(Vec::new(), |mut all, row| {
            all.extend(self.row(table, row)?);
            Some(all)
        })
    }

    /// The bytes of a string row.
    pub fn string(&self, row: u32) -> Option<&[u8]> {
        let pair = self.row(Table::Strings, u64::from(row))?;
        let (at, length) = (pair[0] as usize, pair[1] as usize);
        self.bytes.get(at..at.checked_add(length)?)
    }

    /// The table in which a pool is refused 3, 4 or 31; of 4 the first one with which, the tables after it left out, it still is.
    pub fn faulty_table(&self, refusal: Refusal) -> Option<Table> {
        let of_other_rows = &Table::ALL[Table::Names as usize..=Table::Declars as usize];
        match refusal.number {
            3 => Some(Table::Strings),
            4 => of_other_rows.iter().copied().find(|&last| self.up_to(last).is_some_and(|p| p.check() == Err(refusal))),
            31 => Some(Table::Notations),
            _ => None,
        }
    }

    /// The first notation row that a pool is refused 31 for, and, if its own fields are right, the earlier row with an equal name tree.
    /// Both are found with the library, by halves: one more row in front or behind can only be one more reason to refuse.
    pub fn faulty_notation(&self) -> Option<(u64, Option<u64>)> {
        let rows = self.rows(Table::Notations)?;
        let size = Table::Notations.row_words();
        let counts = [Table::Strings, Table::Names].map(|table| self.count(table));
        // the names need no other tables
        let names = self.up_to(Table::Names)?;
        let refused = |rows: &[u32]| names.with_notation(rows).check().is_err_and(|refusal| refusal.number == 31);
        let first = least(rows.len() / size, |most| refused(&rows[..most * size]))?.checked_sub(1)?;
        if breaks_notation_rule(&rows[first * size..][..size], counts) {
            return Some((first as u64, None));
        }
        let without_it = least(first, |from| !refused(&rows[from * size..][..(first + 1 - from) * size]))?;
        Some((first as u64, Some(without_it.checked_sub(1)? as u64)))
    }

    /// This pool, which has no notation rows, with these.
    fn with_notation(&self, rows: &[u32]) -> Pool {
        let mut pool = self.clone();
        pool.words[Table::Notations as usize] = (rows.len() / Table::Notations.row_words()) as u32;
        pool.words.extend(rows);
        pool
    }

    /// This pool with the tables up to this one. Lists are judged by how many list words there are, so theirs stand in as zeros,
    /// over one level.
    fn up_to(&self, last: Table) -> Option<Pool> {
        let mut tables: Vec<Vec<u32>> =
            Table::ALL.iter().map(|&t| if t as usize <= last as usize { self.rows(t) } else { Some(Vec::new()) }).collect::<Option<_>>()?;
        if last == Table::Lists {
            tables[Table::ListWords as usize] = vec![0; self.count(Table::ListWords) as usize];
            if tables[Table::Levels as usize].is_empty() {
                tables[Table::Levels as usize] = vec![0; 3];
            }
        }
        let mut words: Vec<u32> = tables.iter().zip(Table::ALL).map(|(rows, t)| (rows.len() / t.row_words()) as u32).collect();
        words.extend(tables.into_iter().flatten());
        Some(Pool { bytes: self.bytes.clone(), words })
    }

    /// The refusal in words: with the count that is wrong, or with the faulty row's table and words.
    pub fn explain(&self, refusal: Refusal) -> String {
        let in_words = match refusal.number {
            1 => Some(format!("refused 1: {}", self.wrong_total())),
            2 => Some(format!("refused 2: {}", self.past_limit())),
            31 => self.faulty_notation().and_then(|(row, earlier)| self.wrong_notation(row, earlier)),
            _ => self.faulty_table(refusal).and_then(|table| self.faulty_row(refusal.number, table, refusal.place, None)),
        };
        in_words.unwrap_or_else(|| refusal.to_string())
    }

    /// What is wrong with a row: the rule given, or that of its table.
    fn faulty_row(&self, number: u32, table: Table, place: u64, broken: Option<String>) -> Option<String> {
        let row = self.row(table, place)?;
        let words: Vec<String> = row.iter().map(u32::to_string).collect();
        let broken = broken.unwrap_or_else(|| rule(table, row));
        Some(format!("refused {number} ({} row {place}, words {}): {broken}", table.row_name(), words.join(" ")))
    }

    fn wrong_notation(&self, row: u64, earlier: Option<u64>) -> Option<String> {
        let twice = earlier.map(|earlier| format!("notation row {earlier} has the same name, and a name has at most one operator"));
        self.faulty_row(31, Table::Notations, row, twice)
    }

    /// How many rows each table has, in words.
    pub fn counted(&self) -> String {
        Table::ALL.map(|t| self.count_in_words(t)).join(", ")
    }

    /// How many rows a table has, in words.
    pub fn count_in_words(&self, table: Table) -> String {
        let count = self.count(table);
        format!("{count} {}{}", table.row_name(), if count == 1 { "" } else { "s" })
    }

    /// What the words' total is, and what the counts make it.
    fn wrong_total(&self) -> String {
        let there = self.words.len();
        if there < HEAD {
            return format!("it has {there} words, which is short of the eight counts of its head");
        }
        let tables = Table::ALL.map(|t| u64::from(self.count(t)) * t.row_words() as u64);
        let (parts, total) = (tables.map(|words| words.to_string()).join(" + "), HEAD as u64 + tables.iter().sum::<u64>());
        format!("its counts ({}) make {HEAD} + {parts} = {total} words, but it has {there}", self.counted())
    }

    /// Which count is past its limit.
    fn past_limit(&self) -> String {
        match Table::ALL.into_iter().find(|&t| self.count(t) > MOST_ROWS) {
            Some(table) => format!("it has {}, and at most {MOST_ROWS} rows are allowed in a table", self.count_in_words(table)),
            None => format!("its byte area has {} bytes, and at most {MOST_POOL_BYTES} are allowed", self.bytes.len()),
        }
    }
}

/// The least number, at most this one, of which something holds that also holds of all greater ones.
fn least(most: usize, holds: impl Fn(usize) -> bool) -> Option<usize> {
    if !holds(most) {
        return None;
    }
    let (mut low, mut high) = (0, most);
    while low < high {
        let middle = (low + high) / 2;
        if holds(middle) {
            high = middle;
        } else {
            low = middle + 1;
        }
    }
    Some(high)
}
