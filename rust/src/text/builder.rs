//! A pool in the making: rows at the ends of the eight tables, equal ones shared or not.
use super::names::{Component, Name};
use super::Sharing;
use crate::pool::{Pool, Table};
use std::collections::HashMap;

pub struct Builder {
    sharing: Sharing,
    bytes: Vec<u8>,
    tables: [Vec<u32>; Table::ALL.len()],
    /// Rows by their words; strings by their bytes and lists by their levels, since their own words are places.
    rows: HashMap<(Table, Vec<u32>), u32>,
    strings: HashMap<Vec<u8>, u32>,
    lists: HashMap<Vec<u32>, u32>,
    after: Vec<u32>,
}

/// Kind and fields of an expression row, and what its depth and loose words follow from.
pub struct Expr<'a> {
    pub kind: u32,
    pub fields: &'a [u32],
    /// Children that are not under the row's own binder.
    pub children: &'a [u32],
    /// The child under it.
    pub bound: Option<u32>,
}

impl Builder {
    pub fn new(sharing: Sharing) -> Builder {
        Builder {
            sharing,
            bytes: Vec::new(),
            tables: Default::default(),
            rows: HashMap::new(),
            strings: HashMap::new(),
            lists: HashMap::new(),
            after: Vec::new(),
        }
    }

    /// A new row at the table's end; its number.
    pub fn append(&mut self, table: Table, row: &[u32]) -> u32 {
        let words = &mut self.tables[table as usize];
        words.extend(row);
        (words.len() / table.row_words() - 1) as u32
    }

    /// An equal row if there is one and it may be shared, else a new one.
    fn intern(&mut self, table: Table, row: &[u32]) -> u32 {
        if self.sharing == Sharing::Apart {
            return self.append(table, row);
        }
        if let Some(&known) = self.rows.get(&(table, row.to_vec())) {
            return known;
        }
        let new = self.append(table, row);
        self.rows.insert((table, row.to_vec()), new);
        new
    }

    /// Bytes that no string row has.
    pub fn gap(&mut self, bytes: &[u8]) {
        self.bytes.extend(bytes);
    }

    /// Words after the tables, which make the total wrong.
    pub fn surplus(&mut self, word: u32) {
        self.after.push(word);
    }

    pub fn string(&mut self, text: &[u8]) -> u32 {
        if let (Sharing::Shared, Some(&known)) = (self.sharing, self.strings.get(text)) {
            return known;
        }
        let new = self.append(Table::Strings, &[self.bytes.len() as u32, text.len() as u32]);
        self.bytes.extend(text);
        self.strings.insert(text.to_vec(), new);
        new
    }

    pub fn name(&mut self, name: &Name) -> u32 {
        let mut row = self.intern(Table::Names, &[0; 4]);
        for component in name {
            row = match component {
                Component::Text(text) => {
                    let string = self.string(text.as_bytes());
                    self.intern(Table::Names, &[1, row, string, 0])
                }
                Component::Number(n) => self.intern(Table::Names, &[2, row, *n as u32, (n >> 32) as u32]),
            };
        }
        row
    }

    pub fn level(&mut self, kind: u32, a: u32, b: u32) -> u32 {
        self.intern(Table::Levels, &[kind, a, b])
    }

    pub fn list(&mut self, levels: &[u32]) -> u32 {
        if let (Sharing::Shared, Some(&known)) = (self.sharing, self.lists.get(levels)) {
            return known;
        }
        let start = self.tables[Table::ListWords as usize].len() as u32;
        let new = self.append(Table::Lists, &[start, levels.len() as u32]);
        for &level in levels {
            self.append(Table::ListWords, &[level]);
        }
        self.lists.insert(levels.to_vec(), new);
        new
    }

    /// Depth and loose of an expression row.
    fn measures(&self, row: u32) -> (u32, u32) {
        let at = Table::Exprs.row_words() * row as usize;
        let words = &self.tables[Table::Exprs as usize];
        (words[at + 6], words[at + 7])
    }

    pub fn loose(&self, row: u32) -> u32 {
        self.measures(row).1
    }

    pub fn variable(&mut self, index: u32) -> u32 {
        // past the greatest index check refuses the row whatever its loose word is
        self.intern(Table::Exprs, &[0, index, 0, 0, 0, 0, 1, index.saturating_add(1)])
    }

    /// The row with the depth and loose words that follow from its children's.
    pub fn expr(&mut self, e: Expr<'_>) -> u32 {
        let (mut depth, mut loose) = (1, 0);
        for &child in e.children {
            let (d, l) = self.measures(child);
            (depth, loose) = (depth.max(d + 1), loose.max(l));
        }
        if let Some(body) = e.bound {
            let (d, l) = self.measures(body);
            (depth, loose) = (depth.max(d + 1), loose.max(l.saturating_sub(1)));
        }
        let mut row = [0; 8];
        row[0] = e.kind;
        row[1..1 + e.fields.len()].copy_from_slice(e.fields);
        (row[6], row[7]) = (depth, loose);
        self.intern(Table::Exprs, &row)
    }

    pub fn pool(self) -> Pool {
        let mut words: Vec<u32> = self.tables.iter().zip(Table::ALL).map(|(rows, t)| (rows.len() / t.row_words()) as u32).collect();
        words.extend(self.tables.into_iter().flatten());
        words.extend(self.after);
        Pool { bytes: self.bytes, words }
    }
}
