//! The notation rows of a pool held to document 02's words (P5): the rule of each row, and that no two have equal name trees.
use std::collections::HashSet;
use tilusorgu::{Pool, Table};

/// A component of a name: its bytes, or its number.
type Component<'a> = Result<&'a [u8], u64>;

/// The components of a name row of a pool that 1 to 4 do not refuse, the last one first.
fn tree(pool: &Pool, row: u32) -> Vec<Component<'_>> {
    let (mut components, mut at) = (Vec::new(), row);
    loop {
        let words = pool.row(Table::Names, at.into()).expect("a name row refers to lower ones");
        components.push(match words[0] {
            0 => return components,
            1 => Ok(pool.string(words[2]).expect("a name row has a string row that exists")),
            _ => Err(u64::from(words[3]) << 32 | u64::from(words[2])),
        });
        at = words[1];
    }
}

/// "a notation row outside these rules or a name tree given twice", of a pool that 1 to 4 do not refuse.
pub fn is_wrong(pool: &Pool) -> bool {
    let mut given = HashSet::new();
    (0..pool.count(Table::Notations)).any(|row| {
        let words = pool.row(Table::Notations, row.into()).expect("the total is right");
        let (name, kind, priority, string) = (words[0], words[1], words[2], words[3]);
        let there = name < pool.count(Table::Names) && string < pool.count(Table::Strings);
        !there || kind > 2 || priority == 0 || priority > 1023 || !given.insert(tree(pool, name))
    })
}
