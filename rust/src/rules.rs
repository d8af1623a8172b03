//! The rules of a pool's rows in words.
use crate::pool::Table;

const EXPRESSIONS: [&str; 10] = [
    "a variable has an index of at most 4,095",
    "a sort has a level row that exists",
    "a constant has a name row and a list row that exist",
    "an application has two lower expression rows",
    "a pi has a name row that exists, a style of at most 3, and two lower expression rows",
    "a lambda has a name row that exists, a style of at most 3, and two lower expression rows",
    "a let has a name row that exists, three lower expression rows, and nondep of at most 1",
    "a projection has a name row that exists, an index of at most 65,535, and a lower expression row",
    "a natural has a string row that exists, of one or more digits without a leading zero unless it is 0",
    "a string literal has a string row that exists",
];

/// What a row of this table has to be, for an expression by its kind.
pub fn rule(table: Table, row: &[u32]) -> String {
    match table {
        Table::Strings => "a string row is a part of the byte area (offset, length), its offset not below the row's before, and is UTF-8",
        Table::Names => {
            "a name row is anonymous (kind 0), or has a prefix among the lower name rows and a string row that exists (1) or a number (2); \
             its depth is at most 64 and unused words are 0"
        }
        Table::Levels => {
            "a level row is zero (kind 0), a successor (1), max (2) or imax (3) of lower level rows, or a parameter with a name row that exists (4); \
             its depth is at most 64 and unused words are 0"
        }
        Table::Lists => "a list row is a part of the list words (offset, length), its offset not below the row's before",
        Table::ListWords => "a list word is a level row that exists",
        Table::Exprs => return expression(row),
        Table::Declars => {
            "a declaration row has kind 0 to 7, a name row, a list row and expression rows that exist, and value 0 unless its kind is 2 to 4"
        }
        Table::Notations => {
            "a notation row has a name row that exists, kind 0 (prefix), 1 (infix) or 2 (postfix), a priority of 1 to 1,023, and a string row \
             that exists"
        }
    }
    .to_string()
}

/// Is this notation row outside its own rule, in a pool of so many strings and names?
pub fn breaks_notation_rule(row: &[u32], [strings, names]: [u32; 2]) -> bool {
    let [name, kind, priority, string] = row[..] else {
        return true;
    };
    name >= names || kind > 2 || !(1..=1023).contains(&priority) || string >= strings
}

fn expression(row: &[u32]) -> String {
    match row.first().and_then(|&kind| EXPRESSIONS.get(kind as usize)) {
        Some(rule) => format!("{rule}; its depth (at most 256) and loose words are those that its children make, and unused words are 0"),
        None => "an expression row has kind 0 to 9".to_string(),
    }
}
