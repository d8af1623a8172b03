//! The forms that a text consists of: declarations, named expressions, and single rows.
use super::builder::Builder;
use super::reader::{Bracket, Item, Kind};
use super::terms::{name, number, Terms};
use super::{mistake, names, Mistake, Packed, Sharing};
use crate::pool::Table;

/// The words for the kinds of declarations, in the order of the kinds.
pub const DECLARATIONS: [&str; 8] = ["axiom", "quotient", "theorem", "def", "opaque", "inductive", "constructor", "recursor"];
/// The words for the kinds of notation rows, in the order of the kinds.
const NOTATIONS: [&str; 3] = ["prefix", "infix", "postfix"];
const TABLES: [&str; Table::ALL.len()] = ["strings", "names", "levels", "lists", "list-words", "expressions", "declarations", "notation"];

pub fn packed(items: &[Item], sharing: Sharing) -> Result<Packed, Mistake> {
    let mut terms = Terms::new(Builder::new(sharing));
    let mut defined = Vec::new();
    for item in items {
        form(item, &mut terms, &mut defined)?;
    }
    Ok(Packed { pool: terms.builder.pool(), defined })
}

fn form(item: &Item, terms: &mut Terms, defined: &mut Vec<(String, u32)>) -> Result<(), Mistake> {
    let Some([head, rest @ ..]) = item.list(Bracket::Round) else {
        return mistake(item.at, "a form in round brackets is expected here, as (axiom NAME TYPE)");
    };
    match (head.word().unwrap_or(""), rest) {
        (word, _) if DECLARATIONS.contains(&word) => declaration(item, word, rest, terms)?,
        (word, _) if NOTATIONS.contains(&word) => notation(item, word, rest, terms)?,
        ("define", [short, term]) => define(short, term, terms, defined)?,
        ("row", [table, words @ ..]) => raw_row(table, words, terms)?,
        ("string", [text]) => drop(terms.builder.string(quoted(text)?)),
        ("name", [typed]) => drop(terms.builder.name(&name(typed)?)),
        ("level", [level]) => drop(terms.level(level)?),
        ("levels", levels) => drop(terms.levels(levels)?),
        ("bytes", [text]) => terms.builder.gap(quoted(text)?),
        ("words", words) => words.iter().try_for_each(|w| number(w).map(|w| terms.builder.surplus(w)))?,
        _ => {
            let known = [&DECLARATIONS[..], &NOTATIONS].concat().join(", ");
            return mistake(
                item.at,
                format!("no form looks like this: forms are {known}, define, string, name, level, levels, row, bytes and words"),
            );
        }
    }
    Ok(())
}

fn quoted(item: &Item) -> Result<&[u8], Mistake> {
    match &item.kind {
        Kind::Quoted(bytes) => Ok(bytes),
        _ => mistake(item.at, "a quoted text is expected here"),
    }
}

/// Name, perhaps with levels, type and, for theorem, def and opaque, value.
fn declaration(item: &Item, word: &str, parts: &[Item], terms: &mut Terms) -> Result<(), Mistake> {
    let kind = DECLARATIONS.iter().position(|d| *d == word).unwrap_or(0) as u32;
    let (named, type_, value) = match (parts, (2..=4).contains(&kind)) {
        ([named, type_], false) => (named, type_, None),
        ([named, type_, value], true) => (named, type_, Some(value)),
        (_, false) => return mistake(item.at, format!("({word} NAME TYPE) is expected")),
        (_, true) => return mistake(item.at, format!("({word} NAME TYPE VALUE) is expected")),
    };
    let Kind::Word { text, levels } = &named.kind else {
        return mistake(named.at, "a name is expected here, as k or k.{u v}");
    };
    let parsed = names::parse(text).or_else(|what| mistake(named.at, what))?;
    let name = terms.builder.name(&parsed);
    let list = terms.levels(levels.as_deref().unwrap_or(&[]))?;
    let type_ = terms.term(type_)?;
    let value = value.map_or(Ok(0), |v| terms.term(v))?;
    terms.builder.append(Table::Declars, &[kind, name, list, type_, value]);
    Ok(())
}

/// An operator: the name of its constant, its priority and its string.
fn notation(item: &Item, word: &str, parts: &[Item], terms: &mut Terms) -> Result<(), Mistake> {
    let kind = NOTATIONS.iter().position(|n| *n == word).unwrap_or(0) as u32;
    let [named, priority, text] = parts else {
        return mistake(item.at, format!("({word} NAME PRIORITY \"text\") is expected"));
    };
    let (parsed, priority, text) = (name(named)?, number(priority)?, quoted(text)?);
    let row = [terms.builder.name(&parsed), kind, priority, terms.builder.string(text)];
    terms.builder.append(Table::Notations, &row);
    Ok(())
}

/// A short name for an expression; $NAME is its row.
fn define(short: &Item, term: &Item, terms: &mut Terms, defined: &mut Vec<(String, u32)>) -> Result<(), Mistake> {
    let Some(word) = short.word() else {
        return mistake(short.at, "a short name is expected here");
    };
    let row = terms.term(term)?;
    if terms.defined.insert(word.to_string(), row).is_some() {
        return mistake(short.at, format!("{word} is defined already"));
    }
    defined.push((word.to_string(), row));
    Ok(())
}

/// A row word by word, so that a damaged pool can be typed.
fn raw_row(table: &Item, words: &[Item], terms: &mut Terms) -> Result<(), Mistake> {
    let Some(at) = TABLES.iter().position(|t| Some(*t) == table.word()) else {
        return mistake(table.at, format!("a table is expected here: {}", TABLES.join(", ")));
    };
    let words = words.iter().map(number).collect::<Result<Vec<_>, _>>()?;
    let table_ = Table::ALL[at];
    if words.len() != table_.row_words() {
        return mistake(table.at, format!("a row of {} has {} words", TABLES[at], table_.row_words()));
    }
    terms.builder.append(table_, &words);
    Ok(())
}
