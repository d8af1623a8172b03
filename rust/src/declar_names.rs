//! Names of declarations: for messages, as they are typed, and an index that finds declarations by them.
use crate::pool::{Pool, Table};
use crate::text::names::{self, Component, Name};
use crate::text::DECLARATIONS;
use std::borrow::Cow;
use std::collections::HashMap;

/// A component of a name row.
#[derive(Clone, Copy, PartialEq, Eq)]
enum Part<'a> {
    Text(&'a [u8]),
    Number(u64),
}

impl<'a> Part<'a> {
    fn of(component: &'a Component) -> Part<'a> {
        match component {
            Component::Text(text) => Part::Text(text.as_bytes()),
            Component::Number(n) => Part::Number(*n),
        }
    }

    fn is(self, component: &Component) -> bool {
        match (self, component) {
            (Part::Text(bytes), Component::Text(text)) => bytes == text.as_bytes(),
            (Part::Number(a), Component::Number(b)) => a == *b,
            _ => false,
        }
    }

    /// The component as listings have it, without its marks « ».
    fn bare(self) -> Cow<'a, [u8]> {
        match self {
            Part::Text(bytes) => Cow::Borrowed(bytes),
            Part::Number(n) => Cow::Owned(n.to_string().into_bytes()),
        }
    }
}

/// The pieces whose bytes are a name's text as listings have it, without the marks « »: components joined by ".", none after an empty
/// text. A name can be far longer than the pool, so it is not put together here.
fn pieces<'a>(parts: impl IntoIterator<Item = Part<'a>>) -> Vec<Cow<'a, [u8]>> {
    let (mut pieces, mut empty) = (Vec::new(), true);
    for part in parts {
        if !empty {
            pieces.push(Cow::Borrowed(&b"."[..]));
        }
        let piece = part.bare();
        empty = empty && piece.is_empty();
        pieces.push(piece);
    }
    pieces
}

/// Is this a name's text as listings have it? Each string component may have its marks « » or not, and so may a number that is the whole text.
fn is_listed(parts: &[Part<'_>], name: &str) -> bool {
    if parts.is_empty() {
        return name.is_empty() || name == "«»";
    }
    // what may be left of the name after the components so far: as many ways as marks may have been passed
    let (mut rests, mut empty) = (vec![name.as_bytes()], true);
    for (i, part) in parts.iter().enumerate() {
        if !empty {
            rests = rests.iter().filter_map(|rest| rest.strip_prefix(b".")).collect();
        }
        let bare = part.bare();
        let marked = match part {
            Part::Text(text) => !text.is_empty(),
            Part::Number(_) => empty && i + 1 == parts.len(),
        };
        empty = empty && bare.is_empty();
        rests = rests.iter().flat_map(|rest| [rest.strip_prefix(&bare[..]), after_marked(rest, &bare).filter(|_| marked)]).flatten().collect();
        rests.dedup();
    }
    rests.iter().any(|rest| rest.is_empty())
}

fn after_marked<'a>(rest: &'a [u8], text: &[u8]) -> Option<&'a [u8]> {
    rest.strip_prefix("«".as_bytes())?.strip_prefix(text)?.strip_prefix("»".as_bytes())
}

/// A name's text without the marks that stand where components start and end. (One within a component may stand there, too.)
fn without_marks(name: &str) -> String {
    let opened = |part| str::strip_prefix(part, '«').unwrap_or(part);
    let bare = |part| str::strip_suffix(part, '»').unwrap_or(part);
    name.split('.').map(opened).map(bare).collect::<Vec<_>>().join(".")
}

impl Pool {
    /// The components of a name row, the first one first. Nothing if the rows do not hold.
    fn parts(&self, row: u32) -> Option<Vec<Part<'_>>> {
        let (mut parts, mut at) = (Vec::new(), row);
        loop {
            let r = self.row(Table::Names, u64::from(at))?;
            parts.push(match r[0] {
                0 => break,
                1 => Part::Text(self.string(r[2])?),
                _ => Part::Number(u64::from(r[2]) | u64::from(r[3]) << 32),
            });
            // a prefix is a lower row, so this ends
            at = Some(r[1]).filter(|&prefix| prefix < at)?;
        }
        parts.reverse();
        Some(parts)
    }

    /// Have two name rows the same components?
    pub(crate) fn same_name(&self, first: u32, second: u32) -> bool {
        first == second || self.parts(first) == self.parts(second)
    }

    fn declar_parts(&self, row: u32) -> Option<Vec<Part<'_>>> {
        self.parts(self.row(Table::Declars, u64::from(row))?[1])
    }

    fn declar_pieces(&self, row: u32) -> Option<Vec<Cow<'_, [u8]>>> {
        self.declar_parts(row).map(pieces)
    }

    /// Is this the name of a declaration row as listings have it, with the marks « » or without them?
    pub fn declar_has_name(&self, row: u32, name: &str) -> bool {
        self.declar_parts(row).is_some_and(|parts| is_listed(&parts, name))
    }

    /// Has a declaration row these very components?
    fn declar_is(&self, row: u32, name: &Name) -> bool {
        self.declar_parts(row).is_some_and(|parts| parts.len() == name.len() && parts.iter().zip(name).all(|(part, one)| part.is(one)))
    }

    /// The name of a declaration row for a message: at most so many bytes of it, then two dots.
    pub fn declar_title(&self, row: u32, most: usize) -> Option<String> {
        let mut title = Vec::new();
        for piece in self.declar_pieces(row)? {
            let room = most - title.len();
            title.extend(piece.iter().take(room));
            if piece.len() > room {
                return Some(String::from_utf8_lossy(&title).into_owned() + "..");
            }
        }
        Some(String::from_utf8_lossy(&title).into_owned())
    }

    /// The name of a declaration row as the text form has it, so that it tells names apart that listings show alike. One of more
    /// bytes than this is a title instead.
    pub fn declar_typed(&self, row: u32, most: usize) -> Option<String> {
        let parts = self.declar_parts(row)?;
        if length(&pieces(parts.iter().copied())) > most {
            return self.declar_title(row, most);
        }
        let component = |part: Part<'_>| match part {
            Part::Text(bytes) => Component::Text(String::from_utf8_lossy(bytes).into_owned()),
            Part::Number(n) => Component::Number(n),
        };
        Some(names::typed(&parts.into_iter().map(component).collect()))
    }

    /// The word that the text form has for a declaration's kind.
    pub fn declar_kind(&self, row: u32) -> Option<&'static str> {
        let kind = self.row(Table::Declars, u64::from(row))?[0];
        DECLARATIONS.get(kind as usize).copied()
    }
}

fn length(pieces: &[Cow<'_, [u8]>]) -> usize {
    pieces.iter().map(|piece| piece.len()).sum()
}

/// Bytes of a name's end that are kept.
const END: usize = 64;
/// Names are suggested for one of at most this many characters, and among those of at most this many bytes.
const MOST_ASKED: usize = 100;
const MOST_NEAR: usize = 500;

/// How long a name's text is, and how it ends: few others are so, and these are looked at.
type Key = (usize, Vec<u8>);

fn key(pieces: &[Cow<'_, [u8]>]) -> Key {
    let backwards = pieces.iter().rev().flat_map(|piece| piece.iter().rev());
    (length(pieces), backwards.take(END).copied().collect())
}

/// The declarations of a pool by their names: made once for many to be found.
pub struct DeclarNames<'a> {
    pool: &'a Pool,
    rows: HashMap<Key, Vec<u32>>,
}

impl<'a> DeclarNames<'a> {
    pub fn new(pool: &'a Pool) -> DeclarNames<'a> {
        let mut rows: HashMap<Key, Vec<u32>> = HashMap::new();
        for row in 0..pool.count(Table::Declars) {
            if let Some(pieces) = pool.declar_pieces(row) {
                rows.entry(key(&pieces)).or_default().push(row);
            }
        }
        DeclarNames { pool, rows }
    }

    /// The rows of all declarations of a name, rising: as a listing shows it, with the marks « » or without them, or as it is typed.
    pub fn find(&self, asked: &str) -> Vec<u32> {
        let mut rows = Vec::new();
        let inside = asked.strip_prefix('«').and_then(|a| a.strip_suffix('»')).unwrap_or(asked);
        for text in [asked, inside, &without_marks(asked)] {
            rows.extend(self.having(&[Cow::Borrowed(text.as_bytes())], |row| self.pool.declar_has_name(row, asked)));
        }
        if let Ok(name) = names::parse(asked) {
            rows.extend(self.having(&pieces(name.iter().map(Part::of)), |row| self.pool.declar_is(row, &name)));
        }
        rows.sort_unstable();
        rows.dedup();
        rows
    }

    fn having(&self, pieces: &[Cow<'_, [u8]>], is: impl Fn(u32) -> bool) -> Vec<u32> {
        let alike = self.rows.get(&key(pieces)).map_or(&[][..], Vec::as_slice);
        alike.iter().copied().filter(|&row| is(row)).collect()
    }

    /// A name, as it is typed, that is not far from this one: one that ends with it, or one with few other characters.
    pub fn near(&self, asked: &str) -> Option<String> {
        let count = asked.chars().count();
        if count == 0 || count > MOST_ASKED {
            return None;
        }
        let rows = self.rows.iter().filter(|((length, _), _)| *length <= MOST_NEAR).map(|(_, rows)| rows[0]);
        let scored = rows.filter_map(|row| Some((score(asked, &self.pool.declar_title(row, MOST_NEAR)?)?, row)));
        let (_, row) = scored.min()?;
        self.pool.declar_typed(row, MOST_NEAR)
    }
}

/// How far a name is from what was asked for; nothing if it is too far.
fn score(asked: &str, name: &str) -> Option<usize> {
    let (a, b): (Vec<char>, Vec<char>) = (asked.chars().collect(), name.chars().collect());
    if name.strip_suffix(asked).is_some_and(|before| before.ends_with('.')) || name.to_lowercase() == asked.to_lowercase() {
        return Some(0);
    }
    let most = (a.len() / 3).max(1);
    if a.len().abs_diff(b.len()) > most {
        return None;
    }
    Some(distance(&a, &b)).filter(|&d| d <= most)
}

/// The fewest characters to put in, take out or change.
fn distance(a: &[char], b: &[char]) -> usize {
    let none: Vec<usize> = (0..=b.len()).collect();
    a.iter().fold(none, |row, x| next_row(&row, x, b))[b.len()]
}

/// The distances to each start of `b`, one character further than those of the row before.
fn next_row(before: &[usize], x: &char, b: &[char]) -> Vec<usize> {
    let mut row = vec![before[0] + 1];
    for (j, y) in b.iter().enumerate() {
        let changed = before[j] + usize::from(x != y);
        row.push(changed.min(before[j + 1] + 1).min(row[j] + 1));
    }
    row
}

#[cfg(test)]
mod tests {
    use super::*;

    #[test]
    fn distances() {
        let of = |a: &str, b: &str| distance(&a.chars().collect::<Vec<_>>(), &b.chars().collect::<Vec<_>>());
        assert_eq!([of("", ""), of("ab", ""), of("", "ab"), of("kitten", "sitting"), of("abc", "acb"), of("αβ", "αγ")], [0, 2, 2, 3, 2, 1]);
    }
}
