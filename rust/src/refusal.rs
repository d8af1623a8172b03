//! Why a call was refused.
use std::fmt;

/// Number and place of a refused call; `Display` says them in words, with the rule.
#[derive(Clone, Copy, Debug, PartialEq, Eq)]
pub struct Refusal {
    pub number: u32,
    pub place: u64,
}

impl Refusal {
    /// What was broken or has run out.
    pub fn rule(&self) -> &'static str {
        match self.number {
            1 => "the words are short of the head's eight, or their total is not 8 + 2S + 4N + 3L + 2K + Q + 8E + 5D + 4T",
            2 => "a table has more than 65,536 rows, or the byte area more than 16,777,216 bytes",
            3 => "a string row is a part of the byte area (offset, length), its offset not below the row's before, and is UTF-8",
            4 => "a row breaks a rule of its table: kind, references to rows that exist (within a table to lower ones), numbers within their limits, depth and loose words, unused words 0",
            5 => "the pool has no such row",
            6 => "the indent is at most 64 and the width at most 65,535",
            7 => "a chain of binders or a let brings the names in force over 1,024",
            8 => "a document has at most 16,384 rows and 65,536 text bytes",
            9 => "a given document has at least one row, no more rows and text bytes than it was given and than 16,384 and 65,536, and each row is the one that its kind, fields and children make",
            20 => "the row area is full",
            21 => "the text area is full",
            22 => "the listing is longer than its area",
            30 => "the pending area has fewer than three words for each document row",
            31 => "a notation row has a name row and a string row that exist, kind 0 to 2 and a priority of 1 to 1,023, and no name has two of them",
            _ => "no rule has this number",
        }
    }

    /// What the place counts, if the number has one.
    fn place_in_words(&self) -> Option<String> {
        match self.number {
            3 => Some(format!("string row {}", self.place)),
            4 => Some(format!("row {} of its table", self.place)),
            7 => Some(format!("expression row {}", self.place)),
            8 | 20 | 21 => Some(format!("after {} document rows", self.place)),
            9 => Some(format!("document row {}", self.place)),
            _ => None,
        }
    }
}

impl fmt::Display for Refusal {
    fn fmt(&self, f: &mut fmt::Formatter<'_>) -> fmt::Result {
        write!(f, "refused {}", self.number)?;
        if let Some(place) = self.place_in_words() {
            write!(f, " ({place})")?;
        }
        write!(f, ": {}", self.rule())
    }
}

impl std::error::Error for Refusal {}
