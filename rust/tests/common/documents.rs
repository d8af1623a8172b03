//! Documents made row by row, and some that are hard to lay out: deep in left children, in last children, or far from a break.
use tilusorgu::Given;

/// The greatest number of rows.
pub const MOST_ROWS: usize = 16_384;

#[derive(Clone, Debug, Default)]
pub struct Document {
    pub rows: Vec<u32>,
    pub text: Vec<u8>,
    /// The rows that are no child yet.
    open: Vec<[u32; 7]>,
}

impl Document {
    fn push(&mut self, row: [u32; 7]) {
        self.rows.extend(row);
        self.open.push(row);
    }

    pub fn text(&mut self, text: &str) {
        let length = text.len() as u32;
        self.push([0, self.text.len() as u32, length, 1, length, length, 0]);
        self.text.extend(text.bytes());
    }

    pub fn join(&mut self) {
        let (right, left) = (self.open.pop().unwrap(), self.open.pop().unwrap());
        let first_break = if left[6] == 1 { left[5] } else { left[5] + right[5] };
        self.push([1, 0, 0, left[3] + right[3] + 1, left[4] + right[4], first_break, left[6] | right[6]]);
    }

    pub fn line(&mut self, blank: u32) {
        self.push([2, blank, 0, 1, blank, 0, 1]);
    }

    fn round(&mut self, kind: u32, amount: u32) {
        let [_, _, _, rows, flat, first_break, has_break] = self.open.pop().unwrap();
        self.push([kind, amount, 0, rows + 1, flat, first_break, has_break]);
    }

    pub fn nest(&mut self, amount: u32) {
        self.round(3, amount);
    }

    pub fn group(&mut self) {
        self.round(4, 0);
    }

    pub fn count(&self) -> usize {
        self.rows.len() / 7
    }

    /// Rows that a join or another row has to be put round yet.
    pub fn open(&self) -> usize {
        self.open.len()
    }

    pub fn groups(&self) -> u64 {
        self.rows.chunks_exact(7).filter(|row| row[0] == 4).count() as u64
    }

    pub fn given(&self) -> Given<'_> {
        Given { rows: &self.rows, row_count: self.count() as u64, text: &self.text, text_count: self.text.len() as u64 }
    }
}

/// A text or, at each third place, a break.
fn leaf(d: &mut Document, i: usize) {
    if i % 3 == 2 {
        d.line(1)
    } else {
        d.text("ab")
    }
}

/// Each join is the left child of the next.
pub fn left_comb(rows: usize) -> Document {
    let mut d = Document::default();
    leaf(&mut d, 0);
    for i in 1..rows / 2 {
        leaf(&mut d, i);
        d.join();
    }
    d.group();
    d
}

/// Each join is the last child of the next.
pub fn right_comb(rows: usize) -> Document {
    let mut d = Document::default();
    (0..rows / 2).for_each(|i| leaf(&mut d, i));
    (1..rows / 2).for_each(|_| d.join());
    d.group();
    d
}

/// Groups round one text.
pub fn groups(rows: usize) -> Document {
    let mut d = Document::default();
    d.text("some text");
    (1..rows).for_each(|_| d.group());
    d
}

/// Nests of 64 round one break.
pub fn nests(rows: usize) -> Document {
    let mut d = Document::default();
    d.line(1);
    (1..rows).for_each(|_| d.nest(64));
    d
}

/// Nests of joins, each the left child in the next; one in 64 adds to the nest.
pub fn left_nests(rows: usize) -> Document {
    let mut d = Document::default();
    d.text("a");
    for i in 0..(rows - 1) / 3 {
        d.line(1);
        d.join();
        d.nest(u32::from(i % 64 == 0));
    }
    d
}

/// Joins of texts without a byte, so that nothing moves the position.
pub fn empty_texts(rows: usize) -> Document {
    let mut d = Document::default();
    (0..rows / 2).for_each(|_| d.text(""));
    (1..rows / 2).for_each(|_| d.join());
    d.group();
    d
}

/// Groups of a group and a text, one in the other, and no break: from the end of each group it is far to the end of the document.
pub fn far_ends(rows: usize) -> Document {
    let mut d = Document::default();
    d.text("a");
    while d.count() + 3 <= rows {
        d.group();
        d.text("a");
        d.join();
    }
    while d.count() < rows {
        d.group();
    }
    d
}

pub type Make = fn(usize) -> Document;

pub const HOSTILE: [(&str, Make); 7] = [
    ("left comb", left_comb),
    ("right comb", right_comb),
    ("chain of groups", groups),
    ("chain of nests", nests),
    ("nests in left children", left_nests),
    ("joins of empty texts", empty_texts),
    ("groups far from their row's end", far_ends),
];
