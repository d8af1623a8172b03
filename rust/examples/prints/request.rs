//! Requests as they stand in the file.
use tilusorgu::{Pool, Root};

#[derive(Clone, Copy, PartialEq, Eq)]
pub enum Call {
    PrintExpr,
    PrintDeclar,
    /// The pool's words and bytes are a document's rows and text.
    Layout,
    Check,
    /// The root is a row of the document that the pool's words and bytes are.
    HandOutText,
    /// The root is a string row.
    HandOutString,
    /// A layout with a pending area.
    LayoutPending,
    /// The root is the first of two expression rows.
    Compare,
}

/// By their modes.
const CALLS: [Call; 8] =
    [Call::PrintExpr, Call::PrintDeclar, Call::Layout, Call::Check, Call::HandOutText, Call::HandOutString, Call::LayoutPending, Call::Compare];

pub struct Request {
    pub call: Call,
    pub row: u32,
    pub indent: u32,
    pub width: u32,
    pub pool: Pool,
    /// Those of the areas, of a request for one call alone: rows (in words), text and listing; of both layouts the counts of rows and text bytes, and the listing;
    /// of a text to hand out the two counts.
    pub lengths: Option<[u32; 3]>,
    /// The length of the pending area in words, of a layout with one; else 0.
    pub pending: u32,
    /// The second of two rows that are compared; else 0.
    pub second: u32,
}

impl Request {
    pub fn root(&self) -> Root {
        match self.call {
            Call::PrintDeclar => Root::Declar(self.row),
            _ => Root::Expr(self.row),
        }
    }
}

fn bytes<'a>(data: &mut &'a [u8], count: usize) -> &'a [u8] {
    let (first, rest) = data.split_at(count);
    *data = rest;
    first
}

fn words(data: &mut &[u8], count: usize) -> Vec<u32> {
    bytes(data, 4 * count).chunks_exact(4).map(|w| u32::from_le_bytes(w.try_into().expect("four bytes"))).collect()
}

/// The next request, none at the end of the data.
///
/// # Panics
/// If the data are no requests.
pub fn next(data: &mut &[u8]) -> Option<Request> {
    if data.is_empty() {
        return None;
    }
    let alone = match bytes(data, 4) {
        b"PLQ1" => false,
        b"PLC1" => true,
        other => panic!("no request begins with {other:?}"),
    };
    let head = words(data, 5);
    let area = bytes(data, head[4] as usize).to_vec();
    let count = words(data, 1)[0] as usize;
    let pool = Pool { bytes: area, words: words(data, count) };
    let lengths = alone.then(|| words(data, 3).try_into().expect("three lengths"));
    let call = CALLS[head[0] as usize];
    let mut fourth = |of: Call| if call == of { words(data, 1)[0] } else { 0 };
    let (pending, second) = (fourth(Call::LayoutPending), fourth(Call::Compare));
    Some(Request { call, row: head[1], indent: head[2], width: head[3], pool, lengths, pending, second })
}
