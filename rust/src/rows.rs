//! The rows of a listing, as its document tells them: a client's text may have newlines of its own, and they start no row.
use crate::calls::{layout, Given};

/// Where the rows of a printed document's listing at this width start: at its first byte, and after the newline of each broken place.
///
/// The listing's own bytes do not tell: an unbroken place may be empty, and a newline there may be the first byte of an operator's string.
/// But where places are broken follows from the lengths of the texts, so the document is laid out once more with no newline in its texts.
pub fn row_starts(document: Given<'_>, width: u32, length: usize) -> Vec<usize> {
    let text: Vec<u8> = document.text.iter().map(|&byte| if byte == b'\n' { b'.' } else { byte }).collect();
    let mut listing = vec![0; length];
    let laid = layout(Given { text: &text, ..document }, width, &mut listing);
    debug_assert!(laid.is_ok_and(|counts| counts.listing_length == length as u64), "the document and the width of a print: {laid:?}");
    let newlines = listing.iter().enumerate().filter(|(_, &byte)| byte == b'\n');
    std::iter::once(0).chain(newlines.map(|(at, _)| at + 1)).collect()
}
