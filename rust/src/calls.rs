//! The calls over slices. What they answer and what they leave in the lent areas: include/tilusorgu.h.
use crate::raw;
use crate::refusal::Refusal;
use crate::stack::with_stack;
use std::ops::Range;

/// Words of a document row.
pub const ROW_WORDS: usize = 7;
/// A row area of this many words is never full.
pub const MOST_ROW_WORDS: usize = ROW_WORDS * 16_384;
/// Words of the pending area for each document row.
pub const PENDING_WORDS: usize = 3;
/// A pending area of this many words is never too short: a document of more rows than 16,384 is refused 9 before it is looked at.
pub const MOST_PENDING_WORDS: usize = PENDING_WORDS * 16_384;
/// A text area of this many bytes is never full.
pub const MOST_TEXT_BYTES: usize = 65_536;

/// What a success reports.
#[derive(Clone, Copy, Debug, Default, PartialEq, Eq)]
pub struct Counts {
    pub document_rows: u64,
    pub text_bytes: u64,
    pub listing_length: u64,
    /// Broken places plus 1: as many as the listing has rows, whatever newlines its texts have.
    pub lines: u64,
    /// In bytes, indentation included.
    pub longest_row: u64,
    /// Groups of the document that are not inside a flat one: each is tested once for fitting into its row, and no other.
    pub fit_tests: u64,
}

/// Steps of indentation in spaces (at most 64) and width of a row in bytes (at most 65,535).
#[derive(Clone, Copy, Debug, PartialEq, Eq)]
pub struct Sizes {
    pub indent: u32,
    pub width: u32,
}

impl Default for Sizes {
    /// Those of the published printer.
    fn default() -> Sizes {
        Sizes { indent: 2, width: 120 }
    }
}

/// The areas that a print may write.
#[derive(Debug)]
pub struct Lent<'a> {
    pub rows: &'a mut [u32],
    pub text: &'a mut [u8],
    pub listing: &'a mut [u8],
}

/// A document that is given to a layout or to [`text_part`]: the first rows and bytes of two slices.
#[derive(Clone, Copy, Debug, Default)]
pub struct Given<'a> {
    pub rows: &'a [u32],
    pub row_count: u64,
    pub text: &'a [u8],
    pub text_count: u64,
}

fn answer(number: u32, out: &[u64; 8]) -> Result<Counts, Refusal> {
    if number != 0 {
        return Err(Refusal { number, place: out[1] });
    }
    let [_, _, document_rows, text_bytes, listing_length, lines, longest_row, fit_tests] = *out;
    Ok(Counts { document_rows, text_bytes, listing_length, lines, longest_row, fit_tests })
}

/// Is the pool accepted? Refuses 1 to 4 and 31.
pub fn check(bytes: &[u8], words: &[u32]) -> Result<(), Refusal> {
    let mut out = [0; 8];
    // Sound: each pointer goes with its own slice's length, and `out` is this function's alone.
    let number = with_stack(|| unsafe { raw::tilusorgu_check(bytes.as_ptr(), bytes.len(), words.as_ptr(), words.len(), out.as_mut_ptr(), 8) });
    answer(number, &out).map(|_| ())
}

/// Which table a print's root is a row of.
#[derive(Clone, Copy, Debug, PartialEq, Eq)]
pub enum Root {
    Expr(u32),
    Declar(u32),
}

/// Prints an expression or a declaration into lent areas. Refuses 1 to 4, 31, 5 to 8 and 20 to 22.
pub fn print(bytes: &[u8], words: &[u32], root: Root, sizes: Sizes, lent: Lent<'_>) -> Result<Counts, Refusal> {
    let (call, row): (unsafe extern "C" fn(_, _, _, _, _, _, _, _, _, _, _, _, _, _, _) -> u32, u32) = match root {
        Root::Expr(row) => (raw::tilusorgu_print_expr, row),
        Root::Declar(row) => (raw::tilusorgu_print_declar, row),
    };
    let mut out = [0; 8];
    // Sound: each pointer goes with its own slice's length, and exclusive borrows overlap nothing.
    let number = with_stack(|| unsafe {
        call(
            bytes.as_ptr(),
            bytes.len(),
            words.as_ptr(),
            words.len(),
            row,
            sizes.indent,
            sizes.width,
            lent.rows.as_mut_ptr(),
            lent.rows.len(),
            lent.text.as_mut_ptr(),
            lent.text.len(),
            lent.listing.as_mut_ptr(),
            lent.listing.len(),
            out.as_mut_ptr(),
            8,
        )
    });
    answer(number, &out)
}

/// [`print`] of the expression in this row.
pub fn print_expr(bytes: &[u8], words: &[u32], root: u32, sizes: Sizes, lent: Lent<'_>) -> Result<Counts, Refusal> {
    print(bytes, words, Root::Expr(root), sizes, lent)
}

/// [`print`] of the declaration in this row.
pub fn print_declar(bytes: &[u8], words: &[u32], root: u32, sizes: Sizes, lent: Lent<'_>) -> Result<Counts, Refusal> {
    print(bytes, words, Root::Declar(root), sizes, lent)
}

/// What [`compare`] says of two trees.
#[derive(Clone, Copy, Debug, PartialEq, Eq)]
pub enum Comparison {
    Equal,
    /// The first pair of rows that differs, of the first tree and of the second: in their kinds, or in a field that is no expression.
    Differ(u32, u32),
}

/// Compares the trees of two expression rows: a row before its children, and these last field first. Refuses 1 to 4, 31 and 5.
pub fn compare(bytes: &[u8], words: &[u32], first: u32, second: u32) -> Result<Comparison, Refusal> {
    let mut out = [0; 8];
    // Sound: as above.
    let number = with_stack(|| unsafe {
        raw::tilusorgu_compare(bytes.as_ptr(), bytes.len(), words.as_ptr(), words.len(), first, second, out.as_mut_ptr(), 8)
    });
    answer(number, &out)?;
    Ok(if out[2] == 1 { Comparison::Equal } else { Comparison::Differ(out[3] as u32, out[4] as u32) })
}

/// Lays out a given document, with a pending area of its own: 192 KiB at most, no thread and no deep machine stack. Refuses 9, 6 and 22.
pub fn layout(given: Given<'_>, width: u32, listing: &mut [u8]) -> Result<Counts, Refusal> {
    // Whatever the count says, no more than 16,384 rows are ever laid out.
    let words = given.row_count.saturating_mul(PENDING_WORDS as u64).min(MOST_PENDING_WORDS as u64);
    layout_pending(given, width, &mut vec![0; words as usize], listing)
}

/// [`layout`] with a lent pending area of at least three words for each document row, which is left zero. Refuses 9, 6, 30 and 22.
///
/// It runs right here and not in [`with_stack`]: it goes over the document in loops, and less than 4 KiB of machine stack are enough for it.
pub fn layout_pending(given: Given<'_>, width: u32, pending: &mut [u32], listing: &mut [u8]) -> Result<Counts, Refusal> {
    let mut out = [0; 8];
    // Sound: as above; that the counts may exceed their slices, or the pending area, is for the call to refuse.
    let number = unsafe {
        raw::tilusorgu_layout_pending(
            given.rows.as_ptr(),
            given.rows.len(),
            given.row_count,
            given.text.as_ptr(),
            given.text.len(),
            given.text_count,
            width,
            pending.as_mut_ptr(),
            pending.len(),
            listing.as_mut_ptr(),
            listing.len(),
            out.as_mut_ptr(),
            8,
        )
    };
    answer(number, &out)
}

/// The layout that came first: it answers as [`layout`] does, but by calls as deep as the document is nested, in [`with_stack`]. Refuses 9, 6 and 22.
pub fn layout_deep(given: Given<'_>, width: u32, listing: &mut [u8]) -> Result<Counts, Refusal> {
    let mut out = [0; 8];
    // Sound: as above; that the counts may exceed their slices is for the call to refuse.
    let number = with_stack(|| unsafe {
        raw::tilusorgu_layout(
            given.rows.as_ptr(),
            given.rows.len(),
            given.row_count,
            given.text.as_ptr(),
            given.text.len(),
            given.text_count,
            width,
            listing.as_mut_ptr(),
            listing.len(),
            out.as_mut_ptr(),
            8,
        )
    });
    answer(number, &out)
}

/// Where the text (kind 0) or the string (kind 1) of this row lies. The library's proof has it inside its slice.
fn handed_out(bytes: &[u8], words: &[u32], given: Given<'_>, kind: u32, row: u32) -> Range<usize> {
    let mut out = [0; 8];
    // Sound: as above.
    with_stack(|| unsafe {
        raw::tilusorgu_hand_out(
            bytes.as_ptr(),
            bytes.len(),
            words.as_ptr(),
            words.len(),
            given.rows.as_ptr(),
            given.rows.len(),
            given.row_count,
            given.text.as_ptr(),
            given.text.len(),
            given.text_count,
            kind,
            row,
            out.as_mut_ptr(),
            8,
        )
    });
    let (offset, length) = (out[2] as usize, out[3] as usize);
    offset..offset + length
}

/// Hands out the text of a document's row: empty unless the document is accepted and the row is one of its texts.
pub fn text_part(given: Given<'_>, row: u32) -> &[u8] {
    &given.text[handed_out(&[], &[], given, 0, row)]
}

/// Hands out a pool's string: empty unless the pool is accepted and has that string row.
pub fn string_part<'a>(bytes: &'a [u8], words: &[u32], row: u32) -> &'a [u8] {
    &bytes[handed_out(bytes, words, Given::default(), 1, row)]
}
