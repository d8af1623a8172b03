//! The C calls over guarded areas, `out` included. Each is sound: pointers and lengths are those of whole slices, and these overlap nothing.
use crate::guarded::Guarded;
use crate::judge::Areas;
use tilusorgu::{raw, Given, Pool, Root};

pub fn check(pool: &Pool, out: &mut Guarded<u64>) -> u32 {
    let out = out.area();
    unsafe { raw::tilusorgu_check(pool.bytes.as_ptr(), pool.bytes.len(), pool.words.as_ptr(), pool.words.len(), out.as_mut_ptr(), out.len()) }
}

pub fn print(pool: &Pool, root: Root, (indent, width): (u32, u32), areas: &mut Areas, out: &mut Guarded<u64>) -> u32 {
    let (row, call): (_, unsafe extern "C" fn(_, _, _, _, _, _, _, _, _, _, _, _, _, _, _) -> u32) = match root {
        Root::Expr(row) => (row, raw::tilusorgu_print_expr),
        Root::Declar(row) => (row, raw::tilusorgu_print_declar),
    };
    let (rows, text, listing, out) = (areas.rows.area(), areas.text.area(), areas.listing.area(), out.area());
    unsafe {
        call(
            pool.bytes.as_ptr(),
            pool.bytes.len(),
            pool.words.as_ptr(),
            pool.words.len(),
            row,
            indent,
            width,
            rows.as_mut_ptr(),
            rows.len(),
            text.as_mut_ptr(),
            text.len(),
            listing.as_mut_ptr(),
            listing.len(),
            out.as_mut_ptr(),
            out.len(),
        )
    }
}

pub fn compare(pool: &Pool, (first, second): (u32, u32), out: &mut Guarded<u64>) -> u32 {
    let (bytes, words, out) = (&pool.bytes, &pool.words, out.area());
    unsafe { raw::tilusorgu_compare(bytes.as_ptr(), bytes.len(), words.as_ptr(), words.len(), first, second, out.as_mut_ptr(), out.len()) }
}

pub fn layout(given: Given<'_>, width: u32, listing: &mut Guarded<u8>, out: &mut Guarded<u64>) -> u32 {
    let (listing, out) = (listing.area(), out.area());
    unsafe {
        raw::tilusorgu_layout(
            given.rows.as_ptr(),
            given.rows.len(),
            given.row_count,
            given.text.as_ptr(),
            given.text.len(),
            given.text_count,
            width,
            listing.as_mut_ptr(),
            listing.len(),
            out.as_mut_ptr(),
            out.len(),
        )
    }
}

pub fn layout_pending(given: Given<'_>, width: u32, pending: &mut Guarded<u32>, listing: &mut Guarded<u8>, out: &mut Guarded<u64>) -> u32 {
    let (pending, listing, out) = (pending.area(), listing.area(), out.area());
    unsafe {
        raw::tilusorgu_layout_pending(
            given.rows.as_ptr(),
            given.rows.len(),
            given.row_count,
            given.text.as_ptr(),
            given.text.len(),
            given.text_count,
            width,
            pending.as_mut_ptr(),
            pending.len(),
            listing.as_mut_ptr(),
            listing.len(),
            out.as_mut_ptr(),
            out.len(),
        )
    }
}

/// Of a document's text (kind 0) or a pool's string (kind 1).
pub fn hand_out(pool: &Pool, given: Given<'_>, (kind, row): (u32, u32), out: &mut Guarded<u64>) -> u32 {
    let out = out.area();
    unsafe {
        raw::tilusorgu_hand_out(
            pool.bytes.as_ptr(),
            pool.bytes.len(),
            pool.words.as_ptr(),
            pool.words.len(),
            given.rows.as_ptr(),
            given.rows.len(),
            given.row_count,
            given.text.as_ptr(),
            given.text.len(),
            given.text_count,
            kind,
            row,
            out.as_mut_ptr(),
            out.len(),
        )
    }
}
