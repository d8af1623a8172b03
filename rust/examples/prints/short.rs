//! A print that succeeded, made again in areas just long enough and in areas too short.
use crate::judge::need;
use crate::request::{Call, Request};
use crate::{layout, print, Printed};
use tilusorgu::Given;

/// What a walk of this document in areas of these lengths ends with: "a text's bytes, one by one, before its row". The document is within 01's limits, so 7 and 8
/// do not come.
fn walk(rows: &[u32], row_words: usize, text_bytes: usize) -> (u32, u64) {
    let mut texts = 0;
    for (i, row) in rows.chunks_exact(7).enumerate() {
        let length = if row[0] == 0 { row[2] as usize } else { 0 };
        if texts + length > text_bytes {
            return (21, i as u64);
        }
        texts += length;
        if 7 * (i + 1) > row_words {
            return (20, i as u64);
        }
    }
    (0, 0)
}

/// Number, place and areas of a print in areas of these lengths. That nothing else was touched is judged by `print`.
fn one(q: &Request, p: &Printed, lengths: [usize; 3]) -> Result<(), String> {
    let expected = match walk(&p.rows, lengths[0], lengths[1]) {
        (0, _) if lengths[2] < p.listing.len() => (22, 0),
        other => other,
    };
    let (out, areas) = print(q, lengths)?;
    let answer = (out.seen()[0] as u32, out.seen()[1]);
    if answer != expected {
        return Err(format!("{answer:?}, and 01 has {expected:?} (number, place)"));
    }
    if expected.0 != 0 && expected.0 != 22 {
        return Ok(());
    }
    need(expected.0 == 22 || out.seen()[2..] == p.counts, "other counts than in long areas")?;
    let (rows, text, listing) = (areas.rows.seen(), areas.text.seen(), areas.listing.seen());
    need(rows[..p.rows.len()] == p.rows && areas.rows.is_from(p.rows.len(), 0), "other rows than in long areas")?;
    need(text[..p.text.len()] == p.text && areas.text.is_from(p.text.len(), 0), "another text than in long areas")?;
    let listed = listing.len().min(p.listing.len());
    need(listing[..listed] == p.listing[..listed], "another listing than in a long area")
}

/// The document is accepted as it stands, and laid out gives the same; the listing's area just long enough and too short.
fn laid_out(q: &Request, p: &Printed) -> Result<(), String> {
    let given = Given { rows: &p.rows, row_count: p.rows.len() as u64 / 7, text: &p.text, text_count: p.text.len() as u64 };
    let whole = p.listing.len();
    for length in [whole, whole.saturating_sub(1), whole / 2] {
        let (out, listing) = layout(given, q.width, length)?;
        let number = if length < whole { 22 } else { 0 };
        need(out.seen()[0] == number, "layout: another number than 01's")?;
        need(number == 22 || out.seen()[2..] == p.counts, "layout has other counts")?;
        need(listing.seen() == &p.listing[..length], "layout gives another listing")?;
    }
    Ok(())
}

pub fn judge(q: &Request, p: &Printed) -> Result<(), String> {
    laid_out(q, p)?;
    if q.call == Call::Layout {
        return Ok(());
    }
    let (rows, text, listing) = (p.rows.len(), p.text.len(), p.listing.len());
    let some = (rows + 3 * text + 5 * listing + q.width as usize) % (rows + text);
    for lengths in [
        [rows, text, listing],
        [rows - 7, text, listing],
        [rows - 1, text + 5, listing + 5],
        [rows, text.saturating_sub(1), listing],
        [rows, text, listing.saturating_sub(1)],
        [rows - 7, text.saturating_sub(1), listing],
        [some % rows, some % (text + 1), 0],
        [rows + 7, some % (text + 1), listing],
        [rows, text, 0],
        [0, 0, 0],
    ] {
        one(q, p, lengths).map_err(|what| format!("areas {lengths:?}: {what}"))?;
    }
    Ok(())
}
