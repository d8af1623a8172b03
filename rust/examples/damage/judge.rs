//! What documents 01 and 02 say of an answer, whatever the input was: numbers, places, counts, and what the areas hold.
use crate::comparison;
use crate::fit_tests::fit_tests;
use crate::guarded::Guarded;
use crate::notation;
use tilusorgu::{Comparison, Pool, Root, Table};

/// Guards and what fills an area before a call.
const GUARD: u8 = 0x5c;
const FILL: u8 = 0xa5;
pub const OUT_FILL: u64 = 0xa5a5_a5a5_a5a5_a5a5;

pub fn bytes(length: usize) -> Guarded<u8> {
    Guarded::new(length, GUARD, FILL)
}

pub fn words(length: usize) -> Guarded<u32> {
    Guarded::new(length, 0x5c5c_5c5c, 0xa5a5_a5a5)
}

pub struct Areas {
    pub rows: Guarded<u32>,
    pub text: Guarded<u8>,
    pub listing: Guarded<u8>,
}

impl Areas {
    pub fn new([rows, text, listing]: [usize; 3]) -> Areas {
        Areas { rows: words(rows), text: bytes(text), listing: bytes(listing) }
    }
}

pub fn need(condition: bool, what: &str) -> Result<(), String> {
    if condition {
        Ok(())
    } else {
        Err(what.to_string())
    }
}

/// `out` has the number, no counts after a refusal, and a place where the number has one. A short one is left alone.
pub fn out(number: u32, out: &Guarded<u64>) -> Result<(), String> {
    need(out.intact(), "a guard round out was written")?;
    let seen = out.seen();
    if seen.len() < 8 {
        return need(out.untouched_from(0), "an out shorter than eight was written");
    }
    need(out.untouched_from(8), "out was written past its eighth number")?;
    need(seen[0] == u64::from(number), "the number returned is not that of out")?;
    need(number == 0 || seen[2..8].iter().all(|&n| n == 0), "a refusal has counts")?;
    need(matches!(number, 3 | 4 | 7 | 8 | 9 | 20 | 21) || seen[1] == 0, "a place where the number has none")
}

/// Counts that a listing at a width and the document show.
pub fn listed(counts: &[u64], listing: &[u8], (rows, text): (&[u32], &[u8]), width: u32) -> Result<(), String> {
    let length = counts[4] as usize;
    need(length <= listing.len(), "a listing longer than its area is no success")?;
    need((1..=16_384).contains(&counts[2]) && counts[3] <= 65_536, "the document is past its limits")?;
    // each text is listed once: the newlines that no text has are those of broken places
    let newlines = |bytes: &[u8]| bytes.iter().filter(|&&b| b == b'\n').count() as u64;
    let in_texts = newlines(&text[..counts[3] as usize]);
    need(counts[5] + in_texts == newlines(&listing[..length]) + 1, "lines are not the broken places plus 1")?;
    need(counts[7] == fit_tests(rows, counts[2] as usize, width), "fit tests are not the groups outside flat ones")?;
    need(counts[6] <= counts[4], "the longest row is longer than the listing")
}

/// The areas after a print at a width that ended so; the counts of a success are in `counts`.
pub fn print_areas(number: u32, counts: &[u64], areas: &Areas, width: u32) -> Result<(), String> {
    need(areas.rows.intact() && areas.text.intact() && areas.listing.intact(), "a guard was written")?;
    match number {
        0 => {
            listed(counts, areas.listing.seen(), (areas.rows.seen(), areas.text.seen()), width)?;
            need(areas.listing.untouched_from(counts[4] as usize), "the listing area was written past the listing")?;
            need(areas.rows.is_from(7 * counts[2] as usize, 0), "the row area is not zero past the document")?;
            need(areas.text.is_from(counts[3] as usize, 0), "the text area is not zero past the document")
        }
        1..=6 | 31 => {
            need(areas.rows.untouched_from(0) && areas.text.untouched_from(0) && areas.listing.untouched_from(0), "1 to 6 or 31 wrote an area")
        }
        7 | 8 | 20 | 21 => {
            need(areas.rows.is_from(0, 0) && areas.text.is_from(0, 0), "7, 8, 20 or 21 left something in the document areas")?;
            need(areas.listing.untouched_from(0), "7, 8, 20 or 21 wrote the listing area")
        }
        22 => Ok(()),
        _ => Err(format!("a print is never refused {number}")),
    }
}

/// What check says of a pool: 31 exactly where the notation rows are wrong, since a pool that is refused so or accepted has passed 1 to 4.
pub fn checked(number: u32, pool: &Pool) -> Result<(), String> {
    match number {
        0 => need(!notation::is_wrong(pool), "a notation row breaks its rule or repeats a name, and check accepts"),
        31 => need(notation::is_wrong(pool), "31, though each notation row keeps its rule and no name is given twice"),
        1..=4 => Ok(()),
        _ => Err(format!("check is never refused {number}")),
    }
}

/// A print's number and place, given what check said of the pool.
pub fn print_number(checked: (u32, u64), answer: (u32, u64), pool: &Pool, root: Root, indent: u32, width: u32) -> Result<(), String> {
    if checked.0 != 0 {
        return need(answer == checked, "check and print refuse differently");
    }
    let (row, table) = match root {
        Root::Expr(row) => (row, Table::Exprs),
        Root::Declar(row) => (row, Table::Declars),
    };
    let (no_root, no_sizes) = (row >= pool.count(table), indent > 64 || width > 65_535);
    need((answer.0 == 5) == no_root, "5 is not exactly for a missing root")?;
    need((answer.0 == 6) == (!no_root && no_sizes), "6 is not exactly for indent and width")?;
    need(!matches!(answer.0, 1..=4 | 31), "an accepted pool is refused 1 to 4 or 31")?;
    need(answer.0 != 7 || answer.1 < u64::from(pool.count(Table::Exprs)), "the place of 7 is no expression row")
}

/// What comparing two rows answers, given what check said of the pool: `out` if it is not shorter than eight.
pub fn compared(checked: (u32, u64), number: u32, answer: &Guarded<u64>, pool: &Pool, (first, second): (u32, u32)) -> Result<(), String> {
    out(number, answer)?;
    let expected = if checked.0 != 0 {
        [u64::from(checked.0), checked.1, 0, 0, 0]
    } else if first.max(second) >= pool.count(Table::Exprs) {
        [5, 0, 0, 0, 0]
    } else {
        match comparison::compared(pool, first, second) {
            Comparison::Equal => [0, 0, 1, 0, 0],
            Comparison::Differ(a, b) => [0, 0, 0, a.into(), b.into()],
        }
    };
    need(u64::from(number) == expected[0], "compare: another number than the pool and the rows have")?;
    let seen = answer.seen();
    need(seen.len() < 8 || seen[..5] == expected && seen[5..8] == [0; 3], "compare: another place, or another pair than pair by pair")
}

/// The place of 20 and 21, and that these come from short areas alone.
pub fn full_areas(answer: (u32, u64), areas: &Areas) -> Result<(), String> {
    let (rows, text) = (areas.rows.seen().len(), areas.text.seen().len());
    match answer.0 {
        20 => need(answer.1 == rows as u64 / 7 && rows < 7 * 16_384, "20, though another row fits"),
        21 => need(answer.1 <= rows as u64 / 7 && text < 65_536, "21, though the text area is of full length"),
        8 => need(answer.1 <= 16_384, "more rows written than a document has"),
        _ => Ok(()),
    }
}

/// The words that a pending area has to have. Past 01's limit the document is refused 9, and none are needed.
pub fn pending_words(row_count: u64) -> usize {
    3 * row_count.min(16_384) as usize
}

/// The number of the layout with a pending area of so many words, where the other layout ended with `first`.
pub fn pending_number(first: u32, row_count: u64, words: usize) -> u32 {
    if first != 9 && first != 6 && words < pending_words(row_count) {
        30
    } else {
        first
    }
}

/// Both areas after a layout with a pending area that ended so.
pub fn pending_areas(number: u32, pending: &Guarded<u32>, listing: &Guarded<u8>) -> Result<(), String> {
    need(pending.intact() && listing.intact(), "layout, pending: a guard was written")?;
    match number {
        0 | 22 => need(pending.is_from(0, 0), "layout, pending: a success or 22 left something in the pending area"),
        6 | 9 | 30 => need(pending.untouched_from(0) && listing.untouched_from(0), "layout, pending: 6, 9 or 30 wrote an area"),
        _ => Err(format!("layout, pending: never refused {number}")),
    }
}

/// What was handed out: the part that the row's offset and length name, inside its area, or nothing where there is no such row.
pub fn handed_out(number: u32, answer: &Guarded<u64>, row: Option<[u32; 2]>, area: &[u8]) -> Result<(), String> {
    out(number, answer)?;
    need(number == 0, "handing out is never refused")?;
    let [offset, length] = row.unwrap_or_default().map(u64::from);
    need(answer.seen().len() < 8 || answer.seen()[2..8] == [offset, length, 0, 0, 0, 0], "another part was handed out")?;
    need(offset + length <= area.len() as u64, "a part outside its area was handed out")
}
