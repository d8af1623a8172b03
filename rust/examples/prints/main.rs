//! Prints through the static library, for differential/: requests from a file, answers to standard output (differential/README.md, "Requests and answers of the
//! product").
//!
//!     prints [--doc] FILE
//!
//! A print that succeeds is made again in areas just long enough and in areas too short, every layout again with a pending area, and every answer and area is held to
//! documents 01 and 02. What does not hold is said on standard error with the request's number, and the status is 1.
#[allow(dead_code)] // shared with the program of damaged inputs
#[path = "../damage/calls.rs"]
mod calls;
#[path = "../../tests/common/comparison.rs"]
mod comparison;
#[path = "../../tests/common/fit_tests.rs"]
mod fit_tests;
#[path = "../../tests/common/guarded.rs"]
mod guarded;
#[allow(dead_code)]
#[path = "../damage/judge.rs"]
mod judge;
#[allow(dead_code)] // of check the program of damaged inputs judges more
#[path = "../../tests/common/notation.rs"]
mod notation;
mod request;
mod short;

use guarded::Guarded;
use judge::Areas;
use request::{Call, Request};
use std::io::Write;
use std::process::ExitCode;
use tilusorgu::{Given, Pool};

/// A print or a layout that succeeded, or the refusal.
#[derive(Default)]
pub struct Printed {
    pub number: u32,
    pub place: u64,
    /// Those of `out`, from the third number on.
    pub counts: [u64; 6],
    pub rows: Vec<u32>,
    pub text: Vec<u8>,
    pub listing: Vec<u8>,
}

/// Eight numbers between guards.
pub fn new_out() -> Guarded<u64> {
    Guarded::new(8, 0x5c5c_5c5c_5c5c_5c5c, judge::OUT_FILL)
}

fn counts(out: &Guarded<u64>) -> [u64; 6] {
    out.seen()[2..8].try_into().expect("six of eight")
}

/// One print in areas of these lengths; the answer is `out` and what the areas hold, which are judged as far as they are whatever was printed.
pub fn print(q: &Request, lengths: [usize; 3]) -> Result<(Guarded<u64>, Areas), String> {
    let (mut areas, mut out) = (Areas::new(lengths), new_out());
    let number = calls::print(&q.pool, q.root(), (q.indent, q.width), &mut areas, &mut out);
    judge::out(number, &out)?;
    judge::print_areas(number, out.seen(), &areas, q.width)?;
    judge::full_areas((number, out.seen()[1]), &areas)?;
    Ok((out, areas))
}

/// One layout with a pending area of so many words, judged likewise.
fn layout_pending(given: Given<'_>, width: u32, words: usize, length: usize) -> Result<(Guarded<u64>, Guarded<u32>, Guarded<u8>), String> {
    let (mut pending, mut listing, mut out) = (judge::words(words), judge::bytes(length), new_out());
    let number = calls::layout_pending(given, width, &mut pending, &mut listing, &mut out);
    judge::out(number, &out)?;
    judge::pending_areas(number, &pending, &listing)?;
    let written = if number == 22 { length } else { out.seen()[4] as usize };
    judge::need(written <= length && listing.untouched_from(written), "layout, pending: the listing area was written past the listing")?;
    Ok((out, pending, listing))
}

/// With a pending area just long enough the answer and the listing are those of the other layout; with one a word shorter it is 30, unless 9 or 6 come first.
fn same_pending(given: Given<'_>, width: u32, out: &Guarded<u64>, listing: &Guarded<u8>) -> Result<(), String> {
    let (length, exact) = (listing.seen().len(), judge::pending_words(given.row_count));
    let (again, _, same) = layout_pending(given, width, exact, length)?;
    judge::need(again.seen() == out.seen(), "layout, pending: another answer than the other layout's")?;
    judge::need(same.seen() == listing.seen(), "layout, pending: another listing than the other layout's")?;
    let short = exact.saturating_sub(1);
    let number = judge::pending_number(out.seen()[0] as u32, given.row_count, short);
    judge::need(
        layout_pending(given, width, short, length)?.0.seen()[0] == u64::from(number),
        "layout, pending: not refused as 02 says in an area a word short",
    )
}

/// Both layouts.
pub fn layout(given: Given<'_>, width: u32, length: usize) -> Result<(Guarded<u64>, Guarded<u8>), String> {
    let (mut listing, mut out) = (judge::bytes(length), new_out());
    let number = calls::layout(given, width, &mut listing, &mut out);
    judge::out(number, &out)?;
    judge::need(listing.intact(), "layout: a guard was written")?;
    let written = if number == 22 { length } else { out.seen()[4] as usize };
    judge::need(written <= length && listing.untouched_from(written), "layout: the listing area was written past the listing")?;
    same_pending(given, width, &out, &listing)?;
    Ok((out, listing))
}

fn hand_out(pool: &Pool, given: Given<'_>, what: (u32, u32)) -> Result<Guarded<u64>, String> {
    let mut out = new_out();
    let number = calls::hand_out(pool, given, what, &mut out);
    judge::out(number, &out)?;
    Ok(out)
}

/// In areas that are long enough: rows and texts as long as a document can be, and a listing area that grows.
fn ample_print(q: &Request) -> Result<Printed, String> {
    let mut length = 1 << 14;
    loop {
        let (out, areas) = print(q, [7 * 16_384, 65_536, length])?;
        let [number, place, rows, text, listing, ..] = out.seen()[..] else { unreachable!() };
        if number == 22 {
            length *= 8;
            continue;
        }
        let (mut p, counts) = (Printed { number: number as u32, place, ..Printed::default() }, counts(&out));
        if number == 0 {
            p.counts = counts;
            p.rows = areas.rows.seen()[..7 * rows as usize].to_vec();
            p.text = areas.text.seen()[..text as usize].to_vec();
            p.listing = areas.listing.seen()[..listing as usize].to_vec();
        }
        return Ok(p);
    }
}

fn ample_layout(q: &Request) -> Result<Printed, String> {
    let (rows, text) = (&q.pool.words[..], &q.pool.bytes[..]);
    let given = Given { rows, row_count: rows.len() as u64 / 7, text, text_count: text.len() as u64 };
    let mut length = 1 << 14;
    loop {
        let (out, listing) = layout(given, q.width, length)?;
        let [number, place, _, _, written, ..] = out.seen()[..] else { unreachable!() };
        if number == 22 {
            length *= 8;
            continue;
        }
        let listing = listing.seen()[..written as usize].to_vec();
        return Ok(Printed { number: number as u32, place, counts: counts(&out), rows: rows.to_vec(), text: text.to_vec(), listing });
    }
}

fn words(out: &mut Vec<u8>, words: &[u32]) {
    words.iter().for_each(|w| out.extend(w.to_le_bytes()))
}

/// The answer to a print or a layout in long areas, after the same in other ones.
fn answer(q: &Request, with_document: bool) -> Result<Vec<u8>, String> {
    let p = if q.call == Call::Layout { ample_layout(q)? } else { ample_print(q)? };
    if p.number == 0 {
        short::judge(q, &p)?;
    }
    let mut answer = Vec::new();
    words(&mut answer, &[p.number, p.place as u32, p.listing.len() as u32]);
    answer.extend(&p.listing);
    if with_document {
        words(&mut answer, &[p.rows.len() as u32 / 7]);
        words(&mut answer, &p.rows);
        words(&mut answer, &[p.text.len() as u32]);
        answer.extend(&p.text);
    }
    p.counts.iter().for_each(|n| answer.extend(n.to_le_bytes()));
    Ok(answer)
}

/// The answer to one call in areas of the lengths that the request names: `out` and the areas as they were left.
fn exactly(q: &Request, [rows, text, listing]: [u32; 3]) -> Result<Vec<u8>, String> {
    let (out, areas) = match q.call {
        Call::PrintExpr | Call::PrintDeclar => print(q, [rows, text, listing].map(|n| n as usize))?,
        Call::Layout => {
            let given = Given { rows: &q.pool.words, row_count: rows.into(), text: &q.pool.bytes, text_count: text.into() };
            let (out, listing) = layout(given, q.width, listing as usize)?;
            (out, Areas { listing, ..Areas::new([0, 0, 0]) })
        }
        // the pending area is answered where a print's row area is
        Call::LayoutPending => {
            let given = Given { rows: &q.pool.words, row_count: rows.into(), text: &q.pool.bytes, text_count: text.into() };
            let (out, pending, listing) = layout_pending(given, q.width, q.pending as usize, listing as usize)?;
            (out, Areas { rows: pending, listing, ..Areas::new([0, 0, 0]) })
        }
        Call::Check => {
            let mut out = new_out();
            let number = calls::check(&q.pool, &mut out);
            judge::out(number, &out)?;
            judge::checked(number, &q.pool)?;
            (out, Areas::new([0, 0, 0]))
        }
        Call::Compare => {
            let (rows, mut out) = ((q.row, q.second), new_out());
            let number = calls::compare(&q.pool, rows, &mut out);
            let mut checked = new_out();
            judge::compared((calls::check(&q.pool, &mut checked), checked.seen()[1]), number, &out, &q.pool, rows)?;
            (out, Areas::new([0, 0, 0]))
        }
        Call::HandOutText => {
            let given = Given { rows: &q.pool.words, row_count: rows.into(), text: &q.pool.bytes, text_count: text.into() };
            (hand_out(&Pool::default(), given, (0, q.row))?, Areas::new([0, 0, 0]))
        }
        Call::HandOutString => (hand_out(&q.pool, Given::default(), (1, q.row))?, Areas::new([0, 0, 0])),
    };
    let mut answer: Vec<u8> = out.seen().iter().flat_map(|n| n.to_le_bytes()).collect();
    words(&mut answer, areas.rows.seen());
    answer.extend(areas.text.seen());
    answer.extend(areas.listing.seen());
    Ok(answer)
}

fn run(file: &str, with_document: bool) -> Result<(), String> {
    let data = std::fs::read(file).map_err(|e| format!("{file}: {e}"))?;
    let (mut rest, mut out) = (&data[..], std::io::stdout().lock());
    for number in 0.. {
        let Some(q) = request::next(&mut rest) else { break };
        let before = q.pool.clone();
        let answer = match q.lengths {
            None => answer(&q, with_document),
            Some(lengths) => exactly(&q, lengths),
        };
        let answer = answer.map_err(|what| format!("request {number}: {what}"))?;
        if q.pool != before {
            return Err(format!("request {number}: a call changed what it was given"));
        }
        out.write_all(&answer).and_then(|_| out.flush()).map_err(|e| format!("standard output: {e}"))?;
    }
    Ok(())
}

fn main() -> ExitCode {
    let arguments: Vec<String> = std::env::args().skip(1).collect();
    let words: Vec<&str> = arguments.iter().map(String::as_str).collect();
    let done = match words[..] {
        ["--doc", file] => tilusorgu::with_stack(|| run(file, true)),
        [file] => tilusorgu::with_stack(|| run(file, false)),
        _ => Err("usage: prints [--doc] FILE".into()),
    };
    if let Err(what) = done {
        eprintln!("{what}");
        return ExitCode::from(1);
    }
    ExitCode::SUCCESS
}
