//! One damaged input: the calls on it, and what is wrong with their answers.
use crate::calls;
use crate::corpus::{Ask, Entry, Stock};
use crate::guarded::Guarded;
use crate::judge::{self, need, Areas};
use crate::mutate;
use crate::random::Random;
use std::collections::BTreeMap;
use tilusorgu::{Given, Pool, Root, Sizes, Table};

/// How often each call ended with each number.
#[derive(Default)]
pub struct Tally(BTreeMap<(&'static str, u32), u64>);

impl Tally {
    fn count(&mut self, call: &'static str, number: u32) {
        *self.0.entry((call, number)).or_default() += 1;
    }

    pub fn show(&self) {
        for call in ["check", "compare", "print expression", "print declaration", "layout", "layout, pending", "hand out a string", "hand out a text"]
        {
            let numbers: Vec<String> = self.0.iter().filter(|((c, _), _)| *c == call).map(|((_, n), k)| format!("{n}: {k}")).collect();
            println!("{call}: {}", numbers.join(", "));
        }
    }
}

/// Mostly eight numbers, sometimes more or fewer.
fn new_out(r: &mut Random) -> Guarded<u64> {
    let length = if r.one_in(50) { r.below(12) } else { 8 };
    Guarded::new(length, 0x5c5c_5c5c_5c5c_5c5c, judge::OUT_FILL)
}

fn long_out() -> Guarded<u64> {
    Guarded::new(8, 0x5c5c_5c5c_5c5c_5c5c, judge::OUT_FILL)
}

pub fn run(stock: &Stock, seed: u64, input: u64, tally: &mut Tally) -> Result<(), String> {
    let r = &mut Random::new(seed, input);
    pool_calls(stock, r, tally)?;
    layout_call(stock, r, tally)
}

fn pool_calls(stock: &Stock, r: &mut Random, tally: &mut Tally) -> Result<(), String> {
    let entry = r.pick(&stock.pools);
    let mut pool = entry.pool.clone();
    mutate::pool(r, &mut pool);
    let before = pool.clone();
    let checked = check(&pool, r, tally)?;
    compare(&pool, checked, r, tally)?;
    for table in [Table::Exprs, Table::Declars] {
        let ask = ask(entry, table, r);
        let root = match ask.root {
            Root::Expr(row) => Root::Expr(mutate::number(r, row)),
            Root::Declar(row) => Root::Declar(mutate::number(r, row)),
        };
        let lengths = [(0, 7 * 16_384), (1, 65_536), (2, 1 << 17)].map(|(i, most)| mutate::length(r, ask.lengths[i], most));
        let sizes = (mutate::number(r, ask.sizes.indent), mutate::number(r, ask.sizes.width));
        let mut areas = Areas::new(lengths);
        print(&pool, root, sizes, &mut areas, checked, r, tally)
            .map_err(|what| format!("{root:?}, indent and width {sizes:?}, areas {lengths:?}: {what}"))?;
    }
    hand_out_string(&pool, checked.0 == 0, r, tally)?;
    need(pool == before, "a call changed the pool")
}

/// Two expression rows of the pool, there or not, mostly near each other: rows that are nearly equal stand so.
fn compare(pool: &Pool, checked: (u32, u64), r: &mut Random, tally: &mut Tally) -> Result<(), String> {
    let count = pool.count(Table::Exprs).min(65_536) as usize;
    for _ in 0..2 {
        let first = r.below(count + 1);
        let second = if r.one_in(3) { r.below(count) } else { (first + r.below(9)).saturating_sub(4) };
        let rows = (mutate::number(r, first as u32), mutate::number(r, second as u32));
        let mut out = new_out(r);
        let number = calls::compare(pool, rows, &mut out);
        tally.count("compare", number);
        judge::compared(checked, number, &out, pool, rows).map_err(|what| format!("expression rows {rows:?}: {what}"))?;
    }
    Ok(())
}

/// A string row of the pool, there or not.
fn hand_out_string(pool: &Pool, accepted: bool, r: &mut Random, tally: &mut Tally) -> Result<(), String> {
    let row = r.below(pool.count(Table::Strings).min(65_536) as usize + 2) as u32;
    let row = mutate::number(r, row);
    let mut out = new_out(r);
    let number = calls::hand_out(pool, Given::default(), (1, row), &mut out);
    tally.count("hand out a string", number);
    let pair = pool.row(Table::Strings, row.into()).filter(|_| accepted).map(|pair| [pair[0], pair[1]]);
    judge::handed_out(number, &out, pair, &pool.bytes).map_err(|what| format!("string row {row}: {what}"))
}

/// A row of a document, there or not, a text or not.
fn hand_out_text(given: Given<'_>, accepted: bool, r: &mut Random, tally: &mut Tally) -> Result<(), String> {
    let row = r.below(given.rows.len() / 7 + 2) as u32;
    let row = mutate::number(r, row);
    let mut out = new_out(r);
    let number = calls::hand_out(&Pool::default(), given, (0, row), &mut out);
    tally.count("hand out a text", number);
    let words = given.rows.chunks_exact(7).nth(row as usize).filter(|words| accepted && u64::from(row) < given.row_count && words[0] == 0);
    judge::handed_out(number, &out, words.map(|words| [words[1], words[2]]), given.text).map_err(|what| format!("document row {row}: {what}"))
}

/// A recorded print of a row of this table, or one of any row.
fn ask(entry: &Entry, table: Table, r: &mut Random) -> Ask {
    let of_table = |ask: &&Ask| matches!(ask.root, Root::Expr(_)) == (table == Table::Exprs);
    let asks: Vec<&Ask> = entry.asks.iter().filter(of_table).collect();
    if !asks.is_empty() {
        return **r.pick(&asks);
    }
    let row = r.below(entry.pool.count(table) as usize) as u32;
    let root = if table == Table::Exprs { Root::Expr(row) } else { Root::Declar(row) };
    Ask { root, sizes: Sizes { indent: 2, width: r.below(120) as u32 }, lengths: [4_000, 600, 900] }
}

fn check(pool: &Pool, r: &mut Random, tally: &mut Tally) -> Result<(u32, u64), String> {
    let mut out = new_out(r);
    let number = calls::check(pool, &mut out);
    tally.count("check", number);
    judge::out(number, &out)?;
    judge::checked(number, pool)?;
    let mut again = long_out();
    need(calls::check(pool, &mut again) == number, "check depends on the length of out")?;
    Ok((number, again.seen()[1]))
}

fn print(
    pool: &Pool,
    root: Root,
    (indent, width): (u32, u32),
    areas: &mut Areas,
    checked: (u32, u64),
    r: &mut Random,
    tally: &mut Tally,
) -> Result<(), String> {
    let mut out = new_out(r);
    let number = calls::print(pool, root, (indent, width), areas, &mut out);
    tally.count(if matches!(root, Root::Expr(_)) { "print expression" } else { "print declaration" }, number);
    judge::out(number, &out)?;
    if out.seen().len() < 8 {
        // nothing more was said than the number
        return judge::print_number((checked.0, 0), (number, 0), pool, root, indent, width);
    }
    let answer = (number, out.seen()[1]);
    judge::print_number(checked, answer, pool, root, indent, width)?;
    judge::print_areas(number, out.seen(), areas, width)?;
    judge::full_areas(answer, areas)?;
    if number == 0 || number == 22 {
        laid_out_again(number, out.seen(), areas, width)
    } else {
        Ok(())
    }
}

/// The document that a print left is accepted by layout, and gives the same listing and counts, or after 22 a longer one.
fn laid_out_again(number: u32, counts: &[u64], areas: &Areas, width: u32) -> Result<(), String> {
    let (rows, text, listing) = (areas.rows.seen(), areas.text.seen(), areas.listing.seen());
    // a row's subtree has at least the row itself, and what lies past the document is zero
    let row_count = rows.chunks_exact(7).take_while(|row| row[3] != 0).count() as u64;
    let texts = rows.chunks_exact(7).take(row_count as usize).filter(|row| row[0] == 0);
    let text_count = texts.map(|row| u64::from(row[2])).sum::<u64>();
    let given = Given { rows, row_count, text, text_count };
    let mut length = if number == 0 { counts[4] as usize } else { 2 * listing.len() + 1000 };
    loop {
        let mut again = judge::bytes(length);
        match tilusorgu::calls::layout(given, width, again.area()) {
            Err(refusal) if refusal.number == 22 && number == 22 => length *= 4,
            Err(refusal) => return Err(format!("the document left by a print: {refusal}")),
            Ok(laid) if number == 22 => {
                need(laid.listing_length > listing.len() as u64, "22, though the listing fits its area")?;
                return need(again.seen()[..listing.len()] == *listing, "22 left other bytes than the listing's first");
            }
            Ok(laid) => {
                let same = [laid.document_rows, laid.text_bytes, laid.listing_length, laid.lines, laid.longest_row, laid.fit_tests] == counts[2..8];
                need(same, "layout of the document has other counts than its print")?;
                return need(again.seen() == &listing[..length], "layout of the document gives another listing than its print");
            }
        }
    }
}

/// A damaged document.
fn layout_call(stock: &Stock, r: &mut Random, tally: &mut Tally) -> Result<(), String> {
    let document = r.pick(&stock.documents);
    let (mut rows, mut text) = (document.rows.clone(), document.text.clone());
    if !r.one_in(6) {
        for _ in 0..1 + r.below(2) {
            if r.one_in(4) {
                mutate::bytes(r, &mut text)
            } else {
                mutate::words(r, &mut rows)
            }
        }
    }
    let row_count = if r.one_in(20) { r.next() >> r.below(64) } else { document.rows.len() as u64 / 7 };
    let text_count = if r.one_in(20) { r.next() >> r.below(64) } else { document.text.len() as u64 };
    let given = Given { rows: &rows, row_count, text: &text, text_count };
    let (width, length) = (mutate::number(r, document.width), mutate::length(r, 2 * document.text.len(), 1 << 17));
    let (mut listing, mut out) = (judge::bytes(length), new_out(r));
    let number = calls::layout(given, width, &mut listing, &mut out);
    tally.count("layout", number);
    judge::out(number, &out)?;
    need(listing.intact(), "layout: a guard was written")?;
    hand_out_text(given, number != 9, r, tally)?;
    layout_pending(given, width, (number, &out, &listing), r, tally)?;
    match number {
        6 | 9 => need(listing.untouched_from(0), "layout: 6 or 9 wrote the listing area"),
        0 if out.seen().len() >= 8 => {
            judge::listed(out.seen(), listing.seen(), (&rows, &text), width)?;
            need(listing.untouched_from(out.seen()[4] as usize), "layout: the listing area was written past the listing")
        }
        0 | 22 => Ok(()),
        _ => Err(format!("layout is never refused {number}")),
    }
}

/// The same with a pending area, mostly just long enough: the other layout's answer and listing, or 30.
fn layout_pending(
    given: Given<'_>,
    width: u32,
    (first, first_out, first_listing): (u32, &Guarded<u64>, &Guarded<u8>),
    r: &mut Random,
    tally: &mut Tally,
) -> Result<(), String> {
    let needed = judge::pending_words(given.row_count);
    let words = match r.below(6) {
        0 => needed.saturating_sub(1),
        1 => mutate::length(r, needed, 3 * 16_384),
        _ => needed,
    };
    let (mut pending, mut listing, mut out) = (judge::words(words), judge::bytes(first_listing.seen().len()), new_out(r));
    let number = calls::layout_pending(given, width, &mut pending, &mut listing, &mut out);
    tally.count("layout, pending", number);
    judge::out(number, &out)?;
    judge::pending_areas(number, &pending, &listing)?;
    need(
        number == judge::pending_number(first, given.row_count, words),
        "layout, pending: another number than the other layout's, or 30 in the wrong place",
    )?;
    if number == 30 {
        return Ok(());
    }
    let (seen, first_seen) = (out.seen(), first_out.seen());
    need(
        seen.len() < 8 || first_seen.len() < 8 || seen[..8] == first_seen[..8],
        "layout, pending: another place or other counts than the other layout's",
    )?;
    need(listing.seen() == first_listing.seen(), "layout, pending: another listing than the other layout's")
}
