//! Damage to words, bytes, pools and lengths.
use crate::random::Random;
use tilusorgu::{Pool, Table};

/// Counts of a pool's head.
const HEAD: usize = Table::ALL.len();
/// Numbers at the edges of document 01's limits.
const EDGES: [u32; 21] = [0, 1, 2, 3, 7, 8, 63, 64, 65, 255, 256, 257, 1023, 1024, 4095, 4096, 65534, 65535, 65536, 0x7fff_ffff, u32::MAX];

fn word(r: &mut Random, words: &[u32], at: usize) -> u32 {
    match r.below(7) {
        0 => words[at].wrapping_add(1),
        1 => words[at].wrapping_sub(1),
        2 => r.below(10) as u32,
        3 => words[r.below(words.len())],
        4 => words[at] ^ 1 << r.below(32),
        5 => r.next() as u32,
        _ => *r.pick(&EDGES),
    }
}

/// One change to words: one replaced or swapped, rarely one more or fewer.
pub fn words(r: &mut Random, words: &mut Vec<u32>) {
    if words.is_empty() || r.one_in(30) {
        let at = r.below(words.len() + 1);
        return words.insert(at, r.below(9) as u32);
    }
    let at = r.below(words.len());
    match r.below(20) {
        0 => words.truncate(at),
        1 => drop(words.remove(at)),
        2 => {
            let other = r.below(words.len());
            words.swap(at, other);
        }
        _ => words[at] = word(r, words, at),
    }
}

/// One change to bytes: to a letter, a digit, a byte of a longer character, or anything.
pub fn bytes(r: &mut Random, bytes: &mut Vec<u8>) {
    if bytes.is_empty() || r.one_in(20) {
        let at = r.below(bytes.len() + 1);
        return bytes.insert(at, b'a');
    }
    let at = r.below(bytes.len());
    match r.below(8) {
        0 => drop(bytes.remove(at)),
        1 | 2 => bytes[at] = *r.pick(b"0z_.\"\n ()"),
        3 => bytes[at] = *r.pick(&[0x80, 0xbf, 0xc0, 0xc3, 0xce, 0xe2, 0xed, 0xf0, 0xf4, 0xff]),
        4 => bytes[at] = r.next() as u8,
        _ => bytes[at] = b'a' + r.below(26) as u8,
    }
}

/// One row more in a table, a copy of one with a word changed, or the last one taken away: the total remains right.
fn rows(r: &mut Random, pool: &mut Pool) {
    let table = *r.pick(&Table::ALL);
    let count = pool.count(table) as usize;
    if count == 0 {
        return;
    }
    let (row, size) = (r.below(count) as u64, table.row_words());
    let Some(mut copy) = pool.row(table, row).map(<[u32]>::to_vec) else {
        return;
    };
    let start: usize = HEAD + Table::ALL[..table as usize].iter().map(|&t| pool.count(t) as usize * t.row_words()).sum::<usize>();
    let end = start + count * size;
    // the words may have been cut already
    if end > pool.words.len() {
        return;
    }
    if r.one_in(4) {
        pool.words.drain(end - size..end);
        pool.words[table as usize] -= 1;
    } else {
        let at = r.below(size);
        copy[at] = word(r, &copy, at);
        pool.words.splice(end..end, copy);
        pool.words[table as usize] += 1;
    }
}

/// Notation rows more, mostly right ones, of names and strings that the pool has: any of its constants may become an operator.
fn notation(r: &mut Random, pool: &mut Pool) {
    let [names, strings] = [Table::Names, Table::Strings].map(|table| pool.count(table).min(65_536) as usize);
    for _ in 0..1 + r.below(4) {
        let priority = *r.pick(&[1, 2, 24, 25, 26, 65, 66, 1022, 1023]);
        let mut row = [r.below(names) as u32, r.below(3) as u32, priority, r.below(strings) as u32];
        if r.one_in(60) {
            let at = r.below(4);
            row[at] = word(r, &row, at);
        }
        pool.words[Table::Notations as usize] = pool.count(Table::Notations).wrapping_add(1);
        pool.words.extend(row);
    }
}

/// Some changes to a pool, or none.
pub fn pool(r: &mut Random, pool: &mut Pool) {
    if pool.words.len() >= HEAD && r.one_in(3) {
        notation(r, pool);
    }
    if r.one_in(8) {
        return;
    }
    for _ in 0..1 + r.below(3) {
        match r.below(10) {
            0 if pool.words.len() >= HEAD => {
                let at = r.below(HEAD);
                pool.words[at] = word(r, &pool.words, at);
            }
            1..=3 => rows(r, pool),
            4..=6 => bytes(r, &mut pool.bytes),
            _ => words(r, &mut pool.words),
        }
    }
}

/// A number that may be past what it should be.
pub fn number(r: &mut Random, n: u32) -> u32 {
    match r.below(40) {
        0 => *r.pick(&EDGES),
        1 => r.next() as u32,
        2..=9 => r.below(70) as u32,
        _ => n,
    }
}

/// The length of an area: what is needed, near it, less, none, or a lot.
pub fn length(r: &mut Random, needed: usize, most: usize) -> usize {
    match r.below(16) {
        0 => needed.saturating_sub(1 + r.below(9)),
        1 => r.below(needed + 1),
        2 => r.below(9),
        3 if r.one_in(4) => most,
        4..=6 => needed + r.below(50),
        7..=11 => 2 * needed + 400,
        _ => needed,
    }
}
