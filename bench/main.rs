//! Benchmarks of check and layout: see README.md. Prints Markdown tables.
mod common;

use common::{best, in_thread, micros};
use std::hint::black_box;
use std::io::Write;
use std::time::Duration;

extern "C" {
    fn tilusorgu_check(bytes: *const u8, byte_count: usize, words: *const u32, word_count: usize, out: *mut u64, out_count: usize) -> u32;
    fn tilusorgu_layout(
        rows: *const u32,
        row_words: usize,
        count: u64,
        text: *const u8,
        text_bytes: usize,
        total: u64,
        width: u32,
        listing: *mut u8,
        listing_bytes: usize,
        out: *mut u64,
        out_count: usize,
    ) -> u32;
    fn tilusorgu_layout_pending(
        rows: *const u32,
        row_words: usize,
        count: u64,
        text: *const u8,
        text_bytes: usize,
        total: u64,
        width: u32,
        pending: *mut u32,
        pending_words: usize,
        listing: *mut u8,
        listing_bytes: usize,
        out: *mut u64,
        out_count: usize,
    ) -> u32;
}

/// The refusal number and the eight words.
fn check(p: &Pool) -> (u32, [u64; 8]) {
    let mut out = [u64::MAX; 8];
    let n = unsafe { tilusorgu_check(p.bytes.as_ptr(), p.bytes.len(), p.words.as_ptr(), p.words.len(), out.as_mut_ptr(), 8) };
    assert!(n as u64 == out[0]);
    (n, out)
}

fn layout(d: &Doc, width: u32, listing: &mut [u8]) -> (u32, [u64; 8]) {
    let mut out = [u64::MAX; 8];
    let n = unsafe {
        tilusorgu_layout(
            d.rows.as_ptr(),
            d.rows.len(),
            (d.rows.len() / 7) as u64,
            d.text.as_ptr(),
            d.text.len(),
            d.text.len() as u64,
            width,
            listing.as_mut_ptr(),
            listing.len(),
            out.as_mut_ptr(),
            8,
        )
    };
    assert!(n as u64 == out[0]);
    (n, out)
}

/// The layout with a pending area.
fn layout_pending(d: &Doc, width: u32, pending: &mut [u32], listing: &mut [u8]) -> (u32, [u64; 8]) {
    let mut out = [u64::MAX; 8];
    let n = unsafe {
        tilusorgu_layout_pending(
            d.rows.as_ptr(),
            d.rows.len(),
            (d.rows.len() / 7) as u64,
            d.text.as_ptr(),
            d.text.len(),
            d.text.len() as u64,
            width,
            pending.as_mut_ptr(),
            pending.len(),
            listing.as_mut_ptr(),
            listing.len(),
            out.as_mut_ptr(),
            8,
        )
    };
    assert!(n as u64 == out[0]);
    (n, out)
}

// ---- pools

struct Pool {
    bytes: Vec<u8>,
    words: Vec<u32>,
}

/// The string of row i: 256 bytes of characters of one to four bytes, or of digits.
fn string(i: usize) -> Vec<u8> {
    let mut s = String::new();
    let c = match i % 8 {
        7 => return (0..256).map(|k| b'1' + ((i + k) % 9) as u8).collect(),
        1 => 'α',
        3 => '→',
        5 => '𝔸',
        _ => 'n',
    };
    while s.len() + c.len_utf8() <= 256 {
        s.push(c)
    }
    while s.len() < 256 {
        s.push('.')
    }
    s.into_bytes()
}

/// Counts of a pool's head.
const HEAD: usize = 8;

/// An accepted pool with n rows in each table but for the notation, chains of the greatest depth, every kind, and strings that share no
/// byte and fill the area.
fn pool(n: usize) -> Pool {
    let mut bytes = Vec::new();
    let mut w = vec![n as u32; HEAD];
    w[7] = 0;
    for i in 0..n {
        w.extend([bytes.len() as u32, 256]);
        bytes.extend(string(i));
    }
    for i in 0..n {
        let up = i.wrapping_sub(1) as u32;
        w.extend(match i % 64 {
            0 => [0, 0, 0, 0],
            k if k % 5 == 4 => [2, up, i as u32, k as u32],
            _ => [1, up, (i * 31 % n) as u32, 0],
        });
    }
    for i in 0..n {
        let (k, up) = (i % 64, i.wrapping_sub(1) as u32);
        let other = (i - k + k / 2) as u32;
        w.extend(match (k, k % 3) {
            (0, _) if i % 128 == 0 => [0, 0, 0],
            (0, _) => [4, (i * 17 % n) as u32, 0],
            (_, 0) => [1, up, 0],
            (_, 1) => [2, up, other],
            _ => [3, other, up],
        });
    }
    for i in 0..n {
        w.extend([i as u32, 1]);
    }
    for i in 0..n {
        w.push((i * 13 % n) as u32);
    }
    let (mut depth, mut loose) = (vec![0u32; n], vec![0u32; n]);
    for i in 0..n {
        let k = i % 256;
        let a = i.wrapping_sub(1);
        let b = i - k + k / 2;
        let m = |x: usize, y: usize| x.max(y);
        let (name, r): (u32, [u32; 6]) = ((i * 7 % n) as u32, [0; 6]);
        let mut r = r;
        let (d, l);
        let kind = if k < 4 { [0, 1, 2, 9][k] } else { [3, 4, 5, 6, 7, 8, 0, 1, 2, 3, 4, 5][i % 12] };
        r[0] = kind;
        match kind {
            0 => {
                r[1] = (i % 16) as u32;
                (d, l) = (1, r[1] + 1);
            }
            1 => {
                r[1] = (i * 3 % n) as u32;
                (d, l) = (1, 0);
            }
            2 => {
                (r[1], r[2]) = (name, (i * 5 % n) as u32);
                (d, l) = (1, 0);
            }
            3 => {
                (r[1], r[2]) = (a as u32, b as u32);
                (d, l) = (1 + depth[a].max(depth[b]), loose[a].max(loose[b]));
            }
            4 | 5 => {
                (r[1], r[2], r[3], r[4]) = (name, (i % 4) as u32, b as u32, a as u32);
                (d, l) = (1 + depth[a].max(depth[b]), loose[b].max(loose[a].saturating_sub(1)));
            }
            6 => {
                let c = m(i - k, b - (b > i - k) as usize);
                (r[1], r[2], r[3], r[4], r[5]) = (name, b as u32, c as u32, a as u32, (i % 2) as u32);
                (d, l) = (1 + depth[a].max(depth[b]).max(depth[c]), loose[b].max(loose[c]).max(loose[a].saturating_sub(1)));
            }
            7 => {
                (r[1], r[2], r[3]) = (name, i as u32, a as u32);
                (d, l) = (1 + depth[a], loose[a]);
            }
            8 => {
                r[1] = (i * 8 % (n / 8 * 8) + 7) as u32;
                (d, l) = (1, 0);
            }
            _ => {
                r[1] = (i * 11 % n) as u32;
                (d, l) = (1, 0);
            }
        }
        (depth[i], loose[i]) = (d, l);
        w.extend(r);
        w.extend([d, l]);
    }
    for i in 0..n {
        let kind = (i % 8) as u32;
        let value = if (2..=4).contains(&kind) { (i * 23 % n) as u32 } else { 0 };
        w.extend([kind, (i * 29 % n) as u32, (i * 3 % n) as u32, (i * 19 % n) as u32, value]);
    }
    Pool { bytes, words: w }
}

/// A pool of strings, and of a natural for each string row that is named.
fn overlapping(bytes: Vec<u8>, strings: impl Iterator<Item = (u32, u32)>, naturals: impl Iterator<Item = u32>) -> Pool {
    let mut words = vec![0; HEAD];
    for (offset, length) in strings {
        words[0] += 1;
        words.extend([offset, length]);
    }
    for row in naturals {
        words[5] += 1;
        words.extend([8, row, 0, 0, 0, 0, 1, 0]);
    }
    Pool { bytes, words }
}

/// Pools whose strings have bytes in common.
fn overlaps() -> [(&'static str, Pool); 5] {
    const AREA: u32 = 1 << 24;
    let (letters, digits) = (|| "𝔸".repeat(AREA as usize / 4).into_bytes(), || vec![b'7'; AREA as usize]);
    let whole = |n| std::iter::repeat((0, AREA)).take(n);
    [
        ("2,048 strings, each the whole area", overlapping(letters(), whole(2048), 0..0)),
        ("65,536 strings, each the whole area", overlapping(letters(), whole(65536), 0..0)),
        ("65,536 strings, in turn from a byte to the end of the area and 4 bytes", overlapping(letters(), (0..65536).map(|i| (i / 2 * 4, if i % 2 == 0 { AREA - i / 2 * 4 } else { 4 })), 0..0)),
        ("2,048 naturals, all of one string that is the whole area", overlapping(digits(), whole(1), std::iter::repeat(0).take(2048))),
        ("65,536 naturals of as many strings, each from another byte to the end of the area", overlapping(digits(), (0..65536).map(|i| (i, AREA - i)), (0..65536).rev())),
    ]
}

/// A pool of strings and of names, and of an operator of each name, in another order; and the same without operators.
fn operators(bytes: Vec<u8>, strings: impl Iterator<Item = (u32, u32)>, names: impl Iterator<Item = [u32; 4]>) -> (Pool, Pool) {
    let mut words = vec![0; HEAD];
    for (offset, length) in strings {
        words[0] += 1;
        words.extend([offset, length]);
    }
    for name in names {
        words[1] += 1;
        words.extend(name);
    }
    let without = Pool { bytes: bytes.clone(), words: words.clone() };
    let (strings, names) = (words[0], words[1]);
    words[7] = names;
    words.extend((0..names).flat_map(|i| [i.wrapping_mul(40_503) % names, i % 3, 1 + i % 1023, i % strings]));
    (Pool { bytes, words }, without)
}

/// Pools with 65,536 operators, and the same without them.
fn notations() -> [(&'static str, (Pool, Pool)); 5] {
    const COUNT: u32 = 65_536;
    let eights = || (0..COUNT - 1).flat_map(|i| format!("n{i:07}").into_bytes()).collect::<Vec<u8>>();
    let each = || (0..COUNT).map(|i| if i == 0 { [0; 4] } else { [1, 0, i - 1, 0] });
    let pairs = |step: u32, length: u32| (0..COUNT - 1).map(move |i| (step * i, length));
    // letters and digits in no order, so that parts from different places differ
    let next = |state: &mut u32| {
        *state = state.wrapping_mul(1_664_525).wrapping_add(1_013_904_223);
        Some(b"abcdefghijklmnopqrstuvwxyz012345"[(*state >> 27) as usize])
    };
    let mixed = || (0..1 << 24).scan(1, |state, _| next(state)).collect::<Vec<u8>>();
    let numbers = (0..COUNT).map(|i| if i == 0 { [0; 4] } else { [2, 0, i, 0] });
    // chains of rows, each with a component more than the row before; a chain begins with a number of its own
    let chains = (0..COUNT).map(|i| match i {
        0 => [0; 4],
        i if i % 63 == 1 => [2, 0, i, 0],
        i => [1, i - 1, i % 5, 0],
    });
    [
        ("names of one component, strings of 8 bytes", operators(eights(), pairs(8, 8), each())),
        ("names of one component, numbers", operators(eights(), pairs(8, 8), numbers)),
        ("names of 1 to 63 components", operators(eights(), pairs(8, 8), chains)),
        ("names of one component, strings of 16,384 bytes that begin a byte later each", operators(mixed(), pairs(1, 16_384), each())),
        ("names of one component, strings of 8 MiB that begin a byte later each", operators(mixed(), pairs(1, 1 << 23), each())),
    ]
}

/// The smallest pool, and that of `axiom k : @C`.
fn smallest() -> [(&'static str, Pool); 2] {
    let axiom = [
        [2, 3, 0, 1, 0, 1, 1, 0].as_slice(),
        &[0, 1, 1, 1],
        &[0, 0, 0, 0, 1, 0, 0, 0, 1, 0, 1, 0],
        &[0, 0],
        &[2, 2, 0, 0, 0, 0, 1, 0],
        &[0, 1, 0, 0, 0],
    ];
    [("no row at all", Pool { bytes: Vec::new(), words: vec![0; HEAD] }), ("`axiom k : @C`", Pool { bytes: b"kC".to_vec(), words: axiom.concat() })]
}

/// The sum of all bytes and all words: one pass over the same memory.
#[inline(never)]
fn pass(p: &Pool) -> u64 {
    let a: u64 = p.bytes.iter().map(|&b| b as u64).sum();
    let b: u64 = p.words.iter().map(|&w| w as u64).sum();
    a.wrapping_add(b)
}

// ---- documents

/// kind, two fields, subtree rows, flat size, distance to the first break, has-break
type Row = [u32; 7];

#[derive(Default)]
struct Doc {
    rows: Vec<u32>,
    text: Vec<u8>,
    open: Vec<Row>,
}

impl Doc {
    fn push(&mut self, r: Row) {
        self.rows.extend(r);
        self.open.push(r);
    }
    fn text(&mut self, s: &[u8]) {
        let n = s.len() as u32;
        self.push([0, self.text.len() as u32, n, 1, n, n, 0]);
        self.text.extend(s);
    }
    fn line(&mut self, blank: u32) {
        self.push([2, blank, 0, 1, blank, 0, 1]);
    }
    fn join(&mut self) {
        let (b, a) = (self.open.pop().unwrap(), self.open.pop().unwrap());
        let first = if a[6] != 0 { a[5] } else { a[5] + b[5] };
        self.push([1, 0, 0, 1 + a[3] + b[3], a[4] + b[4], first, a[6] | b[6]]);
    }
    fn wrap(&mut self, kind: u32, amount: u32) {
        let a = self.open.pop().unwrap();
        self.push([kind, amount, 0, 1 + a[3], a[4], a[5], a[6]]);
    }
    fn group(&mut self) {
        self.wrap(4, 0)
    }
    fn nest(&mut self, n: u32) {
        self.wrap(3, n)
    }
    fn count(&self) -> usize {
        self.rows.len() / 7
    }
}

/// Words tiled: the first, then for each a group of a blank break and the word; all of it nested and grouped.
fn words(rows: usize) -> Doc {
    let mut d = Doc::default();
    d.text(b"word");
    let mut i = 0;
    while d.count() + 5 + 2 <= rows {
        d.line(1);
        d.text(&b"abcdefghij"[..3 + i % 7]);
        d.join();
        d.group();
        d.join();
        i += 1;
    }
    d.nest(2);
    d.group();
    d
}

/// Groups round one text of 100 bytes.
fn groups(rows: usize) -> Doc {
    let mut d = Doc::default();
    d.text(&[b'x'; 100]);
    while d.count() < rows {
        d.group();
    }
    d
}

/// Groups of a text, a blank break and the rest, one in the other.
fn nested(rows: usize) -> Doc {
    let n = (rows - 1) / 5;
    let mut d = Doc::default();
    d.text(b"end");
    for _ in 0..n {
        d.line(1);
        d.text(b"w");
        d.join();
        d.join();
        d.group();
    }
    d
}

/// A right comb of texts whose last child is a left comb of as many texts, with one break at its far end.
fn combs(rows: usize) -> Doc {
    let m = (rows - 2) / 4;
    let mut d = Doc::default();
    for _ in 0..m {
        d.text(b"a");
    }
    d.line(1);
    for _ in 0..m {
        d.text(b"b");
        d.join();
    }
    for _ in 0..m {
        d.join();
    }
    d.group();
    d
}

fn left_comb(rows: usize) -> Doc {
    let mut d = Doc::default();
    d.line(1);
    while d.count() + 3 <= rows {
        d.text(b"a");
        d.join();
    }
    d.group();
    d
}

fn right_comb(rows: usize) -> Doc {
    let m = rows / 2;
    let mut d = Doc::default();
    for _ in 0..m {
        d.text(b"a");
    }
    for _ in 1..m {
        d.join();
    }
    d.group();
    d
}

// ---- the published Rust's render

/// The best of its times, and its listing; nothing if it does not answer in time.
fn render(oracle: &str, d: &Doc, width: u32, runs: usize, timeout: u64) -> Option<(Duration, Vec<u8>)> {
    let path = std::env::temp_dir().join(format!("tilusorgu-bench-{}", std::process::id()));
    let mut f = std::fs::File::create(&path).unwrap();
    let mut q = b"PLQ1".to_vec();
    for w in [2, 0, 0, width, d.text.len() as u32] {
        q.extend(w.to_le_bytes());
    }
    q.extend(&d.text);
    q.extend((d.rows.len() as u32).to_le_bytes());
    q.extend(d.rows.iter().flat_map(|w| w.to_le_bytes()));
    for _ in 0..runs {
        f.write_all(&q).unwrap();
    }
    drop(f);
    let done = std::process::Command::new(oracle)
        .arg(&path)
        .env("ORACLE_RENDER_TIME", "1")
        .env("ORACLE_TIMEOUT_MS", timeout.to_string())
        .output()
        .expect("the harness runs");
    std::fs::remove_file(&path).unwrap();
    let u = |p: usize| u32::from_le_bytes(done.stdout[p..p + 4].try_into().unwrap());
    if u(0) != 0 {
        return None;
    }
    let listing = done.stdout[12..12 + u(8) as usize].to_vec();
    let times = String::from_utf8(done.stderr).unwrap();
    let nanos = times.lines().filter_map(|l| l.strip_prefix("render ")?.parse::<u64>().ok()).min()?;
    Some((Duration::from_nanos(nanos), listing))
}

// ---- the machine's stack

const PAINT: u8 = 0xa5;

/// How much of the stack a task uses: what lies below is painted first, and what changed is looked for afterwards.
#[inline(never)]
fn stack_of(task: &mut dyn FnMut()) -> usize {
    let mark = 0u8;
    let here = std::ptr::addr_of!(mark) as usize;
    let (low, high) = (here - (48 << 20), here - 4096);
    for a in low..high {
        unsafe { (a as *mut u8).write_volatile(PAINT) }
    }
    task();
    let mut a = low;
    while a < high && unsafe { (a as *const u8).read_volatile() } == PAINT {
        a += 1;
    }
    here - a
}

const TASKS: [&str; 10] = [
    "check, full pool",
    "layout, left comb",
    "layout, right comb",
    "layout, chain of groups",
    "layout, nested groups",
    "layout with a pending area, left comb",
    "layout with a pending area, right comb",
    "layout with a pending area, chain of groups",
    "layout with a pending area, nested groups",
    "check, 65,536 operators",
];

fn task(i: usize) -> Box<dyn FnMut() + Send> {
    if i == 0 {
        let p = pool(65536);
        return Box::new(move || assert!(check(&p).0 == 0));
    }
    if i == 9 {
        let [(_, (p, _)), ..] = notations();
        return Box::new(move || assert!(check(&p).0 == 0));
    }
    let d = [left_comb, right_comb, groups, nested][(i - 1) % 4](16384);
    let mut listing = vec![0u8; 1 << 20];
    if i <= 4 {
        return Box::new(move || assert!(layout(&d, 0, &mut listing).0 == 0));
    }
    let mut pending = vec![0u32; 3 * d.count()];
    Box::new(move || assert!(layout_pending(&d, 0, &mut pending, &mut listing).0 == 0))
}

/// Whether a task passes in a thread with a stack of so many bytes: a process of its own, which an overflow kills.
fn passes(i: usize, stack: usize) -> bool {
    let me = std::env::current_exe().unwrap();
    let done = std::process::Command::new(me).args(["--stack", &i.to_string(), &stack.to_string()]).output().unwrap();
    done.status.success()
}

/// What the interface says of refusals, of the eight words and of an `out` that is shorter.
fn interface() {
    let p = |words: Vec<u32>| Pool { bytes: Vec::new(), words };
    assert!(check(&p(vec![])) == (1, [1, 0, 0, 0, 0, 0, 0, 0]));
    assert!(check(&p(vec![0, 2, 0, 0, 0, 0, 0, 0, 0, 0, 0, 0, 3, 0, 0, 0])) == (4, [4, 1, 0, 0, 0, 0, 0, 0]));
    // an operator without a string
    assert!(check(&p(vec![0, 1, 0, 0, 0, 0, 0, 1, 0, 0, 0, 0, 0, 0, 1, 0])) == (31, [31, 0, 0, 0, 0, 0, 0, 0]));
    let mut short = [7u64; 7];
    assert!(unsafe { tilusorgu_check([].as_ptr(), 0, [].as_ptr(), 0, short.as_mut_ptr(), 7) } == 1 && short == [7; 7]);
    let mut listing = [0u8; 8];
    assert!(layout(&Doc::default(), 80, &mut listing) == (9, [9, 0, 0, 0, 0, 0, 0, 0]));
    let mut d = Doc::default();
    for s in [b"ab", b"cd"] {
        d.text(s);
        d.line(1);
        d.join();
    }
    d.join();
    d.group();
    assert!(layout(&d, 65536, &mut listing) == (6, [6, 0, 0, 0, 0, 0, 0, 0]));
    assert!(layout(&d, 6, &mut listing) == (0, [0, 0, 8, 4, 6, 1, 6, 1]) && &listing[..6] == b"ab cd ");
    assert!(layout(&d, 5, &mut listing) == (0, [0, 0, 8, 4, 6, 3, 2, 1]) && &listing[..6] == b"ab\ncd\n");
    assert!(layout(&d, 5, &mut listing[..5]) == (22, [22, 0, 0, 0, 0, 0, 0, 0]));
    let mut pending = [7u32; 25];
    assert!(layout_pending(&d, 65536, &mut pending[..23], &mut listing) == (6, [6, 0, 0, 0, 0, 0, 0, 0]));
    assert!(layout_pending(&d, 5, &mut pending[..23], &mut listing) == (30, [30, 0, 0, 0, 0, 0, 0, 0]) && pending == [7; 25]);
    assert!(layout_pending(&d, 5, &mut pending, &mut listing[..5]) == (22, [22, 0, 0, 0, 0, 0, 0, 0]) && pending == [0; 25]);
    assert!(layout_pending(&d, 6, &mut pending[..24], &mut listing) == (0, [0, 0, 8, 4, 6, 1, 6, 1]) && &listing[..6] == b"ab cd ");
}

fn main() {
    let args: Vec<String> = std::env::args().collect();
    if args.len() == 4 && args[1] == "--stack" {
        let mut t = task(args[2].parse().unwrap());
        in_thread(args[3].parse().unwrap(), move || t());
        return;
    }

    interface();
    println!("## Check\n");
    println!("Accepted pools without notation rows, so many rows in each other table and 256 bytes for each string row; against one pass (the sum of all bytes and words).\n");
    println!("| rows in each table | bytes | words | check, µs | one pass, µs | ratio | check, ns a row of all tables |");
    println!("|---|---|---|---|---|---|---|");
    for n in [1000, 4096, 16384, 65536] {
        let p = pool(n);
        let (number, out) = check(&p);
        assert!(number == 0, "refused {} at {}", out[0], out[1]);
        let budget = Duration::from_millis(1500);
        let (mut ours, mut once) = (Duration::MAX, Duration::MAX);
        for _ in 0..if n < 65536 { 2 } else { 6 } {
            ours = ours.min(best(5, budget, || {
                black_box(check(black_box(&p)));
            }));
            once = once.min(best(5, budget / 5, || {
                black_box(pass(black_box(&p)));
            }));
        }
        println!(
            "| {} | {} | {} | {:.0} | {:.0} | {:.1} | {:.1} |",
            n,
            p.bytes.len(),
            p.words.len(),
            micros(ours),
            micros(once),
            ours.as_secs_f64() / once.as_secs_f64(),
            ours.as_secs_f64() * 1e9 / (7 * n) as f64
        );
    }
    println!("\nStrings that overlap, in a byte area of 16,777,216 bytes.\n");
    println!("| pool | words | check, µs | one pass, µs | ratio |");
    println!("|---|---|---|---|---|");
    for (name, p) in overlaps() {
        assert!(check(&p).0 == 0);
        let ours = best(3, Duration::from_millis(500), || { black_box(check(black_box(&p))); });
        let once = best(3, Duration::from_millis(200), || { black_box(pass(black_box(&p))); });
        println!("| {} | {} | {:.0} | {:.0} | {:.1} |", name, p.words.len(), micros(ours), micros(once), ours.as_secs_f64() / once.as_secs_f64());
    }
    println!("\nPools with 65,536 notation rows, each of another name, against the same pools without them.\n");
    println!("| pool | check, µs | without notation rows, µs | difference, ns a notation row |");
    println!("|---|---|---|---|");
    for (name, (p, without)) in notations() {
        assert!(check(&p).0 == 0 && check(&without).0 == 0, "{name}");
        let time = |p: &Pool| best(3, Duration::from_millis(500), || { black_box(check(black_box(p))); });
        let (ours, bare) = (time(&p), time(&without));
        println!("| {} | {:.0} | {:.0} | {:.0} |", name, micros(ours), micros(bare), (micros(ours) - micros(bare)) * 1e3 / 65536.0);
    }
    println!("\nThe smallest pools, the mean of 1,000 calls.\n");
    println!("| pool | check, ns |");
    println!("|---|---|");
    for (name, p) in smallest() {
        assert!(check(&p).0 == 0);
        let ours = best(20, Duration::from_millis(200), || {
            for _ in 0..1000 {
                black_box(check(black_box(&p)));
            }
        });
        println!("| {} | {:.0} |", name, micros(ours));
    }

    let (mut listing, mut pending, mut again) = (vec![0u8; 1 << 24], vec![0u32; 3 * 16384], vec![0u8; 1 << 24]);
    println!("\n## Layout\n");
    println!("By calls, and with a pending area just long enough, whose clearing is in the time; both give the same listing and counts.\n");
    match args.get(1) {
        None => println!("(no harness: the published Rust is left out)\n"),
        Some(_) => println!("Against the published Rust's `render`; its time is `render` alone, ours have the check of the document in them. All are processor time, and all listings are the same.\n"),
    }
    println!("| document | rows | width | listing bytes | fit tests | by calls, µs | pending, µs | pending / by calls | the Rust, µs | by calls / the Rust | pending / the Rust |");
    println!("|---|---|---|---|---|---|---|---|---|---|---|");
    let cases: [(&str, fn(usize) -> Doc, usize, usize, u64); 7] = [
        ("words tiled", words, 16384, 50, 20000),
        ("groups round a text", groups, 16384, 3, 20000),
        ("groups nested", nested, 16384, 2, 20000),
        ("right comb over left comb", combs, 1024, 5, 20000),
        ("right comb over left comb", combs, 2048, 2, 20000),
        ("right comb over left comb", combs, 4096, 1, 20000),
        ("right comb over left comb", combs, 16384, 1, 12000),
    ];
    for (name, make, rows, runs, timeout) in cases {
        let d = make(rows);
        // at the last width each document is flat, and has one fit test
        for width in [80, 0, 65535] {
            if rows >= 4096 && runs == 1 && width != 80 {
                continue;
            }
            let (number, out) = layout(&d, width, &mut listing);
            assert!(number == 0, "{}: refused {} at {}", name, out[0], out[1]);
            let (length, tests) = (out[4] as usize, out[7]);
            let pending = &mut pending[..3 * d.count()];
            assert!(layout_pending(&d, width, pending, &mut again) == (0, out), "{}: other counts", name);
            assert!(again[..length] == listing[..length], "{}: another listing with a pending area", name);
            // turn and turn about, where a turn is short
            let turns = if runs >= 50 { 10 } else { 2 };
            let (mut ours, mut loops, mut theirs) = (Duration::MAX, Duration::MAX, None);
            for turn in 0..turns {
                ours = ours.min(best(20, Duration::from_millis(100), || {
                    black_box(layout(black_box(&d), width, &mut listing));
                }));
                loops = loops.min(best(20, Duration::from_millis(100), || {
                    black_box(layout_pending(black_box(&d), width, pending, &mut again));
                }));
                if turn > 0 && runs == 1 {
                    continue;
                }
                if let Some((t, same)) = args.get(1).and_then(|o| render(o, &d, width, runs, timeout)) {
                    assert!(same == listing[..length], "{}: another listing", name);
                    theirs = Some(theirs.map_or(t, |u: Duration| u.min(t)));
                }
            }
            let ratio = |a: Duration, b: Duration| {
                let ratio = a.as_secs_f64() / b.as_secs_f64();
                if ratio < 0.01 { format!("{:.6}", ratio) } else { format!("{:.2}", ratio) }
            };
            let theirs = match theirs {
                None if args.len() < 2 => " | | ".into(),
                None => format!("no answer in {} s | | ", timeout / 1000),
                Some(t) => format!("{:.0} | {} | {}", micros(t), ratio(ours, t), ratio(loops, t)),
            };
            let times = format!("{:.0} | {:.0} | {}", micros(ours), micros(loops), ratio(loops, ours));
            println!("| {} | {} | {} | {} | {} | {} | {} |", name, d.count(), width, length, tests, times, theirs);
            std::io::stdout().flush().unwrap();
        }
    }

    println!("\n## Machine stack\n");
    println!("Full pool of the first table; documents of 16,384 rows at width 0. The least stack of a thread is to 16 KiB.\n");
    println!("| call | stack used, KiB | least stack of a thread that passes, KiB |");
    println!("|---|---|---|");
    for (i, name) in TASKS.iter().enumerate() {
        let used = in_thread(64 << 20, move || {
            let mut t = task(i);
            stack_of(&mut *t)
        });
        // the least multiple of 16 KiB that passes
        let (mut low, mut high) = (0, 1024);
        while low + 1 < high {
            let mid = (low + high) / 2;
            if passes(i, mid << 14) {
                high = mid
            } else {
                low = mid
            }
        }
        let used = if used <= 4096 { "at most 4".into() } else { format!("{:.1}", used as f64 / 1024.0) };
        println!("| {} | {} | {} |", name, used, high * 16);
    }
}
