//! Benchmarks of whole prints: see README.md. Prints Markdown tables. What is printed stands in the request files that requests.py writes.
//!
//!     prints FOLDER [ORACLE]                    all tables
//!     prints FOLDER --groups [ORACLE]           the table of groups of types alone
//!     prints FOLDER --one NAME I                prints request I of NAME.req and says its number, place and time
//!     prints FOLDER --stack NAME I BYTES        prints it in a thread with a stack of so many bytes
mod common;
mod requests;

use common::{best, in_thread, micros, now};
use requests::{read, Request};
use std::collections::BTreeMap;
use std::io::{Read, Write};
use std::path::{Path, PathBuf};
use std::process::{Command, Stdio};
use std::time::{Duration, Instant};

type Print = unsafe extern "C" fn(*const u8, usize, *const u32, usize, u32, u32, u32, *mut u32, usize, *mut u8, usize, *mut u8, usize, *mut u64, usize) -> u32;

#[rustfmt::skip]
extern "C" {
    fn tilusorgu_check(bytes: *const u8, byte_count: usize, words: *const u32, word_count: usize, out: *mut u64, out_count: usize) -> u32;
    fn tilusorgu_print_expr(bytes: *const u8, byte_count: usize, words: *const u32, word_count: usize, root: u32, indent: u32, width: u32,
        rows: *mut u32, row_words: usize, text: *mut u8, text_bytes: usize, listing: *mut u8, listing_bytes: usize, out: *mut u64, out_count: usize) -> u32;
    fn tilusorgu_print_declar(bytes: *const u8, byte_count: usize, words: *const u32, word_count: usize, root: u32, indent: u32, width: u32,
        rows: *mut u32, row_words: usize, text: *mut u8, text_bytes: usize, listing: *mut u8, listing_bytes: usize, out: *mut u64, out_count: usize) -> u32;
}

struct Areas {
    rows: Vec<u32>,
    text: Vec<u8>,
    listing: Vec<u8>,
}

impl Areas {
    fn new(rows: usize, text: usize, listing: usize) -> Areas {
        Areas { rows: vec![0; rows], text: vec![0; text], listing: vec![0; listing] }
    }
    /// No document is too long for these; listings may be.
    fn long() -> Areas {
        Areas::new(7 * 16384, 65536, 1 << 25)
    }
    /// Just long enough for a print that had these counts.
    fn exact(out: &[u64; 8]) -> Areas {
        Areas::new(7 * out[2] as usize, out[3] as usize, out[4] as usize)
    }
}

fn print(q: &Request, a: &mut Areas) -> [u64; 8] {
    let mut out = [u64::MAX; 8];
    let call: Print = if q.declaration { tilusorgu_print_declar } else { tilusorgu_print_expr };
    let [root, indent, width] = q.numbers;
    let (rows, text, listing) = (&mut a.rows[..], &mut a.text[..], &mut a.listing[..]);
    let n = unsafe {
        call(
            q.bytes.as_ptr(),
            q.bytes.len(),
            q.words.as_ptr(),
            q.words.len(),
            root,
            indent,
            width,
            rows.as_mut_ptr(),
            rows.len(),
            text.as_mut_ptr(),
            text.len(),
            listing.as_mut_ptr(),
            listing.len(),
            out.as_mut_ptr(),
            8,
        )
    };
    assert!(n as u64 == out[0]);
    out
}

fn check(q: &Request) {
    let mut out = [u64::MAX; 8];
    let n = unsafe { tilusorgu_check(q.bytes.as_ptr(), q.bytes.len(), q.words.as_ptr(), q.words.len(), out.as_mut_ptr(), 8) };
    assert!(n == 0, "{}: refused {n}", q.title);
}

// ---- times

/// What asking for the time takes, to be taken away from what is timed.
fn asking() -> Duration {
    (0..100).map(|_| { let t = now(); now() - t }).min().unwrap()
}

struct Times {
    rows: u64,
    /// A print in areas just long enough, check included; check alone; a print in areas for the longest document.
    print: Duration,
    check: Duration,
    long: Duration,
    /// The Rust's print, without making its terms.
    rust: Option<Duration>,
}

impl Times {
    fn bare(&self) -> Duration {
        self.print.saturating_sub(self.check)
    }
}

fn seconds(d: Duration) -> f64 {
    d.as_secs_f64()
}

fn timed(q: &Request, long: &mut Areas, runs: usize, budget: Duration) -> (Times, Vec<u8>) {
    let out = print(q, long);
    assert!(out[0] == 0, "{}: refused {} at {}", q.title, out[0], out[1]);
    let listing = long.listing[..out[4] as usize].to_vec();
    let (mut exact, less) = (Areas::exact(&out), asking());
    let of = |task: &mut dyn FnMut()| best(runs, budget, task).saturating_sub(less).max(Duration::from_nanos(1));
    let print_time = of(&mut || assert!(print(q, &mut exact)[0] == 0));
    let check_time = of(&mut || check(q));
    let long_time = of(&mut || assert!(print(q, long)[0] == 0));
    (Times { rows: out[2], print: print_time, check: check_time, long: long_time, rust: None }, listing)
}

/// The Rust's best times of these prints; their listings have to be the same.
fn published(oracle: &str, requests: &[Request], listings: &[Vec<u8>], runs: usize) -> Vec<Option<Duration>> {
    let path = std::env::temp_dir().join(format!("tilusorgu-prints-{}", std::process::id()));
    let mut file = std::io::BufWriter::new(std::fs::File::create(&path).unwrap());
    for _ in 0..runs {
        requests.iter().for_each(|q| file.write_all(&q.raw).unwrap());
    }
    drop(file);
    let done = Command::new(oracle).arg(&path).env("ORACLE_PRINT_TIME", "1").output().expect("the harness runs");
    std::fs::remove_file(&path).unwrap();
    let said = String::from_utf8(done.stderr).unwrap();
    let mut times = said.lines().filter_map(|l| l.strip_prefix("print ")?.parse::<u64>().ok());
    let (mut best, mut at) = (vec![None; requests.len()], 0);
    for _ in 0..runs {
        for i in 0..requests.len() {
            let u = |p: usize| u32::from_le_bytes(done.stdout[at + p..at + p + 4].try_into().unwrap());
            let (status, in_domain, length) = (u(0), u(4), u(8) as usize);
            let listing = &done.stdout[at + 12..at + 12 + length];
            at += 12 + length;
            if status == 0 {
                assert!(in_domain == 0 || *listing == listings[i], "{}: another listing", requests[i].title);
                let t = Duration::from_nanos(times.next().expect("a time for each print"));
                best[i] = Some(best[i].map_or(t, |b: Duration| b.min(t)));
            }
        }
    }
    best
}

fn all_timed(requests: &[Request], oracle: Option<&str>, runs: usize, budget: Duration) -> Vec<Times> {
    let mut long = Areas::long();
    let (mut times, listings): (Vec<Times>, Vec<Vec<u8>>) = requests.iter().map(|q| timed(q, &mut long, runs, budget)).unzip();
    if let Some(oracle) = oracle {
        times.iter_mut().zip(published(oracle, requests, &listings, runs.min(10))).for_each(|(t, r)| t.rust = r);
    }
    times
}

/// The median, and the values that a tenth lie below and above.
fn spread(mut values: Vec<f64>) -> [f64; 3] {
    values.sort_by(f64::total_cmp);
    [1, 5, 9].map(|tenth| values[(values.len() - 1) * tenth / 10])
}

fn ratio(a: Duration, b: Duration) -> f64 {
    seconds(a) / seconds(b)
}

fn shown(ratio: f64) -> String {
    if ratio < 0.1 { format!("{ratio:.3}") } else { format!("{ratio:.2}") }
}

fn corpus_line(title: &str, times: &[&Times]) {
    let with: Vec<&&Times> = times.iter().filter(|t| t.rust.is_some()).collect();
    let sum = |of: &dyn Fn(&Times) -> Duration| times.iter().map(|t| of(t)).sum::<Duration>();
    let (print, check, long) = (sum(&|t| t.print), sum(&|t| t.check), sum(&|t| t.long));
    let mean = |d: Duration| micros(d) / times.len() as f64;
    if with.is_empty() {
        println!("| {title} | {} | {:.1} | {:.1} | {:.1} | | | | | |", times.len(), mean(print), mean(check), mean(long));
        return;
    }
    let rust: Duration = with.iter().map(|t| t.rust.unwrap()).sum();
    let whole = spread(with.iter().map(|t| ratio(t.print, t.rust.unwrap())).collect());
    let bare = spread(with.iter().map(|t| ratio(t.bare(), t.rust.unwrap())).collect());
    let (ours, ours_bare) = (with.iter().map(|t| t.print).sum(), with.iter().map(|t| t.bare()).sum());
    println!(
        "| {title} | {} | {:.1} | {:.1} | {:.1} | {:.1} | {} ({} to {}) | {} ({} to {}) | {} | {} |",
        times.len(),
        mean(print),
        mean(check),
        mean(long),
        mean(rust),
        shown(whole[1]),
        shown(whole[0]),
        shown(whole[2]),
        shown(bare[1]),
        shown(bare[0]),
        shown(bare[2]),
        shown(ratio(ours, rust)),
        shown(ratio(ours_bare, rust))
    );
}

fn corpus(folder: &Path, oracle: Option<&str>) {
    println!("## Prints of the recorded corpus\n");
    println!("Mean times in µs. Print and its ratios: areas just long enough, check of the pool included; less check: its time less that of check alone, since the interface has no print without it. Long areas: for 16,384 rows and 65,536 text bytes, all of which a print clears. The Rust: its printer alone, its terms made before. Ratios ours / the Rust: the median (and the tenths below and above) over the prints, and of the totals.\n");
    println!("| prints | number | print | check alone | print, long areas | the Rust | ratio | ratio, less check | totals | totals, less check |");
    println!("|---|---|---|---|---|---|---|---|---|---|");
    let requests = read(folder, "corpus");
    let times = all_timed(&requests, oracle, 7, Duration::ZERO);
    let all: Vec<&Times> = times.iter().collect();
    corpus_line("all recorded", &all);
    let of = |keep: &dyn Fn(&Request, &Times) -> bool| requests.iter().zip(&times).filter(|(q, t)| keep(q, t)).map(|(_, t)| t).collect::<Vec<_>>();
    corpus_line("expressions", &of(&|q, _| !q.declaration));
    corpus_line("declarations", &of(&|q, _| q.declaration));
    corpus_line("declarations of at most 60 rows", &of(&|q, t| q.declaration && t.rows <= 60));
    corpus_line("documents of more than 500 rows", &of(&|_, t| t.rows > 500));
}

fn table(folder: &Path, name: &str, title: &str, oracle: Option<&str>, runs: usize, budget: u64) {
    println!("\n## {title}\n");
    println!("| print | rows | print, µs | check alone, µs | ns a row, less check | the Rust, µs | ours / the Rust | less check |");
    println!("|---|---|---|---|---|---|---|---|");
    let requests = read(folder, name);
    for (q, t) in requests.iter().zip(all_timed(&requests, oracle, runs, Duration::from_millis(budget))) {
        let (rust, whole, bare) = match t.rust {
            None => Default::default(),
            Some(r) => (format!("{:.1}", micros(r)), shown(ratio(t.print, r)), shown(ratio(t.bare(), r))),
        };
        let row = seconds(t.bare()) * 1e9 / t.rows as f64;
        println!("| {} | {} | {:.1} | {:.1} | {row:.0} | {rust} | {whole} | {bare} |", q.title, t.rows, micros(t.print), micros(t.check));
    }
}

fn groups(folder: &Path, oracle: Option<&str>) {
    table(folder, "groups", "Groups of types that share a long front", oracle, 10, 100);
}

// ---- processes of their own

fn me(folder: &Path, arguments: &[String]) -> Command {
    let mut command = Command::new(std::env::current_exe().unwrap());
    command.arg(folder).args(arguments).stdout(Stdio::piped()).stderr(Stdio::null());
    command
}

/// What one print says, or nothing if it did not end in time.
fn patiently(mut command: Command, patience: Duration) -> Option<String> {
    let (mut child, start) = (command.spawn().unwrap(), Instant::now());
    loop {
        if child.try_wait().unwrap().is_some() {
            let mut said = String::new();
            child.stdout.take().unwrap().read_to_string(&mut said).unwrap();
            return Some(if said.is_empty() { "the process died".into() } else { said.trim().into() });
        }
        if start.elapsed() > patience {
            let _ = child.kill();
            let _ = child.wait();
            return None;
        }
        std::thread::sleep(Duration::from_millis(2));
    }
}

fn one(folder: &Path, name: &str, i: usize) {
    let q = read(folder, name).swap_remove(i);
    let said = in_thread(64 << 20, move || {
        let mut areas = Areas::long();
        let start = now();
        let out = print(&q, &mut areas);
        let taken = micros(now() - start);
        match out[0] {
            0 => format!("{} rows, {} lines | {taken:.0}", out[2], out[5]),
            number => format!("refused {number}, place {} | {taken:.0}", out[1]),
        }
    });
    println!("{said}");
}

fn pools(folder: &Path) {
    let patience = Duration::from_secs(20);
    println!("\n## Pools whose trees are far larger than their rows\n\n| print | words | answer | µs |\n|---|---|---|---|");
    for (i, q) in read(folder, "pools").iter().enumerate() {
        let command = me(folder, &["--one".into(), "pools".into(), i.to_string()]);
        let said = patiently(command, patience).unwrap_or(format!("no answer in {} s |", patience.as_secs()));
        println!("| {} | {} | {said} |", q.title, q.words.len());
        std::io::stdout().flush().unwrap();
    }
}

/// Whether request I prints in a thread with so large a stack: an overflow kills its process.
fn passes(folder: &Path, i: usize, stack: usize) -> bool {
    let command = me(folder, &["--stack".into(), "stacks".into(), i.to_string(), stack.to_string()]);
    patiently(command, Duration::from_secs(60)).is_some_and(|said| said == "printed")
}

/// The least stack in steps of 16 KiB; nothing if 64 MiB are not enough.
fn least(folder: &Path, i: usize) -> Option<usize> {
    let (mut low, mut high) = (0, 4096);
    if !passes(folder, i, high << 14) {
        return None;
    }
    while low + 1 < high {
        let mid = (low + high) / 2;
        *(if passes(folder, i, mid << 14) { &mut high } else { &mut low }) = mid;
    }
    Some(high << 4)
}

fn stacks(folder: &Path) {
    println!("\n## Machine stack of prints\n");
    println!("The deepest trees that are accepted (depth 255 or 256), at width 40: the least stack of a thread, in KiB to 16, in which the print ends.\n");
    println!("| the tree goes on in | as an expression | as an axiom's type | as a definition's value |\n|---|---|---|---|");
    let (mut lines, mut order): (BTreeMap<String, Vec<String>>, Vec<String>) = Default::default();
    let mut most = 0;
    for (i, q) in read(folder, "stacks").iter().enumerate() {
        let shape = q.title.split('|').next().unwrap().to_string();
        if !order.contains(&shape) {
            order.push(shape.clone());
        }
        let found = least(folder, i);
        most = most.max(found.unwrap_or(usize::MAX));
        lines.entry(shape).or_default().push(found.map_or("more than 65,536".into(), |k| k.to_string()));
    }
    for shape in order {
        println!("| {shape} | {} |", lines[&shape].join(" | "));
    }
    println!("\nThe most: {most} KiB.");
}

fn main() {
    let arguments: Vec<String> = std::env::args().skip(1).collect();
    let words: Vec<&str> = arguments.iter().map(String::as_str).collect();
    let folder = PathBuf::from(words.first().expect("the folder of the requests"));
    match words[1..] {
        ["--groups", ref oracle @ ..] => {
            let oracle = oracle.first().map(|s| s.to_string());
            in_thread(64 << 20, move || groups(&folder, oracle.as_deref()));
        }
        ["--one", name, i] => one(&folder, name, i.parse().unwrap()),
        ["--stack", name, i, bytes] => {
            let q = read(&folder, name).swap_remove(i.parse().unwrap());
            let mut areas = Areas::long();
            assert!(in_thread(bytes.parse().unwrap(), move || print(&q, &mut areas)[0]) == 0);
            println!("printed");
        }
        _ => {
            let (oracle, at) = (words.get(1).map(|s| s.to_string()), folder.clone());
            if oracle.is_none() {
                println!("(no harness: the published Rust is left out)\n");
            }
            in_thread(64 << 20, move || {
                let oracle = oracle.as_deref();
                corpus(&at, oracle);
                table(&at, "documents", "Documents of 11,000 to 16,000 rows", oracle, 10, 100);
                table(&at, "operators", "Operators", oracle, 10, 100);
                groups(&at, oracle);
                table(&at, "declarations", "Small declarations", oracle, 200, 20);
            });
            pools(&folder);
            stacks(&folder);
        }
    }
}
