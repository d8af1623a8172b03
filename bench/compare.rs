//! Benchmarks of two rows compared: see README.md. Prints Markdown tables. The pairs stand in the request files that requests.py writes.
//!
//!     compare FOLDER                            all tables
//!     compare FOLDER --stack I BYTES            compares pair I of compared_stacks.req in a thread with a stack of so many bytes
#[allow(dead_code)] // the others take the best of several runs
mod common;
#[allow(dead_code)] // some fields are a print's
mod requests;

use common::{in_thread, micros, now};
use requests::{read, Request};
use std::hint::black_box;
use std::path::{Path, PathBuf};
use std::process::Command;
use std::time::Duration;

#[rustfmt::skip]
extern "C" {
    fn tilusorgu_check(bytes: *const u8, byte_count: usize, words: *const u32, word_count: usize, out: *mut u64, out_count: usize) -> u32;
    fn tilusorgu_compare(bytes: *const u8, byte_count: usize, words: *const u32, word_count: usize, first: u32, second: u32, out: *mut u64, out_count: usize) -> u32;
}

fn check(q: &Request) {
    let mut out = [u64::MAX; 8];
    let n = unsafe { tilusorgu_check(q.bytes.as_ptr(), q.bytes.len(), q.words.as_ptr(), q.words.len(), out.as_mut_ptr(), 8) };
    assert!(n == 0, "{}: refused {n}", q.title);
}

/// 1 and no rows, or 0 and the pair that differs.
fn compare(q: &Request) -> [u64; 3] {
    let (mut out, [first, second, _]) = ([u64::MAX; 8], q.numbers);
    let n = unsafe { tilusorgu_compare(q.bytes.as_ptr(), q.bytes.len(), q.words.as_ptr(), q.words.len(), first, second, out.as_mut_ptr(), 8) };
    assert!(n == 0 && out[0] == 0, "{}: refused {n}", q.title);
    [out[2], out[3], out[4]]
}

/// The median of many runs, each of so many calls that it takes a while: these calls may be shorter than what a thread's clock tells apart.
fn median(mut call: impl FnMut()) -> Duration {
    let mut run = |calls: u32| {
        let start = now();
        (0..calls).for_each(|_| call());
        (now() - start) / calls
    };
    let calls = (Duration::from_micros(300).as_nanos() / run(1).max(Duration::from_nanos(300)).as_nanos()).max(1) as u32;
    let mut times: Vec<Duration> = (0..31).map(|_| run(calls)).collect();
    times.sort();
    times[15]
}

fn times(folder: &Path) {
    println!("## Two rows compared\n");
    println!("Trees in rows of their own. Check of the pool is part of a call, and the interface has none without it: \"less check\" is the time of a call less that of check alone.\n");
    println!("| trees | rows of the pool | answer | compare, µs | check alone, µs | less check, µs |");
    println!("|---|---|---|---|---|---|");
    for q in read(folder, "comparisons") {
        let answer = match compare(&q) {
            [1, 0, 0] => "equal".into(),
            [_, a, b] => format!("rows {a} and {b}"),
        };
        let ours = median(|| {
            black_box(compare(black_box(&q)));
        });
        let alone = median(|| check(black_box(&q)));
        let less = micros(ours.saturating_sub(alone));
        println!("| {} | {} | {answer} | {:.1} | {:.1} | {less:.1} |", q.title, q.words[5], micros(ours), micros(alone));
    }
}

/// Whether pair I is compared in a thread with so large a stack: an overflow kills its process.
fn passes(folder: &Path, i: usize, stack: usize) -> bool {
    let mut me = Command::new(std::env::current_exe().unwrap());
    me.arg(folder).args(["--stack", &i.to_string(), &stack.to_string()]).output().unwrap().status.success()
}

fn stacks(folder: &Path) {
    println!("\n## Machine stack of comparisons\n");
    println!("The deepest trees that are accepted (depth 255 or 256) and layers, equal in rows of their own: the least stack of a thread, in KiB to 16, in which the call ends.\n");
    println!("| the tree goes on in | least stack of a thread, KiB |\n|---|---|");
    for (i, q) in read(folder, "compared_stacks").iter().enumerate() {
        assert!(passes(folder, i, 64 << 20), "{}: 64 MiB are not enough", q.title);
        let (mut low, mut high) = (0, 4096);
        while low + 1 < high {
            let mid = (low + high) / 2;
            *(if passes(folder, i, mid << 14) { &mut high } else { &mut low }) = mid;
        }
        println!("| {} | {} |", q.title, high << 4);
    }
}

fn main() {
    let arguments: Vec<String> = std::env::args().skip(1).collect();
    let words: Vec<&str> = arguments.iter().map(String::as_str).collect();
    let folder = PathBuf::from(words.first().expect("the folder of the requests"));
    match words[1..] {
        ["--stack", i, bytes] => {
            let q = read(&folder, "compared_stacks").swap_remove(i.parse().unwrap());
            assert!(in_thread(bytes.parse().unwrap(), move || compare(&q)) == [1, 0, 0]);
        }
        _ => {
            let at = folder.clone();
            in_thread(64 << 20, move || times(&at));
            stacks(&folder);
        }
    }
}
