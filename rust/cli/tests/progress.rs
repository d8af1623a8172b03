//! The line that says how far a listing is: where it is shown, and where not.
mod common;

use common::{errors_on_terminal, file, folder, on_terminal, run};
use std::path::{Path, PathBuf};
use tilusorgu::pool_file::encode;
use tilusorgu::Pool;

/// Each print checks the pool's 16,777,216 bytes first, so that some dozens take long enough for the line. Characters of four bytes take longest.
fn slow() -> PathBuf {
    let words = vec![1, 2, 0, 1, 0, 1, 1, 0, 0, 1 << 24, 0, 0, 0, 0, 1, 0, 0, 0, 0, 0, 2, 0, 0, 0, 0, 0, 1, 0, 0, 0, 0, 0, 0];
    file("slow.pool", &encode(&Pool { bytes: "𝔸".repeat(1 << 22).into_bytes(), words }))
}

/// A command line that lists this pool's declaration so many times.
fn many<'a>(path: &'a str, times: usize, more: &[&'a str]) -> Vec<&'a str> {
    let chosen = std::iter::repeat_n(["--declar", "0"], times).flatten();
    ["list", path].into_iter().chain(chosen).chain(more.iter().copied()).collect()
}

#[test]
fn share_and_time_left_while_a_file_is_written() {
    let (slow, listing) = (slow(), folder("").join("slow.listing"));
    let path = slow.to_str().unwrap();
    let (got, status) = errors_on_terminal(&listing, &many(path, 60, &[]));
    let lines: Vec<&str> = got.split("\r\x1b[K").collect();
    assert!(lines.len() >= 2 && status == 0, "{got:?}");
    assert!(lines[0].starts_with("listed ") && lines[0].contains(" of 60 (") && lines[0].ends_with(" s left"), "{got:?}");
    // the line goes away at the end, and no part of it is in the file
    assert_eq!(lines.last(), Some(&""));
    assert_eq!(std::fs::read_to_string(&listing).unwrap(), "axiom «» : @«»\n\n".repeat(60).trim_end().to_string() + "\n");
    assert_eq!(errors_on_terminal(&listing, &many(path, 60, &["--quiet"])), (String::new(), 0));
    // a pipe may be a pager on the same terminal
    assert_eq!(errors_on_terminal(Path::new("|"), &many(path, 60, &[])), (String::new(), 0));
    std::fs::remove_file(&slow).unwrap();
}

#[test]
fn asked_for() {
    let pool = common::pool_file("asked.pool", "(axiom k @C)");
    let path = pool.to_str().unwrap();
    let (output, messages, _) = run(&many(path, 3, &["--progress"]));
    assert!(output.lines().count() == 5 && messages.starts_with("listed 3 of 3 (100 %) in ") && messages.ends_with(" s\n"), "{messages}");
    assert_eq!(run(&many(path, 3, &[])).1, "");
    // a terminal shows the listing itself
    assert_eq!(on_terminal(&many(path, 2, &[])).0, "axiom k : @C\n\naxiom k : @C\n");
}
