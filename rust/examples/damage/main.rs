//! Damaged inputs: pools and documents of the recorded corpus and of the samples are changed at random, and all C calls are made with areas between guards.
//!
//!     cargo run --release --example damage -- COUNT SEED          so many inputs
//!     cargo run --release --example damage -- COUNT SEED --at I   input I alone, in this process
//!
//! The inputs are tried in a process of their own, so that a crash or a call that does not end is seen, and at which input it was.
//! The last line is 'N passed, M failed'.
mod calls;
#[path = "../../tests/common/comparison.rs"]
mod comparison;
mod corpus;
#[path = "../../tests/common/fit_tests.rs"]
mod fit_tests;
#[path = "../../tests/common/guarded.rs"]
mod guarded;
mod judge;
#[path = "../../tests/common/limits.rs"]
mod limits;
mod mutate;
#[path = "../../tests/common/notation.rs"]
mod notation;
mod random;
#[path = "../../tests/common/recorded.rs"]
mod recorded;
mod trial;

use std::os::unix::fs::FileExt;
use std::path::Path;
use std::process::{Command, ExitCode};
use std::time::{Duration, Instant};

/// A call that takes longer is taken not to end.
const PATIENCE: Duration = Duration::from_secs(60);
const SHOWN: u64 = 10;

fn main() -> ExitCode {
    let arguments: Vec<String> = std::env::args().skip(1).collect();
    let words: Vec<&str> = arguments.iter().map(String::as_str).collect();
    let number = |word: &str| word.parse::<u64>().expect("COUNT, SEED and I are numbers");
    match words[..] {
        [count, seed] => watch(number(count), number(seed)),
        [_, seed, "--at", at] => tilusorgu::with_stack(|| try_all(number(at)..number(at) + 1, number(seed), None)),
        [count, seed, "--child", file] => tilusorgu::with_stack(|| try_all(0..number(count), number(seed), Some(Path::new(file)))),
        _ => {
            eprintln!("usage: damage COUNT SEED [--at I]");
            ExitCode::from(2)
        }
    }
}

/// Tries the inputs; the file always has the number of the one at hand.
fn try_all(range: std::ops::Range<u64>, seed: u64, file: Option<&Path>) -> ExitCode {
    let stock = corpus::Stock::read();
    let file = file.map(|path| std::fs::File::create(path).expect("the file of the input's number"));
    let (mut tally, mut tried, mut failed) = (trial::Tally::default(), 0, 0);
    for i in range {
        if let Some(file) = &file {
            file.write_all_at(&i.to_le_bytes(), 0).expect("the input's number is written");
        }
        tried += 1;
        if let Err(what) = trial::run(&stock, seed, i, &mut tally) {
            failed += 1;
            println!("FAILED: input {i}: {what}");
            if failed == SHOWN {
                println!("(no more are tried)");
                break;
            }
        }
    }
    tally.show();
    println!("{} passed, {failed} failed", tried - failed);
    ExitCode::from(u8::from(failed > 0))
}

/// Runs the inputs in a process of their own and looks after it.
fn watch(count: u64, seed: u64) -> ExitCode {
    let file = std::env::temp_dir().join(format!("tilusorgu-damage-{}", std::process::id()));
    let me = std::env::current_exe().expect("this program's path");
    let arguments = [count.to_string(), seed.to_string(), "--child".to_string()];
    let mut child = Command::new(me).args(arguments).arg(&file).spawn().expect("a process for the inputs");
    let at = || std::fs::read(&file).ok().and_then(|b| Some(u64::from_le_bytes(b.try_into().ok()?))).unwrap_or(0);
    let (mut last, mut since) = (0, Instant::now());
    let status = loop {
        if let Some(status) = child.try_wait().expect("the process can be asked for") {
            break Some(status);
        }
        if at() != last {
            (last, since) = (at(), Instant::now());
        }
        if since.elapsed() > PATIENCE {
            let _ = child.kill();
            break None;
        }
        std::thread::sleep(Duration::from_millis(50));
    };
    let (last, _) = (at(), std::fs::remove_file(&file));
    match status.map(|s| (s, s.code())) {
        Some((_, Some(code @ (0 | 1)))) => return ExitCode::from(code as u8),
        Some((status, _)) => println!("FAILED: input {last} of seed {seed}: the process ended with {status}"),
        None => println!("FAILED: input {last} of seed {seed}: no answer in {} seconds", PATIENCE.as_secs()),
    }
    println!("{last} passed, 1 failed");
    ExitCode::from(1)
}
