//! The length that include/tilusorgu.h says is enough for a listing, held against listings.
#[path = "common/recorded.rs"]
#[allow(dead_code)] // the counts are enough here
mod recorded;

use std::io::Write;
use std::path::{Path, PathBuf};
use std::process::{Command, Stdio};
use tilusorgu::text::{pack, Sharing};
use tilusorgu::{calls, Areas, Given, Root, Sizes, Table};

fn top() -> PathBuf {
    Path::new(env!("CARGO_MANIFEST_DIR")).join("..")
}

/// What the header's macro says of rows, text bytes and indent, each.
fn enough(name: &str, asked: &[[u64; 3]]) -> Vec<u64> {
    let program = Path::new(env!("CARGO_TARGET_TMPDIR")).join(name);
    let mut cc = Command::new("cc");
    cc.args(["-std=c99", "-Wall", "-Wextra", "-Werror", "-pedantic", "-I"]).arg(top().join("include"));
    assert!(cc.arg(top().join("rust/tests/listing_bytes.c")).arg("-o").arg(&program).status().unwrap().success());
    let mut child = Command::new(&program).stdin(Stdio::piped()).stdout(Stdio::piped()).spawn().unwrap();
    let lines: String = asked.iter().map(|[rows, text, indent]| format!("{rows} {text} {indent}\n")).collect();
    let mut input = child.stdin.take().unwrap();
    let writer = std::thread::spawn(move || input.write_all(lines.as_bytes()).unwrap());
    let output = child.wait_with_output().unwrap();
    writer.join().unwrap();
    let answers: Vec<u64> = String::from_utf8(output.stdout).unwrap().lines().map(|line| line.parse().unwrap()).collect();
    assert_eq!(answers.len(), asked.len());
    answers
}

fn assert_enough(name: &str, listings: &[([u64; 3], u64)]) {
    let asked: Vec<[u64; 3]> = listings.iter().map(|(asked, _)| *asked).collect();
    for (&(asked, length), enough) in listings.iter().zip(enough(name, &asked)) {
        assert!(length <= enough, "{asked:?}: the listing has {length} bytes, and {enough} were said to be enough");
    }
}

#[test]
fn recorded_listings() {
    let prints = recorded::read().into_iter().flat_map(|recorded| recorded.prints);
    let listings: Vec<_> =
        prints.map(|p| ([p.counts.document_rows, p.counts.text_bytes, u64::from(p.sizes.indent)], p.counts.listing_length)).collect();
    assert_eq!(listings.len(), 4800);
    assert_enough("recorded_listings", &listings);
}

#[test]
fn samples() {
    let (mut areas, mut listings) = (Areas::default(), Vec::new());
    for file in std::fs::read_dir(top().join("samples")).unwrap().map(|f| f.unwrap().path()).filter(|p| p.extension().is_some_and(|e| e == "txt")) {
        let pool = pack(&std::fs::read_to_string(file).unwrap(), Sharing::Shared).unwrap().pool;
        if pool.check().is_err() {
            continue;
        }
        for (row, indent, width) in (0..pool.count(Table::Declars)).flat_map(|row| [(row, 0, 0), (row, 2, 40), (row, 64, 0), (row, 64, 65_535)]) {
            let counts = areas.print(&pool, Root::Declar(row), Sizes { indent, width }).unwrap();
            listings.push(([counts.document_rows, counts.text_bytes, u64::from(indent)], counts.listing_length));
        }
    }
    assert!(listings.len() > 80, "{}", listings.len());
    assert_enough("samples", &listings);
}

/// A document of so many breaks with so many nests round all of them: its rows. Outside every group each break is broken.
fn nested_breaks(breaks: u32, nests: u32, amount: u32) -> Vec<u32> {
    let mut rows = vec![2, 1, 0, 1, 1, 0, 1];
    for many in 2..=breaks {
        rows.extend([2, 1, 0, 1, 1, 0, 1]);
        rows.extend([1, 0, 0, 2 * many - 1, many, 0, 1]);
    }
    for many in 1..=nests {
        rows.extend([3, amount, 0, 2 * breaks - 1 + many, breaks, 0, 1]);
    }
    rows
}

/// The longest listings that so many rows can have: hardly any of the length is given away.
#[test]
fn longest_listings() {
    let mut listing = vec![0; 40_000_000];
    for (row_count, amount) in [(1, 64), (2, 64), (3, 1), (4, 64), (10, 64), (101, 3), (1000, 64), (2000, 64), (16_384, 1), (2000, 0)] {
        let length = |breaks: u64| breaks * (1 + amount * (row_count + 1 - 2 * breaks));
        let longest = (1..=row_count.div_ceil(2)).max_by_key(|&breaks| length(breaks)).unwrap();
        let rows = nested_breaks(longest as u32, (row_count + 1 - 2 * longest) as u32, amount as u32);
        let given = Given { rows: &rows, row_count, text: &[], text_count: 0 };
        let counts = calls::layout(given, 0, &mut listing).unwrap();
        assert_eq!((counts.document_rows, counts.listing_length), (row_count, length(longest)));
        let enough = enough("longest_listings", &[[row_count, 0, amount]])[0];
        let spare = (row_count + amount) / 2 + 2;
        assert!((counts.listing_length..=counts.listing_length + spare).contains(&enough), "{row_count} rows: {counts:?}, {enough}");
    }
}

#[test]
fn past_the_limits_it_is_the_limits() {
    let (most, many) = ([16_384, 65_536, 64], u64::MAX);
    let asked = [most, [many; 3], [16_385, 65_537, 65], [16_384, 65_536, 2], [16_384, 65_536, 0], [0; 3]];
    let greatest = 65_536 + 1 + 8_192 + 64 * 16_385 * 16_385 / 8;
    assert_eq!(greatest, 2_147_819_529);
    assert_eq!(enough("past_the_limits", &asked), [greatest, greatest, greatest, 67_190_785, 73_729, 1]);
}
