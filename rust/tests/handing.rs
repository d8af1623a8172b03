//! Handing out: the part of a text area or of a byte area that a row has, and an empty one in every other case.
#[allow(dead_code)] // these tests lend `out` alone
#[path = "common/guarded.rs"]
mod guarded;

use guarded::Guarded;
use tilusorgu::calls::{string_part, text_part};
use tilusorgu::raw::tilusorgu_hand_out;
use tilusorgu::text::{pack, Sharing};
use tilusorgu::{with_stack, Areas, Given, Pool, Root, Sizes, Table};

/// G(N(("a" | "bc")))
const ROWS: [u32; 49] = [
    0, 0, 1, 1, 1, 1, 0, 2, 1, 0, 1, 1, 0, 1, 1, 0, 0, 3, 2, 1, 1, 0, 1, 2, 1, 2, 2, 0, 1, 0, 0, 5, 4, 1, 1, 3, 64, 0, 6, 4, 1, 1, 4, 0, 0, 7, 4, 1,
    1,
];

fn given(rows: &[u32]) -> Given<'_> {
    Given { rows, row_count: 7, text: b"abc??", text_count: 3 }
}

fn packed(text: &str) -> Pool {
    pack(text, Sharing::Shared).unwrap().pool
}

fn samples() -> Vec<Pool> {
    let folder = concat!(env!("CARGO_MANIFEST_DIR"), "/../samples");
    let files = std::fs::read_dir(folder).unwrap().map(|f| f.unwrap().path()).filter(|f| f.extension().is_some_and(|e| e == "txt"));
    files.map(|f| packed(&std::fs::read_to_string(f).unwrap())).collect()
}

#[test]
fn texts_of_a_document() {
    let texts: Vec<&[u8]> = (0..9).map(|row| text_part(given(&ROWS), row)).collect();
    assert_eq!(texts, [&b"a"[..], b"", b"", b"bc", b"", b"", b"", b"", b""]);
    assert_eq!(text_part(given(&ROWS), u32::MAX), b"");
}

/// Rows past the count are no rows, however long the slice is.
#[test]
fn texts_past_the_count() {
    let mut rows = ROWS.to_vec();
    rows.extend([0, 3, 1, 1, 1, 1, 0]);
    assert_eq!(text_part(given(&rows), 3), b"bc");
    assert_eq!(text_part(given(&rows), 7), b"");
}

#[test]
fn texts_of_refused_documents() {
    let (all, no_document) = (given(&ROWS), Given::default());
    let refused = [
        no_document,
        Given { row_count: 0, ..all },
        Given { row_count: 4, ..all },
        Given { row_count: 8, ..all },
        Given { row_count: u64::MAX, ..all },
        Given { text_count: 2, ..all },
        Given { text_count: 4, ..all },
        Given { text_count: u64::MAX, ..all },
        Given { text: b"ab", ..all },
    ];
    for given in refused {
        assert!((0..9).all(|row| text_part(given, row).is_empty()), "{given:?}");
    }
    for at in 0..ROWS.len() {
        let mut rows = ROWS;
        rows[at] += 70;
        assert!((0..7).all(|row| text_part(given(&rows), row).is_empty()), "word {at}");
    }
}

#[test]
fn strings_of_a_pool() {
    let pool = Pool { bytes: b"ab?".to_vec(), words: vec![3, 0, 0, 0, 0, 0, 0, 0, 0, 2, 1, 0, 1, 1] };
    assert_eq!(pool.check(), Ok(()));
    let strings: Vec<&[u8]> = (0..5).map(|row| string_part(&pool.bytes, &pool.words, row)).collect();
    assert_eq!(strings, [&b"ab"[..], b"", b"b", b"", b""]);
    assert_eq!(string_part(&pool.bytes, &pool.words, u32::MAX), b"");
}

/// One pool at least for each of the numbers 1 to 4 and 31, each with a string that would be handed out.
#[test]
fn strings_of_refused_pools() {
    let refused: [(u32, &[u8], &[u32]); 9] = [
        (1, b"ab", &[1, 0, 0, 0, 0, 0, 0]),
        (1, b"ab", &[1, 0, 0, 0, 0, 0, 0, 0, 2]),
        (1, b"ab", &[1, 0, 0, 0, 0, 0, 0, 0, 0, 2, 0]),
        (3, b"ab", &[2, 0, 0, 0, 0, 0, 0, 0, 0, 2, 1, 2]),
        (3, b"ab\xff", &[2, 0, 0, 0, 0, 0, 0, 0, 0, 2, 2, 1]),
        (4, b"ab", &[1, 1, 0, 0, 0, 0, 0, 0, 0, 2, 3, 0, 0, 0]),
        (31, b"ab", &[1, 0, 0, 0, 0, 0, 0, 1, 0, 2, 0, 0, 1, 0]),
        (31, b"ab", &[1, 1, 0, 0, 0, 0, 0, 1, 0, 2, 0, 0, 0, 0, 0, 0, 0, 0]),
        (31, b"ab", &[1, 1, 0, 0, 0, 0, 0, 2, 0, 2, 0, 0, 0, 0, 0, 0, 1, 0, 0, 1, 2, 0]),
    ];
    let long = vec![b'a'; 16_777_217];
    let limit: (u32, &[u8], &[u32]) = (2, &long, &[1, 0, 0, 0, 0, 0, 0, 0, 0, 2]);
    for (number, bytes, words) in refused.into_iter().chain([limit]) {
        assert_eq!(tilusorgu::calls::check(bytes, words).unwrap_err().number, number);
        assert!((0..3).all(|row| string_part(bytes, words, row).is_empty()), "{number}: {words:?}");
    }
}

/// The texts of a printed document are its text area, in the order of the rows, and every row that is no text is empty.
#[test]
fn texts_of_printed_documents() {
    let sizes = Sizes::default();
    let mut areas = Areas::default();
    let mut printed = 0;
    for pool in samples() {
        for root in (0..pool.count(Table::Exprs)).map(Root::Expr).chain((0..pool.count(Table::Declars)).map(Root::Declar)) {
            let Ok(counts) = areas.print(&pool, root, sizes) else {
                continue;
            };
            let document = areas.document(&counts);
            let parts: Vec<&[u8]> = with_stack(|| (0..counts.document_rows as u32).map(|row| text_part(document, row)).collect());
            assert_eq!(parts.concat(), document.text);
            for (part, row) in parts.iter().zip(document.rows.chunks(7)) {
                assert_eq!(part.len(), if row[0] == 0 { row[2] as usize } else { 0 });
            }
            printed += 1;
        }
    }
    assert!(printed > 100, "{printed} prints");
}

/// Every string of the samples; those of a refused one are empty.
#[test]
fn strings_of_samples() {
    let (mut accepted, mut refused) = (0, 0);
    for pool in samples() {
        let is_accepted = pool.check().is_ok();
        for row in 0..pool.count(Table::Strings) {
            let expected = pool.string(row).filter(|_| is_accepted).unwrap_or(b"");
            assert_eq!(string_part(&pool.bytes, &pool.words, row), expected);
            *(if is_accepted { &mut accepted } else { &mut refused }) += 1;
        }
        assert!(string_part(&pool.bytes, &pool.words, pool.count(Table::Strings)).is_empty());
    }
    assert!(accepted > 100 && refused > 0, "{accepted} accepted, {refused} refused");
}

/// The raw call over the document above and a pool with the string "xyz", into an `out` of some length.
fn raw(kind: u32, row: u32, length: usize) -> (u32, Vec<u64>) {
    let (bytes, words, mut out) = (b"wxyz", [1, 0, 0, 0, 0, 0, 0, 0, 1, 3], Guarded::new(length, 0x5c, 0xa5));
    let number = unsafe {
        tilusorgu_hand_out(
            bytes.as_ptr(),
            bytes.len(),
            words.as_ptr(),
            words.len(),
            ROWS.as_ptr(),
            ROWS.len(),
            7,
            b"abc".as_ptr(),
            3,
            3,
            kind,
            row,
            out.area().as_mut_ptr(),
            length,
        )
    };
    assert!(out.intact());
    (number, out.seen().to_vec())
}

#[test]
fn out_has_offset_and_length() {
    assert_eq!(raw(0, 0, 8), (0, vec![0, 0, 0, 1, 0, 0, 0, 0]));
    assert_eq!(raw(0, 3, 8), (0, vec![0, 0, 1, 2, 0, 0, 0, 0]));
    assert_eq!(raw(1, 0, 8), (0, vec![0, 0, 1, 3, 0, 0, 0, 0]));
    assert_eq!(raw(0, 3, 10), (0, vec![0, 0, 1, 2, 0, 0, 0, 0, 0xa5, 0xa5]));
}

#[test]
fn other_kinds_and_rows_are_empty() {
    let kinds = [2, 3, 4, 256, 65_536, 1 << 31, u32::MAX].into_iter().flat_map(|kind| [(kind, 0), (kind, 3)]);
    let rows = [(0, 1), (0, 7), (0, u32::MAX), (1, 1), (1, 3), (1, u32::MAX)];
    for (kind, row) in kinds.chain(rows) {
        assert_eq!(raw(kind, row, 8), (0, vec![0; 8]), "kind {kind}, row {row}");
    }
}

#[test]
fn short_out_stays() {
    for length in 0..8 {
        for (kind, row) in [(0, 3), (1, 0), (2, 0)] {
            assert_eq!(raw(kind, row, length), (0, vec![0xa5; length]));
        }
    }
}
