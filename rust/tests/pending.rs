//! The layout with a pending area: its answers in the order 9, 6, 30, 22, what both lent areas hold afterwards, that it answers as the layout by deep calls does, and
//! that it needs little stack and little time.
#[path = "common/documents.rs"]
mod documents;
#[path = "common/fit_tests.rs"]
mod fit_tests;
#[path = "common/guarded.rs"]
mod guarded;

use documents::{Document, HOSTILE, MOST_ROWS};
use fit_tests::fit_tests;
use guarded::Guarded;
use std::sync::mpsc;
use std::time::{Duration, Instant};
use tilusorgu::calls::{self, MOST_PENDING_WORDS};
use tilusorgu::{raw, with_stack, Counts, Given, Refusal};

/// The answer and the listing area, in areas of these lengths; what both areas hold is held against the answer.
fn judged(given: Given<'_>, width: u32, pending_words: usize, listing_bytes: usize) -> (Result<Counts, Refusal>, Vec<u8>) {
    let mut pending = Guarded::new(pending_words, 0x5c5c_5c5c, 0xa5a5_a5a5);
    let mut listing = Guarded::new(listing_bytes, 0x5c, 0xa5);
    let answer = calls::layout_pending(given, width, pending.area(), listing.area());
    assert!(pending.intact() && listing.intact(), "a guard was written");
    match answer {
        Ok(counts) => assert!(pending.is_from(0, 0) && listing.untouched_from(counts.listing_length as usize)),
        Err(Refusal { number: 22, place: 0 }) => assert!(pending.is_from(0, 0)),
        Err(Refusal { number: 6 | 9 | 30, .. }) => assert!(pending.untouched_from(0) && listing.untouched_from(0)),
        Err(other) => panic!("{other:?}"),
    }
    (answer, listing.seen().to_vec())
}

/// G(N("a" | "bc")): 7 rows, 3 text bytes, `a bc` where it fits.
fn small() -> Document {
    let mut d = Document::default();
    d.text("a");
    d.line(1);
    d.join();
    d.text("bc");
    d.join();
    d.nest(64);
    d.group();
    d
}

const SMALL_WORDS: usize = 3 * 7;

#[test]
fn a_small_document() {
    let counts = Counts { document_rows: 7, text_bytes: 3, listing_length: 4, lines: 1, longest_row: 4, fit_tests: 1 };
    assert_eq!(judged(small().given(), 4, SMALL_WORDS, 4), (Ok(counts), b"a bc".to_vec()));
    let broken = Counts { document_rows: 7, text_bytes: 3, listing_length: 68, lines: 2, longest_row: 66, fit_tests: 1 };
    assert_eq!(judged(small().given(), 3, SMALL_WORDS, 68), (Ok(broken), format!("a\n{:64}bc", "").into_bytes()));
}

/// G("a⏎b" | "⏎⏎" | "c"): newlines of texts begin no line, in either layout.
#[test]
fn newlines_of_texts() {
    let mut d = Document::default();
    d.text("a\nb");
    for text in ["\n\n", "c"] {
        d.line(1);
        d.join();
        d.text(text);
        d.join();
    }
    d.group();
    with_stack(|| {
        for (width, lines) in [(0, 3), (7, 3), (8, 1)] {
            assert_eq!(assert_alike(&d, width, 8, "newlines").unwrap().lines, lines, "width {width}");
        }
    });
}

/// G(G(G("a") "b") | "c"): at width 2 the first group fails, the second is flat, and the third is inside it.
#[test]
fn groups_inside_flat_ones() {
    let mut d = Document::default();
    d.text("a");
    d.group();
    d.text("b");
    d.join();
    d.group();
    d.line(1);
    d.join();
    d.text("c");
    d.join();
    d.group();
    with_stack(|| {
        for (width, tests) in [(0, 3), (1, 3), (2, 2), (3, 2), (4, 1), (65_535, 1)] {
            assert_eq!(assert_alike(&d, width, 4, "groups").unwrap().fit_tests, tests, "width {width}");
        }
    });
}

/// Every set of what can be wrong, of which the first in the order 9, 6, 30, 22 is answered.
#[test]
fn the_order_of_refusals() {
    for wrong in 0..16 {
        let is_wrong = |i: u32| wrong >> i & 1 == 1;
        let mut document = small();
        if is_wrong(0) {
            document.rows[7 * 5 + 1] = 65;
        }
        let width = if is_wrong(1) { 65_536 } else { 65_535 };
        let (pending, listing) = (SMALL_WORDS - usize::from(is_wrong(2)), 4 - usize::from(is_wrong(3)));
        let answer = judged(document.given(), width, pending, listing).0;
        let first = (0..4).find(|&i| is_wrong(i)).map(|i| [(9, 5), (6, 0), (30, 0), (22, 0)][i as usize]);
        assert_eq!(answer.err().map(|r| (r.number, r.place)), first, "{wrong:04b}");
    }
}

/// 9 comes before 30 for counts too, also where three times the row count is no number of 64 bits.
#[test]
fn counts_before_the_pending_area() {
    let d = small();
    let many = vec![2; 7 * 16_385];
    for row_count in [0, 8, 16_385, u64::MAX / 3, u64::MAX / 3 + 1, u64::MAX] {
        for pending in [0, SMALL_WORDS, 3 * 16_385] {
            for rows in [&d.rows, &many] {
                let given = Given { rows, row_count, ..d.given() };
                assert_eq!(judged(given, 65_536, pending, 9).0, Err(Refusal { number: 9, place: 0 }), "{row_count} {pending}");
            }
        }
    }
    for text_count in [4, u64::MAX] {
        assert_eq!(judged(Given { text_count, ..d.given() }, 80, 0, 9).0, Err(Refusal { number: 9, place: 0 }));
    }
    assert_eq!(judged(Given { text_count: 2, ..d.given() }, 80, 0, 9).0, Err(Refusal { number: 9, place: 3 }));
}

/// Three words for each row that is counted, no matter how many the slice has, and no matter how long the area is beyond that.
#[test]
fn lengths_of_the_pending_area() {
    let mut d = small();
    d.rows.extend([9; 70]);
    let given = Given { row_count: 7, ..d.given() };
    for length in (0..SMALL_WORDS + 9).chain([3 * 17, 1000, MOST_PENDING_WORDS, MOST_PENDING_WORDS + 1]) {
        let (answer, listing) = judged(given, 80, length, 9);
        let (short, start) = judged(given, 80, length, 3);
        if length < SMALL_WORDS {
            assert_eq!((answer, short), (Err(Refusal { number: 30, place: 0 }), Err(Refusal { number: 30, place: 0 })), "{length}");
        } else {
            assert_eq!((answer.unwrap().listing_length, &listing[..4]), (4, &b"a bc"[..]), "{length}");
            assert_eq!((short, &start[..]), (Err(Refusal { number: 22, place: 0 }), &b"a b"[..]), "{length}");
        }
    }
    let mut one = Document::default();
    one.line(1);
    assert_eq!(judged(one.given(), 80, 2, 1).0, Err(Refusal { number: 30, place: 0 }));
    assert_eq!(judged(one.given(), 80, 3, 1).1, b"\n");
    assert_eq!(judged(one.given(), 80, 3, 0).0, Err(Refusal { number: 22, place: 0 }));
}

/// What the area held before does not matter.
#[test]
fn a_used_pending_area() {
    let d = documents::left_comb(400);
    let mut expected = vec![0; 9_999];
    let counts = calls::layout_deep(d.given(), 20, &mut expected).unwrap();
    for held in [0, 1, 7, 398, 399, 400, u32::MAX] {
        let (mut pending, mut listing) = (vec![held; 3 * 400 + 5], vec![0; 9_999]);
        assert_eq!(calls::layout_pending(d.given(), 20, &mut pending, &mut listing), Ok(counts));
        assert!(listing == expected && pending.iter().all(|&w| w == 0), "{held}");
    }
}

#[test]
fn out_shorter_than_eight() {
    let d = small();
    for (length, width, words, number) in [(7, 80, 21, 0), (0, 80, 20, 30), (7, 65_536, 21, 6), (8, 80, 20, 30), (9, 80, 21, 0)] {
        let (mut pending, mut listing, mut out) = ([7; 21], [0; 4], vec![7u64; length]);
        let (rows, text) = (&d.rows, &d.text);
        let returned = unsafe {
            raw::tilusorgu_layout_pending(
                rows.as_ptr(),
                rows.len(),
                7,
                text.as_ptr(),
                text.len(),
                3,
                width,
                pending.as_mut_ptr(),
                words,
                listing.as_mut_ptr(),
                4,
                out.as_mut_ptr(),
                length,
            )
        };
        assert_eq!(returned, number);
        assert_eq!(listing == *b"a bc", number == 0);
        assert!(pending.iter().all(|&w| w == if number == 0 { 0 } else { 7 }));
        let counts = if number == 0 { [0, 0, 7, 3, 4, 1, 4, 1] } else { [u64::from(number), 0, 0, 0, 0, 0, 0, 0] };
        let seen = if length < 8 { vec![7; length] } else { [&counts[..], &vec![7; length - 8]].concat() };
        assert_eq!(out, seen);
    }
}

#[test]
fn the_refusal_in_words() {
    let refusal = judged(small().given(), 80, SMALL_WORDS - 1, 9).0.unwrap_err();
    assert_eq!(refusal.to_string(), "refused 30: the pending area has fewer than three words for each document row");
}

// ---- both layouts

/// Both layouts answer alike and leave the same listing area, in one of this length; lines are the newlines that no text has, plus 1, and fit
/// tests the groups that are not inside a flat one. Gives the answer.
fn assert_alike(d: &Document, width: u32, listing_bytes: usize, what: &str) -> Result<Counts, Refusal> {
    let mut deep = Guarded::new(listing_bytes, 0x5c, 0xa5);
    let answer = calls::layout_deep(d.given(), width, deep.area());
    let (pending, listing) = judged(d.given(), width, 3 * d.count(), listing_bytes);
    assert_eq!(pending, answer, "{what}, width {width}");
    assert!(listing == deep.seen(), "{what}, width {width}: another listing");
    if let Ok(counts) = answer {
        let newlines = |bytes: &[u8]| bytes.iter().filter(|&&b| b == b'\n').count() as u64;
        let listed = &listing[..counts.listing_length as usize];
        assert_eq!(counts.lines + newlines(d.given().text), newlines(listed) + 1, "{what}, width {width}");
        assert_eq!(counts.fit_tests, fit_tests(&d.rows, d.count(), width), "{what}, width {width}");
    }
    answer
}

/// All documents of so many rows at most that texts (with a newline), breaks with a blank and without, joins, nests and groups make, each
/// once.
fn small_documents(most: usize, d: &Document, each: &mut impl FnMut(&Document)) {
    if d.open() == 1 {
        each(d);
    }
    if d.count() == most {
        return;
    }
    let steps: [fn(&mut Document); 6] = [|d| d.text("a\n"), |d| d.line(0), |d| d.line(1), Document::join, |d| d.nest(1), Document::group];
    for (i, step) in steps.iter().enumerate() {
        let needed = [0, 0, 0, 2, 1, 1][i];
        if d.open() >= needed {
            let mut next = d.clone();
            step(&mut next);
            small_documents(most, &next, each);
        }
    }
}

#[test]
fn every_small_document() {
    let (mut seen, mut broken, mut whole, mut inside) = (0, 0, 0, 0);
    with_stack(|| {
        small_documents(6, &Document::default(), &mut |d| {
            seen += 1;
            for width in 0..=6 {
                let counts = assert_alike(d, width, 40, "a small document").unwrap();
                (broken, whole) = (broken + u32::from(counts.lines > 1), whole + u32::from(counts.lines == 1));
                inside += u32::from(counts.fit_tests < d.groups());
                let length = counts.listing_length as usize;
                if length > 0 {
                    assert_eq!(assert_alike(d, width, length - 1, "a small document").unwrap_err().number, 22);
                }
            }
        })
    });
    // texts and breaks 3 ways, nests and groups 2 ways, joins: 3 + 6 + 21 + 78 + 318 + 1356
    assert_eq!(seen, 1782);
    assert!(broken > 1000 && whole > 1000 && inside > 1000, "{broken} {whole} {inside}");
}

#[test]
fn hostile_documents() {
    with_stack(|| {
        for (name, make) in HOSTILE {
            let d = make(MOST_ROWS);
            assert_eq!(d.count(), MOST_ROWS, "{name}");
            for width in [0, 1, 80, 65_535] {
                let counts = assert_alike(&d, width, 1 << 21, name).unwrap();
                let length = counts.listing_length as usize;
                if length > 0 {
                    assert_alike(&d, width, length - 1, name).unwrap_err();
                    assert_alike(&d, width, length / 2, name).unwrap_err();
                }
            }
            assert_eq!(judged(d.given(), 80, MOST_PENDING_WORDS - 1, 9).0, Err(Refusal { number: 30, place: 0 }), "{name}");
        }
    });
}

/// Of a thread in which the first layout would kill the test's process: the documents that are deep in left children take it a megabyte or more.
const SMALL_STACK: usize = 32 << 10;

#[test]
fn a_small_machine_stack() {
    for (name, make) in HOSTILE {
        for width in [0, 80, 65_535] {
            let (send, receive) = mpsc::channel();
            let d = make(MOST_ROWS);
            let (mut pending, mut listing) = (vec![1; MOST_PENDING_WORDS], vec![0; 1 << 21]);
            let task = move || {
                let lent = calls::layout_pending(d.given(), width, &mut pending, &mut listing);
                send.send([lent, calls::layout(d.given(), width, &mut listing)])
            };
            std::thread::Builder::new().stack_size(SMALL_STACK).spawn(task).unwrap();
            let [lent, own] = receive.recv_timeout(Duration::from_secs(10)).expect("an answer within ten seconds");
            assert_eq!(lent.unwrap().document_rows, MOST_ROWS as u64, "{name}, width {width}");
            assert_eq!(own, lent, "{name}, width {width}");
        }
    }
}

/// The least time of some runs.
fn least(mut run: impl FnMut()) -> Duration {
    let time = |run: &mut dyn FnMut()| {
        let start = Instant::now();
        run();
        start.elapsed()
    };
    (0..20).map(|_| time(&mut run)).min().unwrap()
}

/// One document of 16,384 rows takes about as long as 16 of 1,024 rows; if the time grew with the square of the rows, it would take 16 times as long.
#[test]
fn time_grows_with_the_rows() {
    for (name, make) in HOSTILE {
        let (mut pending, mut listing) = (vec![0; MOST_PENDING_WORDS], vec![0; 1 << 21]);
        for width in [0, 80] {
            let mut laid = |d: &Document| assert!(calls::layout_pending(d.given(), width, &mut pending[..3 * d.count()], &mut listing).is_ok());
            let (large, small) = (make(MOST_ROWS), make(MOST_ROWS / 16));
            let sixteen = least(|| (0..16).for_each(|_| laid(&small)));
            let one = least(|| laid(&large));
            assert!(one < 6 * sixteen, "{name}, width {width}: {one:?}, and {sixteen:?} for sixteen");
        }
    }
}
