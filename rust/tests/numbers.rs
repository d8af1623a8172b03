//! Every number that a call can refuse under, with its place, and what the lent areas hold afterwards.
#[path = "common/guarded.rs"]
mod guarded;
#[path = "common/limits.rs"]
mod limits;

use guarded::Guarded;
use limits::nested_chains;
use tilusorgu::calls::{self, MOST_ROW_WORDS, MOST_TEXT_BYTES};
use tilusorgu::text::{pack, Packed, Sharing};
use tilusorgu::{Comparison, Counts, Given, Lent, Pool, Refusal, Root, Sizes};

/// `@Nat → @Nat`: 17 rows, 12 text bytes, 13 listed.
const ARROW: &str = "(define e (forall (n : @Nat) @Nat)) (axiom k $e)";
const EXACT: [usize; 3] = [7 * 17, 12, 13];
const LONG: [usize; 3] = [MOST_ROW_WORDS, MOST_TEXT_BYTES, 99_999];

fn packed(text: &str) -> Packed {
    pack(text, Sharing::Shared).unwrap()
}

fn refusal(number: u32, place: u64) -> Refusal {
    Refusal { number, place }
}

/// Lent areas of some lengths, with guards.
struct Areas {
    rows: Guarded<u32>,
    text: Guarded<u8>,
    listing: Guarded<u8>,
}

impl Areas {
    fn new([rows, text, listing]: [usize; 3]) -> Areas {
        Areas { rows: Guarded::new(rows, 0x5c5c_5c5c, 0xa5a5_a5a5), text: Guarded::new(text, 0x5c, 0xa5), listing: Guarded::new(listing, 0x5c, 0xa5) }
    }

    fn print(&mut self, pool: &Pool, root: Root, sizes: Sizes) -> Result<Counts, Refusal> {
        let lent = Lent { rows: self.rows.area(), text: self.text.area(), listing: self.listing.area() };
        calls::print(&pool.bytes, &pool.words, root, sizes, lent)
    }

    fn intact(&self) -> bool {
        self.rows.intact() && self.text.intact() && self.listing.intact()
    }
}

/// The answer to a print in areas of these lengths; what the areas hold is held against it.
fn judged(pool: &Pool, root: Root, sizes: Sizes, lengths: [usize; 3]) -> Result<Counts, Refusal> {
    let mut areas = Areas::new(lengths);
    let answer = areas.print(pool, root, sizes);
    assert!(areas.intact());
    match answer {
        Ok(counts) => {
            assert!(areas.rows.is_from(7 * counts.document_rows as usize, 0) && areas.text.is_from(counts.text_bytes as usize, 0));
            assert!(areas.listing.untouched_from(counts.listing_length as usize));
        }
        Err(Refusal { number: 1..=6 | 31, .. }) => {
            assert!(areas.rows.untouched_from(0) && areas.text.untouched_from(0) && areas.listing.untouched_from(0))
        }
        Err(Refusal { number: 7 | 8 | 20 | 21, .. }) => {
            assert!(areas.rows.is_from(0, 0) && areas.text.is_from(0, 0) && areas.listing.untouched_from(0))
        }
        Err(Refusal { number: 22, .. }) => assert_22(pool, root, sizes, &areas),
        Err(other) => panic!("a print is not refused {}", other.number),
    }
    answer
}

/// The document stands, and the listing area is full of the listing's first bytes.
fn assert_22(pool: &Pool, root: Root, sizes: Sizes, areas: &Areas) {
    let mut long = Areas::new(LONG);
    let counts = long.print(pool, root, sizes).unwrap();
    let (rows, text, listed) = (7 * counts.document_rows as usize, counts.text_bytes as usize, areas.listing.seen().len());
    assert_eq!(areas.rows.seen()[..rows], long.rows.seen()[..rows]);
    assert_eq!(areas.text.seen()[..text], long.text.seen()[..text]);
    assert!(areas.rows.is_from(rows, 0) && areas.text.is_from(text, 0));
    assert_eq!(*areas.listing.seen(), long.listing.seen()[..listed]);
}

fn arrow(root: Root, indent: u32, width: u32, lengths: [usize; 3]) -> Result<Counts, Refusal> {
    judged(&packed(ARROW).pool, root, Sizes { indent, width }, lengths)
}

fn expr() -> Root {
    Root::Expr(1)
}

#[test]
fn accepted() {
    let counts = Counts { document_rows: 17, text_bytes: 12, listing_length: 13, lines: 1, longest_row: 13, fit_tests: 1 };
    assert_eq!(arrow(expr(), 2, 13, EXACT), Ok(counts));
    let narrow = arrow(expr(), 2, 12, EXACT).unwrap();
    assert_eq!((narrow.lines, narrow.longest_row, narrow.listing_length), (2, 8, 13));
    assert!(arrow(expr(), 64, 65535, LONG).is_ok());
    assert_eq!(packed(ARROW).pool.list_expr(1, Sizes::default()).unwrap().text, "@Nat → @Nat");
    assert_eq!(packed(ARROW).pool.list_declar(0, Sizes::default()).unwrap().text, "axiom k : @Nat → @Nat");
    assert_eq!(Pool { bytes: vec![], words: vec![0; 8] }.check(), Ok(()));
}

/// Check and both prints refuse alike.
fn assert_pool(pool: &Pool, expected: Refusal) {
    assert_eq!(pool.check(), Err(expected));
    for root in [Root::Expr(0), Root::Declar(0)] {
        assert_eq!(judged(pool, root, Sizes::default(), [70, 70, 70]), Err(expected));
    }
}

#[test]
fn number_1() {
    assert_pool(&Pool::default(), refusal(1, 0));
    assert_pool(&Pool { bytes: vec![], words: vec![0; 7] }, refusal(1, 0));
    assert_pool(&packed("(axiom k @C) (words 0)").pool, refusal(1, 0));
}

#[test]
fn number_2() {
    assert_pool(&limits::too_many_list_words(), refusal(2, 0));
    assert_pool(&Pool { bytes: vec![0; 16_777_217], words: vec![0; 8] }, refusal(2, 0));
}

#[test]
fn number_3() {
    assert_pool(&packed("(string \"a\") (string \"\\xff\")").pool, refusal(3, 1));
    assert_pool(&packed("(row strings 0 1)").pool, refusal(3, 0));
}

#[test]
fn number_4_and_its_table() {
    let tables = [
        ("(name a) (row names 3 0 0 0)", 2, "name row 2"),
        ("(level 1) (row levels 0 0 1)", 2, "level row 2"),
        ("(levels 0 1) (row lists 2 1)", 1, "list row 1"),
        ("(row lists 0 1) (row list-words 0)", 0, "list word row 0"),
        ("(define e (@f #4096))", 1, "expression row 1"),
        ("(axiom k @C) (row declarations 0 0 0 9 0)", 1, "declaration row 1"),
    ];
    for (text, place, words) in tables {
        let pool = packed(text).pool;
        assert_pool(&pool, refusal(4, place));
        assert!(pool.explain(refusal(4, place)).contains(words), "{}", pool.explain(refusal(4, place)));
    }
}

/// The last projection prints its index and 1, five digits; the next one is refused by every call that is given the pool, and hands out
/// nothing.
#[test]
fn last_projection() {
    let pool = |index: u32| packed(&format!("(axiom k (proj S {index} @s))")).pool;
    for (index, text) in [(65_534, "@s.65535"), (65_535, "@s.65536")] {
        let pool = pool(index);
        assert_eq!(pool.check(), Ok(()));
        assert_eq!(pool.compare(1, 1), Ok(Comparison::Equal));
        assert_eq!(calls::string_part(&pool.bytes, &pool.words, 0), b"k");
        let exact = [7 * 9, 8, 8];
        for (width, fit_tests) in [(0, 2), (7, 2), (8, 1), (65_535, 1)] {
            let counts = Counts { document_rows: 9, text_bytes: 8, listing_length: 8, lines: 1, longest_row: 8, fit_tests };
            assert_eq!(judged(&pool, expr(), Sizes { indent: 2, width }, exact), Ok(counts));
        }
        for (number, lengths) in [(20, [7 * 8, 8, 8]), (21, [7 * 9, 7, 8]), (22, [7 * 9, 8, 7])] {
            assert_eq!(judged(&pool, expr(), Sizes::default(), lengths).unwrap_err().number, number);
        }
        assert_eq!(pool.list_expr(1, Sizes::default()).unwrap().text, text);
        assert_eq!(pool.list_declar(0, Sizes::default()).unwrap().text, format!("axiom k : {text}"));
    }
    for index in [65_536, 131_071, 1 << 31, u32::MAX] {
        let pool = pool(index);
        assert_pool(&pool, refusal(4, 1));
        assert_eq!(pool.compare(0, 0), Err(refusal(4, 1)));
        assert_eq!(calls::string_part(&pool.bytes, &pool.words, 0), b"");
        assert!(pool.explain(refusal(4, 1)).contains("an index of at most 65,535"), "{}", pool.explain(refusal(4, 1)));
    }
}

#[test]
fn numbers_5_and_6() {
    assert_eq!(arrow(Root::Expr(2), 2, 13, EXACT), Err(refusal(5, 0)));
    assert_eq!(arrow(Root::Declar(1), 2, 13, EXACT), Err(refusal(5, 0)));
    assert_eq!(arrow(Root::Expr(2), 65, 13, EXACT), Err(refusal(5, 0)));
    assert_eq!(arrow(expr(), 65, 13, EXACT), Err(refusal(6, 0)));
    assert_eq!(arrow(expr(), 2, 65536, EXACT), Err(refusal(6, 0)));
}

#[test]
fn number_7() {
    let row_of = |p: &Packed, short: &str| p.defined.iter().find(|(s, _)| s == short).unwrap().1;
    let within = packed(&nested_chains(&[255, 254, 253, 252, 10]));
    assert!(judged(&within.pool, Root::Expr(row_of(&within, "chain4")), Sizes::default(), LONG).is_ok());
    let over = packed(&nested_chains(&[255, 254, 253, 252, 11]));
    let (root, place) = (Root::Expr(row_of(&over, "chain4")), u64::from(row_of(&over, "chain0")));
    assert_eq!(judged(&over.pool, root, Sizes::default(), LONG), Err(refusal(7, place)));
    assert_eq!(judged(&over.pool, root, Sizes::default(), [7 * 48, 65536, 99]), Err(refusal(7, place)));
    assert_eq!(judged(&over.pool, root, Sizes::default(), [7 * 47, 65536, 99]), Err(refusal(20, 47)));
}

#[test]
fn number_8() {
    let literal = packed(&limits::long_literal()).pool;
    assert_eq!(judged(&literal, Root::Expr(0), Sizes::default(), [MOST_ROW_WORDS, 70_000, 99_999]), Err(refusal(8, 3)));
    assert_eq!(judged(&literal, Root::Expr(0), Sizes::default(), [MOST_ROW_WORDS, 65_535, 99_999]), Err(refusal(21, 1)));
    assert_eq!(judged(&packed(&limits::doubled()).pool, Root::Expr(11), Sizes::default(), LONG), Err(refusal(8, 16_384)));
}

/// A listing longer than the area that a listing starts with.
#[test]
fn long_listing() {
    let pool = packed(&format!("(define e {}@c{})", "(@f @g ".repeat(250), ")".repeat(250))).pool;
    let listing = pool.list_expr(pool.count(tilusorgu::Table::Exprs) - 1, Sizes { indent: 64, width: 0 }).unwrap();
    assert_eq!(listing.counts.listing_length, listing.text.len() as u64);
    assert!(listing.text.len() > 1 << 20 && listing.text.lines().count() == 1 + 2 * 250);
}

#[test]
fn numbers_20_to_22() {
    assert_eq!(arrow(expr(), 2, 13, [7 * 17 - 1, 12, 13]), Err(refusal(20, 16)));
    assert_eq!(arrow(expr(), 2, 13, [6, 12, 13]), Err(refusal(20, 0)));
    assert_eq!(arrow(expr(), 2, 13, [7 * 17, 11, 13]), Err(refusal(21, 13)));
    assert_eq!(arrow(expr(), 2, 13, [0, 0, 0]), Err(refusal(21, 0)));
    assert_eq!(arrow(expr(), 2, 13, [7 * 17, 12, 12]), Err(refusal(22, 0)));
    assert_eq!(arrow(expr(), 2, 13, [7 * 17, 12, 0]), Err(refusal(22, 0)));
}

// ---- layout

/// G(N(("a" | "bc")))
const GIVEN: [u32; 49] = [
    0, 0, 1, 1, 1, 1, 0, 2, 1, 0, 1, 1, 0, 1, 1, 0, 0, 3, 2, 1, 1, 0, 1, 2, 1, 2, 2, 0, 1, 0, 0, 5, 4, 1, 1, 3, 64, 0, 6, 4, 1, 1, 4, 0, 0, 7, 4, 1,
    1,
];

type Layout = fn(Given<'_>, u32, &mut [u8]) -> Result<Counts, Refusal>;

/// What both layouts answer and leave in a listing area of this length.
fn laid(rows: &[u32], row_count: u64, text_count: u64, width: u32, length: usize) -> (Result<Counts, Refusal>, Vec<u8>) {
    let given = Given { rows, row_count, text: b"abc", text_count };
    let [first, second] = [calls::layout_deep as Layout, calls::layout].map(|layout| {
        let mut listing = Guarded::new(length, 0x5c, 0xa5);
        let answer = layout(given, width, listing.area());
        assert!(listing.intact());
        match answer {
            Ok(counts) => assert!(listing.untouched_from(counts.listing_length as usize)),
            Err(Refusal { number: 9 | 6, .. }) => assert!(listing.untouched_from(0)),
            Err(other) => assert_eq!(other.number, 22),
        }
        (answer, listing.seen().to_vec())
    });
    assert_eq!(first, second);
    first
}

#[test]
fn layout_of_a_given_document() {
    let (answer, listing) = laid(&GIVEN, 7, 3, 4, 9);
    let counts = Counts { document_rows: 7, text_bytes: 3, listing_length: 4, lines: 1, longest_row: 4, fit_tests: 1 };
    assert_eq!((answer, &listing[..4]), (Ok(counts), &b"a bc"[..]));
    assert_eq!(laid(&GIVEN, 7, 3, 3, 68).0.unwrap().longest_row, 66);
}

#[test]
fn number_9() {
    assert_eq!(laid(&GIVEN, 0, 3, 80, 9).0, Err(refusal(9, 0)));
    assert_eq!(laid(&GIVEN, 8, 3, 80, 9).0, Err(refusal(9, 0)));
    assert_eq!(laid(&GIVEN, u64::MAX, 3, 80, 9).0, Err(refusal(9, 0)));
    assert_eq!(laid(&GIVEN, 7, u64::MAX, 80, 9).0, Err(refusal(9, 0)));
    assert_eq!(laid(&GIVEN, 7, 2, 80, 9).0, Err(refusal(9, 3)));
    let mut faulty = GIVEN;
    faulty[7 * 5 + 1] = 65;
    assert_eq!(laid(&faulty, 7, 3, 80, 9).0, Err(refusal(9, 5)));
    assert_eq!(laid(&faulty, 7, 3, 65_536, 9).0, Err(refusal(9, 5)));
}

#[test]
fn layout_6_and_22() {
    assert_eq!(laid(&GIVEN, 7, 3, 65_536, 9).0, Err(refusal(6, 0)));
    assert_eq!(laid(&GIVEN, 7, 3, 80, 3), (Err(refusal(22, 0)), b"a b".to_vec()));
}

#[test]
fn refusals_in_words() {
    assert_eq!(refusal(5, 0).to_string(), "refused 5: the pool has no such row");
    assert_eq!(refusal(7, 12).to_string(), "refused 7 (expression row 12): a chain of binders or a let brings the names in force over 1,024");
    for number in [1, 2, 3, 4, 5, 6, 7, 8, 9, 20, 21, 22, 30, 31] {
        assert_ne!(refusal(number, 0).rule(), refusal(0, 0).rule());
    }
}
