//! Two expression rows compared: each number, each field, the order of the pairs, trees far larger than their rows, and how much stack and time it takes.
#[path = "common/comparison.rs"]
mod comparison;
#[allow(dead_code)] // the others make trees that are printed
#[path = "common/exprs.rs"]
mod exprs;
#[allow(dead_code)] // these tests lend `out` alone
#[path = "common/guarded.rs"]
mod guarded;
#[allow(dead_code)]
#[path = "common/limits.rs"]
mod limits;
#[allow(dead_code)]
#[path = "common/recorded.rs"]
mod recorded;

use comparison::compared;
use exprs::{doubled, neighbours, Below, Rows};
use guarded::Guarded;
use std::sync::mpsc::channel;
use std::time::Duration;
use tilusorgu::calls::compare;
use tilusorgu::text::{pack, Packed, Sharing};
use tilusorgu::Comparison::{self, Differ, Equal};
use tilusorgu::{raw, with_stack, Pool, Refusal, Table};

fn packed(text: &str, sharing: Sharing) -> Packed {
    pack(text, sharing).unwrap_or_else(|m| panic!("{text}: {m}"))
}

/// Two expressions in one pool, and their rows.
fn both(first: &str, second: &str, sharing: Sharing) -> (Pool, u32, u32) {
    let packed = packed(&format!("(define first {first}) (define second {second})"), sharing);
    let row_of = |name: &str| packed.defined.iter().find(|(defined, _)| defined == name).unwrap().1;
    let rows = (row_of("first"), row_of("second"));
    (packed.pool, rows.0, rows.1)
}

/// The row that is reached from a row by these words of the rows on the way.
fn below(pool: &Pool, row: u32, path: &[usize]) -> u32 {
    path.iter().fold(row, |row, &word| pool.row(Table::Exprs, row.into()).unwrap()[word])
}

/// The words of the parts.
const FUNCTION: usize = 1;
const ARGUMENT: usize = 2;
const TYPE: usize = 3;
const BODY: usize = 4;
const LET_TYPE: usize = 2;
const VALUE: usize = 3;
const STRUCTURE: usize = 3;

/// The two differ first where this path leads in each, in rows shared and in rows of their own, and the other way round.
fn assert_parts(first: &str, second: &str, path: &[usize]) {
    for sharing in [Sharing::Shared, Sharing::Apart] {
        let (pool, a, b) = both(first, second, sharing);
        let (x, y) = (below(&pool, a, path), below(&pool, b, path));
        assert_eq!(pool.compare(a, b), Ok(Differ(x, y)), "{first} and {second}");
        assert_eq!(pool.compare(b, a), Ok(Differ(y, x)), "{second} and {first}");
    }
}

fn assert_equal(first: &str, second: &str) {
    for sharing in [Sharing::Shared, Sharing::Apart] {
        let (pool, a, b) = both(first, second, sharing);
        assert_eq!([pool.compare(a, b), pool.compare(b, a)], [Ok(Equal), Ok(Equal)], "{first} and {second}");
    }
}

// ---- what is refused

fn refusal(number: u32, place: u64) -> Refusal {
    Refusal { number, place }
}

/// As check, whatever the rows are.
fn assert_refused(pool: &Pool, expected: Refusal) {
    assert_eq!(pool.check(), Err(expected));
    for (first, second) in [(0, 0), (0, 1), (1, 0), (65_535, 0), (u32::MAX, u32::MAX)] {
        assert_eq!(pool.compare(first, second), Err(expected), "{first} {second}");
    }
}

#[test]
fn numbers_1_to_4() {
    let text = |text: &str| packed(text, Sharing::Shared).pool;
    assert_refused(&Pool::default(), refusal(1, 0));
    assert_refused(&Pool { bytes: vec![], words: vec![0; 7] }, refusal(1, 0));
    assert_refused(&text("(axiom k @C) (words 0)"), refusal(1, 0));
    assert_refused(&limits::too_many_list_words(), refusal(2, 0));
    assert_refused(&Pool { bytes: vec![0; 16_777_217], words: vec![0; 8] }, refusal(2, 0));
    assert_refused(&text("(axiom k @C) (string \"\\xff\")"), refusal(3, 2));
    assert_refused(&text("(axiom k @C) (row names 3 0 0 0)"), refusal(4, 3));
    assert_refused(&text("(axiom k @C) (row levels 0 0 1)"), refusal(4, 0));
    assert_refused(&text("(axiom k @C) (define e (@f #4096))"), refusal(4, 2));
    // a row above both, and a declaration
    assert_refused(&text("(define a @C) (define b @D) (row expressions 10 0 0 0 0 0 1 0)"), refusal(4, 2));
    assert_refused(&text("(axiom k @C) (row declarations 0 0 0 9 0)"), refusal(4, 1));
}

/// Notation rows are no part of trees, and are checked all the same.
#[test]
fn number_31() {
    let text = |text: &str| packed(text, Sharing::Shared).pool;
    let operands = "(define a (@f @C @C)) (define b (@f @C @D)) ";
    let pool = text(&format!("{operands} (infix f 1 \"\") (prefix C 1023 \"f\")"));
    assert_eq!([pool.compare(3, 3), pool.compare(3, 5)], [Ok(Equal), Ok(Differ(1, 4))]);
    for wrong in
        ["(infix f 0 \"\")", "(infix f 1024 \"\")", "(row notation 99 0 1 0)", "(row notation 1 3 1 0)", "(infix f 1 \"\") (prefix f 1 \"\")"]
    {
        assert_refused(&text(&format!("{operands} {wrong}")), refusal(31, 0));
    }
    // 4 comes before it, and 5 after
    assert_refused(&text(&format!("{operands} (infix f 0 \"\") (define e (@f #4096))")), refusal(4, 6));
}

#[test]
fn number_5() {
    let none = Pool { bytes: vec![], words: vec![0; 8] };
    let two = packed("(define a @C) (define b (@C @D))", Sharing::Shared).pool;
    assert_eq!((none.check(), two.check(), two.count(Table::Exprs)), (Ok(()), Ok(()), 3));
    for row in [0, 1, 65_535, 65_536, u32::MAX] {
        assert_eq!(none.compare(row, row), Err(refusal(5, 0)), "{row}");
    }
    for missing in [3, 4, 255, 65_535, 65_536, 1 << 16 | 1, 1 << 31, u32::MAX - 1, u32::MAX] {
        for there in [0, 2] {
            assert_eq!(two.compare(missing, there), Err(refusal(5, 0)), "{missing} {there}");
            assert_eq!(two.compare(there, missing), Err(refusal(5, 0)), "{there} {missing}");
        }
        assert_eq!(two.compare(missing, missing), Err(refusal(5, 0)), "{missing}");
    }
    assert_eq!(refusal(5, 0).to_string(), "refused 5: the pool has no such row");
}

/// The last row that a pool can have.
#[test]
fn row_65_535() {
    let mut rows = Rows::default();
    let constants = (0..65_535).map(|i| rows.constant(2 + i % 2)).collect::<Vec<_>>();
    let top = rows.app(constants[0], constants[1]);
    assert_eq!(top, 65_535);
    let pool = rows.pool();
    assert_eq!(pool.compare(top, top), Ok(Equal));
    assert_eq!(pool.compare(top, 65_534), Ok(Differ(top, 65_534)));
    assert_eq!(pool.compare(65_532, 65_534), Ok(Equal));
    assert_eq!(pool.compare(65_533, 65_534), Ok(Differ(65_533, 65_534)));
    for row in [65_536, u32::MAX] {
        assert_eq!([pool.compare(top, row), pool.compare(row, top)], [Err(refusal(5, 0)); 2], "{row}");
    }
}

/// The raw call into an `out` of some length, between guards: what it returns, and `out`.
fn into(pool: &Pool, first: u32, second: u32, length: usize) -> (u32, Vec<u64>) {
    let mut out = Guarded::new(length, 0x5c, 0xa5);
    let (bytes, words, lent) = (&pool.bytes, &pool.words, out.area().as_mut_ptr());
    let number = unsafe { raw::tilusorgu_compare(bytes.as_ptr(), bytes.len(), words.as_ptr(), words.len(), first, second, lent, length) };
    assert!(out.intact());
    (number, out.seen().to_vec())
}

#[test]
fn out_shorter_or_longer_than_eight() {
    let pool = packed("(define a (@f @C)) (define b (@f @D))", Sharing::Shared).pool;
    let refused = packed("(define a (@f @C)) (define b (@f #4096))", Sharing::Shared).pool;
    for (pool, first, second, number, seen) in [
        (&pool, 2, 2, 0, [0, 0, 1, 0, 0, 0, 0, 0]),
        (&pool, 2, 4, 0, [0, 0, 0, 1, 3, 0, 0, 0]),
        (&pool, 4, 2, 0, [0, 0, 0, 3, 1, 0, 0, 0]),
        (&pool, 0, 5, 5, [5, 0, 0, 0, 0, 0, 0, 0]),
        (&refused, 0, 0, 4, [4, 3, 0, 0, 0, 0, 0, 0]),
    ] {
        for length in [0, 1, 7] {
            assert_eq!(into(pool, first, second, length), (number, vec![0xa5; length]));
        }
        assert_eq!(into(pool, first, second, 8), (number, seen.to_vec()));
        assert_eq!(into(pool, first, second, 10), (number, [&seen[..], &[0xa5, 0xa5]].concat()));
    }
}

// ---- kinds and fields

/// One of each kind.
const KINDS: [&str; 10] = [
    "#7",
    "(Sort u)",
    "@C.{u, v}",
    "(@f @a)",
    "(forall (x : @A) @B)",
    "(fun (x : @A) @B)",
    "(let (x : @A := @B) @b)",
    "(proj S 3 @s)",
    "12",
    "\"12\"",
];

#[test]
fn kinds() {
    for (i, first) in KINDS.iter().enumerate() {
        for (j, second) in KINDS.iter().enumerate() {
            if i == j {
                assert_equal(first, second);
            } else {
                assert_parts(first, second, &[]);
            }
        }
    }
}

/// Pairs that differ in one field that is no expression.
const FIELDS: [(&str, &str); 45] = [
    ("#0", "#1"),
    ("#0", "#4095"),
    ("(Sort 0)", "(Sort 1)"),
    ("(Sort u)", "(Sort v)"),
    ("(Sort u)", "(Sort u.v)"),
    ("(Sort u)", "(Sort u+1)"),
    ("(Sort (max u v))", "(Sort (imax u v))"),
    ("(Sort (max u v))", "(Sort (max v u))"),
    ("(Sort (max u (max u v)))", "(Sort (max (max u v) u))"),
    ("(Sort (+ (max u v) 5))", "(Sort (+ (max u v) 6))"),
    ("@a", "@b"),
    ("@a", "@a.b"),
    ("@a.b", "@b.b"),
    ("@a", "@_"),
    ("@a.b", "@«a.b»"),
    ("@a.5", "@a.«5»"),
    ("@a.5", "@a.4294967301"),
    ("@a.4294967296", "@a.8589934592"),
    ("@«»", "@_"),
    ("@C.{u}", "@C"),
    ("@C.{u}", "@C.{v}"),
    ("@C.{u, v}", "@C.{v, u}"),
    ("@C.{u}", "@C.{u, u}"),
    ("@C.{u, v}", "@C.{u, v, 0}"),
    ("@C.{u, v, 1}", "@C.{u, v, 2}"),
    ("@C.{(max u v)}", "@C.{u, v}"),
    ("(forall (x : @A) @B)", "(forall (y : @A) @B)"),
    ("(forall (x : @A) @B)", "(-> @A @B)"),
    ("(forall (x : @A) @B)", "(forall {x : @A} @B)"),
    ("(forall {x : @A} @B)", "(forall {{x : @A}} @B)"),
    ("(forall {{x : @A}} @B)", "(forall [x : @A] @B)"),
    ("(fun (x : @A) @b)", "(fun (x.y : @A) @b)"),
    ("(fun (x : @A) @b)", "(fun [x : @A] @b)"),
    ("(fun {x : @A} @b)", "(fun [x : @A] @b)"),
    ("(let (x : @A := @a) @b)", "(let (y : @A := @a) @b)"),
    ("(let (x : @A := @a) @b)", "(have (x : @A := @a) @b)"),
    ("(proj S 0 @s)", "(proj T 0 @s)"),
    ("(proj S 0 @s)", "(proj S.T 0 @s)"),
    ("(proj S 0 @s)", "(proj S 65535 @s)"),
    ("(proj S 65534 @s)", "(proj S 65535 @s)"),
    ("0", "1"),
    ("1", "10"),
    ("\"\"", "\"a\""),
    ("\"ab\"", "\"aB\""),
    ("\"→\"", "\"→ \""),
];

/// Places that a part can stand in, and the words that lead there.
const PLACES: [(&str, &str, &[usize]); 10] = [
    ("(@f ", ")", &[ARGUMENT]),
    ("(", " @a)", &[FUNCTION]),
    ("(", " @a @b @c)", &[FUNCTION, FUNCTION, FUNCTION]),
    ("(forall (x : ", ") @B)", &[TYPE]),
    ("(forall (x : @A) ", ")", &[BODY]),
    ("(fun {x : @A} ", ")", &[BODY]),
    ("(let (x : ", " := @a) @b)", &[LET_TYPE]),
    ("(let (x : @A := ", ") @b)", &[VALUE]),
    ("(let (x : @A := @a) ", ")", &[BODY]),
    ("(proj S 0 ", ")", &[STRUCTURE]),
];

#[test]
fn each_field_at_the_root_and_in_each_place() {
    with_stack(|| {
        for (first, second) in FIELDS {
            assert_parts(first, second, &[]);
            for (before, after, path) in PLACES {
                let (a, b) = (format!("{before}{first}{after}"), format!("{before}{second}{after}"));
                assert_parts(&a, &b, path);
                assert_equal(&a, &a);
                assert_equal(&b, &b);
            }
        }
    });
}

/// Two places, one in the other.
#[test]
fn places_in_places() {
    with_stack(|| {
        for (outer_before, outer_after, outer) in PLACES {
            for (before, after, inner) in PLACES {
                let of = |leaf: &str| format!("{outer_before}{before}{leaf}{after}{outer_after}");
                assert_parts(&of("@C"), &of("@D"), &[outer, inner].concat());
            }
        }
    });
}

// ---- the order

#[test]
fn the_last_field_first() {
    assert_parts("(@f @a)", "(@g @b)", &[ARGUMENT]);
    assert_parts("(@f @a)", "(@g @a)", &[FUNCTION]);
    assert_parts("(@f @a @b @c)", "(@g @x @y @c)", &[FUNCTION, ARGUMENT]);
    assert_parts("(@f @a @b @c)", "(@g @x @b @c)", &[FUNCTION, FUNCTION, ARGUMENT]);
    assert_parts("((@f @a) (@g @b))", "((@f @x) (@y @z))", &[ARGUMENT, ARGUMENT]);
    for word in ["forall", "fun"] {
        let of = |ty: &str, body: &str| format!("({word} (x : {ty}) {body})");
        assert_parts(&of("@A", "@b"), &of("@B", "@c"), &[BODY]);
        assert_parts(&of("@A", "@b"), &of("@B", "@b"), &[TYPE]);
        assert_parts(&of("@A", "(@f @b)"), &of("12", "(@g @c)"), &[BODY, ARGUMENT]);
    }
    let of = |ty: &str, value: &str, body: &str| format!("(let (x : {ty} := {value}) {body})");
    assert_parts(&of("@A", "@v", "@b"), &of("@B", "@w", "@c"), &[BODY]);
    assert_parts(&of("@A", "@v", "@b"), &of("@B", "@w", "@b"), &[VALUE]);
    assert_parts(&of("@A", "@v", "@b"), &of("@B", "@v", "@b"), &[LET_TYPE]);
    assert_parts(&of("@A", "@v", "@b"), &of("@B", "@v", "@c"), &[BODY]);
    assert_parts(&of("@A", "@v", "@b"), &of("@A", "(@f @w)", "@b"), &[VALUE]);
}

/// A row's own fields come before its parts, and its kind before all.
#[test]
fn a_row_before_its_children() {
    assert_parts("(forall (x : @A) @b)", "(forall (y : @B) @c)", &[]);
    assert_parts("(forall (x : @A) @b)", "(fun (x : @B) @c)", &[]);
    assert_parts("(fun (x : @A) @b)", "(fun {x : @B} @c)", &[]);
    assert_parts("(let (x : @A := @v) @b)", "(have (x : @B := @w) @c)", &[]);
    assert_parts("(let (x : @A := @v) @b)", "(let (y : @B := @w) @c)", &[]);
    assert_parts("(proj S 0 @s)", "(proj S 1 @t)", &[]);
    assert_parts("(proj S 0 @s)", "(proj T 0 @t)", &[]);
    assert_parts("(@f (proj S 0 @s))", "(@g (proj S 1 @t))", &[ARGUMENT]);
    assert_parts("(@f @a)", "(proj S 0 (@f @b))", &[]);
}

/// The rows of a pool by hand: the same part stands in both places of one tree and in one place of the other.
#[test]
fn shared_rows_are_named_where_they_stand() {
    let mut rows = Rows::default();
    let (c, d) = (rows.constant(2), rows.constant(3));
    let (cc, cd, dc) = (rows.app(c, c), rows.app(c, d), rows.app(d, c));
    let again = rows.constant(2);
    let mixed = rows.app(again, c);
    let pool = rows.pool();
    for (first, second, expected) in [
        (cc, cc, Equal),
        (cc, cd, Differ(c, d)),
        (cc, dc, Differ(c, d)),
        (cd, dc, Differ(d, c)),
        (cd, cc, Differ(d, c)),
        (c, again, Equal),
        (cc, mixed, Equal),
        (mixed, dc, Differ(again, d)),
        (dc, mixed, Differ(d, again)),
        (cd, mixed, Differ(d, c)),
    ] {
        assert_eq!(pool.compare(first, second), Ok(expected), "{first} {second}");
    }
}

/// Names, levels, lists and strings in rows of their own, or with other rows shared.
#[test]
fn equal_through_other_rows() {
    for term in KINDS.iter().chain(FIELDS.iter().flat_map(|(a, b)| [a, b])) {
        let (pool, a, b) = both(term, term, Sharing::Apart);
        assert_ne!(a, b);
        assert_eq!(pool.compare(a, b), Ok(Equal), "{term}");
    }
    // bytes "abab": two strings with the same bytes, and a list that is a part of another
    let words = [
        &[3, 3, 3, 3, 3, 6, 0, 0][..],
        &[0, 2, 2, 2, 3, 1],
        &[0, 0, 0, 0, 1, 0, 0, 0, 1, 0, 1, 0],
        &[0, 0, 0, 4, 1, 0, 4, 2, 0],
        &[0, 2, 1, 2, 2, 1],
        &[1, 2, 1],
        &[2, 1, 0, 0, 0, 0, 1, 0],
        &[2, 2, 1, 0, 0, 0, 1, 0],
        &[2, 2, 2, 0, 0, 0, 1, 0],
        &[9, 0, 0, 0, 0, 0, 1, 0],
        &[9, 1, 0, 0, 0, 0, 1, 0],
        &[9, 2, 0, 0, 0, 0, 1, 0],
    ];
    let pool = Pool { bytes: b"abab".to_vec(), words: words.concat() };
    assert_eq!(pool.check(), Ok(()));
    assert_eq!([pool.compare(0, 1), pool.compare(1, 2), pool.compare(3, 4)], [Ok(Equal), Ok(Differ(1, 2)), Ok(Equal)]);
    assert_eq!(pool.compare(4, 5), Ok(Differ(4, 5)));
}

// ---- all pairs

fn samples() -> Vec<Pool> {
    let folder = concat!(env!("CARGO_MANIFEST_DIR"), "/../samples");
    let files = std::fs::read_dir(folder).unwrap().map(|f| f.unwrap().path()).filter(|f| f.extension().is_some_and(|e| e == "txt"));
    let texts: Vec<String> = files.map(|f| std::fs::read_to_string(f).unwrap()).collect();
    texts.iter().flat_map(|text| [Sharing::Shared, Sharing::Apart].map(|sharing| packed(text, sharing).pool)).collect()
}

/// Pairs of rows of the samples and of the recorded pools, most of them near each other, against a comparison pair by pair.
#[test]
fn pairs_of_samples_and_recorded_pools() {
    let (mut equal, mut inside, mut at_once) = (0, 0, 0);
    with_stack(|| {
        for pool in samples().into_iter().chain(recorded::read().into_iter().map(|r| r.pool)).filter(|pool| pool.check().is_ok()) {
            let count = pool.count(Table::Exprs);
            for first in 0..count {
                for second in (first.saturating_sub(4)..count.min(first + 3)).chain([count - 1 - first]) {
                    let answer = compare(&pool.bytes, &pool.words, first, second).unwrap();
                    assert_eq!(answer, compared(&pool, first, second), "{first} {second}");
                    match answer {
                        Equal => equal += 1,
                        Differ(a, b) if (a, b) == (first, second) => at_once += 1,
                        Differ(..) => inside += 1,
                    }
                }
            }
        }
    });
    assert!(equal > 10_000 && inside > 1_000 && at_once > 10_000, "{equal} equal, {inside} differ inside, {at_once} at once");
}

// ---- trees far larger than their rows

/// The answer, if it comes in this time.
fn within(time: Duration, pool: Pool, first: u32, second: u32) -> Comparison {
    let (said, heard) = channel();
    std::thread::spawn(move || said.send(pool.compare(first, second)));
    heard.recv_timeout(time).expect("an answer in time").unwrap()
}

const SECOND: Duration = Duration::from_secs(1);
const LAYERS: usize = 250;

/// The other way round in each pair of the layer below.
fn turned(i: usize, wide: usize) -> (usize, usize) {
    let (a, b) = doubled(i, wide);
    (b, a)
}

/// Layers over leaves that are all equal: the trees are equal whichever rows a row is over.
fn alike(rows: &mut Rows, wide: usize, kind: u32, below: Below) -> u32 {
    let leaves = (0..wide).map(|_| rows.constant(2)).collect();
    rows.layers_over(leaves, LAYERS, kind, below)[0]
}

#[test]
fn layers_of_four_rows() {
    for kind in [3, 4, 5] {
        for (one, other) in [(doubled as Below, doubled as Below), (neighbours, neighbours), (doubled, neighbours), (doubled, turned)] {
            let mut rows = Rows::default();
            let (first, second) = (alike(&mut rows, 4, kind, one), alike(&mut rows, 4, kind, other));
            assert_eq!(within(SECOND, rows.pool(), first, second), Equal, "kind {kind}");
        }
    }
}

/// The leaves are four different ones, and of the second tree one is another.
#[test]
fn layers_of_four_rows_with_another_leaf() {
    for kind in [3, 4, 5] {
        for below in [doubled as Below, neighbours] {
            for other in 0..5 {
                let mut rows = Rows::default();
                let tops = [false, true].map(|changed| {
                    let leaves: Vec<u32> = (0..4).map(|i| rows.var(300 + i + 10 * u32::from(changed && i == other))).collect();
                    let top = rows.layers_over(leaves.clone(), LAYERS, kind, below)[0];
                    (leaves, top)
                });
                let expected = if other < 4 { Differ(tops[0].0[other as usize], tops[1].0[other as usize]) } else { Equal };
                assert_eq!(within(SECOND, rows.pool(), tops[0].1, tops[1].1), expected, "kind {kind}, leaf {other}");
            }
        }
    }
}

/// One row a layer against four, and the front of all, which is looked at last.
#[test]
fn other_sharing_and_another_front() {
    for (front, expected) in [(2, true), (3, false)] {
        let mut rows = Rows::default();
        let (first, second) = (alike(&mut rows, 1, 3, |_, _| (0, 0)), alike(&mut rows, 4, 3, doubled));
        let (c, d) = (rows.constant(2), rows.constant(front));
        let (first, second) = (rows.app(c, first), rows.app(d, second));
        assert_eq!(within(SECOND, rows.pool(), first, second), if expected { Equal } else { Differ(c, d) });
    }
}

/// x applied to itself, doubled 255 times: equal; with another leaf; and as the argument of another front.
#[test]
fn doublings_255_deep() {
    let doubling = |rows: &mut Rows, leaf: u32, times: usize| (0..times).fold(leaf, |row, _| rows.app(row, row));
    for (other, kind) in [(2, 0), (3, 0), (2, 1), (3, 1)] {
        let mut rows = Rows::default();
        let (c, d) = (rows.constant(2), rows.constant(other));
        let times = if kind == 0 { 255 } else { 254 };
        let leaf = rows.constant(2);
        let (mut first, mut second) = (doubling(&mut rows, c, times), doubling(&mut rows, if kind == 0 { d } else { leaf }, times));
        if kind == 1 {
            (first, second) = (rows.app(c, first), rows.app(d, second));
        }
        let pool = rows.pool();
        assert_eq!(pool.row(Table::Exprs, first.into()).unwrap()[6], 256);
        let expected = if other == 2 { Equal } else { Differ(c, d) };
        assert_eq!(within(SECOND, pool, first, second), expected);
    }
}

/// As many rows as a pool can have, each layer put together otherwise.
#[test]
fn layers_of_many_rows() {
    for (one, other) in [(doubled as Below, doubled as Below), (neighbours, neighbours), (doubled, neighbours), (doubled, turned)] {
        let mut rows = Rows::default();
        let (first, second) = (alike(&mut rows, 125, 3, one), alike(&mut rows, 125, 3, other));
        assert_eq!(within(Duration::from_secs(10), rows.pool(), first, second), Equal);
    }
}

#[test]
fn levels_in_layers_and_long_lists() {
    for wide in [2, 500] {
        let mut rows = Rows::default();
        let [(first, a), (second, b)] = [(); 2].map(|()| rows.level_layers(62, wide, doubled)).map(|level| (rows.sort(level), level));
        let last = rows.level([1, a, 0]);
        let other = rows.sort(last);
        rows.lists = vec![[0, 1], [1, 1], [1, 2]];
        rows.entries = vec![a, b, a];
        let [one, same, more] = [1, 2, 3].map(|list| rows.row(2, [2, list, 0, 0, 0], &[], None, 0));
        let pool = rows.pool();
        for (x, y, expected) in [(first, second, Equal), (first, other, Differ(first, other)), (one, same, Equal), (one, more, Differ(one, more))] {
            assert_eq!(within(SECOND, pool.clone(), x, y), expected, "{wide}");
        }
    }
    for different in [false, true] {
        let (rows, [first, second]) = Rows::long_lists(different);
        let expected = if different { Differ(first, second) } else { Equal };
        assert_eq!(within(SECOND, rows.pool(), first, second), expected);
    }
}

/// Two strings of 8 MiB, equal or different in the last byte.
#[test]
fn long_strings() {
    for last in [b'a', b'b'] {
        let mut bytes = vec![b'a'; 1 << 24];
        bytes[(1 << 24) - 1] = last;
        let words = [&[2, 0, 0, 0, 0, 2, 0, 0][..], &[0, 1 << 23, 1 << 23, 1 << 23], &[9, 0, 0, 0, 0, 0, 1, 0], &[9, 1, 0, 0, 0, 0, 1, 0]];
        let pool = Pool { bytes, words: words.concat() };
        assert_eq!(within(SECOND, pool, 0, 1), if last == b'a' { Equal } else { Differ(0, 1) });
    }
}

// ---- the machine stack

/// What include/tilusorgu.h asks for.
const STACK: usize = 8 << 20;

/// `out` of the call in a thread with that stack. An overflow kills the test's process.
fn in_eight_megabytes(pool: Pool, first: u32, second: u32) -> Vec<u64> {
    let (said, heard) = channel();
    std::thread::Builder::new().stack_size(STACK).spawn(move || said.send(into(&pool, first, second, 8).1)).unwrap();
    heard.recv_timeout(Duration::from_secs(10)).expect("an answer in ten seconds")
}

/// The deepest trees of each shape in rows of their own, the innermost part equal or another.
#[test]
fn deepest_trees_in_eight_megabytes() {
    let deep = |before: &str, after: &str, leaf: &str| format!("{}{leaf}{}", before.repeat(255), after.repeat(255));
    for (before, after, path) in PLACES.into_iter().filter(|place| place.2.len() == 1) {
        for (leaf, is_equal) in [("@c", true), ("@d", false)] {
            let (pool, first, second) = both(&deep(before, after, "@c"), &deep(before, after, leaf), Sharing::Apart);
            assert_eq!(pool.row(Table::Exprs, first.into()).unwrap()[6], 256, "{before}");
            let [x, y] = [first, second].map(|row| u64::from(below(&pool, row, &path.repeat(255))));
            let expected = if is_equal { [0, 0, 1, 0, 0, 0, 0, 0] } else { [0, 0, 0, x, y, 0, 0, 0] };
            assert_eq!(in_eight_megabytes(pool, first, second), expected, "{before}");
        }
    }
    for (kind, wide) in [(3, 4), (4, 125), (5, 4)] {
        let mut rows = Rows::default();
        let (first, second) = (alike(&mut rows, wide, kind, doubled), alike(&mut rows, wide, kind, neighbours));
        assert_eq!(in_eight_megabytes(rows.pool(), first, second), [0, 0, 1, 0, 0, 0, 0, 0], "kind {kind}");
    }
}
