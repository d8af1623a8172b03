//! Operators (document 02, P5): the rules of notation rows, where an operator acts, what parentheses and breaks it has, and how much time the
//! rows take.
#[path = "common/fit_tests.rs"]
mod fit_tests;
#[allow(dead_code)] // these tests hold areas to what they were before
#[path = "common/guarded.rs"]
mod guarded;

use fit_tests::fit_tests;
use guarded::Guarded;
use std::sync::mpsc::channel;
use std::time::Duration;
use tilusorgu::calls::{self, check, compare, string_part};
use tilusorgu::text::{pack, Sharing};
use tilusorgu::{with_stack, Areas, Counts, Lent, Pool, Refusal, Root, Sizes, Table};

const SHARED_AND_APART: [Sharing; 2] = [Sharing::Shared, Sharing::Apart];

fn packed(text: &str) -> Pool {
    pack(text, Sharing::Shared).unwrap_or_else(|m| panic!("{text}: {m}")).pool
}

fn refusal(number: u32, place: u64) -> Refusal {
    Refusal { number, place }
}

/// The text with this term as an axiom's type, listed at this width; the same from shared and from separate rows.
fn listed_at(width: u32, operators: &str, term: &str) -> String {
    let [shared, apart] = SHARED_AND_APART.map(|sharing| {
        let pool = pack(&format!("{operators} (axiom k {term})"), sharing).unwrap_or_else(|m| panic!("{term}: {m}")).pool;
        let listing = pool.list_declar(0, Sizes { indent: 2, width }).unwrap_or_else(|r| panic!("{operators} {term}: {r}")).text;
        listing.strip_prefix("axiom k :").unwrap_or_else(|| panic!("{listing}")).to_string()
    });
    assert_eq!(shared, apart, "{term}");
    shared
}

/// On one row.
fn listed(operators: &str, term: &str) -> String {
    listed_at(65_535, operators, term).strip_prefix(' ').unwrap().to_string()
}

// ---- what is refused

/// A print in areas between guards, which a refusal leaves alone.
fn print_refused(pool: &Pool, root: Root, sizes: Sizes) -> Refusal {
    let (mut rows, mut text, mut listing) = (Guarded::new(99, 0x5c5c_5c5c, 0xa5a5_a5a5), Guarded::new(99, 0x5c, 0xa5), Guarded::new(99, 0x5c, 0xa5));
    let lent = Lent { rows: rows.area(), text: text.area(), listing: listing.area() };
    let refusal = calls::print(&pool.bytes, &pool.words, root, sizes, lent).unwrap_err();
    assert!(rows.intact() && text.intact() && listing.intact());
    assert!(rows.untouched_from(0) && text.untouched_from(0) && listing.untouched_from(0), "{refusal}");
    refusal
}

/// Check, both prints, compare and handing out.
fn assert_refused(pool: &Pool, expected: Refusal) {
    assert_eq!(pool.check(), Err(expected));
    for root in [Root::Expr(0), Root::Declar(0), Root::Expr(u32::MAX)] {
        for indent in [2, 65] {
            assert_eq!(print_refused(pool, root, Sizes { indent, width: 80 }), expected);
        }
    }
    for (first, second) in [(0, 0), (0, u32::MAX)] {
        assert_eq!(compare(&pool.bytes, &pool.words, first, second), Err(expected));
    }
    assert_eq!(string_part(&pool.bytes, &pool.words, 0), b"");
}

/// An axiom, so that names, strings, an expression and a declaration are there, and these raw notation rows.
fn with_rows(rows: &[[u32; 4]]) -> Pool {
    let typed: String = rows.iter().map(|[name, kind, priority, string]| format!("(row notation {name} {kind} {priority} {string})")).collect();
    packed(&format!("(axiom k @C) {typed}"))
}

#[test]
fn each_rule_of_a_row() {
    let (names, strings) = (3, 2);
    assert_eq!([Table::Names, Table::Strings].map(|table| with_rows(&[]).count(table)), [names, strings]);
    for right in
        [[0, 0, 1, 0], [2, 0, 1, 0], [0, 1, 1, 0], [0, 2, 1, 0], [0, 0, 2, 0], [0, 0, 1022, 0], [0, 0, 1023, 0], [0, 0, 1, 1], [2, 2, 1023, 1]]
    {
        assert_eq!(with_rows(&[right]).check(), Ok(()), "{right:?}");
    }
    let edges = [
        [names, names + 1, 255, 65_536, 1 << 31, u32::MAX],
        [3, 4, 255, 256, 65_536, u32::MAX],
        [0, 1024, 1025, 65_537, 1 << 31, u32::MAX],
        [strings, 3, 255, 65_536, 1 << 31, u32::MAX],
    ];
    for (field, wrong) in edges.iter().enumerate() {
        for &value in wrong {
            let mut row = [1, 1, 500, 1];
            row[field] = value;
            assert_refused(&with_rows(&[row]), refusal(31, 0));
            // wherever it stands: the place is 0
            assert_refused(&with_rows(&[[0, 0, 1, 0], row]), refusal(31, 0));
            assert_refused(&with_rows(&[row, [0, 0, 1, 0]]), refusal(31, 0));
        }
    }
    // no name and no string is there to refer to
    let words = |counts: [u32; 2]| {
        [&counts[..], &[0, 0, 0, 0, 0, 1], &[0; 2][..2 * counts[0] as usize], &[0; 4][..4 * counts[1] as usize], &[0, 0, 1, 0]].concat()
    };
    for (counts, answer) in [([0, 0], Err(refusal(31, 0))), ([0, 1], Err(refusal(31, 0))), ([1, 0], Err(refusal(31, 0))), ([1, 1], Ok(()))] {
        assert_eq!(check(&[], &words(counts)), answer, "{counts:?}");
    }
}

/// Two names, each made of rows of its own, and an operator of each: is the second one refused?
fn both(first: &str, second: &str) -> Pool {
    pack(&format!("(axiom k @C) (infix {first} 65 \"+\") (postfix {second} 70 \"!\")"), Sharing::Apart).unwrap().pool
}

#[test]
fn a_name_given_twice_through_other_rows() {
    let names = [
        "_",
        "a",
        "b",
        "«»",
        "_.a",
        "a.b",
        "b.a",
        "«a.b»",
        "a.a",
        "5",
        "«5»",
        "a.5",
        "a.«5»",
        "5.a",
        "a.b.c",
        "4294967296",
        "8589934592",
        "0",
        "a.0",
        "α.«b c»",
    ];
    for first in names {
        for second in names {
            let pool = both(first, second);
            let rows = [0, 1].map(|row| pool.row(Table::Notations, row).unwrap()[0]);
            assert_ne!(rows[0], rows[1]);
            if first == second {
                assert_refused(&pool, refusal(31, 0));
            } else {
                assert_eq!(pool.check(), Ok(()), "{first} and {second}");
            }
        }
    }
    // the very row, in rows that are alike and in rows that are not
    assert_refused(&with_rows(&[[1, 0, 1, 0], [1, 0, 1, 0]]), refusal(31, 0));
    assert_refused(&with_rows(&[[1, 0, 1, 0], [2, 0, 1, 0], [0, 0, 1, 0], [1, 2, 1023, 1]]), refusal(31, 0));
}

/// Strings with equal bytes in other places of the byte area, and prefixes that are other rows.
#[test]
fn equal_bytes_in_other_places() {
    // "abab": ab, ba, ab, and a, b
    let (bytes, strings) = (b"abab", [[0, 2], [0, 1], [1, 2], [1, 1], [2, 2]]);
    let names = [
        [0, 0, 0, 0],
        [1, 0, 0, 0], // ab
        [1, 0, 2, 0], // ba
        [1, 0, 4, 0], // ab again
        [0, 0, 0, 0],
        [1, 4, 0, 0], // ab, the prefix another anonymous row
        [1, 1, 1, 0], // ab.a
        [1, 3, 1, 0], // ab.a
        [1, 2, 1, 0], // ba.a
        [2, 1, 7, 1], // ab.(2^32 + 7)
        [2, 3, 7, 1], // again
        [2, 3, 7, 0], // ab.7
    ];
    let trees = [0, 1, 2, 1, 0, 1, 3, 3, 4, 5, 5, 6];
    for first in 0..names.len() {
        for second in 0..names.len() {
            let mut words = vec![strings.len() as u32, names.len() as u32, 0, 0, 0, 0, 0, 2];
            words.extend(strings.iter().flatten());
            words.extend(names.iter().flatten());
            words.extend([first as u32, 0, 1, 0, second as u32, 1, 2, 1]);
            let expected = if trees[first] == trees[second] { Err(refusal(31, 0)) } else { Ok(()) };
            assert_eq!(check(bytes, &words), expected, "{first} {second}");
        }
    }
}

/// Every set of what can be wrong, of which the first in the order 1, 2, 3, 4, 31, 5, 6 is answered.
#[test]
fn the_order_of_refusals() {
    let long = vec![b'k'; 16_777_217];
    let numbers = [(1, 0), (2, 0), (3, 2), (4, 2), (31, 0), (5, 0), (6, 0)];
    with_stack(|| {
        for wrong in 0..1 << numbers.len() {
            let is_wrong = |number: u32| wrong >> numbers.iter().position(|n| n.0 == number).unwrap() & 1 == 1;
            let text = [
                "(axiom k @C) (define e (@f @a))",
                if is_wrong(31) { " (infix f 65 \"f\") (prefix f 65 \"f\")" } else { " (infix f 65 \"f\")" },
                if is_wrong(3) { " (row strings 0 1)" } else { "" },
                if is_wrong(4) { " (row names 3 0 0 0)" } else { "" },
                if is_wrong(1) { " (words 0)" } else { "" },
            ];
            let mut pool = packed(&text.concat());
            if is_wrong(2) {
                pool.bytes.clone_from(&long);
            }
            let (row, indent) = (if is_wrong(5) { 9 } else { 0 }, if is_wrong(6) { 65 } else { 64 });
            let Some(first) = numbers.iter().find(|n| is_wrong(n.0)).map(|&(number, _)| number) else {
                assert_eq!(pool.check(), Ok(()));
                continue;
            };
            // the string and the name that are too many are the last of their tables
            let place = match first {
                3 => u64::from(pool.count(Table::Strings)) - 1,
                4 => u64::from(pool.count(Table::Names)) - 1,
                _ => 0,
            };
            for root in [Root::Expr(row), Root::Declar(row)] {
                assert_eq!(print_refused(&pool, root, Sizes { indent, width: 80 }), refusal(first, place), "{text:?}");
            }
            if ![5, 6].contains(&first) {
                assert_eq!(pool.check(), Err(refusal(first, place)), "{text:?}");
            }
        }
    });
}

/// Which row it is, and what is wrong with it.
#[test]
fn refusals_in_words() {
    let said = |pool: &Pool| pool.explain(pool.check().unwrap_err());
    let rule = "a notation row has a name row that exists, kind 0 (prefix), 1 (infix) or 2 (postfix), a priority of 1 to 1,023, and a string \
                row that exists";
    assert_eq!(said(&with_rows(&[[0, 0, 1, 0], [1, 3, 500, 1], [2, 3, 0, 9]])), format!("refused 31 (notation row 1, words 1 3 500 1): {rule}"));
    assert_eq!(said(&with_rows(&[[3, 0, 1, 0]])), format!("refused 31 (notation row 0, words 3 0 1 0): {rule}"));
    let twice = |row: &str, earlier: u32| {
        format!("refused 31 (notation row {row}): notation row {earlier} has the same name, and a name has at most one operator")
    };
    assert_eq!(said(&with_rows(&[[0, 0, 1, 0], [1, 0, 1, 0], [2, 0, 1, 0], [1, 2, 9, 1], [0, 0, 1, 0]])), twice("3, words 1 2 9 1", 1));
    assert_eq!(said(&with_rows(&[[1, 0, 1, 0], [1, 0, 1, 0], [7, 0, 1, 0]])), twice("1, words 1 0 1 0", 0));
    let apart = both("a.«b c».5", "a.«b c».5");
    assert_eq!(said(&apart), twice(&format!("1, words {} 2 70 {}", apart.count(Table::Names) - 1, apart.count(Table::Strings) - 1), 0));
    assert_eq!(with_rows(&[[0, 0, 1, 0]]).faulty_notation(), None);
    assert!(refusal(31, 0).to_string().starts_with("refused 31: a notation row has "), "{}", refusal(31, 0));
    // other tables are named as before, whatever the notation rows are
    let pool = packed("(axiom k @C) (row declarations 9 0 0 0 0) (row notation 9 9 9 9)");
    assert!(said(&pool).starts_with("refused 4 (declaration row 1, words 9 0 0 0 0): "), "{}", said(&pool));
}

// ---- where an operator acts

const OPERATORS: &str = "(infix add 65 \"+\") (infix mul 70 \"*\") (prefix neg 75 \"-\") (postfix fact 80 \"!\")";

#[test]
fn numbers_of_arguments() {
    for (term, listing) in [
        ("@add", "@add"),
        ("(@add)", "@add"),
        ("(@add @a)", "@add @a"),
        ("(@add @a @b)", "@a+@b"),
        ("((@add @a) @b)", "@a+@b"),
        ("(@add @a @b @c)", "@add @a @b @c"),
        ("((@add @a @b) @c)", "@add @a @b @c"),
        ("(@add @a @b @c @d)", "@add @a @b @c @d"),
        ("@neg", "@neg"),
        ("(@neg @a)", "-@a"),
        ("(@neg @a @b)", "@neg @a @b"),
        ("(@neg @a @b @c)", "@neg @a @b @c"),
        ("@fact", "@fact"),
        ("(@fact @a)", "@a!"),
        ("((@fact @a) @b)", "@fact @a @b"),
        ("(@fact @a @b @c)", "@fact @a @b @c"),
        // as an argument and as the head of an argument
        ("(@f @add @neg @fact)", "@f @add @neg @fact"),
        ("(@f (@add @a @b))", "@f (@a+@b)"),
        ("(@f (@add @a))", "@f (@add @a)"),
        ("(@f (@neg @a) (@fact @b))", "@f (-@a) (@b!)"),
        ("(@add @add @neg)", "@add+@neg"),
    ] {
        assert_eq!(listed(OPERATORS, term), listing, "{term}");
    }
}

/// Constants with an equal name tree, whatever their levels; nothing else.
#[test]
fn heads() {
    assert_eq!(listed(OPERATORS, "(@add.{u} @a @b)"), "@a+@b");
    assert_eq!(listed(OPERATORS, "(@add.{u, v+1, 0} (@neg.{u} @a) @b)"), "-@a+@b");
    assert_eq!(listed(OPERATORS, "(fun (add neg : @A) (@f (add neg neg) (neg add)))"), "fun (add neg : @A) => @f (add neg neg) (neg add)");
    assert_eq!(listed(OPERATORS, "(@add.a @a @b)"), "@add.a @a @b");
    assert_eq!(listed(OPERATORS, "((proj add 0 @add) @a @b)"), "@add.1 @a @b");
    assert_eq!(listed("(infix a.b 65 \"+\")", "(@f (@a.b 1 2) (@«a.b» 1 2))"), "@f (1+2) (@«a.b» 1 2)");
    assert_eq!(listed("(infix «a.b» 65 \"+\")", "(@f (@a.b 1 2) (@«a.b» 1 2))"), "@f (@a.b 1 2) (1+2)");
    assert_eq!(listed("(infix a.5 65 \"+\")", "(@f (@a.5 1 2) (@a.«5» 1 2))"), "@f (1+2) (@a.«5» 1 2)");
    assert_eq!(listed("(prefix _ 65 \"-\") (infix 7 1 \"7\")", "(@f (@_ @_) (@7 @7 @7) (@«» 1))"), "@f (-@«») (@77@7) (@ 1)");
    // what is declared is no application
    let pool = packed("(infix k 65 \"+\") (axiom k @k) (def k (@k @k @k) @k)");
    assert_eq!([0, 1].map(|row| pool.list_declar(row, Sizes::default()).unwrap().text), ["axiom k : @k", "def k : @k+@k := @k"]);
}

/// Operands print under the priority, the result has the level below it.
#[test]
fn parentheses() {
    for (term, listing) in [
        ("(@add (@add @a @b) @c)", "(@a+@b)+@c"),
        ("(@add @a (@add @b @c))", "@a+(@b+@c)"),
        ("(@add (@mul @a @b) (@mul @c @d))", "@a*@b+@c*@d"),
        ("(@mul (@add @a @b) (@add @c @d))", "(@a+@b)*(@c+@d)"),
        ("(@neg (@neg @a))", "-(-@a)"),
        ("(@fact (@fact @a))", "(@a!)!"),
        ("(@neg (@fact @a))", "-@a!"),
        ("(@fact (@neg @a))", "(-@a)!"),
        ("(@add (@neg @a) (@fact @b))", "-@a+@b!"),
        ("(@neg (@add @a @b))", "-(@a+@b)"),
        ("(@add (@f @a) (@g @b @c))", "@f @a+@g @b @c"),
        ("(@add 1 \"2\")", "1+\"2\""),
        ("(@add (proj S 0 @a) (proj S 0 (@add @a @b)))", "@a.1+(@a+@b).1"),
        ("(@add (Sort 0) (Sort (max u v)))", "Prop+Sort (max u v)"),
        ("(@add (fun (x : @A) x) (let (x : @A := @v) x))", "(fun (x : @A) => x)+(let x : @A := @v; x)"),
        ("(@neg (forall {x : @A} (@P x)))", "-(forall {x : @A}, @P x)"),
        ("(@add (-> @A @B) (-> @B @C))", "(@A → @B)+(@B → @C)"),
    ] {
        assert_eq!(listed(OPERATORS, term), listing, "{term}");
    }
}

/// An infix operator of this priority round another one.
fn around(outer: u32, inner: u32) -> String {
    listed(&format!("(infix add {outer} \"+\") (infix mul {inner} \"*\")"), "(@add (@mul @a @b) (@mul @c @d))")
}

#[test]
fn priorities_on_both_sides_of_a_parenthesis() {
    let (with, without) = ("(@a*@b)+(@c*@d)", "@a*@b+@c*@d");
    for (outer, inner, expected) in [
        (1, 1, with),
        (1, 2, without),
        (2, 1, with),
        (2, 2, with),
        (2, 3, without),
        (65, 65, with),
        (65, 66, without),
        (1022, 1022, with),
        (1022, 1023, without),
        (1023, 1022, with),
        (1023, 1023, with),
        (1, 1023, without),
        (1023, 1, with),
    ] {
        assert_eq!(around(outer, inner), expected, "{outer} round {inner}");
    }
    // an application has the level 1,023, an arrow 24, a let and a lambda 0
    for (priority, term, listing) in [
        (1023, "(@add (@f @a) @b)", "@f @a+@b"),
        (24, "(@add (-> @A @B) @c)", "@A → @B+@c"),
        (25, "(@add (-> @A @B) @c)", "(@A → @B)+@c"),
        (1, "(@add (-> @A @B) @c)", "@A → @B+@c"),
        (1, "(@add (fun (x : @A) x) @c)", "(fun (x : @A) => x)+@c"),
        (1, "(@add @c (let (x : @A := @v) x))", "@c+(let x : @A := @v; x)"),
        // and what they stand in asks for: an argument and a structure 1,024, an arrow's type 25 and the rest of it 24, a binder's type 1
        (1023, "(@f (@add @a @b))", "@f (@a+@b)"),
        (1023, "(proj S 0 (@add @a @b))", "(@a+@b).1"),
        (25, "(-> (@add @a @b) @C)", "(@a+@b) → @C"),
        (26, "(-> (@add @a @b) @C)", "@a+@b → @C"),
        (24, "(-> @C (@add @a @b))", "@C → (@a+@b)"),
        (25, "(-> @C (@add @a @b))", "@C → @a+@b"),
        (1, "(fun (x : (@add @a @b)) x)", "fun (x : (@a+@b)) => x"),
        (2, "(fun (x : (@add @a @b)) x)", "fun (x : @a+@b) => x"),
        (1, "(let (x : (@add @a @b) := (@add @c @d)) (@add x x))", "let x : (@a+@b) := @c+@d; x+x"),
        (2, "(let (x : (@add @a @b) := (@add @c @d)) (@add x x))", "let x : @a+@b := @c+@d; x+x"),
        (1, "(@add @a @b)", "@a+@b"),
    ] {
        assert_eq!(listed(&format!("(infix add {priority} \"+\")"), term), listing, "{priority}: {term}");
    }
    for (priority, listing) in [(1, "-(-(fun (x : @A) => x))"), (1023, "-(-(fun (x : @A) => x))")] {
        assert_eq!(listed(&format!("(prefix neg {priority} \"-\")"), "(@neg (@neg (fun (x : @A) x)))"), listing);
    }
}

/// The string stands as it is.
#[test]
fn strings() {
    for (string, shown) in
        [("", ""), (" ", " "), (" + ", " + "), ("@a", "@a"), (")", ")"), ("«", "«"), ("→ 𝔸", "→ 𝔸"), ("\\n", "\n"), ("\\\"", "\""), ("\\x00", "\0")]
    {
        let operators = format!("(infix add 65 \"{string}\") (prefix neg 75 \"{string}\") (postfix fact 80 \"{string}\")");
        assert_eq!(listed(&operators, "(@add @a @b)"), format!("@a{shown}@b"), "{string}");
        assert_eq!(listed(&operators, "(@neg @a)"), format!("{shown}@a"), "{string}");
        assert_eq!(listed(&operators, "(@fact @a)"), format!("@a{shown}"), "{string}");
        assert_eq!(listed(&operators, "(@f (@add (@neg @a) (@fact (@fact @b))))"), format!("@f ({shown}@a{shown}(@b{shown}){shown})"), "{string}");
    }
}

#[test]
fn declarations() {
    let text = format!(
        "{OPERATORS} (theorem comm (forall (a b : @Nat) (h : (@neg a)) (@Eq.{{1}} @Nat (@add a b) (@add b a)))
           (fun (a b : @Nat) (h : (@neg a)) (@fact (@h a b h))))
         (inductive add.{{u}} (-> (Sort 0) (@neg (Type u)) (Sort 0)))
         (constructor mk (forall {{a : (@add @A @B)}} [b : (@neg a)] (c : (@fact b)) (@mul a b)))
         (def twice (forall (n : @Nat) @Nat) (fun (n m : @Nat) (@add n m)))"
    );
    let pool = packed(&text);
    let listings: Vec<String> = (0..4).map(|row| pool.list_declar(row, Sizes { indent: 2, width: 200 }).unwrap().text).collect();
    assert_eq!(
        listings,
        [
            "theorem comm (a b : @Nat) (h : -a) : @Eq @Nat (a+b) (b+a) := @h a b h!",
            "inductive add.{u} : Prop → -Type u → Prop",
            "constructor mk {a : @A+@B} [b : -a] : b! → a*b",
            "def twice (n : @Nat) : @Nat := fun (m : @Nat) => n+m"
        ]
    );
}

// ---- breaks

#[test]
fn empty_breaks() {
    let at = |width: u32, term: &str| listed_at(width, OPERATORS, term);
    for (width, listing) in [
        (30, " @one+@two"),
        (19, " @one+@two"),
        (18, "\n  @one+@two"),
        (11, "\n  @one+@two"),
        (10, "\n  @one+\n    @two"),
        (0, "\n  @one+\n    @two"),
    ] {
        assert_eq!(at(width, "(@add @one @two)"), listing, "{width}");
    }
    for (width, listing) in [(30, " -@one"), (15, " -@one"), (14, "\n  -@one"), (7, "\n  -@one"), (6, "\n  -\n  @one"), (0, "\n  -\n  @one")] {
        assert_eq!(at(width, "(@neg @one)"), listing, "{width}");
    }
    for (width, listing) in [(30, " @one!"), (15, " @one!"), (14, "\n  @one!"), (7, "\n  @one!"), (6, "\n  @one\n  !"), (0, "\n  @one\n  !")] {
        assert_eq!(at(width, "(@fact @one)"), listing, "{width}");
    }
}

/// The last print with its blanks put back: at each broken place that break's own blank, which may be empty.
fn put_back(areas: &Areas, counts: &Counts) -> Vec<u8> {
    let (document, listing, starts) = (areas.document(counts), areas.listing(counts), areas.row_starts(counts));
    let (mut flat, mut at) = (Vec::new(), 0);
    for row in document.rows.chunks_exact(7) {
        match row[0] {
            0 => {
                let text = &document.text[row[1] as usize..][..row[2] as usize];
                assert_eq!(&listing[at..at + text.len()], text);
                flat.extend(text);
                at += text.len();
            }
            2 => {
                let broken = starts[1..].contains(&(at + 1));
                flat.extend(&b" "[..row[1] as usize]);
                at += if broken { 1 } else { row[1] as usize };
                while broken && listing.get(at) == Some(&b' ') {
                    at += 1;
                }
            }
            _ => {}
        }
    }
    assert_eq!(at, listing.len());
    flat
}

/// From width 0 to one on which all is on one row: both layouts of the document give the print's listing and counts, and with the blanks
/// put back the listing is the flat one.
#[test]
fn widths() {
    let sum = "(@add (@add (@neg @one) (@mul @two (@fact @three)))
                 (@neg (@f (@add @four @five) (fun (x : (@mul @six @seven)) (@add x (@neg x))))))";
    let texts = ["+", "", " + ", "\\n"].map(|string| {
        let operators = format!("(infix add 65 \"{string}\") (infix mul 70 \"*{string}\") (prefix neg 75 \"-\") (postfix fact 80 \"!\")");
        format!("{operators} (def k (forall (n : (@neg @A)) (@P n)) (fun (n : (@neg @A)) {sum}))")
    });
    with_stack(|| {
        for text in texts {
            let (pool, mut areas) = (packed(&text), Areas::default());
            let wide = Sizes { indent: 3, width: 65_535 };
            let counts = areas.print(&pool, Root::Declar(0), wide).unwrap();
            let flat = areas.listing(&counts).to_vec();
            assert_eq!((counts.lines, counts.fit_tests, counts.longest_row), (1, 1, counts.listing_length));
            let mut lines = Vec::new();
            for width in (0..=flat.len() as u32 + 1).chain([1000]) {
                let counts = areas.print(&pool, Root::Declar(0), Sizes { indent: 3, width }).unwrap();
                assert_eq!(put_back(&areas, &counts), flat, "{width}");
                let (document, length) = (areas.document(&counts), counts.listing_length as usize);
                assert_eq!(counts.fit_tests, fit_tests(document.rows, counts.document_rows as usize, width), "{width}");
                for layout in [calls::layout, calls::layout_deep] {
                    let mut listing = vec![0; length];
                    assert_eq!(layout(document, width, &mut listing), Ok(counts), "{width}");
                    assert!(listing == areas.listing(&counts), "{width}");
                }
                lines.push(counts.lines);
            }
            assert_eq!((lines[0], lines[lines.len() - 1], lines[flat.len() - 1], lines[flat.len()]), (lines[0], 1, 2, 1), "{lines:?}");
            assert!(lines[0] > 15 && lines.contains(&5), "{lines:?}");
        }
    });
}

/// Areas just long enough, and too short by a row, a byte of text and a byte of listing.
#[test]
fn exact_areas() {
    let text = format!("{OPERATORS} (define sum (@add @a @b)) (define minus (@neg @a)) (define factorial (@fact @a)) (define prop (Sort 0))");
    let packed = pack(&text, Sharing::Shared).unwrap();
    let (pool, expected) = (packed.pool, [(14, "@a+@b"), (9, "-@a"), (9, "@a!"), (2, "Prop")]);
    for ((_, root), (rows, listing)) in packed.defined.into_iter().zip(expected) {
        let bytes = listing.len();
        let answer = |lengths: [usize; 3]| {
            let (mut r, mut t, mut l) = (vec![1; lengths[0]], vec![1; lengths[1]], vec![1; lengths[2]]);
            let lent = Lent { rows: &mut r, text: &mut t, listing: &mut l };
            let answer = calls::print(&pool.bytes, &pool.words, Root::Expr(root), Sizes { indent: 2, width: 80 }, lent);
            (answer, l)
        };
        let counts =
            Counts { document_rows: rows, text_bytes: bytes as u64, listing_length: bytes as u64, lines: 1, longest_row: bytes as u64, fit_tests: 1 };
        let words = 7 * rows as usize;
        assert_eq!(answer([words, bytes, bytes]), (Ok(counts), listing.as_bytes().to_vec()));
        assert_eq!(answer([words - 1, bytes, bytes]).0, Err(refusal(20, rows - 1)));
        assert_eq!(answer([words, bytes - 1, bytes]).0.unwrap_err().number, 21);
        assert_eq!(answer([words, bytes, bytes - 1]), (Err(refusal(22, 0)), listing.as_bytes()[..bytes - 1].to_vec()));
    }
}

/// The document's limits: with its operand a string of 65,534 bytes fills the text, and the bytes of a string are met before its row.
#[test]
fn long_strings() {
    let answer = |length: usize| {
        let pool = packed(&format!("(prefix neg 75 \"{}\") (define e (@neg @c))", "-".repeat(length)));
        pool.list_expr(2, Sizes::default()).map(|listing| (listing.counts.text_bytes, listing.counts.document_rows, listing.counts.longest_row))
    };
    assert_eq!(answer(65_534), Ok((65_536, 9, 65_534)));
    assert_eq!(answer(65_535), Err(refusal(8, 5)));
    assert_eq!(answer(65_536), Err(refusal(8, 4)));
    assert_eq!(answer(65_537), Err(refusal(8, 0)));
}

// ---- the text form

#[test]
fn forms() {
    let text = "(infix a.b 65 \"+\") (axiom k @C) (prefix a.b 0 \"\") (postfix _ 4294967295 \"+\") (row notation 9 8 7 6) (define e (@a.b 1 2))";
    let pool = packed(text);
    let rows: Vec<&[u32]> = (0..4).map(|row| pool.row(Table::Notations, row).unwrap()).collect();
    // strings: a, b, +, k, C, the empty one, 1, 2; names: the anonymous one, a, a.b, k, C
    assert_eq!(rows, [[2, 1, 65, 2], [2, 0, 0, 5], [0, 2, u32::MAX, 2], [9, 8, 7, 6]]);
    assert_eq!((pool.count(Table::Notations), pool.row(Table::Notations, 4)), (4, None));
    assert!(pool.counted().ends_with(", 1 declaration, 4 notations"), "{}", pool.counted());
    // equal ones are rows of their own, as declarations are, in both ways of sharing
    let twice = "(infix a 65 \"+\") (infix a 65 \"+\")";
    let apart = pack(twice, Sharing::Apart).unwrap().pool;
    assert_eq!([0, 1].map(|row| packed(twice).row(Table::Notations, row).unwrap().to_vec()), [[1, 1, 65, 1], [1, 1, 65, 1]]);
    assert_eq!([0, 1].map(|row| apart.row(Table::Notations, row).unwrap().to_vec()), [[1, 1, 65, 1], [3, 1, 65, 3]]);
    assert_eq!(packed("(axiom k @C) (infix C 1 \"\")").check(), Ok(()));
    for priority in [0, 1024, 5000, u32::MAX] {
        assert_refused(&packed(&format!("(axiom k @C) (infix C {priority} \"\")")), refusal(31, 0));
    }
}

#[test]
fn mistakes() {
    for (text, what) in [
        ("(infix)", "1:1: (infix NAME PRIORITY \"text\") is expected"),
        ("(axiom k @C)\n (prefix a 65)", "2:2: (prefix NAME PRIORITY \"text\") is expected"),
        ("(postfix a \"!\")", "1:1: (postfix NAME PRIORITY \"text\") is expected"),
        ("(infix a 65 \"+\" \"+\")", "1:1: (infix NAME PRIORITY \"text\") is expected"),
        ("(infix a 4294967296 \"+\")", "1:10: a number below 4,294,967,296 is expected here"),
        ("(infix a -1 \"+\")", "1:10: a number below 4,294,967,296 is expected here"),
        ("(infix a \"65\" \"+\")", "1:10: a number below 4,294,967,296 is expected here"),
        ("(infix \"a\" 65 \"+\")", "1:8: a name is expected here"),
        ("(infix a.{u} 65 \"+\")", "1:8: a name is expected here"),
        ("(infix a..b 65 \"+\")", "1:8: the name \"a..b\" has an empty component"),
        ("(infix a 65 +)", "1:13: a quoted text is expected here"),
        ("(infixl a 65 \"+\")", "1:1: no form looks like this: forms are axiom, quotient, theorem, def, opaque, inductive, "),
        ("(row notation 1 2 3)", "1:6: a row of notation has 4 words"),
        ("(row operators 1 2)", "1:6: a table is expected here: strings, names, levels, lists, list-words, expressions, declarations, notation"),
    ] {
        let said = pack(text, Sharing::Shared).unwrap_err().to_string();
        assert!(said.starts_with(what), "{text}: {said}");
    }
    let said = pack("(operator a 65 \"+\")", Sharing::Shared).unwrap_err().what;
    assert!(said.contains("recursor, prefix, infix, postfix, define, string, "), "{said}");
}

// ---- many rows

/// The answer of check, if it comes in this time.
fn within(time: Duration, bytes: Vec<u8>, words: Vec<u32>) -> Result<(), Refusal> {
    let (said, heard) = channel();
    std::thread::spawn(move || said.send(check(&bytes, &words)));
    heard.recv_timeout(time).expect("an answer in time")
}

const ROWS: u32 = 65_536;

/// An operator of each name; the rows are in another order than the names.
fn operators(names: u32, strings: u32) -> impl Iterator<Item = u32> {
    (0..names).flat_map(move |i| {
        let name = i.wrapping_mul(40_503) % names;
        [name, i % 3, 1 + i % 1023, i % strings]
    })
}

/// A pool of these names, of strings of 8 bytes each, and of an operator of each name.
fn named(bytes: Vec<u8>, names: Vec<[u32; 4]>) -> (Vec<u8>, Vec<u32>) {
    let (strings, count) = ((bytes.len() / 8) as u32, names.len() as u32);
    let mut words = vec![strings, count, 0, 0, 0, 0, 0, count];
    words.extend((0..strings).flat_map(|i| [8 * i, 8]));
    words.extend(names.iter().flatten());
    words.extend(operators(count, strings));
    (bytes, words)
}

/// So many strings of 8 bytes, of which the last one is as the first one or not.
fn eights(count: u32, last_as_first: bool) -> Vec<u8> {
    let string = |i: u32| format!("n{i:07}").into_bytes();
    (0..count).flat_map(|i| string(if last_as_first && i == count - 1 { 0 } else { i })).collect()
}

/// Names of one component, each in a row of its own, with a string in a row of its own.
#[test]
fn sixty_five_thousand_operators() {
    for (twice, answer) in [(false, Ok(())), (true, Err(refusal(31, 0)))] {
        let names = (0..ROWS).map(|i| if i == 0 { [0; 4] } else { [1, 0, i - 1, 0] }).collect();
        let (bytes, words) = named(eights(ROWS - 1, twice), names);
        assert_eq!(words[7], ROWS);
        assert_eq!(within(Duration::from_secs(2), bytes, words), answer);
    }
}

/// The same of numbers, which differ in their high halves, too.
#[test]
fn sixty_five_thousand_numbers() {
    for (last, answer) in [(ROWS - 1, Ok(())), (1, Err(refusal(31, 0)))] {
        let number = |i: u32| [2, 0, i % 256, i / 256];
        let names = (0..ROWS).map(|i| if i == 0 { [0; 4] } else { number(if i == ROWS - 1 { last } else { i }) }).collect();
        let (bytes, words) = named(b"operator".to_vec(), names);
        assert_eq!(within(Duration::from_secs(2), bytes, words), answer);
    }
}

/// Names of up to 63 components, in chains of rows: each chain begins with a number of its own, or the last one with that of the first.
#[test]
fn long_names_with_operators() {
    for (last, answer) in [(1023, Ok(())), (0, Err(refusal(31, 0)))] {
        let chain = |i: u32| if i / 64 == 1023 { last } else { i / 64 };
        let names: Vec<[u32; 4]> = (0..ROWS)
            .map(|i| match i % 64 {
                0 => [0; 4],
                1 => [2, i - 1, 7, chain(i)],
                _ => [1, i - 1, i % 5, 0],
            })
            .collect();
        // of the anonymous names one alone may have an operator
        let kept: Vec<u32> = (0..ROWS).filter(|i| i % 64 != 0 || *i == 0).collect();
        let bytes = eights(5, false);
        let mut words = vec![5, ROWS, 0, 0, 0, 0, 0, kept.len() as u32];
        words.extend((0..5).flat_map(|i| [8 * i, 8]));
        words.extend(names.iter().flatten());
        words.extend(kept.iter().flat_map(|&name| [name, 1, 65, name % 5]));
        assert_eq!(within(Duration::from_secs(2), bytes, words), answer);
    }
}

/// One row too many, with the right total.
#[test]
fn one_operator_too_many() {
    let mut words = vec![0; 8 + 4 * 65_537];
    words[7] = 65_537;
    assert_eq!(check(&[], &words), Err(refusal(2, 0)));
    words.truncate(8 + 4 * 65_536);
    words[7] = 65_536;
    assert_eq!(check(&[], &words), Err(refusal(31, 0)));
}

/// Sums of a sum with itself, far larger as trees than as rows, and operators over one another as deep as a tree may be.
#[test]
fn doubled_and_deep() {
    for priority in [1, 1023] {
        let sums = (1..127).map(|i| format!("(define e{i} (@add $e{} $e{}))", i - 1, i - 1)).collect::<String>();
        let pool = packed(&format!("(infix add {priority} \"+\") (define e0 @c) {sums}"));
        let (said, heard) = channel();
        std::thread::spawn(move || said.send(pool.list_expr(pool.count(Table::Exprs) - 1, Sizes::default()).map(|listing| listing.text)));
        assert_eq!(heard.recv_timeout(Duration::from_secs(10)).expect("an answer in ten seconds"), Err(refusal(8, 16_384)));
        let deep = format!("{}@c{}", "(@neg ".repeat(255), ")".repeat(255));
        let pool = packed(&format!("(prefix neg {priority} \"-\") (define e {deep})"));
        let listing = pool.list_expr(pool.count(Table::Exprs) - 1, Sizes { indent: 2, width: 65_535 }).unwrap().text;
        assert_eq!(listing, format!("{}-@c{}", "-(".repeat(254), ")".repeat(254)));
    }
    // by turns of two priorities
    let deep = format!("{}@c{}", "(@low (@high ".repeat(127), "))".repeat(127));
    let pool = packed(&format!("(prefix low 1 \"l \") (prefix high 2 \"h \") (define e {deep})"));
    let listing = pool.list_expr(pool.count(Table::Exprs) - 1, Sizes { indent: 2, width: 65_535 }).unwrap().text;
    assert_eq!(listing, format!("l {}h @c{}", "h (l ".repeat(126), ")".repeat(126)));
}

/// The first of two sums is of the last operator of 65,535, the second one of a name without one.
#[test]
fn found_among_many() {
    let typed: String = (0..ROWS - 300).map(|i| format!("(infix n.{i} {} \"{}\")", 1 + i % 1023, i % 10)).collect();
    let pool = packed(&format!("{typed} (axiom k (@P (@n.{} @a @b) (@n.{} @a @b) (@n.0 @a @b)))", ROWS - 301, ROWS - 300));
    assert_eq!(pool.count(Table::Notations), ROWS - 300);
    let listing = pool.list_declar(0, Sizes::default()).unwrap().text;
    assert_eq!(listing, format!("axiom k : @P (@a{}@b) (@n.{} @a @b) (@a0@b)", (ROWS - 301) % 10, ROWS - 300));
}
