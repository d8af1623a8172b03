//! Declarations found by their names.
use tilusorgu::text::{pack, Sharing};
use tilusorgu::{DeclarNames, Pool, Sizes};

/// A name copied from a listing finds its declaration, and no other one that is listed otherwise.
#[test]
fn as_it_is_listed() {
    let typed: Vec<&str> =
        "_|«_»|«»|a.«».«b c»|«».a|a»b|«a b».c|«a b».5|«a b.5»|5.«x y»|«a.b»|a.b|α.«ω»|«a«b».x|_@|«_@x»|«λ».«5».5".split('|').collect();
    let text: String = typed.iter().map(|name| format!("(axiom {name} @C)")).collect();
    let pool = pack(&text, Sharing::Shared).unwrap().pool;
    let names = DeclarNames::new(&pool);
    let listed = |row: u32| {
        let listing = pool.list_declar(row, Sizes::default()).unwrap().text;
        listing.strip_prefix("axiom ").and_then(|rest| rest.strip_suffix(" : @C")).unwrap().to_string()
    };
    for row in 0..typed.len() as u32 {
        let found = names.find(&listed(row));
        assert!(found.contains(&row), "{}", listed(row));
        // a name without marks is also one whose marks are left out; «» and _ are also typed
        let marked = listed(row).contains('«') && listed(row) != "«»";
        assert!(!marked || found.iter().all(|&other| listed(other) == listed(row)), "{}", listed(row));
    }
    // what is listed packs to the same name, but for the anonymous one, _, empty components and » in a component
    for row in 6..typed.len() as u32 {
        let again = pack(&format!("(axiom {} @C)", listed(row)), Sharing::Shared).unwrap().pool;
        assert_eq!(again.declar_typed(0, 100), pool.declar_typed(row, 100));
    }
    assert_eq!(["«a b».5", "a b.5", "«a b.5»"].map(|name| names.find(name).len()), [1, 2, 1]);
}

/// One component with a mark and a dot in it, x».y; and an empty component before a number, which is listed as the number.
#[test]
fn a_mark_inside_and_an_empty_part() {
    let names = [[0, 0, 0, 0], [1, 0, 0, 0], [1, 0, 1, 0], [2, 2, 5, 0]];
    let mut words = vec![2, 4, 0, 1, 0, 1, 2, 0, 0, 5, 5, 0];
    words.extend(names.into_iter().flatten());
    words.extend([0, 0, 9, 1, 0, 0, 0, 0, 1, 0, 0, 1, 0, 0, 0, 0, 3, 0, 0, 0]);
    let pool = Pool { bytes: "x».y".into(), words };
    assert_eq!(pool.list_declar(0, Sizes::default()).unwrap().text, "axiom «x».y» : \"\"");
    assert_eq!(pool.list_declar(1, Sizes::default()).unwrap().text, "axiom 5 : \"\"");
    let index = DeclarNames::new(&pool);
    assert_eq!(["«x».y»", "x».y", "«5»"].map(|name| index.find(name)), [[0], [0], [1]]);
    assert!(["x.y", "«x».y", "«»«5»", "«»"].iter().all(|name| index.find(name).is_empty()));
}

/// A pass over all declarations for each of these names would take some minutes.
#[test]
fn each_of_twenty_thousand() {
    let text: String = (0..20_000).map(|i| format!("(axiom Register.some_lemma_{i}.extended @C)")).collect();
    let pool = pack(&text, Sharing::Shared).unwrap().pool;
    let names = DeclarNames::new(&pool);
    for i in 0..20_000 {
        assert_eq!(names.find(&format!("Register.some_lemma_{i}.extended")), [i]);
    }
    assert!(names.find("Register.some_lemma_20000.extended").is_empty());
    assert_eq!(names.near("Register.some_lemma_777.extendet").as_deref(), Some("Register.some_lemma_777.extended"));
}

/// Names of 63 components, each of them the same 20,000 bytes: together they have six gigabytes.
#[test]
fn names_longer_than_the_pool() {
    let length = 20_000;
    let names: Vec<u32> = std::iter::once([0; 4]).chain((0..63).map(|i| [1, i, 0, 0])).flatten().collect();
    let mut words = vec![1, 64, 0, 1, 0, 1, 5_000, 0, 0, length];
    words.extend(names);
    words.extend([0, 0, 2, 0, 0, 0, 0, 0, 1, 0]);
    words.extend((0..5_000).flat_map(|i| [0, if i == 7 { 63 } else { 62 }, 0, 0, 0]));
    let pool = Pool { bytes: vec![b'n'; length as usize], words };
    assert_eq!(pool.check(), Ok(()));
    let index = DeclarNames::new(&pool);
    let long = vec!["n".repeat(length as usize); 63].join(".");
    assert_eq!(index.find(&long), [7]);
    assert!(index.find(&long[1..]).is_empty() && index.near("n").is_none());
    assert_eq!(pool.declar_typed(0, 10).as_deref(), Some("nnnnnnnnnn.."));
}
