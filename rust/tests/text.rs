//! The text form: what its forms mean, by what is listed, and what is said of mistakes.
use tilusorgu::text::{pack, Sharing};
use tilusorgu::{DeclarNames, Pool, Sizes, Table};

/// The first declaration's listing, the same from shared and from separate rows.
fn listed(text: &str) -> String {
    let [shared, apart] = [Sharing::Shared, Sharing::Apart].map(|sharing| {
        let pool = pack(text, sharing).unwrap().pool;
        pool.list_declar(0, Sizes::default()).unwrap().text
    });
    assert_eq!(shared, apart);
    shared
}

#[test]
fn declarations() {
    assert_eq!(listed("(def k.{u} (forall (a : (Sort u)) (Sort u)) (fun (a : (Sort u)) a))"), "def k.{u} (a : Sort u) : Sort u := a");
    assert_eq!(listed("(quotient k @C)"), "Quotient primitive k : @C");
    assert_eq!(listed("(recursor a.«b c».7 @C)"), "recursor a.«b c».7 : @C");
    assert_eq!(listed("(opaque k (-> @A @B) @c)"), "opaque k : @A → @B := @c");
}

#[test]
fn levels() {
    assert_eq!(listed("(axiom k (Sort 0))"), "axiom k : Prop");
    let sorts = "(axiom k (-> (Sort 0) (@P (Sort 0)) (Sort (max 0 0)) (Sort (imax 0 0)) (Sort 1)))";
    assert_eq!(listed(sorts), "axiom k : Prop → @P Prop → Sort (max 0 0) → Sort (imax 0 0) → Type 0");
    assert_eq!(listed("(axiom k.{u 2 v+1} (Type (max u (+ v 2))))"), "axiom k.{u 2 v+1} : Type (max u (v+2))");
    assert_eq!(listed("(axiom k.{u, v} (@P @C.{u,v}))"), "axiom k.{u v} : @P @C");
    // the levels of a constant are not listed
    let pool = |text: &str| pack(text, Sharing::Shared).unwrap().pool;
    assert_eq!(pool("(axiom k.{u, v} (@P @C.{u,v}))"), pool("(axiom k.{u v} (@P @C.{u v}))"));
    assert_eq!(listed("(axiom k (Sort (imax (succ u) 0)))"), "axiom k : Sort (imax (u+1) 0)");
}

#[test]
fn terms() {
    assert_eq!(listed("(axiom k (@f #0 12 \"q\\n\" (proj S 1 @s)))"), "axiom k : @f 0 12 \"q\n\" @s.2");
    assert_eq!(listed("(axiom k (proj S 0 (proj S 65535 @s)))"), "axiom k : @s.65536.1");
    assert_eq!(listed("(axiom k (let (x : @Nat := 1) (have (y : @Nat := x) (@P x y))))"), "axiom k : let x : @Nat := 1; let y : @Nat := x; @P x y");
    assert_eq!(
        listed("(axiom k (fun {a : @A} {{b : @B}} [c : @C] (_ : @D) (a #0)))"),
        "axiom k : fun {a : @A} {{b : @B}} [c : @C] («» : @D) => a «»"
    );
}

/// The type of a group is typed once: it means what it meant before the group's first name.
#[test]
fn groups() {
    assert_eq!(listed("(axiom k (forall (A : (Type u)) (a b c : A) (@P a b c)))"), "axiom k (A : Type u) (a b c : A) : @P a b c");
    assert_eq!(listed("(axiom k (forall (A : (Type u)) (a b c : #0) (@P #2 #1 #0)))"), "axiom k (A : Type u) (a b c : A) : @P a b c");
    // a name of the group does not reach its own type
    assert_eq!(listed("(axiom k (forall (A : (Type u)) (A b : A) (@P A b)))"), "axiom k (A : Type u) (A b : A) : @P A b");
    let pool = pack("(define e (forall (A : (Type u)) (A b : A) b))", Sharing::Shared).unwrap().pool;
    let types: Vec<u32> =
        (0..u64::from(pool.count(Table::Exprs))).filter_map(|i| pool.row(Table::Exprs, i)).filter(|r| r[0] == 0).map(|r| r[1]).collect();
    assert_eq!(types, [0, 1]);
}

#[test]
fn names_of_declarations() {
    let names = ["_", "a.«b c».5", "«».«».a.«».b", "«»", "7"];
    let text: String = names.iter().map(|n| format!("(axiom {n} @C)")).collect();
    let pool = pack(&text, Sharing::Shared).unwrap().pool;
    for (row, name) in ["", "a.b c.5", "a..b", "", "7"].into_iter().enumerate() {
        let row = row as u32;
        assert_eq!(pool.declar_title(row, 100).as_deref(), Some(name));
        assert!(pool.declar_has_name(row, name) && !pool.declar_has_name(row, "a") && !pool.declar_has_name(row, "a.b c.5."));
        let printed = pool.list_declar(row, Sizes::default()).unwrap().text;
        let listed = printed.strip_prefix("axiom ").and_then(|p| p.strip_suffix(" : @C")).unwrap();
        assert_eq!(listed.replace(['«', '»'], ""), name);
        assert!(pool.declar_has_name(row, listed) && DeclarNames::new(&pool).find(listed).contains(&row));
    }
    assert_eq!(pool.declar_title(1, 4).as_deref(), Some("a.b .."));
    assert!(pool.declar_title(5, 100).is_none() && !pool.declar_has_name(5, ""));
}

#[test]
fn sharing() {
    let text = "(define e (@f (@g @a) (@g @a)))";
    let rows = |sharing| pack(text, sharing).unwrap().pool.count(Table::Exprs);
    assert_eq!((rows(Sharing::Shared), rows(Sharing::Apart)), (6, 9));
    let kept = pack("(define a @a) (define e (@f $a $a))", Sharing::Apart).unwrap();
    assert_eq!(kept.defined, [("a".to_string(), 0), ("e".to_string(), 3)]);
}

#[test]
fn mistakes() {
    let said = |text: &str| pack(text, Sharing::Shared).unwrap_err().to_string();
    for (text, start) in [
        ("k", "1:1: a form"),
        ("(axioms k @C)", "1:1: no form"),
        ("(axiom k)", "1:1: (axiom NAME TYPE)"),
        ("(def k @C)", "1:1: (def NAME TYPE VALUE)"),
        ("(axiom k x)", "1:10: no binder round this is named x"),
        ("(axiom k\n  $t)", "2:3: $t is not defined"),
        ("(axiom k (forall x @C))", "1:18: a binder"),
        ("(axiom k (forall (: @C) @C))", "1:18: a binder"),
        ("(axiom k x.{u})", "1:10: only a constant"),
        ("(axiom k (Sort))", "1:10: one level"),
        ("(axiom k (Sort 99999999999))", "1:16: 99999999999 successors"),
        ("(axiom k ())", "1:10: a term"),
        ("(axiom k {a})", "1:10: a term"),
        ("(axiom k #x)", "1:10: after #"),
        ("(define t #0) (axiom k (forall (a b : $t) @C))", "1:39: $t has loose variables"),
        ("(define t @C) (define t @C)", "1:23: t is defined already"),
        ("(row names 1)", "1:6: a row of names has 4 words"),
        ("(axiom k (forall (x : @A)))", "1:18: a body is missing here"),
        ("(axiom k (fun (x : @A) {y z : @B}))", "1:24: a body is missing here"),
        ("(axiom k (forall))", "1:10: binders and a body are expected"),
        ("(axiom k (let (x : @A := @v)))", "1:10: a body is missing here: a let is"),
        ("(axiom k (have))", "1:10: a let is"),
        ("\u{feff}(axiom k @C)", "1:1: the text begins with a byte order mark (U+FEFF): save it as UTF-8 without one"),
        ("(axiom a,b @C)", "1:9: no comma is expected here"),
        ("(axiom k (forall (x : @A), @C))", "1:26: no comma is expected here"),
    ] {
        assert!(said(text).starts_with(start), "{text}: {}", said(text));
    }
}

/// Refusals 1 and 2 name the count, and what was expected of it.
#[test]
fn wrong_counts() {
    let explained = |pool: &Pool| pool.explain(pool.check().unwrap_err());
    let typed = |text: &str| explained(&pack(text, Sharing::Shared).unwrap().pool);
    assert_eq!(
        typed("(axiom k @C) (words 5)"),
        "refused 1: its counts (2 strings, 3 names, 0 levels, 1 list, 0 list words, 1 expression, 1 declaration, 0 notations) make \
         8 + 4 + 12 + 0 + 2 + 0 + 8 + 5 + 0 = 39 words, but it has 40"
    );
    assert_eq!(explained(&Pool { bytes: vec![], words: vec![0; 5] }), "refused 1: it has 5 words, which is short of the eight counts of its head");
    assert!(explained(&Pool { bytes: vec![], words: vec![u32::MAX; 8] }).contains("= 124554051563 words, but it has 8"));
    assert_eq!(
        explained(&Pool { bytes: vec![b'n'; (1 << 24) + 1], words: vec![0; 8] }),
        "refused 2: its byte area has 16777217 bytes, and at most 16777216 are allowed"
    );
    for (table, counted) in [(Table::Names, "65537 names"), (Table::Notations, "65537 notations")] {
        let mut words = vec![0; 8 + 4 * 65_537];
        words[table as usize] = 65_537;
        let said = format!("refused 2: it has {counted}, and at most 65536 rows are allowed in a table");
        assert_eq!(explained(&Pool { bytes: vec![], words }), said);
    }
}

/// What is past a limit can be typed; check refuses it.
#[test]
fn past_the_limits() {
    for text in [
        "(define e #4096)",
        "(define e #4294967295)",
        "(define e 007)",
        "(define e (proj S 65536 @s))",
        "(define e (proj S 4294967295 @s))",
        "(level 64)",
        "(name a.b.«\u{1}».18446744073709551615) (define e (Sort 64))",
    ] {
        assert_eq!(pack(text, Sharing::Shared).unwrap().pool.check().unwrap_err().number, 4, "{text}");
    }
    let deep = |n: usize| format!("(define e {}@c{})", "(@f ".repeat(n), ")".repeat(n));
    assert!(pack(&deep(255), Sharing::Shared).unwrap().pool.check().is_ok());
    for n in [256, 4000] {
        assert_eq!(pack(&deep(n), Sharing::Shared).unwrap().pool.check().unwrap_err().place, 257);
    }
}

/// The samples with a character taken away or another one in its place: a pool or a mistake with a place, never a panic.
#[test]
fn damaged_texts() {
    let signs: Vec<char> = "(){}[]\"«».,#@$:_0-\\ \n".chars().collect();
    let (mut packed, mut mistakes) = (0, 0);
    for file in std::fs::read_dir(concat!(env!("CARGO_MANIFEST_DIR"), "/../samples")).unwrap() {
        let path = file.unwrap().path();
        if path.extension().is_none_or(|e| e != "txt") {
            continue;
        }
        let text: Vec<char> = std::fs::read_to_string(path).unwrap().chars().collect();
        for at in 0..text.len() {
            let mut damaged = text.clone();
            match at % 4 {
                0 => drop(damaged.remove(at)),
                1 => damaged.truncate(at),
                _ => damaged[at] = signs[at % signs.len()],
            }
            match pack(&damaged.iter().collect::<String>(), Sharing::Shared) {
                Ok(p) => packed += usize::from(p.pool.check().is_ok()),
                Err(mistake) => mistakes += usize::from(mistake.at.line > 0 && !mistake.what.is_empty()),
            }
        }
    }
    assert!(packed > 1000 && mistakes > 1000, "{packed} and {mistakes}");
}
