//! `names`, and how `--declar` finds a declaration by its name.
mod common;

use common::{assert_fails, pool_file, run};

/// Names that listings show alike, odd ones, and the anonymous one.
const MANY: &str = "(axiom a.b @A) (theorem «a.b» @B @b) (def Register.cross @C @c) (quotient a.«b c».5 @D) (opaque «a.b c.5» @E @e)
    (inductive _ @F) (constructor «_» @G) (recursor «5» @H) (axiom 5 @I) (axiom «x\ny» @J) (axiom a.b @K)";

#[test]
fn row_kind_and_name() {
    let path = pool_file("names.pool", MANY);
    let expected = "0 axiom a.b\n1 theorem «a.b»\n2 def Register.cross\n3 quotient a.«b c».5\n4 opaque «a.b c.5»\n5 inductive _\n6 constructor «_»\n\
                    7 recursor «5»\n8 axiom 5\n9 axiom «x\\ny»\n10 axiom a.b\n";
    assert_eq!(run(&["names", path.to_str().unwrap()]), (expected.to_string(), String::new(), 0));
    let refused = pool_file("names_refused.pool", "(axiom k (proj S 65536 @s))");
    assert_fails(&["names", refused.to_str().unwrap()], 1, "refused 4 (expression row 1");
    assert_fails(&["names"], 2, "a file is expected");
    assert_fails(&["names", "a", "--width", "3"], 2, "names has no option --width");
}

#[test]
fn found_as_typed_and_as_listed() {
    let path = pool_file("found.pool", MANY);
    let types = |name: &str| {
        let (output, messages, status) = run(&["list", path.to_str().unwrap(), "--declar", name]);
        assert_eq!((messages.as_str(), status), ("", 0), "{name}");
        output.split('@').skip(1).map(|after| after[..1].to_string()).filter(|t| t.as_str() < "a").collect::<String>()
    };
    for (name, found) in [
        ("a.b", "ABK"),
        ("«a.b»", "B"),
        ("a.«b»", "AK"),
        ("a.«b c».5", "D"),
        ("«a.b c.5»", "E"),
        ("«a».b c.5", "D"),
        ("a.b c.5", "DE"),
        ("_", "FG"),
        ("«_»", "G"),
        ("«»", "F"),
        ("«5»", "HI"),
        ("x\ny", "J"),
        ("«x\ny»", "J"),
        ("Register.cross", "C"),
    ] {
        assert_eq!(types(name), found, "{name}");
    }
}

#[test]
fn a_near_name_is_suggested() {
    let path = pool_file("near.pool", MANY);
    for (name, said) in [
        ("Register.cros", "no declaration is named Register.cros (the pool has 11 declarations); is Register.cross meant?"),
        ("register.Cross", "is Register.cross meant?"),
        ("cross", "is Register.cross meant?"),
        ("Regsiter.crass", "is Register.cross meant?"),
        ("a.«b d».5", "no declaration is named a.«b d».5 (the pool has 11 declarations)"),
    ] {
        assert_fails(&["list", path.to_str().unwrap(), "--declar", name], 2, said);
    }
    // nothing is near
    assert_fails(&["list", path.to_str().unwrap(), "--declar", "Nat.add_comm"], 2, "is named Nat.add_comm (the pool has 11 declarations)\n");
}
