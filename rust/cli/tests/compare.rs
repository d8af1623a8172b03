//! `compare`: what it says of equal and of different expressions, and of rows that are not there.
mod common;

use common::{assert_fails, command, file, pool_file, run, said};
use std::io::Write;
use std::process::Stdio;
use tilusorgu::pool_file::encode;
use tilusorgu::text::{pack, Sharing};

/// The command's answer about two expressions in rows of their own: the rows are those of the text's order.
fn compared(name: &str, first: &str, second: &str) -> String {
    let packed = pack(&format!("(define first {first}) (define second {second})"), Sharing::Apart).unwrap();
    let path = file(name, &encode(&packed.pool));
    let rows: Vec<String> = packed.defined.iter().map(|(_, row)| row.to_string()).collect();
    let (output, messages, status) = run(&["compare", path.to_str().unwrap(), &rows[0], &rows[1]]);
    assert_eq!((messages.as_str(), status), ("", 0), "{first} and {second}");
    output
}

#[test]
fn equal_and_different() {
    assert_eq!(compared("equal.pool", "(@f @a)", "(@f @a)"), "equal\n");
    assert_eq!(
        compared("different.pool", "(@f @a)", "(@g @b)"),
        "differ: expression rows 1 and 4, in their names\nrow 1 (constant, words 2 3 1 0 0 0 1 0): @a\nrow 4 (constant, words 2 7 3 0 0 0 1 0): @b\n"
    );
    // the root itself, whose listing has its names
    let said = compared("root.pool", "(fun (x : @A) x)", "(fun {x : @A} x)");
    assert!(said.starts_with("differ: expression rows 2 and 5, in their styles\nrow 2 (lambda, words 5 "), "{said}");
    assert!(said.contains("): fun (x : @A) => x\nrow 5 (lambda, words 5 ") && said.ends_with("): fun {x : @A} => x\n"), "{said}");
}

#[test]
fn what_they_differ_in() {
    for (first, second, what) in [
        ("@a", "12", "kinds"),
        ("#1", "#2", "indices"),
        ("(Sort u)", "(Sort v)", "levels"),
        ("@a.{u}", "@b.{u}", "names"),
        ("@a.5", "@a.«5»", "names"),
        ("@a.{u}", "@a.{u, u}", "levels"),
        ("(forall (x : @A) @B)", "(forall (y : @A) @B)", "names"),
        ("(forall (x : @A) @B)", "(forall [x : @A] @B)", "styles"),
        ("(fun (x : @A) @B)", "(fun (y : @A) @B)", "names"),
        ("(let (x : @A := @a) @b)", "(let (y : @A := @a) @b)", "names"),
        ("(let (x : @A := @a) @b)", "(have (x : @A := @a) @b)", "nondep words"),
        ("(proj S 0 @s)", "(proj T 0 @s)", "names"),
        ("(proj S 0 @s)", "(proj S 1 @s)", "indices"),
        ("1", "2", "numbers"),
        ("\"1\"", "\"2\"", "texts"),
    ] {
        let said = compared("fields.pool", first, second);
        assert!(said.contains(&format!(", in their {what}\n")) && said.lines().count() == 3, "{first} and {second}: {said}");
    }
}

/// Each row has one line, however long its listing is and whatever its texts hold; one that cannot be listed has none.
#[test]
fn one_line_a_row() {
    let long = format!("(fun {{x : @A}} (@f{}))", " @an.argument".repeat(60));
    let said = compared("long.pool", &format!("(fun (x : @A) (@f{}))", " @an.argument".repeat(60)), &long);
    let lines: Vec<&str> = said.lines().collect();
    assert!(lines.len() == 3 && lines[1..].iter().all(|line| line.len() < 160 && line.ends_with("..")), "{said}");
    assert!(lines[2].contains("): fun {x : @A} => @f @an.argument @an.arg"), "{said}");
    let said = compared("newline.pool", "\"one\\nline\"", "\"another\\tline\"");
    assert!(said.contains(": \"one\\nline\"\n") && said.ends_with(": \"another\\tline\"\n") && said.lines().count() == 3, "{said}");
    let said = compared("literal.pool", &format!("\"{}\"", "a".repeat(65_535)), "\"b\"");
    assert!(said.contains("row 0 (string literal, words 9 0 0 0 0 0 1 0)\nrow 1 (string literal, words 9 1 0 0 0 0 1 0): \"b\"\n"), "{said}");
}

#[test]
fn rows_that_are_not_there() {
    let path = pool_file("missing.pool", "(define e (@f @a))");
    let path = path.to_str().unwrap();
    for (first, second, missing) in
        [("0", "3", "3"), ("3", "0", "3"), ("4", "3", "4"), ("4294967295", "2", "4294967295"), ("65536", "65536", "65536")]
    {
        let said = format!("expression row {missing}: refused 5: the pool has no such row (its expression rows are 0 to 2)\n");
        assert_fails(&["compare", path, first, second], 1, &said);
    }
    let empty = pool_file("no_expressions.pool", "(name a)");
    assert_fails(&["compare", empty.to_str().unwrap(), "0", "0"], 1, "expression row 0: refused 5: the pool has no such row (it has no expressions)");
    let refused = pool_file("compare_refused.pool", "(axiom k (proj S 65536 @s))");
    assert_fails(&["compare", refused.to_str().unwrap(), "0", "9"], 1, "refused 4 (expression row 1, words 7 ");
}

#[test]
fn wrong_command_lines() {
    for (words, part) in [
        (&["compare"][..], "a file is expected"),
        (&["compare", "a.pool"], "two rows are expected behind the file"),
        (&["compare", "a.pool", "1"], "two rows are expected behind the file"),
        (&["compare", "a.pool", "1", "2", "3"], "two rows are expected, and 3 is one more"),
        (&["compare", "a.pool", "1", "two"], "row two: a number is expected"),
        (&["compare", "a.pool", "", "2"], "row : a number is expected"),
        (&["compare", "a.pool", "1", "4294967296"], "row 4294967296: the number is too large"),
        (&["compare", "a.pool", "1", "2", "--width", "3"], "compare has no option --width"),
        (&["compare", "a.pool", "1", "-2"], "compare has no option -2"),
        (&["compare", "/no/such/file", "1", "2"], "cannot be opened"),
        (&["check", "a.pool", "1"], "one file is expected, and 1 is a second one"),
    ] {
        assert_fails(words, 2, part);
    }
    assert!(run(&["compare", "--help"]).0.contains("tilusorgu compare FILE ROW ROW"));
}

/// Files with one byte changed: an answer, or a message and nothing else.
#[test]
fn damaged_files() {
    let fine = encode(&pack("(define e (@f @a (Sort u))) (axiom k.{u} (@f @b))", Sharing::Apart).unwrap().pool);
    for at in 0..fine.len() {
        let mut bytes = fine.clone();
        bytes[at] ^= [1, 0x80, 0xff][at % 3];
        let path = file("compare_damaged.pool", &bytes);
        let (output, messages, status) = run(&["compare", path.to_str().unwrap(), "4", "7"]);
        assert!((0..=2).contains(&status) && !messages.contains("panicked"), "byte {at}: {messages}");
        assert!(
            if status == 0 { output.starts_with("differ: ") && messages.is_empty() } else { output.is_empty() && !messages.is_empty() },
            "byte {at}: {output}{messages}"
        );
    }
}

#[test]
fn from_standard_input() {
    let pool = encode(&pack("(define e (@f @a))", Sharing::Shared).unwrap().pool);
    let mut child = command().args(["compare", "-", "1", "1"]).stdin(Stdio::piped()).stdout(Stdio::piped()).spawn().unwrap();
    child.stdin.take().unwrap().write_all(&pool).unwrap();
    assert_eq!(said(child.wait_with_output().unwrap()).0, "equal\n");
}
