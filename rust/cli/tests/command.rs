//! The command, as a user meets it: output, messages and status.
mod common;

use common::{assert_fails, command, file, pool_file, run, said};
use std::io::{Read, Write};
use std::process::Stdio;
use tilusorgu::pool_file::encode;
use tilusorgu::text::{pack, Sharing};
use tilusorgu::Pool;

const TWO: &str = "(axiom a.b @C) (def «odd one» (-> @A @B) @c) (axiom «a.b» @D)";

#[test]
fn lists_all_declarations() {
    let path = pool_file("all.pool", TWO);
    let path = path.to_str().unwrap();
    let expected = "axiom a.b : @C\n\ndef «odd one» : @A → @B := @c\n\naxiom «a.b» : @D\n";
    assert_eq!(run(&["list", path]), (expected.to_string(), String::new(), 0));
    let (checked, _, status) = run(&["check", path]);
    assert!(checked.contains("accepted (") && checked.contains("3 declarations, 0 notations)") && status == 0, "{checked}");
}

#[test]
fn lists_what_is_chosen() {
    let path = pool_file("chosen.pool", TWO);
    let listed = |words: &[&str]| run(&[&["list", path.to_str().unwrap()], words].concat());
    assert_eq!(listed(&["--declar", "«odd one»"]).0, "def «odd one» : @A → @B := @c\n");
    assert_eq!(listed(&["--declar", "odd one"]).0, "def «odd one» : @A → @B := @c\n");
    // a name of two components, and one component with the same text
    assert_eq!(listed(&["--declar", "a.b"]).0, "axiom a.b : @C\n\naxiom «a.b» : @D\n");
    assert_eq!(listed(&["--declar", "2", "--expr", "0", "--declar", "0"]).0, "axiom «a.b» : @D\n\n@C\n\naxiom a.b : @C\n");
    assert_eq!(listed(&["--declar=1", "--width=0", "--indent", "3"]).0, "def «odd one» :\n   @A →\n   @B :=\n   @c\n");
    let (output, messages, status) = listed(&["--declar", "0", "--counts"]);
    assert_eq!((output.as_str(), status), ("axiom a.b : @C\n", 0));
    assert!(messages.contains("listing length 14, lines 1, longest row 14, fit tests 1\n"), "{messages}");
    // the whole, what follows the name, and the type: none of them fits
    let (_, messages, _) = listed(&["--declar", "0", "--counts", "--width", "0"]);
    assert!(messages.contains("lines 2, longest row 11, fit tests 3\n"), "{messages}");
    assert_fails(&["list", path.to_str().unwrap(), "--declar", "a"], 2, "no declaration is named a");
}

#[test]
fn refusals() {
    let path = pool_file("last.pool", "(axiom k (proj S 65535 @s))");
    assert_eq!(run(&["list", path.to_str().unwrap()]), ("axiom k : @s.65536\n".into(), String::new(), 0));
    let path = pool_file("refused.pool", "(axiom k (proj S 65536 @s))");
    for command in ["check", "list"] {
        assert_fails(&[command, path.to_str().unwrap()], 1, "refused 4 (expression row 1, words 7 ");
    }
    for (name, operators, said) in [
        (
            "priority.pool",
            "(infix C 0 \"\")",
            "refused 31 (notation row 0, words 2 1 0 2): a notation row has a name row that exists, kind 0 (prefix), ",
        ),
        (
            "twice.pool",
            "(infix C 1 \"\") (prefix k 1 \"k\") (postfix C 9 \"C\")",
            "refused 31 (notation row 2, words 2 2 9 1): notation row 0 has the same name, ",
        ),
    ] {
        let path = pool_file(name, &format!("(axiom k @C) {operators}"));
        let path = path.to_str().unwrap();
        for words in [&["check", path][..], &["list", path], &["names", path], &["compare", path, "0", "0"]] {
            assert_fails(words, 1, &format!("{name}: {said}"));
        }
    }
    let path = pool_file("fine.pool", TWO);
    let path = path.to_str().unwrap();
    assert_fails(&["list", path, "--width", "65536"], 1, "refused 6");
    assert_fails(&["list", path, "--indent", "65"], 1, "refused 6");
    assert_fails(&["list", path, "--expr", "99"], 1, "expression row 99: refused 5");
    // what is not refused is listed
    let (output, messages, status) = run(&["list", path, "--declar", "7", "--declar", "0"]);
    assert_eq!((output.as_str(), status), ("axiom a.b : @C\n", 1));
    assert!(messages.contains("declaration row 7: refused 5") && messages.contains("0 to 2"), "{messages}");
}

#[test]
fn wrong_command_lines() {
    for (words, part) in [
        (&[][..], "a command is expected"),
        (&["print"], "no command print"),
        (&["list"], "a file is expected"),
        (&["check"], "a file is expected"),
        (&["check", "a", "b"], "second one"),
        (&["check", "a", "--width", "3"], "check has no option --width"),
        (&["list", "a", "--wide"], "list has no option --wide"),
        (&["list", "a", "--width"], "--width needs a value"),
        (&["list", "a", "--width="], "a number is expected"),
        (&["list", "a", "--counts=1"], "takes no value"),
        (&["list", "a", "--width", "-1"], "a number is expected"),
        (&["list", "a", "--width", "4294967296"], "too large"),
        (&["list", "a", "--declar", "99999999999"], "too large"),
        (&["pack"], "a file is expected"),
        (&["pack", "a.pool"], "written over"),
    ] {
        assert_fails(words, 2, part);
    }
    assert_eq!(run(&["help"]).2, 0);
    assert!(run(&["list", "--help"]).0.contains("--counts"));
}

#[test]
fn wrong_files() {
    let fine = encode(&pack(TWO, Sharing::Shared).unwrap().pool);
    let with = |at: usize, bytes: &[u8]| [&fine[..at], bytes, &fine[at + bytes.len()..]].concat();
    for (name, bytes, part) in [
        ("empty", vec![], "is no pool file"),
        ("text", TWO.as_bytes().to_vec(), "is no pool file"),
        ("head", fine[..20].to_vec(), "ends within its head"),
        ("short", fine[..fine.len() - 1].to_vec(), "but"),
        ("long", [&fine[..], &[0]].concat(), "but"),
        (
            "old_version",
            with(8, &[1]),
            "old_version is a pool file of version 1, made before pools had a notation table: make it again with `tilusorgu pack`\n",
        ),
        ("version", with(8, &[3]), "version has format version 3; this program reads version 2\n"),
        ("bytes", with(16, &[0xff; 8]), "but"),
        ("words", with(24, &[0xff; 8]), "but"),
    ] {
        let path = file(name, &bytes);
        assert_fails(&["check", path.to_str().unwrap()], 2, part);
        assert_fails(&["list", path.to_str().unwrap()], 2, part);
    }
    assert_fails(&["check", "/no/such/file"], 2, "cannot be opened");
    assert_fails(&["check", "/"], 2, "cannot be");
    assert_fails(&["check", "/dev/zero"], 2, "longer than");
}

/// Files with one byte changed: every command line ends with a status and a message, or a listing.
#[test]
fn damaged_files() {
    let fine = encode(&pack(TWO, Sharing::Shared).unwrap().pool);
    for at in 0..fine.len() {
        let mut bytes = fine.clone();
        bytes[at] ^= [1, 0x80, 0xff][at % 3];
        let path = file("damaged.pool", &bytes);
        let (output, messages, status) = said(command().arg("list").arg(path).args(["--declar", "0", "--expr", "1"]).output().unwrap());
        assert!((0..=2).contains(&status) && !messages.contains("panicked"), "byte {at}: {messages}");
        assert!(status == 0 || !messages.is_empty() && (status == 1 || output.is_empty()), "byte {at}: {messages}");
    }
}

#[test]
fn packs() {
    let path = file("typed.txt", TWO.as_bytes());
    let path = path.to_str().unwrap();
    let (output, messages, status) = run(&["pack", path]);
    assert!(output.contains("typed.pool: ") && output.contains("3 declarations") && messages.is_empty() && status == 0, "{output}{messages}");
    let piped = command().args(["pack", path, "--no-share", "-o", "-"]).output().unwrap().stdout;
    let mut list = command().args(["list", "-", "--declar", "0"]).stdin(Stdio::piped()).stdout(Stdio::piped()).spawn().unwrap();
    list.stdin.take().unwrap().write_all(&piped).unwrap();
    assert_eq!(said(list.wait_with_output().unwrap()).0, "axiom a.b : @C\n");
    let missing = file("missing.txt", b"(axiom k @C)\n  (infix add \"+\")");
    assert_fails(&["pack", missing.to_str().unwrap()], 2, "missing.txt:2:3: (infix NAME PRIORITY \"text\") is expected\n");
    let wrong = file("wrong.txt", b"(axiom k\n  x)");
    assert_fails(&["pack", wrong.to_str().unwrap()], 2, "wrong.txt:2:3: no binder round this is named x");
    let bytes = file("bytes.txt", b"(axiom \xff @C)");
    assert_fails(&["pack", bytes.to_str().unwrap()], 2, "not UTF-8 at byte 7");
    assert_fails(&["pack", path, "-o", "/no/such/folder/a.pool"], 2, "cannot be written");
}

#[test]
fn operators() {
    let path =
        pool_file("operators.pool", "(infix add 65 \"+\") (prefix neg 75 \"-\") (axiom k (@P (@neg @a) (@add @a @b))) (define e (@add (Sort 0) @b))");
    let path = path.to_str().unwrap();
    let (checked, messages, status) = run(&["check", path]);
    assert!(checked.ends_with(", 1 declaration, 2 notations)\n") && messages.is_empty() && status == 0, "{checked}");
    assert_eq!(run(&["list", path]).0, "axiom k : @P (-@a) (@a+@b)\n");
    assert_eq!(run(&["list", path, "--width", "0"]).0, "axiom k :\n  @P\n    (-\n    @a)\n    (@a+\n      @b)\n");
    assert_eq!(run(&["list", path, "--expr", "12"]).0, "Prop+@b\n");
    assert_eq!(run(&["names", path]).0, "0 axiom k\n");
    // two rows are shown as they are listed
    let (said, ..) = run(&["compare", path, "8", "10"]);
    assert!(said.starts_with("differ: expression rows 8 and 10, in their kinds\nrow 8 (application, words 3 6 7 0 0 0 3 0): @a+@b\n"), "{said}");
    assert!(said.ends_with("\nrow 10 (sort, words 1 0 0 0 0 0 1 0): Prop\n"), "{said}");
}

/// Whoever reads the listing may stop early.
#[test]
fn broken_pipe() {
    let text = format!("(axiom k (@f {}))", "\"some text\" ".repeat(200));
    let path = pool_file("pipe.pool", &text);
    let words: Vec<&str> = std::iter::repeat_n(["--declar", "0"], 60).flatten().collect();
    let mut child = command().arg("list").arg(path).args(words).stdout(Stdio::piped()).stderr(Stdio::piped()).spawn().unwrap();
    let mut first = [0];
    child.stdout.take().unwrap().read_exact(&mut first).unwrap();
    let (_, messages, status) = said(child.wait_with_output().unwrap());
    assert_eq!((messages.as_str(), status), ("", 0));
}

/// 65,536 rows in each table and 16,777,216 bytes.
#[test]
fn full_pool() {
    let n = 65_536u32;
    let mut words = vec![n; 8];
    words.extend((0..n).flat_map(|i| [256 * i, 256]));
    words.extend((0..n).flat_map(|i| if i == 0 { [0; 4] } else { [1, 0, i, 0] }));
    words.extend((0..n).flat_map(|i| [4, i, 0]));
    words.extend((0..n).flat_map(|i| [i, 1]));
    words.extend(0..n);
    words.extend((0..n).flat_map(|i| [2, i, i, 0, 0, 0, 1, 0]));
    words.extend((0..n).flat_map(|i| [0, i, i, i, 0]));
    words.extend((0..n).flat_map(|i| [i, i % 3, 1 + i % 1023, i]));
    // no two strings are equal, so that no two names are
    let bytes = (0..n).flat_map(|i| [format!("n{i:07}").into_bytes(), vec![b'n'; 248]].concat()).collect();
    let path = file("full.pool", &encode(&Pool { bytes, words }));
    let path = path.to_str().unwrap();
    assert!(run(&["check", path]).0.contains("accepted"));
    let long = format!("n0065535{}", "n".repeat(248));
    let (output, messages, status) = run(&["list", path, "--declar", "65535", "--width", "65535"]);
    assert_eq!((output, messages.as_str(), status), (format!("axiom {long}.{{{long}}} : @{long}\n"), "", 0));
    std::fs::remove_file(path).unwrap();
}
