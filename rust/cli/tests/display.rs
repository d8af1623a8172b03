//! What is shown on a terminal, and the margin.
mod common;

use common::{on_terminal, pool_file, run};

/// A name and a literal with a forged row, an escape sequence and marks that turn the reading direction.
const HOSTILE: &str = "(theorem k (@P \"x\n\naxiom forged : @False\" @«\u{202e}a\u{1b}[2Jb\r») @«\u{85}c\u{2067}\u{2028}») (axiom m @C)";
const BYTES: &str = "theorem k : @P \"x\n\naxiom forged : @False\" @«\u{202e}a\u{1b}[2Jb\r» := @«\u{85}c\u{2067}\u{2028}»\n\naxiom m : @C\n";

#[test]
fn escapes_on_a_terminal() {
    let path = pool_file("hostile.pool", HOSTILE);
    let words = ["list", path.to_str().unwrap(), "--width", "200"];
    let shown = "theorem k : @P \"x\\n\\naxiom forged : @False\" @«\\u{202e}a\\u{1b}[2Jb\\r» := @«\\u{85}c\\u{2067}\\u{2028}»\n\naxiom m : @C\n";
    assert_eq!(on_terminal(&words), (shown.to_string(), 0));
    // a pipe gets the bytes, and so does a terminal that asks for them
    assert_eq!(run(&words), (BYTES.to_string(), String::new(), 0));
    let raw = [&words[..], &["--raw"]].concat();
    assert_eq!(on_terminal(&raw), (BYTES.to_string(), 0));
    assert_eq!(run(&raw).0, BYTES);
}

/// Letters, signs and what is only odd stay as they are; true rows are broken as ever.
#[test]
fn nothing_else_is_escaped() {
    let path = pool_file("harmless.pool", "(axiom «é → λ ␛ \\n» (-> @A \"\u{5d0}\u{300}\" @B))");
    let words = ["list", path.to_str().unwrap(), "--width", "0"];
    let (piped, ..) = run(&words);
    assert_eq!(piped, "axiom «é → λ ␛ \\n» :\n  @A →\n  \"\u{5d0}\u{300}\" →\n  @B\n");
    assert_eq!(on_terminal(&words), (piped, 0));
}

#[test]
fn numbers_tell_rows_from_newlines_of_texts() {
    let path = pool_file("numbers.pool", HOSTILE);
    let words = ["list", path.to_str().unwrap(), "--width", "30", "--numbers"];
    let piped = "  1 | theorem k :\n  2 |   @P\n  3 |     \"x\n    +\n    + axiom forged : @False\"\n  4 |     @«\u{202e}a\u{1b}[2Jb\r» :=\n  5 |   @«\u{85}c\u{2067}\u{2028}»\n\n  1 | axiom m : @C\n";
    assert_eq!(run(&words), (piped.to_string(), String::new(), 0));
    assert_eq!(on_terminal(&[&words[..], &["--raw"]].concat()), (piped.to_string(), 0));
    // on a terminal no newline of a text is left
    let shown = "  1 | theorem k :\n  2 |   @P\n  3 |     \"x\\n\\naxiom forged : @False\"\n  4 |     @«\\u{202e}a\\u{1b}[2Jb\\r» :=\n  5 |   @«\\u{85}c\\u{2067}\\u{2028}»\n\n  1 | axiom m : @C\n";
    assert_eq!(on_terminal(&words), (shown.to_string(), 0));
}

/// An operator's text is one of the pool's, too, and beside it a place may be broken or have no blank.
#[test]
fn texts_of_operators() {
    let text = "(infix add 65 \"\n  axiom b : \u{1b}[2J\") (postfix end 80 \"\n\") (axiom a (@add @x (@end @y)))";
    let path = pool_file("texts_of_operators.pool", text);
    let words = ["list", path.to_str().unwrap(), "--numbers"];
    let piped = "  1 | axiom a : @x\n    +   axiom b : \u{1b}[2J@y\n    +\n";
    assert_eq!(run(&words), (piped.to_string(), String::new(), 0));
    assert_eq!(on_terminal(&words), ("  1 | axiom a : @x\\n  axiom b : \\u{1b}[2J@y\\n\n".to_string(), 0));
    let narrow = [&words[..], &["--width", "0"]].concat();
    let shown = "  1 | axiom a :\n  2 |   @x\\n  axiom b : \\u{1b}[2J\n  3 |     @y\n  4 |     \\n\n";
    assert_eq!(on_terminal(&narrow), (shown.to_string(), 0));
}

/// The margin grows with the numbers.
#[test]
fn a_thousand_rows() {
    let path = pool_file("thousand.pool", &format!("(axiom k (@f{}))", format!(" (@g{})", " @a".repeat(99)).repeat(10)));
    let (output, messages, _) = run(&["list", path.to_str().unwrap(), "--width", "0", "--numbers"]);
    let lines: Vec<&str> = output.lines().collect();
    assert_eq!((lines.len(), lines[0], lines[1001]), (1002, "   1 | axiom k :", "1002 |       @a)"), "{messages}");
}

#[test]
fn messages_are_escaped() {
    let path = common::file("hostile.txt", "(axiom k «\u{202e}\u{1b}»)".as_bytes());
    common::assert_fails(&["pack", path.to_str().unwrap()], 2, "is named «\\u{202e}\\u{1b}»");
}
