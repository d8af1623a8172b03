//! Texts and pools at the limits.
use tilusorgu::Pool;

/// Chains of implicit pis of these lengths, each in the first binder's type of the one before; the innermost is `chain0`.
pub fn nested_chains(lengths: &[usize]) -> String {
    let mut text = String::from("(define t0 @C)");
    for i in 1..255 {
        text += &format!("(define t{i} (forall {{x : @C}} $t{}))", i - 1);
    }
    let mut inner = String::from("@C");
    for (i, n) in lengths.iter().rev().enumerate() {
        text += &format!("(define chain{i} (forall {{x : {inner}}} $t{}))", n - 1);
        inner = format!("$chain{i}");
    }
    text
}

/// c applied to itself, doubled 11 times: more than 16,384 document rows.
pub fn doubled() -> String {
    (1..12).fold(String::from("(define e0 @c)"), |text, i| text + &format!("(define e{i} ($e{} $e{}))", i - 1, i - 1))
}

/// A literal that is 65,537 text bytes with its quotes.
pub fn long_literal() -> String {
    format!("(define s \"{}\")", "a".repeat(65_535))
}

/// One list word more than a table may have rows, and the total right.
pub fn too_many_list_words() -> Pool {
    let mut words = vec![0; 8 + 65_537];
    words[4] = 65_537;
    Pool { bytes: vec![], words }
}
