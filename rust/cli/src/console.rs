//! Standard output and standard error, without the panics of `println!`.
use crate::{closed, Failure};
use std::io::{self, StdoutLock, Write};

/// A line on standard error. Where even that is closed, nothing is left to be told.
pub fn say(line: &str) {
    let _ = writeln!(io::stderr(), "tilusorgu: {}", shown(line));
}

/// A write's failure: quiet if the reader has gone away.
pub fn failed(error: io::Error) -> Failure {
    match error.kind() {
        io::ErrorKind::BrokenPipe => Failure::Gone,
        _ => Failure::Trouble(format!("the output cannot be written: {error}")),
    }
}

/// Standard output, unless it is closed.
pub fn output() -> Result<StdoutLock<'static>, Failure> {
    if closed::output() {
        return Err(Failure::Trouble("standard output is closed: nothing can be written there".to_string()));
    }
    Ok(io::stdout().lock())
}

/// A whole text on standard output.
pub fn print(text: &str) -> Result<(), Failure> {
    let mut out = output()?;
    out.write_all(text.as_bytes()).and_then(|()| out.flush()).map_err(failed)
}

/// A text for a terminal or a message: what could move the cursor, end a line or turn the reading direction is escaped.
pub fn shown(text: &str) -> String {
    text.chars().map(|c| if is_harmful(c) { c.escape_default().to_string() } else { c.to_string() }).collect()
}

/// Control characters, the separators of lines and paragraphs, and the marks of bidirectional text.
fn is_harmful(c: char) -> bool {
    let marks = ['\u{61c}', '\u{200e}', '\u{200f}', '\u{2028}', '\u{2029}'];
    c.is_control() || marks.contains(&c) || ('\u{202a}'..='\u{202e}').contains(&c) || ('\u{2066}'..='\u{2069}').contains(&c)
}
