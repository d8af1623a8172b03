//! The command as a test runs it.
#![allow(dead_code)] // each test file uses some of it
use std::path::{Path, PathBuf};
use std::process::{Command, Output};
use tilusorgu::pool_file::encode;
use tilusorgu::text::{pack, Sharing};

/// A folder of this test run's own.
pub fn folder(name: &str) -> PathBuf {
    let folder = PathBuf::from(env!("CARGO_TARGET_TMPDIR")).join(name);
    std::fs::create_dir_all(&folder).unwrap();
    folder
}

/// A file of this test run's own.
pub fn file(name: &str, bytes: &[u8]) -> PathBuf {
    let path = folder("").join(name);
    std::fs::write(&path, bytes).unwrap();
    path
}

pub fn pool_file(name: &str, text: &str) -> PathBuf {
    file(name, &encode(&pack(text, Sharing::Shared).unwrap().pool))
}

pub fn command() -> Command {
    Command::new(env!("CARGO_BIN_EXE_tilusorgu"))
}

pub fn run(words: &[&str]) -> (String, String, i32) {
    said(command().args(words).output().unwrap())
}

pub fn said(output: Output) -> (String, String, i32) {
    let text = |bytes: Vec<u8>| String::from_utf8(bytes).unwrap();
    (text(output.stdout), text(output.stderr), output.status.code().expect("it ended by itself"))
}

/// A command that ends with this status, writes nothing and says something that has these words in it.
pub fn assert_fails(words: &[&str], status: i32, part: &str) {
    let (output, messages, ended) = run(words);
    assert_eq!((output.as_str(), ended), ("", status), "{words:?}: {messages}");
    assert!(messages.starts_with("tilusorgu: ") && messages.contains(part), "{words:?}: {messages}");
    assert!(!messages.contains("panicked"), "{messages}");
}

/// Runs words with a terminal: standard output goes there, or standard error, and standard output to a file or, for |, to a pipe that is
/// not read. What the terminal got is written as it came.
const TERMINAL: &str = "
import os, subprocess, sys, tty
got, (terminal, slave) = b'', os.openpty()
tty.setraw(slave)
to = {'': subprocess.DEVNULL, '|': subprocess.PIPE}.get(sys.argv[1]) or open(sys.argv[1], 'wb')
streams = dict(stdout=slave, stderr=to) if sys.argv[1] == '' else dict(stdout=to, stderr=slave)
program = subprocess.Popen(sys.argv[2:], stdin=subprocess.DEVNULL, **streams)
os.close(slave)
while True:
    try:
        part = os.read(terminal, 65536)
    except OSError:
        break
    if not part:
        break
    got += part
sys.stdout.buffer.write(got)
sys.exit(program.wait())
";

fn terminal(file: &str, words: &[&str]) -> (String, i32) {
    let program = ["-c", TERMINAL, file, env!("CARGO_BIN_EXE_tilusorgu")];
    let (got, messages, status) = said(Command::new("python3").args(program).args(words).output().unwrap());
    assert_eq!(messages, "");
    (got, status)
}

/// What a terminal shows of standard output, and the status.
pub fn on_terminal(words: &[&str]) -> (String, i32) {
    terminal("", words)
}

/// What a terminal shows of standard error while standard output goes to this file (or to a pipe: |), and the status.
pub fn errors_on_terminal(file: &Path, words: &[&str]) -> (String, i32) {
    terminal(file.to_str().unwrap(), words)
}
