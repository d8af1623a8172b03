//! What is said where something is amiss, in words that tell what to do.
mod common;

use common::{assert_fails, command, file, folder, pool_file, run, said};
use std::path::{Path, PathBuf};
use std::process::Command;
use tilusorgu::pool_file::encode;
use tilusorgu::Pool;

fn top() -> PathBuf {
    Path::new(env!("CARGO_MANIFEST_DIR")).join("../..")
}

#[test]
fn texts() {
    for (name, bytes, part) in [
        ("no_body.txt", &b"(axiom k (forall (x : @A)))"[..], "no_body.txt:1:18: a body is missing here"),
        ("mark.txt", b"\xef\xbb\xbf(axiom k @C)", "mark.txt:1:1: the text begins with a byte order mark (U+FEFF): save it as UTF-8 without one"),
        ("wide.txt", b"\xff\xfe(\0a\0", "save it as UTF-8"),
        ("wide.txt", b"\xfe\xff\0(\0a", "save it as UTF-8"),
        ("comma.txt", b"(axiom a,b @C)", "comma.txt:1:9: no comma is expected here"),
    ] {
        assert_fails(&["pack", file(name, bytes).to_str().unwrap()], 2, part);
    }
}

#[test]
fn wrong_counts() {
    let total = pool_file("total.pool", "(axiom k @C) (words 5)");
    assert_fails(&["check", total.to_str().unwrap()], 1, "total.pool: refused 1: its counts (2 strings, 3 names, ");
    assert_fails(&["list", total.to_str().unwrap()], 1, "make 8 + 4 + 12 + 0 + 2 + 0 + 8 + 5 + 0 = 39 words, but it has 40");
    let mut words = vec![0, 0, 0, 0, 65_537, 0, 0, 0];
    words.resize(8 + 65_537, 0);
    let many = file("many.pool", &encode(&Pool { bytes: vec![], words }));
    assert_fails(&["check", many.to_str().unwrap()], 1, "refused 2: it has 65537 list words, and at most 65536 rows are allowed in a table");
}

#[test]
fn after_two_dashes_no_option() {
    let pool = pool_file("-dashed.pool", "(axiom k @C)");
    let listed = |words: &[&str]| said(command().args(words).current_dir(pool.parent().unwrap()).output().unwrap());
    assert_eq!(listed(&["list", "--", "-dashed.pool"]), ("axiom k : @C\n".to_string(), String::new(), 0));
    assert_eq!(listed(&["list", "--width", "0", "--", "-dashed.pool"]).0, "axiom k :\n  @C\n");
    assert!(listed(&["check", "--", "-dashed.pool"]).0.contains("accepted"));
    let (_, messages, status) = listed(&["list", "-dashed.pool"]);
    assert!(messages.contains("list has no option -dashed.pool") && status == 2, "{messages}");
    assert_fails(&["list", "--"], 2, "a file is expected");
    assert_fails(&["list", "--", "a", "--counts"], 2, "--counts is a second one");
}

/// The shell runs the command with some of its files closed.
fn closed(line: &str) -> (String, String, i32) {
    let line = format!("{} {line}", env!("CARGO_BIN_EXE_tilusorgu"));
    said(Command::new("bash").args(["-c", &line]).current_dir(folder("")).output().unwrap())
}

#[test]
fn closed_files() {
    pool_file("closed.pool", "(axiom k @C)");
    file("closed.txt", b"(axiom k @C)");
    for line in ["list closed.pool >&-", "check closed.pool >&-", "help >&-", "pack closed.txt -o - >&-", "list closed.pool <&- >&-"] {
        let (_, messages, status) = closed(line);
        assert_eq!((messages.as_str(), status), ("tilusorgu: standard output is closed: nothing can be written there\n", 2), "{line}");
    }
    for line in ["list - <&-", "pack - -o never.pool <&-"] {
        let (output, messages, status) = closed(line);
        assert_eq!((output.as_str(), status), ("", 2), "{line}");
        assert_eq!(messages, "tilusorgu: standard input is closed: nothing can be read from it\n", "{line}");
    }
    assert!(!folder("").join("never.pool").exists());
    // what is not used may be closed, and /dev/null is open
    assert_eq!(closed("list closed.pool <&- 2>&-"), ("axiom k : @C\n".to_string(), String::new(), 0));
    assert_eq!(closed("list closed.pool >/dev/null"), (String::new(), String::new(), 0));
    assert_eq!(closed("list closed.pool 1<>/dev/null"), (String::new(), String::new(), 0));
    let (_, messages, status) = closed("list closed.pool >/dev/full");
    assert!(messages.contains("the output cannot be written") && !messages.contains("panicked") && status == 2, "{messages}");
}

/// A script of the repository that ends with this status and says something with these words in it.
fn assert_script_fails(script: &str, words: &[&str], library: Option<&str>, status: i32, part: &str) {
    let mut command = Command::new(top().join(script));
    command.args(words).env_remove("TILUSORGU_LIB_DIR");
    library.map(|folder| command.env("TILUSORGU_LIB_DIR", folder));
    let (output, messages, ended) = said(command.output().unwrap());
    assert_eq!((output.as_str(), ended), ("", status), "{messages}");
    assert!(messages.contains(part), "{messages}");
}

#[test]
fn scripts() {
    assert_script_fails("list-sample", &["nosuch"], None, 2, "there is no sample 'nosuch'; there are: chains compare definition expression ");
    assert_script_fails(
        "rust/build-library",
        &[],
        Some("lib"),
        1,
        "TILUSORGU_LIB_DIR is lib, which leads elsewhere from each folder: give the whole path",
    );
    assert_script_fails("rust/build-library", &[], Some("/nosuch"), 1, "TILUSORGU_LIB_DIR is /nosuch, and liblister_c.a is not there: put it there");
    assert_script_fails("list-sample", &[], Some("/nosuch"), 1, "TILUSORGU_LIB_DIR is /nosuch, and liblister_c.a is not there");
}

/// The same of `cargo build`, in a folder of its own.
#[test]
fn library_folders() {
    for (library, part) in [
        ("lib", "TILUSORGU_LIB_DIR is lib, which leads elsewhere from each folder: give the whole path"),
        ("/nosuch", "TILUSORGU_LIB_DIR is /nosuch, and liblister_c.a is not there: put it there"),
    ] {
        let mut cargo = Command::new(env!("CARGO"));
        cargo.args(["check", "--offline", "--quiet", "--manifest-path"]).arg(top().join("rust/Cargo.toml"));
        cargo.arg("--target-dir").arg(folder("library_folders")).env("TILUSORGU_LIB_DIR", library);
        let (_, messages, status) = said(cargo.output().unwrap());
        assert!(messages.contains(part) && !messages.contains("panicked") && status != 0, "{messages}");
    }
}

/// A repository whose `rt` is this shell script: what `build-library` says, kept in the file `messages` of its folder, and how it ends.
fn built_by(name: &str, rt: &str) -> (String, i32) {
    let place = folder(name);
    let crates = ["src/f", "specs/f", "proofs/f", "out/f"].map(|file| format!("crates/lister_c/{file}"));
    for (path, text) in crates.iter().map(|file| (file.as_str(), "")).chain([("crates.txt", ""), ("rt", rt)]) {
        std::fs::create_dir_all(place.join(path).parent().unwrap()).unwrap();
        std::fs::write(place.join(path), text).unwrap();
    }
    // Another process writes the two that are run. If they were written here, a program that a test beside this one starts could hold them open for
    // a moment, and a file that is open for writing cannot be run.
    let put = "mkdir -p rust bin && cp \"$0/rust/build-library\" rust/ && cp rt bin/ && chmod +x bin/rt";
    assert!(Command::new("sh").current_dir(&place).args(["-c", put]).arg(top()).status().unwrap().success());
    let path = format!("{}:{}", place.join("bin").display(), std::env::var("PATH").unwrap());
    let messages = std::fs::File::create(place.join("messages")).unwrap();
    let mut build = Command::new(place.join("rust/build-library"));
    let (output, _, status) =
        said(build.env("PATH", path).env_remove("TILUSORGU_LIB_DIR").env_remove("TILUSORGU_PROVED_SINCE").stderr(messages).output().unwrap());
    assert_eq!(output, "");
    (std::fs::read_to_string(place.join("messages")).unwrap(), status)
}

/// The `rt` here ends once it is said what it is at, and after a minute at the latest: the test waits for what is said, not for a time.
#[test]
fn building_is_not_silent() {
    let rt = "#!/bin/sh\n[ \"$*\" = lib ] || exit 9\necho 'rt: chose --jobs 2 for basics'\necho 'logic=proved functions=7'\necho 'noise'\n\
              echo 'rt: chose --jobs 2 for pool'\n\
              for second in $(seq 60); do grep -q 'so far: at pool$' ../../messages && break; sleep 1; done\n\
              date >out/liblister_c.a\n";
    let _ = std::fs::remove_dir_all(folder("not_silent"));
    let (messages, status) = built_by("not_silent", rt);
    let lines: Vec<&str> = messages.lines().collect();
    assert!(status == 0 && lines.len() >= 4, "{messages}");
    assert!(lines[0].contains("some 10 minutes"), "{messages}");
    assert!(lines[1].starts_with("build-library: basics proved (") && lines[1].ends_with(" s)"), "{messages}");
    assert!(lines[2].starts_with("build-library: ") && lines[2].ends_with("3 s so far: at pool"), "{messages}");
    assert!(lines.last().unwrap().starts_with("build-library: made target/staticlib/liblister_c.a in "), "{messages}");
    // it is made once
    assert_eq!(built_by("not_silent", rt), (String::new(), 0));
    let (messages, status) = built_by("not_proved", "#!/bin/sh\necho 'logic=not-proved'\nexit 1\n");
    assert!(messages.contains("\nlogic=not-proved\nbuild-library: rt did not make the library") && status == 1, "{messages}");
}

#[test]
fn help_names_all_commands() {
    let (help, ..) = run(&["help"]);
    for command in ["check", "names", "compare", "list", "pack", "help", "version"] {
        assert!(help.contains(&format!("tilusorgu {command}")), "{command}");
        assert!(!run(&[command]).1.contains("no command"), "{command}");
    }
}
