//! The examples of the pages, held to what the command prints.
mod common;

use common::{file, folder, on_terminal, run, said};
use std::process::Command;

fn page(path: &str) -> String {
    std::fs::read_to_string(format!("{}/../../{path}", env!("CARGO_MANIFEST_DIR"))).unwrap()
}

/// The fenced blocks of a page: the words behind the opening fence, and the text.
fn blocks(page: &str) -> Vec<(Vec<&str>, String)> {
    let (mut blocks, mut open) = (Vec::new(), None);
    for line in page.lines() {
        match (line.strip_prefix("```"), open.take()) {
            (Some(words), None) => open = Some((words.split_whitespace().collect(), String::new())),
            (Some(_), Some(block)) => blocks.push(block),
            (None, Some((words, text))) => open = Some((words, text + line + "\n")),
            (None, None) => {}
        }
    }
    assert!(open.is_none(), "a fence is not closed");
    blocks
}

/// What is typed is packed and listed with the options behind its fence; the next block has the listing, or what a terminal shows.
#[test]
fn examples_of_the_listing_page() {
    let (text, pool) = (page("docs/LISTING.md"), folder("").join("example.pool"));
    let (blocks, pool) = (blocks(&text), pool.to_str().unwrap());
    assert!(blocks.len() % 2 == 0 && blocks.len() >= 28, "{} blocks", blocks.len());
    for pair in blocks.chunks(2) {
        let ((opening, typed), (kind, listing)) = (&pair[0], &pair[1]);
        assert_eq!(opening[0], "typed", "{listing}");
        let source = file("example.txt", typed.as_bytes());
        assert_eq!(run(&["pack", source.to_str().unwrap(), "-o", pool]).2, 0, "{typed}");
        let words = [&["list", pool], &opening[1..]].concat();
        let (shown, status) = match kind[..] {
            ["listing"] => (run(&words).0, run(&words).2),
            ["terminal"] => on_terminal(&words),
            _ => panic!("{kind:?}"),
        };
        assert_eq!((&shown, status), (listing, 0), "{typed}");
    }
}

/// The lemma that README.md lists, and what it compares of it.
#[test]
fn example_of_the_readme() {
    let (source, pool) = (format!("{}/../../samples/lemma.txt", env!("CARGO_MANIFEST_DIR")), folder("").join("readme.pool"));
    let pool = pool.to_str().unwrap();
    assert_eq!(run(&["pack", &source, "-o", pool]).2, 0);
    for words in [&["list", pool, "--declar", "Register.cross"][..], &["compare", pool, "18", "24"]] {
        let indented: String = run(words).0.lines().map(|line| format!("    {line}\n")).collect();
        assert!(page("README.md").contains(&format!("\n\n{indented}\n")), "{indented}");
    }
}

/// A folder with the files of docs/MISTAKES.md.
fn mistaken() -> std::path::PathBuf {
    let folder = folder("mistakes");
    std::fs::remove_dir_all(&folder).unwrap();
    std::fs::create_dir(&folder).unwrap();
    let written = |name: &str, bytes: &[u8]| std::fs::write(folder.join(name), bytes).unwrap();
    written("lemma.txt", page("samples/lemma.txt").as_bytes());
    written("refused.txt", b"(axiom k (proj S 65536 @s))");
    written("total.txt", b"(axiom k @C) (words 5)");
    written("no_body.txt", b"(axiom k (forall (x : @A)))");
    written("mark.txt", b"\xef\xbb\xbf(axiom k @C)");
    written("comma.txt", b"(axiom a,b @C)");
    written("operator.txt", b"(infix add \"+\")");
    written("priority.txt", b"(axiom k @C) (infix C 1024 \"+\")");
    written("twice.txt", b"(axiom k @C) (infix C 65 \"+\") (prefix k 75 \"-\") (postfix C 80 \"!\")");
    for name in ["lemma", "refused", "total", "priority", "twice"] {
        let path = |ending: &str| folder.join(name).with_extension(ending).into_os_string().into_string().unwrap();
        assert_eq!(run(&["pack", &path("txt"), "-o", &path("pool")]).2, 0, "{name}");
    }
    let lemma = std::fs::read(folder.join("lemma.pool")).unwrap();
    written("short.pool", &lemma[..40]);
    written("old.pool", &[&lemma[..8], &[1], &lemma[9..]].concat());
    std::os::unix::fs::symlink("lemma.txt", folder.join("link.txt")).unwrap();
    folder
}

/// Each line that is typed, what the command says, and its status; no file is changed or made by it.
#[test]
fn mistakes() {
    let (text, folder) = (page("docs/MISTAKES.md"), mistaken());
    let blocks = blocks(&text);
    assert!(blocks.len() >= 30, "{} blocks", blocks.len());
    let files = || {
        let mut files: Vec<_> =
            std::fs::read_dir(&folder).unwrap().map(|f| f.unwrap().path()).map(|f| (f.clone(), std::fs::read(f).unwrap())).collect();
        files.sort();
        files
    };
    let before = files();
    for (kind, block) in blocks {
        assert_eq!(kind, ["mistake"], "{block}");
        let (typed, answer) = block.strip_prefix("$ tilusorgu").unwrap().split_once('\n').unwrap();
        let line = format!("{}{typed}", env!("CARGO_BIN_EXE_tilusorgu"));
        let (output, messages, status) = said(Command::new("bash").args(["-c", &line]).current_dir(&folder).output().unwrap());
        assert_eq!((output.as_str(), format!("{messages}[{status}]\n")), ("", answer.to_string()), "{typed}");
    }
    assert!(files() == before, "a file was changed");
}
