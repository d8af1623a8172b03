//! What the command writes never destroys what it read, and a failure leaves what was there.
mod common;

use common::{assert_fails, command, file, folder, pool_file, run, said};
use std::fs;
use std::os::unix::fs::{symlink, FileTypeExt, PermissionsExt};
use std::path::{Path, PathBuf};
use std::process::{Command, Stdio};

const TYPED: &str = "(axiom k @C)";

/// An empty folder.
fn empty(name: &str) -> PathBuf {
    let folder = folder(name);
    fs::remove_dir_all(&folder).unwrap();
    fs::create_dir(&folder).unwrap();
    folder
}

fn path(path: &Path) -> &str {
    path.to_str().unwrap()
}

/// The files of a folder, in order: none that was written beside another may be left.
fn names(folder: &Path) -> Vec<String> {
    let mut names: Vec<String> = fs::read_dir(folder).unwrap().map(|f| f.unwrap().file_name().into_string().unwrap()).collect();
    names.sort();
    names
}

#[test]
fn the_source_is_never_written_over() {
    let folder = empty("source");
    let source = folder.join("a.txt");
    fs::write(&source, TYPED).unwrap();
    symlink("a.txt", folder.join("link")).unwrap();
    fs::hard_link(&source, folder.join("hard")).unwrap();
    for out in ["a.txt", "link", "hard", "../source/a.txt"] {
        assert_fails(&["pack", path(&source), "-o", path(&folder.join(out))], 2, "a.txt is input and output at once");
        assert_fails(&["pack", path(&folder.join("link")), "-o", path(&folder.join(out))], 2, "link is input and output at once");
    }
    assert_eq!(fs::read_to_string(&source).unwrap(), TYPED);
    assert_eq!(names(&folder), ["a.txt", "hard", "link"]);
}

/// The shell may have opened the file: as standard input, or to append to it.
#[test]
fn nor_what_the_shell_has_opened() {
    let source = file("opened.txt", TYPED.as_bytes());
    let read = fs::File::open(&source).unwrap();
    let (_, messages, status) = said(command().args(["pack", "-", "-o", path(&source)]).stdin(read).output().unwrap());
    assert!(messages.contains("standard input is input and output at once") && status == 2, "{messages}");
    assert_eq!(fs::read_to_string(&source).unwrap(), TYPED);
    let pool = pool_file("opened.pool", TYPED);
    let before = fs::read(&pool).unwrap();
    for word in ["list", "check"] {
        let appended = fs::OpenOptions::new().append(true).open(&pool).unwrap();
        let output = command().arg(word).arg(&pool).stdout(appended).stderr(Stdio::piped()).output().unwrap();
        let (_, messages, status) = said(output);
        assert!(messages.contains("opened.pool is input and output at once") && status == 2, "{messages}");
        assert_eq!(fs::read(&pool).unwrap(), before);
    }
}

/// A limit on the length of files stands for a full disk.
#[test]
fn a_full_disk_leaves_the_old_file() {
    let folder = empty("full");
    let (source, out) = (folder.join("a.txt"), folder.join("a.pool"));
    fs::write(&source, format!("(axiom k \"{}\")", "long ".repeat(4000))).unwrap();
    fs::write(&out, "what was there").unwrap();
    let limited = format!("ulimit -f 4; trap '' XFSZ; exec {} pack a.txt -o a.pool", env!("CARGO_BIN_EXE_tilusorgu"));
    let (output, messages, status) = said(Command::new("bash").args(["-c", &limited]).current_dir(&folder).output().unwrap());
    assert!(output.is_empty() && messages.contains("a.pool cannot be written") && status == 2, "{messages}");
    assert_eq!(fs::read_to_string(&out).unwrap(), "what was there");
    assert_eq!(names(&folder), ["a.pool", "a.txt"]);
    // without the limit the same line writes it
    assert_eq!(run(&["pack", path(&source), "-o", path(&out)]).2, 0);
    assert!(fs::read(&out).unwrap().starts_with(b"TILUPOOL"));
    assert_eq!(names(&folder), ["a.pool", "a.txt"]);
}

#[test]
fn links_permissions_and_devices_stay() {
    let folder = empty("stay");
    let source = folder.join("a.txt");
    fs::write(&source, TYPED).unwrap();
    let packed = |out: &str| run(&["pack", path(&source), "-o", path(&folder.join(out))]);
    // through a link, also to where nothing is yet
    for (link, to) in [("one", "a.pool"), ("two", "b.pool")] {
        symlink(to, folder.join(link)).unwrap();
        fs::write(folder.join("a.pool"), "old").unwrap();
        fs::set_permissions(folder.join("a.pool"), fs::Permissions::from_mode(0o640)).unwrap();
        assert_eq!(packed(link).2, 0);
        assert!(fs::symlink_metadata(folder.join(link)).unwrap().is_symlink());
        assert!(fs::read(folder.join(to)).unwrap().starts_with(b"TILUPOOL"));
        assert_eq!(fs::metadata(folder.join("a.pool")).unwrap().permissions().mode() & 0o777, 0o640);
    }
    fs::set_permissions(folder.join("a.pool"), fs::Permissions::from_mode(0o440)).unwrap();
    let (_, messages, status) = packed("a.pool");
    assert!(messages.contains("write-protected") && status == 2, "{messages}");
    assert_eq!(packed("/dev/null").2, 0);
    assert!(fs::metadata("/dev/null").unwrap().file_type().is_char_device());
    assert_fails(&["pack", path(&source), "-o", "/dev/full"], 2, "cannot be written");
    assert_fails(&["pack", path(&source), "-o", path(&folder)], 2, "cannot be written");
    assert_eq!(names(&folder), ["a.pool", "a.txt", "b.pool", "one", "two"]);
}
