//! Reading and writing files; `-` is standard input or output. A file is never written over what it was made of, and never by halves.
use crate::console::{failed, output, shown};
use crate::{closed, Failure};
use std::fs::{self, File, Metadata, OpenOptions, Permissions};
use std::io::{self, Read, Write};
use std::os::fd::{AsFd, BorrowedFd};
use std::os::unix::fs::MetadataExt;
use std::path::{Path, PathBuf};
use std::time::SystemTime;
use tilusorgu::{pool_file, Pool};

/// No text form that anyone types comes near it.
const MOST_TEXT: u64 = 1 << 24;
/// As many links as the system follows.
const MOST_LINKS: usize = 40;

pub fn is_standard(path: &Path) -> bool {
    path == Path::new("-")
}

pub fn name(path: &Path) -> String {
    if is_standard(path) {
        "standard input".to_string()
    } else {
        shown(&path.to_string_lossy())
    }
}

/// The regular file that a path or, for `-`, an open one leads to: two links to one file are the same here.
fn identity(path: &Path, standard: BorrowedFd<'_>) -> Option<(u64, u64)> {
    let found = if is_standard(path) { opened(standard) } else { fs::metadata(path) }.ok()?;
    found.is_file().then(|| (found.dev(), found.ino()))
}

/// What is known of an open file.
pub fn opened(file: BorrowedFd<'_>) -> io::Result<Metadata> {
    File::from(file.try_clone_to_owned()?).metadata()
}

/// Refuses to write into what is read.
pub fn apart(input: &Path, output: &Path) -> Result<(), Failure> {
    match (identity(input, io::stdin().as_fd()), identity(output, io::stdout().as_fd())) {
        (Some(read), Some(written)) if read == written => {
            Err(Failure::Trouble(format!("{} is input and output at once: nothing is written; name another file for the output", name(input))))
        }
        _ => Ok(()),
    }
}

fn open(path: &Path) -> Result<Box<dyn Read>, Failure> {
    if is_standard(path) && closed::input() {
        return Err(Failure::Trouble("standard input is closed: nothing can be read from it".to_string()));
    }
    if is_standard(path) {
        return Ok(Box::new(io::stdin()));
    }
    match File::open(path) {
        Ok(file) => Ok(Box::new(file)),
        Err(error) => Err(Failure::Trouble(format!("{} cannot be opened: {error}", name(path)))),
    }
}

pub fn read_pool(path: &Path) -> Result<Pool, Failure> {
    pool_file::read(open(path)?).map_err(|fault| Failure::Trouble(format!("{} {fault}", name(path))))
}

pub fn read_text(path: &Path) -> Result<String, Failure> {
    let mut bytes = Vec::new();
    let trouble = |what: String| Err(Failure::Trouble(format!("{} {what}", name(path))));
    if let Err(error) = open(path)?.take(MOST_TEXT + 1).read_to_end(&mut bytes) {
        return trouble(format!("cannot be read: {error}"));
    }
    if bytes.len() as u64 > MOST_TEXT {
        return trouble(format!("is longer than {MOST_TEXT} bytes"));
    }
    if bytes.starts_with(&[0xff, 0xfe]) || bytes.starts_with(&[0xfe, 0xff]) {
        return trouble("is no text form: it is UTF-16, as its byte order mark says; save it as UTF-8".to_string());
    }
    match String::from_utf8(bytes) {
        Ok(text) => Ok(text),
        Err(error) => trouble(format!("is no text form: it is not UTF-8 at byte {}", error.utf8_error().valid_up_to())),
    }
}

pub fn write_pool(path: &Path, pool: &Pool) -> Result<(), Failure> {
    if is_standard(path) {
        let mut out = output()?;
        return out.write_all(&pool_file::encode(pool)).and_then(|()| out.flush()).map_err(failed);
    }
    let written = replace(path, &pool_file::encode(pool));
    written.map_err(|error| Failure::Trouble(format!("{} cannot be written: {error}", name(path))))
}

/// Writes a whole file. A regular one keeps what it had until all is there; a device or a pipe is written as it is.
fn replace(path: &Path, bytes: &[u8]) -> io::Result<()> {
    match fs::metadata(path) {
        Ok(old) if !old.is_file() => OpenOptions::new().write(true).open(path)?.write_all(bytes),
        Ok(old) if old.permissions().readonly() => Err(io::Error::new(io::ErrorKind::PermissionDenied, "it is write-protected")),
        old => put_in_place(&followed(path), bytes, old.ok().map(|old| old.permissions())),
    }
}

/// The place that links lead to, whether a file is there or not.
fn followed(path: &Path) -> PathBuf {
    let (mut place, mut links) = (path.to_path_buf(), 0);
    while let (Ok(next), true) = (fs::read_link(&place), links < MOST_LINKS) {
        (place, links) = (place.parent().unwrap_or(Path::new("")).join(next), links + 1);
    }
    place
}

/// Writes beside the place, then renames: whatever fails on the way leaves what was there, and nothing else.
fn put_in_place(place: &Path, bytes: &[u8], permissions: Option<Permissions>) -> io::Result<()> {
    let now = SystemTime::now().duration_since(SystemTime::UNIX_EPOCH).unwrap_or_default();
    let beside = place.with_file_name(format!(".tilusorgu-{}-{}.tmp", std::process::id(), now.as_nanos()));
    let mut file = OpenOptions::new().write(true).create_new(true).open(&beside)?;
    let done = permissions
        .map_or(Ok(()), |p| file.set_permissions(p))
        .and_then(|()| file.write_all(bytes))
        // some systems tell only now that the disk is full
        .and_then(|()| file.sync_all())
        .and_then(|()| fs::rename(&beside, place));
    if done.is_err() {
        let _ = fs::remove_file(&beside);
    }
    done
}
