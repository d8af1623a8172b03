//! The command line.
use crate::progress::Wanted;
use crate::Failure;
use std::ffi::OsString;
use std::path::PathBuf;
use tilusorgu::text::Sharing;
use tilusorgu::Sizes;

pub const HELP: &str = "\
tilusorgu check FILE              is the pool accepted?
tilusorgu names FILE              row, kind and name of every declaration, a line each
tilusorgu compare FILE ROW ROW    are these two expressions the same tree? If not, the first two rows in which they differ, looked at from the back
tilusorgu list FILE [OPTION]..    lists declarations and expressions of a pool
    --declar NAME|ROW             this declaration, by its row, or by its name as a listing shows it or as pack reads it
                                  (all of that name); may be repeated
    --expr ROW                    this expression; may be repeated
                                  (without --declar and --expr: all declarations)
    --indent N                    spaces of a step of indentation, 0 to 64 (2)
    --width N                     width of a row in bytes, 0 to 65535 (120)
    --counts                      the counts of each listing, on standard error; lines are the rows that --numbers counts, fit tests the groups
                                  that are not inside a flat one
    --numbers                     a margin with the number of each row; lines that a newline of a name, a literal or an operator makes have
                                  a + instead
    --progress, --quiet           how far the listing is, on standard error: always, never
                                  (without them: while it goes to a file, on a terminal)
    --raw                         on a terminal, too, the bytes of names, literals and operators as they are
tilusorgu pack FILE.txt [OPTION]..   makes a pool file of a text form
    -o FILE                       the pool file (FILE.pool beside the text; - is standard output)
    --no-share                    each row typed is a row of its own, even if it equals another
tilusorgu help, tilusorgu version

--width 80 and --width=80 are the same. FILE is a pool file, or - for standard input; after -- a FILE may begin with -. Listings are separated by an empty line.
On a terminal control characters and bidirectional marks of names, literals and operators are shown as escapes; a pipe or a file gets the bytes.
Status: 0 done, whether compare says equal or differ; 1 something was refused; 2 wrong command line, wrong file, or no such name.
docs/POOL-FILE.md has the pool file and the text form.
";

pub enum Command {
    Help,
    Version,
    Check(PathBuf),
    Names(PathBuf),
    Compare(Compare),
    List(List),
    Pack(Pack),
}

/// What to list.
pub enum Chosen {
    Name(String),
    Declar(u32),
    Expr(u32),
}

pub struct List {
    pub file: PathBuf,
    pub chosen: Vec<Chosen>,
    pub sizes: Sizes,
    pub counts: bool,
    pub numbers: bool,
    pub raw: bool,
    pub progress: Wanted,
}

pub struct Compare {
    pub file: PathBuf,
    pub rows: [u32; 2],
}

pub struct Pack {
    pub file: PathBuf,
    pub out: Option<PathBuf>,
    pub sharing: Sharing,
}

fn wrong<T>(what: impl Into<String>) -> Result<T, Failure> {
    Err(Failure::Usage(what.into()))
}

/// The words of a command line, taken one by one.
struct Words {
    rest: std::vec::IntoIter<OsString>,
    file: Option<PathBuf>,
    /// What stands behind the file, and how many words may stand there: two for `compare`, else none.
    rows: Vec<OsString>,
    most_rows: usize,
    /// After -- no word is an option.
    options_end: bool,
    /// What stood behind the = of the last option.
    joined: Option<OsString>,
}

impl Words {
    /// The next option. What is no option is the file, or a row behind it.
    fn option(&mut self) -> Result<Option<String>, Failure> {
        if let Some(value) = self.joined.take() {
            return wrong(format!("the option before ={} takes no value", value.to_string_lossy()));
        }
        for word in self.rest.by_ref() {
            match word.to_str() {
                Some("--") if !self.options_end => self.options_end = true,
                Some(option) if option.starts_with('-') && option != "-" && !self.options_end => {
                    let (name, value) = option.split_once('=').map_or((option, None), |(name, value)| (name, Some(value.into())));
                    self.joined = value;
                    return Ok(Some(name.to_string()));
                }
                _ if self.file.is_none() => self.file = Some(PathBuf::from(word)),
                _ if self.rows.len() < self.most_rows => self.rows.push(word),
                _ if self.most_rows > 0 => return wrong(format!("two rows are expected, and {} is one more", word.to_string_lossy())),
                _ => return wrong(format!("one file is expected, and {} is a second one", word.to_string_lossy())),
            }
        }
        Ok(None)
    }

    fn value(&mut self, option: &str) -> Result<OsString, Failure> {
        self.joined.take().or_else(|| self.rest.next()).map_or_else(|| wrong(format!("{option} needs a value")), Ok)
    }

    fn text(&mut self, option: &str) -> Result<String, Failure> {
        self.value(option)?.into_string().or_else(|value| wrong(format!("{option} {}: not UTF-8", value.to_string_lossy())))
    }

    fn number(&mut self, option: &str) -> Result<u32, Failure> {
        number(option, &self.text(option)?)
    }

    fn file(self) -> Result<PathBuf, Failure> {
        self.file.map_or_else(|| wrong("a file is expected"), Ok)
    }
}

fn number(option: &str, text: &str) -> Result<u32, Failure> {
    if text.is_empty() || !text.bytes().all(|b| b.is_ascii_digit()) {
        return wrong(format!("{option} {text}: a number is expected"));
    }
    text.parse().or_else(|_| wrong(format!("{option} {text}: the number is too large")))
}

pub fn parse(arguments: Vec<OsString>) -> Result<Command, Failure> {
    let mut rest = arguments.into_iter();
    let Some(command) = rest.next() else {
        return wrong("a command is expected: check, names, compare, list or pack");
    };
    let words = Words { rest, file: None, rows: Vec::new(), most_rows: 0, options_end: false, joined: None };
    match command.to_str() {
        Some("help" | "--help" | "-h") => Ok(Command::Help),
        Some("version" | "--version" | "-V") => Ok(Command::Version),
        Some("check") => file_alone(words, "check", Command::Check),
        Some("names") => file_alone(words, "names", Command::Names),
        Some("compare") => compare(Words { most_rows: 2, ..words }),
        Some("list") => list(words),
        Some("pack") => pack(words),
        _ => wrong(format!("there is no command {}", command.to_string_lossy())),
    }
}

/// A command that takes a file and nothing else.
fn file_alone(mut words: Words, name: &str, command: fn(PathBuf) -> Command) -> Result<Command, Failure> {
    match words.option()? {
        Some(option) => unknown(&option, name),
        None => Ok(command(words.file()?)),
    }
}

fn unknown(option: &str, command: &str) -> Result<Command, Failure> {
    match option {
        "--help" | "-h" => Ok(Command::Help),
        _ => wrong(format!("{command} has no option {option}")),
    }
}

fn compare(mut words: Words) -> Result<Command, Failure> {
    if let Some(option) = words.option()? {
        return unknown(&option, "compare");
    }
    let rows = std::mem::take(&mut words.rows);
    let file = words.file()?;
    let [first, second] = &rows[..] else {
        return wrong("two rows are expected behind the file");
    };
    let row = |word: &OsString| number("row", &word.to_string_lossy());
    Ok(Command::Compare(Compare { file, rows: [row(first)?, row(second)?] }))
}

fn list(mut words: Words) -> Result<Command, Failure> {
    let (mut chosen, mut sizes) = (Vec::new(), Sizes::default());
    let (mut counts, mut numbers, mut raw, mut progress) = (false, false, false, Wanted::ForFiles);
    while let Some(option) = words.option()? {
        match option.as_str() {
            "--declar" => chosen.push(declar(words.text("--declar")?)?),
            "--expr" => chosen.push(Chosen::Expr(words.number("--expr")?)),
            "--indent" => sizes.indent = words.number("--indent")?,
            "--width" => sizes.width = words.number("--width")?,
            "--counts" => counts = true,
            "--numbers" => numbers = true,
            "--raw" => raw = true,
            "--progress" => progress = Wanted::Always,
            "--quiet" => progress = Wanted::Never,
            _ => return unknown(&option, "list"),
        }
    }
    Ok(Command::List(List { file: words.file()?, chosen, sizes, counts, numbers, raw, progress }))
}

/// Digits alone are a row.
fn declar(text: String) -> Result<Chosen, Failure> {
    if !text.is_empty() && text.bytes().all(|b| b.is_ascii_digit()) {
        return Ok(Chosen::Declar(number("--declar", &text)?));
    }
    Ok(Chosen::Name(text))
}

fn pack(mut words: Words) -> Result<Command, Failure> {
    let (mut out, mut sharing) = (None, Sharing::Shared);
    while let Some(option) = words.option()? {
        match option.as_str() {
            "-o" => out = Some(PathBuf::from(words.value("-o")?)),
            "--no-share" => sharing = Sharing::Apart,
            _ => return unknown(&option, "pack"),
        }
    }
    Ok(Command::Pack(Pack { file: words.file()?, out, sharing }))
}
