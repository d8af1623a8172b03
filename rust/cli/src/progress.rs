//! A line that says how far a long listing is, and how long it will take: on a terminal, while the listings go to a file. A pipe may end
//! in a pager, which shares the terminal, so it gets none unless it is asked for.
use crate::files;
use std::io::{self, IsTerminal, Write};
use std::os::fd::AsFd;
use std::time::{Duration, Instant};

const PAUSE: Duration = Duration::from_millis(250);

/// When the line is shown.
#[derive(Clone, Copy, PartialEq, Eq)]
pub enum Wanted {
    ForFiles,
    Always,
    Never,
}

pub struct Progress {
    total: usize,
    done: usize,
    start: Instant,
    /// When the line was last written; nothing where there is to be no line.
    last: Option<Instant>,
    /// Is the end told, too?
    asked: bool,
    written: bool,
}

impl Progress {
    pub fn new(total: usize, wanted: Wanted) -> Progress {
        let fitting = || io::stderr().is_terminal() && files::opened(io::stdout().as_fd()).is_ok_and(|out| out.is_file());
        let asked = wanted == Wanted::Always;
        let shown = asked || wanted == Wanted::ForFiles && fitting();
        let start = Instant::now();
        Progress { total, done: 0, start, last: shown.then_some(start), asked, written: false }
    }

    /// One more is listed.
    pub fn step(&mut self) {
        self.done += 1;
        if self.last.is_some_and(|last| last.elapsed() >= PAUSE) {
            self.write(&format!("{}, {}", so_far(self.done, self.total), left(self.done, self.total, self.start.elapsed())));
            self.last = Some(Instant::now());
        }
    }

    /// The line, over the last one on a terminal; elsewhere a line of its own.
    fn write(&mut self, line: &str) {
        let terminal = io::stderr().is_terminal();
        self.clear();
        let _ = write!(io::stderr(), "{line}{}", if terminal { "" } else { "\n" });
        self.written = terminal;
    }

    /// Takes the line away, at the end or before a message.
    pub fn clear(&mut self) {
        if self.written {
            let _ = write!(io::stderr(), "\r\x1b[K");
            self.written = false;
        }
    }
}

impl Drop for Progress {
    /// However the listing ended, the line goes; who asked for it is told how far it went.
    fn drop(&mut self) {
        self.clear();
        if self.asked {
            let _ = writeln!(io::stderr(), "{} in {}", so_far(self.done, self.total), time(self.start.elapsed()));
        }
    }
}

fn so_far(done: usize, total: usize) -> String {
    format!("listed {done} of {total} ({} %)", (100 * done).checked_div(total).unwrap_or(100))
}

/// The time left if the rest takes as long, one by one, as what is done.
fn left(done: usize, total: usize, elapsed: Duration) -> String {
    let rest = elapsed.as_secs_f64() * (total - done) as f64 / done as f64;
    format!("about {} left", time(Duration::from_secs_f64(rest)))
}

fn time(time: Duration) -> String {
    match time.as_secs() {
        seconds @ 0..=99 => format!("{seconds} s"),
        seconds @ 100..=5999 => format!("{} min", seconds.div_ceil(60)),
        seconds => format!("{} h", seconds.div_ceil(3600)),
    }
}

#[cfg(test)]
mod tests {
    use super::*;

    #[test]
    fn words() {
        assert_eq!(so_far(0, 3), "listed 0 of 3 (0 %)");
        assert_eq!(so_far(65_535, 65_536), "listed 65535 of 65536 (99 %)");
        assert_eq!(so_far(0, 0), "listed 0 of 0 (100 %)");
        let seconds = Duration::from_secs;
        assert_eq!(left(1, 4, seconds(10)), "about 30 s left");
        assert_eq!(left(4, 4, seconds(10)), "about 0 s left");
        assert_eq!(left(1, 65_536, seconds(1)), "about 19 h left");
        assert_eq!([99, 100, 5999, 6000].map(|s| time(seconds(s))), ["99 s", "2 min", "100 min", "2 h"]);
    }
}
