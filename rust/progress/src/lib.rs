//! A line that says how far long work is: on standard error, where that is a
//! terminal, and nowhere else. It is gone before anything else is written.

use std::io::{self, IsTerminal, Stderr, Write};
use std::time::{Duration, Instant};

/// How long work goes on before there is a line. Most of it is over by then.
const FIRST: Duration = Duration::from_secs(1);
/// How long a line stands.
const NEXT: Duration = Duration::from_millis(250);

/// How far work is. The line goes when this does.
#[derive(Debug)]
pub struct Progress<W: Write = Stderr> {
    /// There is none where nothing is to be shown.
    out: Option<W>,
    what: String,
    done: u64,
    all: u64,
    due: Instant,
    is_shown: bool,
}

impl Progress {
    /// Work of so many steps.
    #[must_use]
    pub fn new(what: &str, all: u64) -> Progress {
        Progress::on(Some(io::stderr()).filter(Stderr::is_terminal), what, all)
    }

    /// Work of one step, with a line from now on.
    #[must_use]
    pub fn begun(what: &str) -> Progress {
        let mut progress = Progress::new(what, 1);
        progress.step_at_once();
        progress
    }
}

impl<W: Write> Progress<W> {
    fn on(out: Option<W>, what: &str, all: u64) -> Progress<W> {
        let due = Instant::now() + FIRST;
        Progress { out, what: what.to_string(), done: 0, all, due, is_shown: false }
    }

    /// Begins with the next step. Where the work takes long the line says so.
    pub fn step(&mut self) {
        self.done += 1;
        if self.out.is_some() && Instant::now() >= self.due {
            self.show();
        }
    }

    /// Begins with the next step, which takes long by itself, and says so at once.
    pub fn step_at_once(&mut self) {
        self.done += 1;
        self.show();
    }

    fn show(&mut self) {
        let Progress { what, done, all, .. } = self;
        let said = match all {
            1 => format!("\r{what}\x1b[K"),
            all => format!("\r{what}: {done} of {all}\x1b[K"),
        };
        self.write(&said);
        self.is_shown = true;
        self.due = Instant::now() + NEXT;
    }

    /// Takes the line away.
    pub fn clear(&mut self) {
        if self.is_shown {
            self.write("\r\x1b[K");
            self.is_shown = false;
        }
    }

    fn write(&mut self, said: &str) {
        // Nobody is told where that fails: the work itself goes on.
        let _ =
            self.out.as_mut().map(|out| out.write_all(said.as_bytes()).and_then(|()| out.flush()));
    }
}

impl<W: Write> Drop for Progress<W> {
    fn drop(&mut self) {
        self.clear();
    }
}

/// The numbers from 0 on, with a line that says which one it is.
pub fn counted(what: &str, all: u64) -> impl Iterator<Item = u64> {
    let mut progress = Progress::new(what, all);
    (0..all).inspect(move |_| progress.step())
}

#[cfg(test)]
mod tests {
    use super::*;

    fn shown(work: impl Fn(&mut Progress<&mut Vec<u8>>)) -> String {
        let mut out = Vec::new();
        let mut progress = Progress::on(Some(&mut out), "limits", 5);
        work(&mut progress);
        drop(progress);
        String::from_utf8(out).unwrap()
    }

    #[test]
    fn a_line_comes_when_it_is_due_and_goes() {
        assert_eq!(shown(|progress| (0..5).for_each(|_| progress.step())), "");
        let due = |progress: &mut Progress<&mut Vec<u8>>| {
            progress.step();
            progress.due = Instant::now();
            // The second is shown, and the third is too soon for another line.
            progress.step();
            progress.step();
        };
        assert_eq!(shown(due), "\rlimits: 2 of 5\x1b[K\r\x1b[K");
        let at_once = |progress: &mut Progress<&mut Vec<u8>>| {
            progress.step_at_once();
            progress.clear();
            progress.clear();
            progress.step_at_once();
        };
        let line = |number: u64| format!("\rlimits: {number} of 5\x1b[K\r\x1b[K");
        assert_eq!(shown(at_once), line(1) + &line(2));
    }

    #[test]
    fn nothing_is_shown_where_there_is_no_terminal() {
        let mut progress = Progress::on(None::<Vec<u8>>, "limits", 5);
        progress.due = Instant::now();
        progress.step();
        progress.step_at_once();
        assert_eq!((progress.done, &progress.out), (2, &None));
        let mut alone = Progress::on(Some(Vec::new()), "audit", 1);
        alone.step_at_once();
        assert_eq!(alone.out.as_deref(), Some(&b"\raudit\x1b[K"[..]));
        assert_eq!(counted("limits", 3).collect::<Vec<u64>>(), [0, 1, 2]);
    }
}
