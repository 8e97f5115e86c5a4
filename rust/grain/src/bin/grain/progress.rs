//! How far a long run is: a line on standard error that is written over, and only where that is a terminal.
use std::io::{self, IsTerminal, Write};
use std::time::{Duration, Instant};

pub struct Progress {
    on: bool,
    shown: bool,
    last: Instant,
}

/// A run shorter than this shows nothing.
const PAUSE: Duration = Duration::from_millis(300);

impl Progress {
    pub fn new() -> Progress {
        Progress { on: io::stderr().is_terminal(), shown: false, last: Instant::now() }
    }

    /// Shows the line anew, where the last one has stood for a while.
    pub fn say(&mut self, line: impl FnOnce() -> String) {
        if self.on && self.last.elapsed() >= PAUSE {
            let _ = write!(io::stderr(), "\r\x1b[K{}", line());
            self.shown = true;
            self.last = Instant::now();
        }
    }

    /// Takes the line away, before anything else is written.
    pub fn clear(&mut self) {
        if self.shown {
            let _ = write!(io::stderr(), "\r\x1b[K");
            self.shown = false;
        }
    }
}
