//! What is being done, on standard error: one line that changes on a terminal, elsewhere a line every few seconds.

use std::{
    io::{IsTerminal, stderr},
    time::{Duration, Instant},
};

const EVERY: Duration = Duration::from_secs(5);

pub struct Progress {
    terminal: bool,
    last: Instant,
}

impl Progress {
    pub fn new() -> Progress {
        Progress { terminal: stderr().is_terminal(), last: Instant::now() }
    }

    pub fn tell(&mut self, what: &str) {
        if self.terminal {
            eprint!("\r\x1b[K{what}");
        } else if self.last.elapsed() >= EVERY {
            eprintln!("{what}");
            self.last = Instant::now();
        }
    }

    /// Leaves the terminal's line empty.
    pub fn end(&self) {
        if self.terminal {
            eprint!("\r\x1b[K");
        }
    }
}
