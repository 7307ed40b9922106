//! A bar of progress on a terminal, for work that takes long.

use std::io::Write;
use std::time::{Duration, Instant};

/// Work below this is not shown.
const LONG: Duration = Duration::from_millis(400);
/// The time between two drawings.
const PAUSE: Duration = Duration::from_millis(100);
const WIDTH: usize = 40;

/// Draws on `terminal`, where there is one.
pub struct Progress<W: Write> {
    terminal: Option<W>,
    next: Instant,
    drawn: bool,
}

impl<W: Write> Progress<W> {
    pub fn new(terminal: Option<W>, now: Instant) -> Self {
        Progress {
            terminal,
            next: now + LONG,
            drawn: false,
        }
    }

    /// `done` of `all` is done. What cannot be drawn is not drawn.
    pub fn show(&mut self, done: usize, all: usize, now: Instant) {
        let Some(terminal) = &mut self.terminal else {
            return;
        };
        if now < self.next {
            return;
        }
        self.next = now + PAUSE;
        self.drawn = true;
        let full = WIDTH * done / all;
        let _ = write!(
            terminal,
            "\r[{}{}] {:3} %",
            "#".repeat(full),
            ".".repeat(WIDTH - full),
            100 * done / all
        );
        let _ = terminal.flush();
    }

    /// Clears the line.
    pub fn end(mut self) {
        if let (Some(terminal), true) = (&mut self.terminal, self.drawn) {
            let _ = write!(terminal, "\r{}\r", " ".repeat(WIDTH + 8));
            let _ = terminal.flush();
        }
    }
}

#[cfg(test)]
mod tests {
    use super::*;

    #[test]
    fn drawn_only_when_it_takes_long() {
        let start = Instant::now();
        let mut screen = Vec::new();
        let mut progress = Progress::new(Some(&mut screen), start);
        progress.show(1, 4, start + Duration::from_millis(399));
        progress.show(2, 4, start + Duration::from_millis(400));
        progress.show(3, 4, start + Duration::from_millis(499));
        progress.show(4, 4, start + Duration::from_millis(500));
        progress.end();
        let half = format!("\r[{}{}]  50 %", "#".repeat(20), ".".repeat(20));
        let full = format!("\r[{}] 100 %", "#".repeat(40));
        let clear = format!("\r{}\r", " ".repeat(48));
        assert_eq!(String::from_utf8(screen).unwrap(), half + &full + &clear);
    }

    #[test]
    fn nothing_for_short_work_or_without_a_terminal() {
        let start = Instant::now();
        let mut screen = Vec::new();
        let mut progress = Progress::new(Some(&mut screen), start);
        progress.show(1, 1, start);
        progress.end();
        assert!(screen.is_empty());

        let mut progress = Progress::new(None::<Vec<u8>>, start);
        progress.show(1, 1, start + LONG);
        progress.end();
    }
}
