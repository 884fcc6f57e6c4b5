//! Standard output, standard error, and the progress that a person at a terminal sees.

use std::io::{stderr, stdout, IsTerminal, Result, Write};
use std::time::{Duration, Instant};

/// Clears the line of a terminal.
const CLEAR: &str = "\r\x1b[K";

pub struct Console {
    /// How many items there are, if their progress is shown.
    total: Option<usize>,
    start: Instant,
    /// Whether a progress line stands on the terminal.
    shown: bool,
}

impl Console {
    /// Progress is shown for more than one item, and only where standard error is a terminal.
    pub fn new(total: usize) -> Console {
        let total = Some(total).filter(|&total| total > 1 && stderr().is_terminal());
        Console { total, start: Instant::now(), shown: false }
    }

    /// Writes to standard output.
    pub fn out(&mut self, text: &str) -> Result<()> {
        if text.is_empty() {
            return Ok(());
        }
        self.clear();
        let mut out = stdout().lock();
        out.write_all(text.as_bytes())?;
        out.flush()
    }

    /// Writes a line to standard error; where that cannot be written nobody reads it.
    pub fn note(&mut self, line: &str) {
        self.clear();
        say(&format!("arw6: {line}\n"));
    }

    /// Shows how far the items are.
    pub fn progress(&mut self, done: usize) {
        if let Some(total) = self.total.filter(|&total| done < total) {
            say(&format!("{CLEAR}{}", progress(done, total, self.start.elapsed())));
            self.shown = true;
        }
    }

    pub fn clear(&mut self) {
        if self.shown {
            say(CLEAR);
            self.shown = false;
        }
    }
}

/// Writes to standard error, if that is possible.
pub fn say(text: &str) {
    let _ = stderr().lock().write_all(text.as_bytes());
}

/// How many are done, how many a second, and how long the others may take.
fn progress(done: usize, total: usize, passed: Duration) -> String {
    let count = format!("{done} of {total} files");
    if done == 0 {
        return count;
    }
    let each = passed.as_secs_f64() / done as f64;
    let left = (each * (total - done) as f64).ceil() as u64;
    format!("{count}, {:.1} a second, {} left", 1.0 / each.max(1e-6), span(left))
}

/// Seconds as a person says them.
fn span(seconds: u64) -> String {
    match seconds {
        0..60 => format!("{seconds} s"),
        60..3600 => format!("{} min {} s", seconds / 60, seconds % 60),
        _ => format!("{} h {} min", seconds / 3600, seconds / 60 % 60),
    }
}

#[cfg(test)]
mod tests {
    use super::*;

    #[test]
    fn words_of_progress() {
        assert_eq!(progress(0, 9, Duration::ZERO), "0 of 9 files");
        assert_eq!(progress(3, 9, Duration::from_secs(6)), "3 of 9 files, 0.5 a second, 12 s left");
        assert_eq!(progress(1, 100, Duration::from_secs(1)), "1 of 100 files, 1.0 a second, 1 min 39 s left");
        assert_eq!(span(7265), "2 h 1 min");
    }
}
