//! What is said while records are checked: lines on standard output, and on a terminal how far it is, on standard error.

use crate::stop::{printed, Stop};
use crate::totals::Totals;
use std::io::{self, BufWriter, IsTerminal, Stdout, Write};
use std::time::{Duration, Instant};

/// How often what is said reaches its reader.
const OFTEN: Duration = Duration::from_millis(200);

pub struct Report {
    out: BufWriter<Stdout>,
    flushed: Instant,
    quiet: bool,
    /// Standard error is a terminal: when it was last told how far it is.
    progress: Option<Instant>,
    /// How far it is stands on the terminal.
    shown: bool,
    started: Instant,
}

impl Report {
    pub fn new(quiet: bool) -> Report {
        let now = Instant::now();
        let progress = (!quiet && io::stderr().is_terminal()).then_some(now);
        Report { out: BufWriter::new(io::stdout()), flushed: now, quiet, progress, shown: false, started: now }
    }

    /// A line on standard output, unless nothing shall be said.
    pub fn line(&mut self, line: &str) -> Result<(), Stop> {
        if self.quiet {
            return Ok(());
        }
        printed(self.out.write_all(line.as_bytes()).and_then(|()| self.out.write_all(b"\n")))?;
        if self.flushed.elapsed() >= OFTEN {
            self.flush()?;
        }
        Ok(())
    }

    fn flush(&mut self) -> Result<(), Stop> {
        self.wipe();
        self.flushed = Instant::now();
        printed(self.out.flush())
    }

    /// How often each refusal came, and the totals.
    pub fn totals(&mut self, totals: &Totals) -> Result<(), Stop> {
        for line in totals.summary() {
            self.line(&line)?;
        }
        self.line(&totals.to_string())?;
        self.flush()
    }

    /// A line on standard error, unless nothing shall be said.
    pub fn note(&mut self, words: &str) {
        self.wipe();
        if !self.quiet {
            let _ = writeln!(io::stderr(), "{words}");
        }
    }

    /// Records are looked for, and so many were found.
    pub fn found(&mut self, count: usize) {
        self.tell(|| format!("looking for records: {count} so far"));
    }

    /// Checking begins.
    pub fn start(&mut self) {
        self.wipe();
        self.started = Instant::now();
    }

    /// So many of so many records are checked.
    pub fn done(&mut self, done: usize, of: usize) {
        let elapsed = self.started.elapsed();
        self.tell(|| how_far(done, of, elapsed));
    }

    fn tell(&mut self, words: impl FnOnce() -> String) {
        if self.progress.is_some_and(|last| last.elapsed() >= OFTEN) {
            let _ = write!(io::stderr(), "\r\x1b[K{}", words());
            self.progress = Some(Instant::now());
            self.shown = true;
        }
    }

    fn wipe(&mut self) {
        if self.shown {
            let _ = write!(io::stderr(), "\r\x1b[K");
            self.shown = false;
        }
    }
}

/// How far it is, how fast, and how long it will take.
fn how_far(done: usize, of: usize, elapsed: Duration) -> String {
    let rate = done as f64 / elapsed.as_secs_f64().max(0.001);
    let left = (of.saturating_sub(done)) as f64 / rate.max(0.001);
    let percent = done * 100 / of.max(1);
    format!("{done} of {of} records ({percent} %), {rate:.0} a second, {} left", time(left.ceil() as u64))
}

fn time(seconds: u64) -> String {
    match seconds {
        0..100 => format!("{seconds} s"),
        100..6000 => format!("{} min", seconds.div_ceil(60)),
        _ => format!("{} h {} min", seconds / 3600, seconds % 3600 / 60),
    }
}

#[cfg(test)]
mod tests {
    use super::*;

    #[test]
    fn how_far_it_is() {
        let words = |done, of, seconds| how_far(done, of, Duration::from_secs(seconds));
        assert_eq!(words(500, 2000, 10), "500 of 2000 records (25 %), 50 a second, 30 s left");
        assert_eq!(words(10, 100_000, 10), "10 of 100000 records (0 %), 1 a second, 27 h 46 min left");
        assert_eq!(words(1000, 10_000, 100), "1000 of 10000 records (10 %), 10 a second, 15 min left");
        assert_eq!(words(7, 7, 1), "7 of 7 records (100 %), 7 a second, 0 s left");
        assert_eq!(words(0, 7, 0), "0 of 7 records (0 %), 0 a second, 7000 s left".replace("7000 s", "1 h 56 min"));
    }
}
