//! A progress bar on standard error, where that is a terminal and the work is long.
//!
//! One line without escape codes, for every terminal: drawn over the bar before, and taken away by blanks.

use std::io::{self, IsTerminal, Write};
use std::time::{Duration, Instant};

const LONG: Duration = Duration::from_millis(500);
const BETWEEN: Duration = Duration::from_millis(100);
const COLUMNS: usize = 79;
const LONGEST_BAR: usize = 30;

pub struct Progress {
    total: Option<u64>,
    unit: &'static str,
    started: Instant,
    /// When it is shown next; none where it is never shown.
    next: Option<Instant>,
    /// Columns of the bar that stands on the terminal.
    width: usize,
}

impl Progress {
    pub fn new(total: Option<u64>, unit: &'static str, wanted: bool) -> Progress {
        let started = Instant::now();
        let next = (wanted && io::stderr().is_terminal()).then(|| started + LONG);
        Progress { total, unit, started, next, width: 0 }
    }

    pub fn show(&mut self, done: u64) {
        let now = Instant::now();
        if self.next.is_some_and(|next| now >= next) {
            put(&self.draw(&text(done, self.total, self.unit, now - self.started)));
            self.next = Some(now + BETWEEN);
        }
    }

    /// What draws a bar over the one that stands there, all of it.
    fn draw(&mut self, bar: &str) -> String {
        let drawn = format!("\r{bar:<width$}", width = self.width);
        self.width = bar.len();
        drawn
    }

    /// Takes the bar away until it is shown next: before lines on the same terminal, and at the end.
    pub fn clear(&mut self) {
        if self.width > 0 {
            put(&(self.draw("") + "\r"));
            self.next = Some(Instant::now());
        }
    }
}

impl Drop for Progress {
    fn drop(&mut self) {
        self.clear();
    }
}

/// As far as standard error takes it: a bar is no part of the answer.
fn put(text: &str) {
    let _ = io::stderr().write_all(text.as_bytes());
}

fn text(done: u64, total: Option<u64>, unit: &str, elapsed: Duration) -> String {
    let Some(total) = total.filter(|total| *total > 0) else {
        return format!("{done} {unit}");
    };
    let reached = done.min(total);
    let share = |whole: usize| (u128::from(reached) * whole as u128 / u128::from(total)) as usize;
    let words = format!("{:3} % {done} of {total} {unit}{}", share(100), time_left(reached, total, elapsed));
    let width = LONGEST_BAR.min(COLUMNS.saturating_sub("[] ".len() + words.len()));
    let bar = format!("[{}{}] {words}", "#".repeat(share(width)), ".".repeat(width - share(width)));
    bar.chars().take(COLUMNS).collect()
}

/// From the rate so far, rounded up; nothing before the first row and behind the last.
fn time_left(done: u64, total: u64, elapsed: Duration) -> String {
    if done == 0 || done == total {
        return String::new();
    }
    let seconds = elapsed.as_secs_f64() * (total - done) as f64 / done as f64;
    let (count, unit) = match seconds / 60.0 {
        minutes if minutes > 90.0 => (minutes / 60.0, "h"),
        minutes if minutes > 1.5 => (minutes, "min"),
        _ => (seconds, "s"),
    };
    format!(", {} {unit} left", count.ceil())
}

#[cfg(test)]
mod tests {
    use super::*;

    fn after(seconds: u64, done: u64, total: u64) -> String {
        text(done, Some(total), "words", Duration::from_secs(seconds))
    }

    #[test]
    fn bars() {
        assert_eq!(text(7, None, "words", LONG), "7 words");
        assert_eq!(text(0, Some(0), "words", LONG), "0 words");
        assert_eq!(after(1, 0, 2), "[..............................]   0 % 0 of 2 words");
        assert_eq!(after(12, 1, 2), "[###############...............]  50 % 1 of 2 words, 12 s left");
        assert_eq!(after(12, 3, 3), "[##############################] 100 % 3 of 3 words");
        assert_eq!(after(12, 4, 3), "[##############################] 100 % 4 of 3 words");
        assert!(after(12, 999, 1000).contains(" 99 % "));
        assert!(after(12, 57, 100).contains(" 57 % "));
    }

    #[test]
    fn a_bar_covers_the_one_before_it() {
        let mut progress = Progress::new(None, "words", false);
        let drawn = ["99 words", "100 words", "1 word", "2 words", ""].map(|bar| progress.draw(bar));
        assert_eq!(drawn, ["\r99 words", "\r100 words", "\r1 word   ", "\r2 words", "\r       "]);
    }

    #[test]
    fn times_left() {
        let left = |seconds: u64| after(seconds, 1, 2).split_once(", ").expect("a time").1.to_owned();
        let cases = [(1, "1 s"), (90, "90 s"), (91, "2 min"), (180, "3 min"), (181, "4 min"), (5400, "90 min")];
        for (seconds, time) in cases.into_iter().chain([(5401, "2 h"), (7201, "3 h")]) {
            assert_eq!(left(seconds), format!("{time} left"), "{seconds}");
        }
    }

    #[test]
    fn no_bar_is_wider_than_79_columns() {
        for digits in 1..20 {
            let total = 10_u64.pow(digits);
            for (seconds, done) in [(1, total / 2), (u64::MAX / 4, 1), (1, total - 1), (1, total)] {
                let bar = text(done, Some(total), "capsules", Duration::from_secs(seconds));
                assert!(bar.len() <= 79, "{bar}");
                assert!(bar.contains(&format!("% {done} of {total} capsules")), "{bar}");
            }
        }
    }
}
