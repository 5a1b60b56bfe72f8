//! How far a long run is.
use crate::fault::Fault;
use crate::output::takes_escapes;
use std::io::{self, Write};
use std::time::{Duration, Instant};

/// On a terminal that takes escape sequences they are shown each second, in a line that the next one covers.
pub struct Progress {
    pub targets: usize,
    pub refused: usize,
    /// How many of these are lines of several words.
    pub phrases: usize,
    /// How many files are no text.
    pub binary: usize,
    is_shown: bool,
    next: Option<Instant>,
}

impl Progress {
    pub fn new() -> Self {
        Progress {
            targets: 0,
            refused: 0,
            phrases: 0,
            binary: 0,
            is_shown: false,
            next: takes_escapes().then(|| Instant::now() + Duration::from_secs(2)),
        }
    }

    pub fn show(&mut self) -> Result<(), Fault> {
        if self.next.map_or(true, |next| Instant::now() < next) {
            return Ok(());
        }
        self.next = Some(Instant::now() + Duration::from_secs(1));
        self.is_shown = true;
        let (targets, refused) = (with_commas(self.targets), with_commas(self.refused));
        Self::line(&format!("{targets} targets, {refused} refused"))
    }

    /// Clears the line.
    pub fn end(&mut self) -> Result<(), Fault> {
        if std::mem::take(&mut self.is_shown) {
            Self::line("")
        } else {
            Ok(())
        }
    }

    fn line(text: &str) -> Result<(), Fault> {
        io::stderr()
            .write_all(format!("\r\x1b[K{text}").as_bytes())
            .map_err(|why| Fault::of_output("standard error", why))
    }
}

/// A number with commas between thousands.
pub fn with_commas(number: usize) -> String {
    let digits = number.to_string();
    let groups: Vec<&str> =
        digits.as_bytes().rchunks(3).rev().map(|group| std::str::from_utf8(group).expect("digits are ASCII")).collect();
    groups.join(",")
}
