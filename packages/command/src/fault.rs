//! What ends a run early.
use crate::shown::{show, visible, Page};
use std::io::{self, ErrorKind};

pub enum Fault {
    /// A stream can't be read or written.
    Stream { name: String, why: io::Error },
    /// A file that is no text.
    NotText {
        place: String,
        /// Whether the file begins as one in UTF-16 does.
        is_utf16: bool,
    },
    /// Nobody reads the output any more.
    Closed,
    /// A target is refused, and nobody asks for more.
    Refused,
}

/// The status of what a closed pipe ended, as the shell shows it for other tools.
const CLOSED: i32 = 141;

impl Fault {
    pub fn of_output(name: &str, why: io::Error) -> Self {
        match why.kind() {
            ErrorKind::BrokenPipe => Fault::Closed,
            _ => Fault::Stream { name: name.into(), why },
        }
    }

    /// Says what went wrong, if nothing has said it. Returns the status.
    pub fn report(self) -> i32 {
        let mut errors = io::stderr();
        let mut page = Page::new(&mut errors);
        let _ = match self {
            Fault::Closed => return CLOSED,
            Fault::Refused => return 1,
            Fault::Stream { name, why } => show!(page, "target-lexicon: ", name, ": ", visible(why), "\n"),
            Fault::NotText { place, is_utf16 } => {
                let found = if is_utf16 { "UTF-16, not UTF-8" } else { "not a text in UTF-8" };
                show!(page, "target-lexicon: ", place, ": ", found, "\n")
            }
        };
        3
    }
}
