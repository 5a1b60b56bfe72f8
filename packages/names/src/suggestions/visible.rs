//! What messages show of a string that anybody may have written.
use core::fmt::{self, Write};

/// As many characters as are shown of a long part.
pub const SHOWN: usize = 200;

/// Whether a character is shown as it is: those of ASCII that are printed. Each other one may control a terminal, turn the direction of
/// text, combine with its neighbour, be invisible or look like another letter, and is escaped: `\u{1b}`.
pub fn is_visible(c: char) -> bool {
    matches!(c, ' '..='~')
}

/// A value as a message shows it. [`visible`] returns it.
#[derive(Clone, Copy, Debug)]
pub struct Visible<T> {
    value: T,
    most: usize,
}

/// A value of which each character is escaped that [isn't visible](is_visible).
pub fn visible<T: fmt::Display>(value: T) -> Visible<T> {
    Visible { value, most: usize::MAX }
}

impl<T> Visible<T> {
    /// Only the beginning of a long value, and `...`.
    #[must_use]
    pub fn shortened(self) -> Self {
        Visible { most: SHOWN, ..self }
    }
}

impl<T: fmt::Display> fmt::Display for Visible<T> {
    fn fmt(&self, f: &mut fmt::Formatter<'_>) -> fmt::Result {
        let mut shown = Shown { to: f, left: self.most, is_cut: false };
        match write!(shown, "{}", self.value) {
            Err(_) if shown.is_cut => f.write_str("..."),
            written => written,
        }
    }
}

struct Shown<'f, 'g> {
    to: &'f mut fmt::Formatter<'g>,
    left: usize,
    is_cut: bool,
}

impl Write for Shown<'_, '_> {
    fn write_str(&mut self, text: &str) -> fmt::Result {
        text.chars().try_for_each(|c| {
            let size = match is_visible(c) {
                true => 1,
                false => c.escape_default().count(),
            };
            self.is_cut = size > self.left;
            if self.is_cut {
                return Err(fmt::Error);
            }
            self.left -= size;
            match is_visible(c) {
                true => self.to.write_char(c),
                false => write!(self.to, "{}", c.escape_default()),
            }
        })
    }
}
