//! What a person sees. Whoever writes to one has a [`Page`], which takes only what is [`Shown`]: literals and names of
//! tables, numbers, triples, and all else escaped. A `&str` of the user isn't among these.
use crate::json::Json;
use std::borrow::Cow;
use std::fmt::Display;
use std::io::{self, Write};
use target_lexicon::TripleRef;
use target_names::{ChosenLibc, Dialect, Name, RustcCfg, Visible};

/// Puts each part on a page.
macro_rules! show {
    ($page:expr $(, $part:expr)* $(,)?) => {(|| -> std::io::Result<()> { $($page.put($part)?;)* Ok(()) })()};
}
pub(crate) use show;

/// What has only printable ASCII, or is escaped as it is written.
pub trait Shown {
    fn show(&self, out: &mut dyn Write) -> io::Result<()>;
}

impl Shown for &'static str {
    fn show(&self, out: &mut dyn Write) -> io::Result<()> {
        out.write_all(self.as_bytes())
    }
}

macro_rules! shown {
    ($as:ident $($name:ty)*) => {$(impl Shown for $name {
        fn show(&self, out: &mut dyn Write) -> io::Result<()> {
            write!(out, "{}", $as(self))
        }
    })*};
}

shown!(visible String Cow<'_, str>);
// A custom vendor has lower-case letters, digits and few signs.
shown!(plain usize TripleRef<'_> Dialect ChosenLibc Name RustcCfg<'_>);

fn plain<T>(value: T) -> T {
    value
}

impl<T: Display> Shown for Visible<T> {
    fn show(&self, out: &mut dyn Write) -> io::Result<()> {
        write!(out, "{self}")
    }
}

impl Shown for Json<'_> {
    fn show(&self, out: &mut dyn Write) -> io::Result<()> {
        self.write(out)
    }
}

/// A value, all of which that isn't printable ASCII is escaped.
pub fn visible<T: Display>(value: T) -> Visible<T> {
    target_names::visible(value)
}

/// A value with spaces after it, up to a width.
pub fn padded(value: impl Display, width: usize) -> Visible<String> {
    visible(format!("{:width$}", visible(value).to_string()))
}

/// Where a person reads.
pub struct Page<'a>(&'a mut dyn Write);

impl<'a> Page<'a> {
    pub fn new(out: &'a mut dyn Write) -> Self {
        Page(out)
    }

    pub fn put(&mut self, part: impl Shown) -> io::Result<()> {
        part.show(self.0)
    }

    /// The lines of a text of the program's own, in which words of the user may be: each is escaped.
    pub fn lines(&mut self, text: &str) -> io::Result<()> {
        text.split_terminator('\n').try_for_each(|line| show!(self, visible(line), "\n"))
    }

    /// The lines of a script that the program has made of its own words.
    pub fn script(&mut self, text: &str) -> io::Result<()> {
        let has_control = |it: char| it.is_control() && !"\n\t".contains(it);
        assert!(!text.contains(has_control), "a script has no control characters");
        self.0.write_all(text.as_bytes())
    }
}
