//! The two outputs. What is written to one appears before what is written to the other later, except for an array, which
//! is one line.
use crate::fault::Fault;
use crate::json::{Json, Object};
use crate::shown::Page;
use crate::streams;
use clap::ArgMatches;
use std::env;
use std::io::{self, BufWriter, Write};

/// How objects are written.
#[derive(Clone, Copy, PartialEq, Eq)]
enum Layout {
    Array,
    Lines,
    /// Lines, and what is refused as annotations of a workflow of GitHub.
    Annotations,
}

pub struct Outputs {
    out: BufWriter<Box<dyn Write>>,
    errors: BufWriter<Box<dyn Write>>,
    layout: Option<Layout>,
    has_object: bool,
    has_color: bool,
}

/// Whether a terminal shows what goes to standard error.
#[allow(clippy::incompatible_msrv)] // of a version that has the call, the build script says so
fn is_terminal() -> bool {
    #[cfg(is_terminal)]
    return io::IsTerminal::is_terminal(&io::stderr());
    #[cfg(not(is_terminal))]
    return false;
}

/// Says that standard input is read, where a person would wonder why nothing happens: if it and the messages are of a
/// terminal.
#[allow(clippy::incompatible_msrv)] // as above
pub fn say_what_is_read() {
    #[cfg(is_terminal)]
    if io::IsTerminal::is_terminal(&io::stdin()) && is_terminal() {
        let said = "target-lexicon: reading targets from standard input, one per line\n";
        let _ = io::stderr().write_all(said.as_bytes());
    }
}

/// Whether that terminal takes escape sequences, and the user wants them.
pub fn takes_escapes() -> bool {
    let is_unset = |name| env::var_os(name).map_or(true, |it| it.is_empty());
    is_terminal() && is_unset("NO_COLOR") && env::var_os("TERM").map_or(cfg!(windows), |it| it != "dumb")
}

/// Writes a text that answers for no target. Returns the status.
pub fn write_only(text: impl FnOnce(&mut Page<'_>) -> io::Result<()>) -> Result<i32, Fault> {
    let mut outputs = Outputs::plain();
    outputs.write(text)?;
    outputs.flush()?;
    Ok(0)
}

impl Outputs {
    pub fn plain() -> Self {
        Outputs {
            out: BufWriter::with_capacity(1 << 16, streams::standard_output()),
            errors: BufWriter::with_capacity(1 << 16, streams::standard_error()),
            layout: None,
            has_object: false,
            has_color: false,
        }
    }

    pub fn new(arguments: &ArgMatches) -> Self {
        let format = arguments.get_one("format").map(String::as_str);
        let layout = match format {
            Some("github") => Some(Layout::Annotations),
            _ if arguments.get_flag("json") || format == Some("json") => Some(Layout::Array),
            _ if arguments.get_flag("json-lines") || format == Some("json-lines") => Some(Layout::Lines),
            _ => None,
        };
        let has_color = match arguments.get_one::<String>("color").map(String::as_str) {
            Some("always") => true,
            Some("never") => false,
            _ => takes_escapes(),
        };
        Outputs { layout, has_color, ..Outputs::plain() }
    }

    fn flush_out(&mut self) -> Result<(), Fault> {
        self.out.flush().map_err(|why| Fault::of_output("standard output", why))
    }

    fn flush_errors(&mut self) -> Result<(), Fault> {
        self.errors.flush().map_err(|why| Fault::of_output("standard error", why))
    }

    /// Whether answers are objects in JSON.
    pub fn has_objects(&self) -> bool {
        matches!(self.layout, Some(Layout::Array | Layout::Lines))
    }

    pub fn has_annotations(&self) -> bool {
        self.layout == Some(Layout::Annotations)
    }

    pub fn flush(&mut self) -> Result<(), Fault> {
        self.flush_out()?;
        self.flush_errors()
    }

    pub fn write(&mut self, text: impl FnOnce(&mut Page<'_>) -> io::Result<()>) -> Result<(), Fault> {
        self.flush_errors()?;
        text(&mut Page::new(&mut self.out)).map_err(|why| Fault::of_output("standard output", why))
    }

    /// Writes an answer, a text of lines, after which `end` comes instead of the last line feed.
    pub fn answer(&mut self, end: u8, text: impl FnOnce(&mut Page<'_>) -> io::Result<()>) -> Result<(), Fault> {
        if end == b'\n' {
            return self.write(text);
        }
        let mut answer = Vec::new();
        let shown = text(&mut Page::new(&mut answer));
        answer.pop();
        answer.push(end);
        self.flush_errors()?;
        let written = shown.and_then(|()| self.out.write_all(&answer));
        written.map_err(|why| Fault::of_output("standard output", why))
    }

    /// Writes a refusal to standard error. `text` gets whether it has colours.
    pub fn refuse(&mut self, text: impl FnOnce(&mut Page<'_>, bool) -> io::Result<()>) -> Result<(), Fault> {
        if self.layout != Some(Layout::Array) {
            self.flush_out()?;
        }
        text(&mut Page::new(&mut self.errors), self.has_color).map_err(|why| Fault::of_output("standard error", why))
    }

    pub fn object(&mut self, object: Object) -> Result<(), Fault> {
        let (begin, end) = match (self.layout, self.has_object) {
            (Some(Layout::Lines), _) => ("", "\n"),
            (_, false) => ("[", ""),
            (_, true) => (",", ""),
        };
        self.has_object = true;
        self.write(|page| {
            page.put(begin)?;
            page.put(Json::Object(object))?;
            page.put(end)
        })
    }

    /// Ends what was written; an array, if there is to be one.
    pub fn end(&mut self, has_array: bool) -> Result<(), Fault> {
        if has_array && self.layout == Some(Layout::Array) {
            let end = if self.has_object { "]\n" } else { "[]\n" };
            self.write(|page| page.put(end))?;
        }
        self.flush()
    }
}
