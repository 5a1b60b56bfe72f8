//! The targets: arguments, those in the texts of files, or the lines of files and of standard input as they come.
use crate::fault::Fault;
use crate::json::Object;
use crate::output::say_what_is_read;
use crate::shown::visible;
use crate::streams::{self, Input};
use clap::ArgMatches;
use std::ffi::OsString;
use std::fs::{self, DirEntry};
use std::io::{self, BufRead, BufReader, ErrorKind};
use std::num::NonZeroUsize;
use std::path::{Path, PathBuf};
use std::{fmt, str};
use target_names::{meanings, targets_in, words_in, Meaning, Word};

pub const STANDARD_INPUT: &str = "<stdin>";

/// Where a target comes from. Numbers are from 1.
#[derive(Clone, Copy)]
pub enum Place<'a> {
    Argument(usize),
    /// `indent` is how many characters of the line come before the target.
    Line {
        file: &'a str,
        number: usize,
        indent: usize,
    },
}

impl fmt::Display for Place<'_> {
    fn fmt(&self, f: &mut fmt::Formatter<'_>) -> fmt::Result {
        match self {
            Place::Argument(number) => write!(f, "argument:{number}"),
            Place::Line { file, number, .. } => write!(f, "{}:{number}", visible(file)),
        }
    }
}

/// A target as it is given, and where.
#[derive(Clone, Copy)]
pub struct Target<'a> {
    pub text: &'a str,
    pub place: Place<'a>,
    /// The word of a text that it is.
    pub word: Option<Word<'a>>,
}

impl<'a> Target<'a> {
    /// The members with which each object begins.
    pub fn members(&self) -> Object<'a> {
        let (file, line) = match self.place {
            Place::Argument(_) => (None, None),
            Place::Line { file, number, .. } => (Some(file), Some(number)),
        };
        vec![("target", self.text.into()), ("file", file.into()), ("line", line.into())]
    }
}

/// Answers each item, if a text is a list of targets; else the text is one target.
fn each_of_list(list: Target<'_>, answers: &mut impl Answers) -> Result<(), Fault> {
    // Most lines are a word, which is the only item.
    if list.text.bytes().all(|it| it.is_ascii_alphanumeric() || b"-_./".contains(&it)) {
        return answers.answer(list);
    }
    let mut at = 0;
    let (file, number, mut indent) = match list.place {
        Place::Argument(number) => (None, number, 0),
        Place::Line { file, number, indent } => (Some(file), number, indent),
    };
    let words = targets_in(list.text);
    if !words.clone().next().map_or(false, |it| it.is_item) {
        return answers.answer(list);
    }
    for word in words {
        indent += list.text[at..word.part.start].chars().count();
        at = word.part.start;
        let place = file.map_or(list.place, |file| Place::Line { file, number, indent });
        answers.answer(Target { text: word.part.text, place, word: None })?;
    }
    Ok(())
}

/// Folders whose files nobody wrote: those of tools, and of what they fetch or build.
const NO_SOURCES: [&str; 9] =
    [".git", ".hg", ".svn", ".tox", ".venv", "__pycache__", "node_modules", "site-packages", "venv"];

/// Answers each target in the text of a file, or in those of the files of a folder, from the first name to the last.
/// There links and devices aren't followed, nor folders of [`NO_SOURCES`], nor those that say by a `CACHEDIR.TAG` that a
/// tool fills them, as cargo does.
fn each_in_texts(path: &Path, answers: &mut impl Answers) -> Result<(), Fault> {
    let fault = |why| Fault::Stream { name: path.display().to_string(), why };
    if !fs::metadata(path).map_err(fault)?.is_dir() {
        return each_in_text(path, answers);
    }
    let mut entries = fs::read_dir(path).map_err(fault)?.collect::<Result<Vec<_>, _>>().map_err(fault)?;
    entries.sort_by_key(DirEntry::file_name);
    for entry in entries {
        let (kind, path) = (entry.file_type().map_err(fault)?, entry.path());
        let is_source = || !NO_SOURCES.iter().any(|it| entry.file_name() == *it) && !path.join("CACHEDIR.TAG").exists();
        if kind.is_file() || kind.is_dir() && is_source() {
            each_of_path(&path, answers)?;
        }
    }
    Ok(())
}

/// As [`each_in_texts`], but what can't be read is said, and what is no text is counted.
fn each_of_path(path: &Path, answers: &mut impl Answers) -> Result<(), Fault> {
    match each_in_texts(path, answers) {
        Err(Fault::Stream { name, why }) if name == path.display().to_string() => {
            answers.skip_unread(Fault::Stream { name, why })
        }
        Err(Fault::NotText { .. }) => Ok(answers.skip_binary()),
        ended => ended,
    }
}

/// The bytes of a file, unless one of them is zero: then it is no text, and isn't read further. In UTF-16 it is refused.
fn text_of(path: &Path, file: &str) -> Result<Option<Vec<u8>>, Fault> {
    let fault = |why| Fault::Stream { name: file.into(), why };
    let is_open = path.starts_with("/dev/fd") || path == Path::new("/dev/stdin");
    if !is_open && !fs::metadata(path).map_err(fault)?.is_file() {
        let why = "is neither a file nor a folder; `-f` reads its lines";
        return Err(fault(io::Error::new(ErrorKind::Other, why)));
    }
    let mut reader = BufReader::with_capacity(1 << 16, opened(path, file)?.reader);
    let mut bytes = Vec::new();
    loop {
        let read = match reader.fill_buf() {
            Err(why) if why.kind() == ErrorKind::Interrupted => continue,
            read => read.map_err(fault)?,
        };
        let count = read.len();
        if count == 0 {
            return Ok(Some(bytes));
        }
        if read.contains(&0) {
            let is_utf16 = bytes.is_empty() && is_utf16(read);
            return if is_utf16 { Err(Fault::NotText { place: format!("{file}:1:1"), is_utf16 }) } else { Ok(None) };
        }
        bytes.try_reserve(count).map_err(|_| fault(ErrorKind::OutOfMemory.into()))?;
        bytes.extend_from_slice(read);
        reader.consume(count);
    }
}

/// Answers each target in the text of a file.
fn each_in_text(path: &Path, answers: &mut impl Answers) -> Result<(), Fault> {
    let file = &path.display().to_string();
    answers.pause()?;
    let Some(bytes) = text_of(path, file)? else {
        return Ok(answers.skip_binary());
    };
    let text = String::from_utf8_lossy(&bytes);
    let text = text.strip_prefix(BYTE_ORDER_MARK).unwrap_or(&text);
    let (mut at, mut number, mut indent) = (0, 1, 0);
    for word in words_in(text) {
        let before = &text[at..word.part.start];
        number += before.matches('\n').count();
        let (start, characters) = before.rsplit_once('\n').map_or((indent, before), |it| (0, it.1));
        indent = start + characters.chars().count();
        at = word.part.start;
        let place = Place::Line { file, number, indent };
        answers.answer(Target { text: word.part.text, place, word: Some(word) })?;
    }
    Ok(())
}

const BYTE_ORDER_MARK: char = '\u{feff}';

fn is_utf16(bytes: &[u8]) -> bool {
    matches!(bytes, [0xff, 0xfe, ..] | [0xfe, 0xff, ..])
}

/// What is done with the targets.
pub trait Answers {
    fn answer(&mut self, target: Target<'_>) -> Result<(), Fault>;

    /// Refuses a line that isn't UTF-8 from a byte on, and has U+FFFD there.
    fn refuse_bytes(&mut self, target: Target<'_>, start: usize) -> Result<(), Fault>;

    /// A line has no target.
    fn skip_line(&mut self) -> Result<(), Fault>;

    /// Counts a file that is no text.
    fn skip_binary(&mut self);

    /// Says why a file or a folder in a folder can't be read; the others are.
    fn skip_unread(&mut self, fault: Fault) -> Result<(), Fault>;

    /// The next target may take a while, so what was answered is better written now.
    fn pause(&mut self) -> Result<(), Fault>;
}

/// Answers each target that the arguments name: first those that are arguments, then those of the files.
pub fn each_target(arguments: &ArgMatches, answers: &mut impl Answers) -> Result<(), Fault> {
    let lines = Lines {
        end: end_of_line(arguments),
        first: arguments.get_one("first-line").map_or(1, |it: &NonZeroUsize| it.get()),
        are_kept: keeps_lines(arguments),
    };
    let targets = arguments.get_many::<OsString>("target").unwrap_or_default();
    let files = arguments.get_many::<PathBuf>("file").unwrap_or_default();
    if targets.len() + files.len() == 0 {
        if !arguments.get_flag("quiet") {
            say_what_is_read();
        }
        return each_line(Path::new("-"), lines, answers);
    }
    for (argument, number) in targets.zip(1..) {
        let path = Path::new(argument);
        match argument.to_str() {
            _ if arguments.get_flag("paths") => each_of_path(path, answers)?,
            Some("-") => each_line(Path::new("-"), lines, answers)?,
            Some(text) if !is_path(text) => {
                let place = Place::Argument(number);
                each_of_list(Target { text, place, word: None }, answers)?;
            }
            _ if lines.are_kept => {
                let why = io::Error::new(ErrorKind::Other, "`--keep-lines` is for lines, which `-f` reads");
                return Err(Fault::Stream { name: path.display().to_string(), why });
            }
            _ => each_in_texts(path, answers)?,
        }
    }
    for file in files {
        each_line(file, lines, answers)?;
    }
    Ok(())
}

/// Whether an argument is no name of any tool, and is the path of a file or a folder. With a custom vendor it is no name
/// if it is the path of a file with an extension, as `arm-build.sh` may be. A folder is no tool: `./x86_64-linux`.
fn is_path(text: &str) -> bool {
    let path = Path::new(text);
    let is_file = || path.extension().is_some() && path.is_file();
    let is_folder = || [".", "..", "/"].iter().any(|it| path.starts_with(it)) && path.is_dir();
    let has_custom_vendor = |it: Meaning<'_>| it.sense.map_or(false, |it| it.triple.vendor.is_custom());
    let is_name = || meanings(text).next().is_some() && !(is_file() && meanings(text).all(has_custom_vendor));
    path.exists() && (is_folder() || !is_name())
}

/// What ends a line, and the answer to it.
pub fn end_of_line(arguments: &ArgMatches) -> u8 {
    if arguments.get_flag("null") {
        0
    } else {
        b'\n'
    }
}

/// Whether each line has a line of the answer.
pub fn keeps_lines(arguments: &ArgMatches) -> bool {
    matches!(arguments.try_get_one("keep-lines"), Ok(Some(true)))
}

/// How lines are read.
#[derive(Clone, Copy)]
struct Lines {
    end: u8,
    /// The number of the first.
    first: usize,
    /// Whether each has one answer, also if it is a list.
    are_kept: bool,
}

/// A file, or standard input.
fn opened(path: &Path, name: &str) -> Result<Input, Fault> {
    let opened = match name {
        STANDARD_INPUT => streams::standard_input(),
        _ => streams::file(path),
    };
    // What is written would be read, for ever.
    let is_output = || io::Error::new(ErrorKind::Other, "input file is also the output");
    let input = opened.and_then(|it| if it.is_output { Err(is_output()) } else { Ok(it) });
    input.map_err(|why| Fault::Stream { name: name.into(), why })
}

fn each_line(path: &Path, lines: Lines, answers: &mut impl Answers) -> Result<(), Fault> {
    let is_standard = path == Path::new("-");
    let name = if is_standard { STANDARD_INPUT.to_string() } else { path.display().to_string() };
    let fault = |why| Fault::Stream { name: name.clone(), why };
    let input = opened(path, &name)?;
    let mut reader = BufReader::with_capacity(1 << 16, input.reader);
    let mut bytes = Vec::new();
    for number in lines.first.. {
        bytes.clear();
        while bytes.last() != Some(&lines.end) {
            if reader.buffer().is_empty() {
                answers.pause()?;
            }
            let read = match reader.fill_buf() {
                Err(why) if why.kind() == ErrorKind::Interrupted => continue,
                read => read.map_err(fault)?,
            };
            let end = read.iter().position(|it| *it == lines.end);
            let count = end.map_or(read.len(), |at| at + 1);
            if count == 0 {
                break;
            }
            bytes.try_reserve(count).map_err(|_| fault(ErrorKind::OutOfMemory.into()))?;
            bytes.extend_from_slice(&read[..count]);
            reader.consume(count);
        }
        if bytes.is_empty() {
            break;
        }
        let is_first = number == lines.first;
        let is_utf16 = is_first && is_utf16(&bytes);
        let line = match str::from_utf8(&bytes) {
            Ok(line) => line,
            Err(error) if is_utf16 || lines.end != 0 && bytes.contains(&0) => {
                let valid = String::from_utf8_lossy(&bytes[..error.valid_up_to()]);
                let column = valid.chars().count() + 1;
                let place = format!("{name}:{number}:{column}");
                return Err(Fault::NotText { place, is_utf16 });
            }
            Err(error) => {
                let line = String::from_utf8_lossy(&bytes);
                let place = Place::Line { file: &name, number, indent: 0 };
                let text = line.trim_end_matches(['\r', char::from(lines.end)]);
                let target = Target { text, place, word: None };
                answers.refuse_bytes(target, error.valid_up_to())?;
                continue;
            }
        };
        let mut text = line.strip_suffix(char::from(lines.end)).unwrap_or(line);
        if is_first {
            text = text.strip_prefix(BYTE_ORDER_MARK).unwrap_or(text);
        }
        let place = Place::Line { file: &name, number, indent: 0 };
        let is_list = lines.end != 0;
        text = text.strip_suffix('\r').filter(|_| is_list).unwrap_or(text);
        // JSON has lines of brackets.
        let is_around = |it: char| it.is_whitespace() || !lines.are_kept && "[],".contains(it);
        let is_empty = is_list && matches!(text.trim_start_matches(is_around).bytes().next(), None | Some(b'#'));
        match (Target { text, place, word: None }) {
            _ if is_empty => answers.skip_line()?,
            target if is_list && !lines.are_kept => each_of_list(target, answers)?,
            target => answers.answer(target)?,
        }
    }
    Ok(())
}
