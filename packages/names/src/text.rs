//! The targets in any text.
use crate::evidence::{has_other_word, is_of_no_triple, only_machine, said};
use crate::hints::{is_dash, is_typeset, LONGEST_PATH};
use crate::meanings::meaning_with;
use crate::name::Buffer;
use crate::near::{ends_with_digit, is_of_tool, is_prefixed, near};
use crate::suggestions::{architecture_of, vendor_suggestion};
use crate::{Dialect, Evidence, Meaning, Meant, NameOf, Said, Sense};
use core::iter::{once, successors};
use target_lexicon::{Architecture, Environment, Field, OperatingSystem, TextPart, TripleRef, VendorRef};

/// The words of a text that are targets or may be misspelled ones, from its start to its end. The text may be a list of
/// targets, a file in YAML, TOML or JSON, a page in Markdown, a script, or what a command has printed.
///
/// A *comment* isn't read: it begins with `#`, which is the first of a line, and of no `#define`, or has white space on
/// both sides.
///
/// A text is a *list* if there is nothing but items between the commas of its lines. An item has no white space in it.
/// Around it may be white space, quotes, backquotes, brackets and braces, a dash and a space before it, and words in
/// parentheses after it, such as `(installed)`. Each item is given, whatever it is.
///
/// All else is *running text*. Its words have letters and digits of ASCII, `-`, `_`, `.`, `/` and `+`. A word is given
/// if it is one of these:
///
/// 1. a name of a machine and a system, of any tool or as a triple: `x86_64-linux-gnu`, `linux/arm64`;
/// 2. a misspelled one, if with the name that is suggested it is one: `aarch64-apple-darwn`, `linux/amd46`;
/// 3. a machine, a known vendor and something else, which is no known system: `x86_64-unknown-foo-gnu`;
/// 4. a name of a machine only, such as `arm64`, as the value of a key with `target`, `triple`, `platform` or `arch` in
///    it, except Go's `goarch`.
///
/// Of a word that is none of these, a part between slashes is given, or else one between dots and after a number, if it
/// is one: that of `target/wasm32-wasip1/release` or of `[target.wasm32-wasip1]`. A word is a part of a pattern, and isn't given, if
/// one of `$*%<>{}?` is next to a dash of it, or before a digit: `${ARCH}-linux`, `i?86-linux`. So keys, versions and
/// the labels of runners aren't given. Nor is a name of which no word says a machine or a system, such as `js/wasm`.
///
/// Nothing is allocated, and the time is linear.
///
/// ```
/// use target_names::targets_in;
///
/// let found = |text| targets_in(text).map(|it| (it.part.start, it.part.text)).collect::<Vec<_>>();
/// let file = "targets: # of all\n  - aarch64-apple-darwn\nrun: rustup target add `wasm32-wasip1`\n";
/// assert_eq!(found(file), [(22, "aarch64-apple-darwn"), (66, "wasm32-wasip1")]);
/// assert_eq!(found("wasm32-wasip1 (installed)\nfoo"), [(0, "wasm32-wasip1"), (26, "foo")]);
/// ```
#[must_use]
pub fn targets_in(text: &str) -> TargetsIn<'_> {
    let lines = text.strip_prefix('\u{feff}').unwrap_or(text);
    let is_list = lines.split('\n').all(|line| items(uncommented(line)).all(is_item));
    let (value, passed) = (Value::None, [""; PASSED]);
    TargetsIn { text, lines, line: "", is_list, value, is_option: false, is_check: false, passed }
}

/// The words of a text that a check looks at. Of a *list of targets*, in which more than half of the first items are
/// names or may be misspelled ones, and which isn't a table, with several lines of several items, they are the items. Of
/// any other text, such as a `.gitignore`, they are those of running text: the names that [`targets_in`] gives, what is
/// an edit of a letter, a digit or a sign from one, and misspelled triples, also after words that say nothing and in
/// variables of cargo. Of other triples with a known vendor, of what has the parts of one and an unknown machine, and of
/// other values of the fourth rule's keys that say a machine, or a system with a C library or before a slash,
/// [`Word::is_unclear`] is true. A name that only has a word processor's dashes is given, with these.
/// [`Word::verdict`] says what is wrong.
///
/// ```
/// use target_names::words_in;
///
/// let found = |text| words_in(text).map(|it| (it.part.text, it.is_unclear)).collect::<Vec<_>>();
/// assert_eq!(found("platform: [linux/armv7, linux/foo]"), [("linux/armv7", false), ("linux/foo", true)]);
/// assert_eq!(found("target: qrm-linux-musl"), [("qrm-linux-musl", true)]);
/// assert_eq!(found("--platform=linux/amd64 ubuntu:22.04"), [("linux/amd64", false)]);
/// assert_eq!(found("for aarch64-appledarwin"), [("aarch64-appledarwin", false)]);
/// assert_eq!(found("a cargo-binstall-x86_64-unkown-linux-musl.gz"), [("x86_64-unkown-linux-musl", false)]);
/// assert_eq!(found("an x86_64–linux–gnu, or Linux–arm64"), [("x86_64–linux–gnu", false)]);
/// assert_eq!(found("0.5.0\ndist"), []);
/// ```
#[must_use]
pub fn words_in(text: &str) -> TargetsIn<'_> {
    let words = targets_in(text);
    if words.is_list && is_list_of_targets(&words) {
        return words;
    }
    TargetsIn { is_list: false, is_check: true, ..words }
}

/// How many items say whether a list is one of targets.
const ENOUGH_ITEMS: usize = 100;

fn is_list_of_targets(words: &TargetsIn<'_>) -> bool {
    // A table has several lines of several items.
    let has_several = |line: &&str| items(uncommented(line)).nth(1).is_some();
    let is_table = words.lines.split('\n').filter(has_several).nth(1).is_some();
    let says_machine = |it: &str| Evidence::of(it).machine() != Said::Unsaid;
    let is_named = |it: &Word<'_>| it.is() != WordIs::Unknown && says_machine(it.part.text);
    let first = words.clone().take(ENOUGH_ITEMS);
    !is_table && first.clone().count() < 2 * first.filter(is_named).count()
}

/// The words of a text that are targets: [`targets_in`] returns them.
#[derive(Clone, Debug)]
pub struct TargetsIn<'a> {
    text: &'a str,
    /// The lines that aren't read, and the rest of the one that is.
    lines: &'a str,
    line: &'a str,
    is_list: bool,
    /// What a word is the value of.
    value: Value,
    /// Whether that is of an option, and ends with the word of the shell: `--platform=linux/amd64 ubuntu`.
    is_option: bool,
    /// Whether [`words_in`] returned it.
    is_check: bool,
    /// Some words that weren't given: texts repeat theirs.
    passed: [&'a str; PASSED],
}

/// How many words are remembered.
const PASSED: usize = 512;

/// What a word is the value of: of a key whose values are targets, or parts of one.
#[derive(Clone, Copy, Debug, PartialEq, Eq)]
enum Value {
    None,
    Part,
    Target,
}

impl Value {
    fn of(key: &str, is_check: bool) -> Value {
        let end = key.rsplit(['/', '.']).next();
        let is_part = has(key, "goarch") || key.strip_prefix("target_").map_or(false, |it| CFG_OPTIONS.contains(&it));
        // A compiler's option for a processor: `-mcpu=rios2`, `-march=armv8-a`, `-xarch=sparc6`.
        let is_processor = ["-m", "-x"].iter().any(|it| key.starts_with(it)) && !has(key, "triple");
        match () {
            _ if is_processor => Value::None,
            _ if (KEYS.iter().any(|it| has(key, it)) || has_arch(key)) && !is_part => Value::Target,
            _ if is_check && (PART_KEYS.iter().any(|it| has(key, it)) || matches!(end, Some("os" | "system"))) => {
                Value::Part
            }
            _ => Value::None,
        }
    }
}

/// A word of a text.
#[derive(Clone, Copy, Debug, PartialEq, Eq)]
pub struct Word<'a> {
    /// The word, and where it starts in the text, in bytes.
    pub part: TextPart<'a>,
    /// Whether it is an item of a list.
    pub is_item: bool,
    /// Whether it says something of a target, and it isn't clear that it is one: only [`words_in`] gives such words.
    pub is_unclear: bool,
    pub(crate) is_value: bool,
}

/// What a word is.
#[derive(Clone, Copy, Debug, PartialEq, Eq)]
pub enum WordIs<'a> {
    /// A target, whose first [meaning](crate::meanings()) is to this tool, or as a triple.
    Name(NameOf),
    /// It is no name. With the suggested one instead of a part it is the name that was perhaps meant.
    Misspelled(Meant<'a>),
    /// It is no name, and none is suggested that makes it one.
    Unknown,
}

impl<'a> Word<'a> {
    /// Whether the word is one edit from a name, and what was perhaps meant.
    pub(crate) fn near(&self) -> Option<Option<Meant<'a>>> {
        near(self.part.text, self.is_value)
    }

    /// What it is.
    ///
    /// ```
    /// use target_names::{targets_in, Dialect, NameOf, WordIs};
    ///
    /// let found: Vec<_> = targets_in("avr-none,linux/arm64,x86_64-linxu,foo").map(|it| it.is()).collect();
    /// assert_eq!(found[..2], [NameOf::Triple, NameOf::Dialect(Dialect::Go)].map(WordIs::Name));
    /// assert!(matches!(found[2], WordIs::Misspelled(meant) if meant.to_string() == "x86_64-linux"));
    /// assert_eq!(found[3], WordIs::Unknown);
    /// ```
    #[must_use]
    pub fn is(&self) -> WordIs<'a> {
        what(self.part.text)
    }
}

impl<'a> Iterator for TargetsIn<'a> {
    type Item = Word<'a>;

    fn next(&mut self) -> Option<Word<'a>> {
        loop {
            let is_item = self.is_list;
            let found = if is_item { self.next_item().map(|it| (it, false)) } else { self.next_word() };
            if let Some((text, is_unclear)) = found {
                let start = text.as_ptr() as usize - self.text.as_ptr() as usize;
                let part = TextPart { text, start };
                let is_value = self.value != Value::None && !is_key(self.line);
                return Some(Word { part, is_item, is_unclear, is_value });
            }
            if self.lines.is_empty() {
                return None;
            }
            let (line, rest) = self.lines.split_once('\n').unwrap_or((self.lines, ""));
            self.lines = rest;
            self.line = uncommented(line);
            if !line.trim_start().starts_with(['-', '"', '\'', ']']) {
                self.value = Value::None;
            }
        }
    }
}

impl<'a> TargetsIn<'a> {
    fn next_item(&mut self) -> Option<&'a str> {
        let mut items = items(self.line);
        let item = items.next()?;
        let end = item.as_ptr() as usize - self.line.as_ptr() as usize + item.len();
        let rest = &self.line[end..];
        self.line = rest.split_once(',').map_or("", |it| it.1);
        Some(item)
    }

    /// The word at the start of a text that is a name but for the dashes of a word processor. With one dash it is a
    /// value: prose writes `Linux–x86_64`.
    fn typeset(&self, text: &'a str) -> Option<&'a str> {
        let mut ends = text.char_indices().take(LONGEST_PATH).filter(|it| !is_of_word(it.1) && !is_dash(it.1));
        let end = ends.next().map(|it| it.0).or_else(|| (text.len() <= LONGEST_PATH).then_some(text.len()))?;
        let word = text[..end].trim_end_matches(|it| is_dash(it) || "-./+".contains(it));
        let is_value = self.value != Value::None || word.matches(is_dash).count() > 1;
        (is_value && is_typeset(word, is_whole)).then_some(word)
    }

    /// A word, and whether it is unclear.
    fn next_word(&mut self) -> Option<(&'a str, bool)> {
        loop {
            let (before, rest) = self.line.split_at(self.line.find(is_of_word)?);
            let end = rest.find(|it| !is_of_word(it)).unwrap_or(rest.len());
            let (word, after) = rest.split_at(end);
            if self.is_check && after.starts_with(is_dash) {
                if let Some(typeset) = self.typeset(rest) {
                    self.line = &rest[typeset.len()..];
                    return Some((typeset, false));
                }
            }
            // An item of YAML is on its own.
            self.line = if word == "-" { after.trim_start() } else { after };
            if self.is_option && before.contains([' ', '\t']) {
                self.value = Value::None;
            }
            let is_key = is_key(after);
            let key = || Value::of(word.rsplit('/').next().unwrap_or(word), self.is_check);
            if is_key {
                self.value = key();
                let begins = |it: &str| it.starts_with(|it| is_of_word(it) || it == '$');
                self.is_option = word.starts_with('-') && after.strip_prefix('=').map_or(false, begins);
            } else if let Some(rest) = after_key_of_tool(before, word, after).filter(|_| self.is_check) {
                self.value = if key() == Value::None { Value::None } else { Value::Part };
                self.is_option = word.starts_with('-');
                self.line = rest.trim_start();
            }
            let is_rest = word.starts_with(|it: char| "-._".contains(it) || it.is_ascii_digit());
            let is_end = |it: &str| it.ends_with(PATTERN) && is_rest || it.ends_with('$') || is_escape(it, word);
            let is_begun = self.is_check && after.starts_with(['$', '%', '{']);
            // What a variable is the folder of is a path: `$URL/foo-x86_64-linux.tar.gz`.
            if let Some(end) = word.find('/').filter(|_| self.is_check && before.ends_with('$')) {
                self.line = &rest[end..];
                continue;
            }
            let is_pattern =
                is_end(before) || is_begun || after.starts_with(PATTERN) && word.ends_with(['-', '.', '_']);
            if is_pattern && !self.is_check {
                continue;
            }
            // In C a word before a semicolon is a variable, and others are calls: `target = x23;`, `ARCH64 ()`.
            let is_variable = before.ends_with(' ') && after.starts_with(';') || after.trim_start().starts_with("()");
            let has_value = self.value != Value::None && !is_key && !(self.is_check && is_variable);
            let is_value = has_value && self.value == Value::Target;
            let is_part = has_value && (is_value || is_alone(before, word, after));
            let hash = word.bytes().fold(0_usize, |hash, it| hash.wrapping_mul(31).wrapping_add(it.into()));
            let passed = &mut self.passed[hash % PASSED];
            if !is_part && (!word.contains(['-', '/', '_']) || *passed == word) {
                continue;
            }
            let slashes = word.split('/').skip_while(|it| it.len() == word.len());
            let dots = word.split(['/', '.']).skip_while(|it| it.len() == word.len());
            // What begins within a number goes on after it: `0-x86_64-linux` of `1.0-x86_64-linux`.
            let after_number = |it: &'a str| {
                let before = word[..it.as_ptr() as usize - word.as_ptr() as usize].strip_suffix('.');
                let rest = it.trim_start_matches(|it: char| it.is_ascii_digit());
                let is_within = before.map_or(false, ends_with_digit) && rest.starts_with(['-', '_']);
                if is_within {
                    rest
                } else {
                    it
                }
            };
            let value = if is_value { Some(trimmed(word)) } else { None };
            let mut parts = once(word).chain(slashes).chain(dots.map(after_number)).map(trimmed);
            if self.is_check {
                // What is a target says that the rest is something else: `x86_64-apple-darwin.runner`. A name may be in
                // that of a program, of which GNU takes any vendor: `aarch64-linux-gnu-gcc`.
                let is_name = |it: &&str| may_be_given(it, false) && name_of(it).is_some() && is_whole(it);
                let tool = |it: &'a str| it.rsplit_once('-').map(|it| it.0);
                // After words that say nothing: `rust-analyzer-aarch64-apple-darwin`.
                let is_title = |it: &(&str, &str)| it.1.contains('-') && Evidence::of(it.0).is_silent();
                let rest = move |it: &&'a str| it.split_once(['-', '_']).filter(is_title).map(|it| it.1);
                let title = |it: &'a str| successors(rest(&it), rest);
                let is_long = |it: &&str| it.matches(['-', '_']).nth(1).is_some();
                let tools = |it: &'a str| tool(it).into_iter().chain(tool(it).and_then(tool)).filter(is_long);
                let at = |it: &str| it.as_ptr() as usize - word.as_ptr() as usize;
                let follows = |it: &str| &word[at(it) + it.len()..];
                // What ends within a number is no word: `linux-android-clang3` of `clang3.8`.
                let goes_on = |it: &str| it.starts_with(|it: char| it.is_ascii_digit());
                let is_cut = |it: &&str| ends_with_digit(it) && follows(it).strip_prefix('.').map_or(false, goes_on);
                let whole = parts.clone().filter(|it| !is_cut(it));
                let ends =
                    whole.clone().flat_map(|it| title(it).chain(it.split_once('-').map(|it| it.1)).chain(tools(it)));
                let mut ends = ends.filter(|it| it.contains('-'));
                let is_wrong = |it: &&str| near(it, false).is_some();
                if is_pattern {
                    // Of a part of a pattern only what is wrong is said: `$VERSION-x86_64-linxu-gnu`.
                    match whole.clone().chain(ends).find(is_wrong) {
                        Some(found) => return Some((found, false)),
                        None => continue,
                    }
                }
                let titled = whole.clone().flat_map(title).filter(|it| Evidence::of(it).has_machine());
                if let Some(name) = parts.clone().chain(titled).find(is_name) {
                    // Another folder or file of a path may be misspelled.
                    let is_apart = |it: &&str| at(it) + it.len() < at(name) || at(it) > at(name) + name.len();
                    let is_sure = is_known(name);
                    return Some((ends.find(|it| (!is_sure || is_apart(it)) && is_wrong(it)).unwrap_or(name), false));
                }
                let is_part = is_part && is_alone(before, word, after);
                // What ends with `+` is a compiler, as in `x86_64-unknown-haiku-g++`.
                let found = whole.clone().filter(|it| !(it.len() < word.len() && word.ends_with('+')));
                let mut found = found.chain(in_name(word));
                let is_part = |it: &str| follows(it) == ".deb" || is_part && !follows(it).starts_with('.');
                let found = found.find_map(|it| Some((it, clarity(it, is_value, is_part(it))?)));
                let is_clear = matches!(found, Some((_, false)));
                let wrong = || ends.find(is_wrong).map(|it| (it, false));
                if let Some(found) = found.filter(|_| is_clear).or_else(wrong).or(found) {
                    return Some(found);
                }
            } else if let Some(part) = parts.find(|it| given(it, value == Some(*it)).is_some()) {
                return Some((part, false));
            }
            if !is_part {
                *passed = word;
            }
        }
    }
}

/// The target in the name of a variable of cargo or of the crate cc, or of a file of Debian: that of
/// `CC_x86_64_unknown_linux_gnu`, and `arm64` of `hello_2.10-3_arm64.deb`.
fn in_name(word: &str) -> Option<&str> {
    let of_cargo = word.strip_prefix("CARGO_TARGET_").and_then(|it| it.rsplit_once('_')).map(|it| it.0);
    let of_file = word.strip_suffix(".deb").and_then(|it| it.rsplit_once('_')).map(|it| it.1);
    let start = word.find(|it: char| it.is_ascii_lowercase()).filter(|at| word[..*at].ends_with('_'));
    of_cargo.or(of_file).or_else(|| start.map(|at| &word[at..]))
}

fn trimmed(word: &str) -> &str {
    let around = ['-', '.', '/', '+', '_'];
    // `g++` and `c++` end so.
    let word = if word.ends_with("++") { word } else { word.trim_end_matches(around) };
    word.trim_start_matches(around)
}

/// Whether a word after a backslash is a byte in hexadecimal, as in `\x46`, or a letter for a sign and a name.
fn is_escape(before: &str, word: &str) -> bool {
    let is_byte = |it: &str| it.len() == 2 && it.bytes().all(|it| it.is_ascii_hexdigit());
    let is_name = || word.strip_prefix(['n', 'r', 't']).map_or(false, |it| name_of(it).is_some());
    before.ends_with('\\') && (word.strip_prefix('x').map_or(false, is_byte) || is_name())
}

/// What a key has of which values are targets, or `arch`.
const KEYS: [&str; 3] = ["target", "triple", "platform"];

/// What a key has of which values are parts of targets, as `os` is, and Go's `goarch`.
const PART_KEYS: [&str; 6] = ["cpu", "goarch", "goos", "abi", "processor", "cmake_system_name"];

/// Options of rustc's `cfg`, whose values are words for a part of a target: what follows `target_`.
const CFG_OPTIONS: [&str; 8] = ["abi", "arch", "endian", "env", "family", "os", "pointer_width", "vendor"];

/// The signs of patterns and of variables.
const PATTERN: &[char] = &['$', '*', '%', '<', '>', '{', '}', '?'];

/// Whether a text has a word in lower or upper case.
fn has(text: &str, word: &str) -> bool {
    let mut windows = text.as_bytes().windows(word.len());
    windows.any(|it| it.eq_ignore_ascii_case(word.as_bytes()))
}

/// Whether a key has `arch` in it, as `archName` and `architecture` have, and `hierarchical` hasn't.
fn has_arch(key: &str) -> bool {
    let is_arch = |end: usize| {
        let after = key[end..].split(|it: char| !it.is_ascii_alphabetic()).next().unwrap_or("");
        let is_next = |it: &[u8]| matches!(it, [first, second, ..] if *first < b'a' && *second >= b'a');
        is_next(after.as_bytes())
            || ["", "s", "es", "itecture", "itectures"].iter().any(|it| after.eq_ignore_ascii_case(it))
    };
    let mut windows = key.as_bytes().windows(4).zip(4..);
    windows.any(|(it, end)| it.eq_ignore_ascii_case(b"arch") && is_arch(end))
}

fn is_of_word(it: char) -> bool {
    it.is_ascii_alphanumeric() || "-_./+".contains(it)
}

/// Whether what follows a word makes it a key.
fn is_key(after: &str) -> bool {
    let after = after.trim_start_matches(['"', '\'']);
    let value = after.strip_prefix(':');
    let begins = |it: &str| it.starts_with([' ', '\t', '\r', '"', '\'', '[', '{']) || it.is_empty();
    let after = after.trim_start();
    value.map_or(false, begins) || ["=", ":=", "?=", "+="].iter().any(|it| after.starts_with(it))
}

/// What follows a key as tools have them: `set(CMAKE_SYSTEM_PROCESSOR arm64)`, `@platforms//cpu:arm64`,
/// `ifeq ($(ARCH),arm64)`, `--arch arm64`.
fn after_key_of_tool<'a>(before: &str, word: &str, after: &'a str) -> Option<&'a str> {
    let is_variable = |it: u8| it.is_ascii_uppercase() || it == b'_';
    let is_tools = word.starts_with("CMAKE_") || word.starts_with("VCPKG_");
    let is_variable = before.ends_with('(') && is_tools && word.bytes().all(is_variable);
    // At the start of a line it is a comment, such as `//go:build`.
    let is_label = word.contains("//") && !before.is_empty();
    let signs = [(before.ends_with("$("), "),"), (is_label, ":"), (is_variable || word.starts_with("--"), " ")];
    signs.into_iter().find(|it| it.0).and_then(|it| after.strip_prefix(it.1))
}

/// Whether a word, if it has no digit, is a value on its own, and none of prose.
fn is_alone(before: &str, word: &str, after: &str) -> bool {
    let begins =
        before.is_empty() || before.ends_with(['"', '\'', '`', '=', '[']) || before.ends_with(": ") || before == ", ";
    let ends = after.trim_end().is_empty() || after.starts_with(['"', '\'', '`', ',', ']', '}', ')']);
    let has_digit = word.bytes().any(|it| it.is_ascii_digit());
    !word.ends_with('.') && (has_digit || begins && (ends || before.ends_with('=') && after.starts_with(' ')))
}

/// A line without its comment.
fn uncommented(line: &str) -> &str {
    let is_space = |it: Option<char>| it.map_or(true, char::is_whitespace);
    let is_comment = |at: usize| {
        let (before, after) = (&line[..at], &line[at + 1..]);
        match before.trim_start() {
            "" => !after.trim_start().starts_with("define "),
            _ => is_space(before.chars().next_back()) && is_space(after.chars().next()),
        }
    };
    let mut signs = line.match_indices('#').map(|it| it.0);
    signs.find(|at| is_comment(*at)).map_or(line, |at| &line[..at])
}

/// What is between the commas of a line, without what a list has around it.
fn items(line: &str) -> impl Iterator<Item = &str> {
    let is_around = |it: char| it.is_whitespace() || "\"'`[]{}".contains(it);
    let parts = line.split(',').map(move |part| {
        let part = part.trim_matches(is_around);
        let signs = ["- ", "* "].iter().find_map(|it| part.strip_prefix(it));
        let item = signs.unwrap_or(part).trim_matches(is_around);
        match item.split_once(" (") {
            Some((item, note)) if note.find(')') == note.len().checked_sub(1) => item.trim_end_matches(is_around),
            _ => item,
        }
    });
    parts.filter(|item| item.contains(|it| it != '-'))
}

/// Whether an item of a line is one word, and no key; or what `uname` prints.
fn is_item(item: &str) -> bool {
    let is_name = || Dialect::Uname.read_loosely(item).is_ok();
    let has_key = item.ends_with(':') || ["=", "\":", "':"].iter().any(|it| item.contains(it));
    !has_key && (!item.contains(char::is_whitespace) || is_name())
}

/// Whether a word of running text may be given: it says something of a target, and has parts or is a value.
fn may_be_given(word: &str, is_value: bool) -> bool {
    let may_have_parts = word.contains(['-', '/', '_']);
    if word.len() > LONGEST_PATH || !may_have_parts && !is_value {
        return false;
    }
    let evidence = Evidence::of(word);
    let has_parts = || match word.contains(['-', '/']) {
        true => only_machine(word).is_none(),
        false => may_have_parts && evidence.system != Said::Unsaid,
    };
    !evidence.is_empty() && (is_value && evidence.has_machine() || has_parts())
}

/// Whether a word of running text is given, and as what.
fn given(word: &str, is_value: bool) -> Option<WordIs<'_>> {
    let is = may_be_given(word, is_value).then(|| what(word))?;
    let is_given = match is {
        WordIs::Name(_) => is_value || is_whole(word),
        WordIs::Misspelled(_) => word.contains(['-', '/']),
        WordIs::Unknown => is_of_unknown_system(word) || is_value && near(word, false).is_some(),
    };
    is_given.then_some(is)
}

/// Whether a word that a check looks at is unclear, if it does.
fn clarity(word: &str, is_value: bool, is_part: bool) -> Option<bool> {
    let has_more = || word.matches('-').count() > 1;
    if let Some(is) = given(word, is_value).filter(|_| !is_prefixed(word)) {
        let evidence = Evidence::of(word);
        let is_clear = match is {
            // A custom vendor without a system isn't sure to be one.
            WordIs::Name(_) => !(is_value && word.contains('-')) || is_whole(word) || evidence.unknown.is_none(),
            WordIs::Misspelled(it) => {
                let may_be = is_value || it.part.text != word && has_more();
                may_be && !evidence.is_understood()
            }
            WordIs::Unknown => is_value,
        };
        let is_clear = is_clear || near(word, false).is_some();
        return (is_clear || is_value || has_more()).then_some(!is_clear);
    }
    let is_wrong = || is_value && is_of_unknown_environment(word) || near(word, is_part).is_some();
    if word.len() <= LONGEST_PATH && is_wrong() && !is_known(word) {
        return Some(false);
    }
    ((is_value || is_like_triple(word)) && is_unclear(word)).then_some(true)
}

/// Whether a word that isn't given says a machine, or a system with a C library, or before a slash. What runs jobs is no
/// target, such as `macos-14-large`, nor what has capital letters, as identifiers have, unless it is a triple in capitals.
fn is_unclear(word: &str) -> bool {
    if word.len() > LONGEST_PATH || word.bytes().any(|it| it.is_ascii_uppercase()) && !is_in_capitals(word) {
        return false;
    }
    let evidence = Evidence::of(word);
    let is_runner = RUNNERS.iter().any(|it| word.strip_prefix(it).map_or(false, |it| it.starts_with('-')));
    let has_library = evidence.library != Said::Unsaid;
    let has_system = || word.contains('/') || is_like_triple(word) || word.split('-').next().map_or(false, is_of_tool);
    let is_said =
        evidence.machine() != Said::Unsaid || evidence.system != Said::Unsaid && (has_library || has_system());
    is_said && !is_runner && (name_of(word).is_none() || is_in_capitals(word))
}

/// Whether a word is a triple but for its capital letters, with which no tool takes it: `x86_64-Apple-Darwin`.
pub(crate) fn is_in_capitals(word: &str) -> bool {
    let lower = Buffer::<LONGEST_PATH>::of_lower(&[word]);
    word.contains('-') && TripleRef::from_str(word).is_err() && lower.map_or(false, |it| TripleRef::from_str(it.as_str()).is_ok())
}

/// Whether a word has the parts of a triple, of which one after the first is a known vendor, or the third begins with a
/// C library: `i868-unknown-linux-gnu`, `armv7a-linux-androidabi24`.
fn is_like_triple(word: &str) -> bool {
    let is_vendor = |it| VendorRef::from_str(it).map_or(false, |it| !it.is_custom());
    let mut parts = word.split('-').skip(1);
    let library = parts.next().filter(|it| *it == "linux").and(parts.next()).unwrap_or("");
    let begins = |it: &&str| library.starts_with(*it) && library.parse::<Environment>().is_err();
    let has_vendor = || word.matches('-').count() > 2 && word.split('-').skip(1).any(is_vendor);
    !word.contains(['.', '/']) && (has_vendor() || ["gnu", "musl", "android"].iter().any(begins))
}

/// With what labels of GitHub's runners begin.
const RUNNERS: [&str; 3] = ["ubuntu", "macos", "windows"];

/// Whether a name says a machine and a system, or is a triple with a known vendor and more after it.
pub(crate) fn is_whole(word: &str) -> bool {
    let mut is_target = |Meaning { of, sense }: &Meaning<'_>| {
        sense.map_or(true, |Sense { triple, .. }| {
            let has_system = triple.operating_system != OperatingSystem::Unknown
                || !triple.vendor.is_custom() && word.matches('-').count() > 1;
            triple.architecture != Architecture::Unknown
                && (has_system || matches!(of, NameOf::Dialect(it) if *it != Dialect::Gnu))
        })
    };
    meaning_with(word, &mut is_target).is_some()
}

/// Whose name a word is. A custom vendor that resembles a name is no name, unless a tool has it.
fn name_of(word: &str) -> Option<NameOf> {
    let Meaning { of, sense } = meaning_with(word, &mut |_| true)?;
    let is_misspelled =
        |it: Sense<'_>| vendor_suggestion(it.triple).is_some() && Dialect::all_with(word).all(|it| it == Dialect::Gnu);
    let own = sense.ok().filter(|_| of == NameOf::Triple);
    (!own.map_or(false, is_misspelled)).then_some(of)
}

/// Whether a word is a name of a tool, or a triple or spelled like one, without a custom vendor. GNU takes any vendor.
pub(crate) fn is_known(word: &str) -> bool {
    let has_known_vendor = |it: Sense<'_>| !it.triple.vendor.is_custom();
    let mut is_known = |it: &Meaning<'_>| match it.of {
        NameOf::Dialect(dialect) => dialect != Dialect::Gnu,
        NameOf::Triple | NameOf::Spelling | NameOf::Words => it.sense.map_or(false, has_known_vendor),
    };
    meaning_with(word, &mut is_known).is_some()
}

fn what(word: &str) -> WordIs<'_> {
    let meant = || Meant::by(word).map_or(WordIs::Unknown, WordIs::Misspelled);
    name_of(word).map_or_else(meant, WordIs::Name)
}

/// Whether a word begins with a machine and a known vendor, and goes on with no known system.
fn is_of_unknown_system(word: &str) -> bool {
    let mut parts = word.split('-');
    let mut next = || parts.next().unwrap_or("");
    let (machine, vendor, system) = (next(), next(), next());
    let is_known = |it| VendorRef::from_str(it).map_or(false, |it| !it.is_custom());
    architecture_of(machine).is_some() && is_known(vendor) && {
        let room = Buffer::<LONGEST_PATH>::of(&[machine, "-", vendor, "-", system]);
        room.map_or(false, |it| TripleRef::from_str(it.as_str()).is_err()) && !has_other_word(system)
    }
}

/// Whether a word, where a target is expected, is a triple with a known vendor except for its last of four parts.
fn is_of_unknown_environment(word: &str) -> bool {
    let Err(refusal) = TripleRef::from_str(word) else {
        return false;
    };
    let part = refusal.part.text;
    let before = word.strip_suffix(part).unwrap_or("").trim_end_matches('-');
    let is_known = |it: TripleRef<'_>| !it.vendor.is_custom() && it.operating_system != OperatingSystem::Unknown;
    refusal.expected == Some(Field::Environment)
        && word.matches('-').count() == 3
        && TripleRef::from_str(before).map_or(false, is_known)
        && !is_of_no_triple(part)
        && !said(part).map_or(false, |it| it.ends_with(" soft") || it.ends_with(" hard"))
}
