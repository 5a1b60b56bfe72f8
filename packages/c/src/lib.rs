//! The calls of target_lexicon.h. What they answer is the Rust crate's, as numbers; here is what only concerns memory:
//! pointers and sizes become slices, answers are written where the caller wants them, and texts get a zero byte at the
//! end.
//!
//! What a call writes, the caller may have left without a value, and so too what target_lexicon.h says is not read. To
//! such memory no reference is formed: it is read and written by pointers, field by field or whole.
//!
//! Each `unsafe` here depends on what target_lexicon.h asks of the caller: that a pointer is valid for what the call
//! reads or writes, that only one of size 0, `length` and `error` may be null, that what a call writes overlaps no
//! other argument, and that the text of a custom vendor stays as long as its struct is used. Nothing else is asked.
#![cfg_attr(not(test), no_std)]
#![deny(unsafe_op_in_unsafe_fn)]
#![allow(clippy::missing_safety_doc)] // target_lexicon.h says it

mod error;
mod error_text;
mod fact_groups;
mod facts;
#[cfg(test)]
mod header_tests;
mod lines;
mod names;
mod numbers;
#[cfg(not(test))]
mod runtime;
mod sources;
mod text;
mod triple;
mod values;
mod zero_ended;

use core::mem::size_of;
use core::ptr::{addr_of, null};
use core::{fmt, slice, str};
use error::{Fault, TextError};
use error_text::{line_and_caret, suggestion};
use fact_groups::QueryFacts;
use facts::{Facts, FirstFacts};
use lines::settle_lines;
use names::{c_name, c_reason};
use numbers::*;
use sources::FieldSources;
use target_lexicon::{DeploymentTarget, Field, TextPart, TripleRef};
use target_names::{
    level_spelled, vendor_suggestion, Dialect, Name, NameError, Note, Sense, Suggest as _, Suggestion, TargetInfo,
    TranslateError, Verdict, VersionOf, Versions, Word, WriteError,
};
use text::{shown, write_text, written, Text};
use triple::{NumberedTriple, TripleNumbers};
use values::{c_library_at, dialect_at, field_at, name_at, name_of_number, number_in, CUSTOM_VENDOR};

/// `enum lexicon_status`. From 1 to 6 a text is refused, where a value of the first to the fifth field was expected, or
/// none.
pub type Status = u32;

const OK: Status = 0;

/// The greatest size of anything in memory, `PTRDIFF_MAX`. Rust has no slice that is larger.
const MAX_SIZE: usize = isize::MAX as usize;

/// `struct lexicon_triple`.
#[repr(C)]
pub struct Triple {
    numbers: TripleNumbers,
    custom_vendor: *const u8,
    custom_vendor_size: usize,
}

/// The sizes of `struct lexicon_triple_facts`: of its first group, of its first two, and of all.
const QUERIES: usize = size_of::<QueryFacts>();
const FIRST: usize = size_of::<FirstFacts>();
const ALL: usize = size_of::<Facts>();

/// `struct lexicon_os_version`.
#[repr(C)]
pub struct Version {
    major: u16,
    minor: u8,
    patch: u8,
}

/// `struct lexicon_versions`: those of [`VersionOf::ALL`], where a first number of 0 is none.
#[repr(C)]
pub struct NamedVersions([Version; VersionOf::ALL.len()]);

/// `struct lexicon_part`.
#[repr(C)]
pub struct Part {
    start: usize,
    end: usize,
}

/// `struct lexicon_meaning`.
#[repr(C)]
pub struct Meaning {
    dialect: u32,
    status: Status,
    triple: Triple,
    note: *const u8,
}

/// `struct lexicon_finding`.
#[repr(C)]
pub struct Finding {
    word: Part,
    part: Part,
    status: Status,
    names: *const u8,
    names_size: usize,
    kept: usize,
}

/// The sizes that the structs of target_lexicon.h have, with words of 64 bits or of 32.
const _: () = {
    let word = size_of::<usize>();
    assert!(size_of::<TripleNumbers>() == 12);
    assert!(size_of::<Triple>() == if word == 8 { 32 } else { 20 });
    assert!(size_of::<Version>() == 4);
    assert!(size_of::<TextError>() == 4 * word);
    assert!(size_of::<FieldSources>() == 15 * word);
    assert!(size_of::<Meaning>() == if word == 8 { 48 } else { 32 });
    assert!(size_of::<Finding>() == 8 * word);
    assert!(ALL == FACT_COUNT);
};

impl From<TripleRef<'_>> for Triple {
    fn from(triple: TripleRef<'_>) -> Triple {
        let NumberedTriple { numbers, custom_vendor: vendor } = triple.into();
        let custom_vendor = if vendor.is_empty() { null() } else { vendor.as_ptr() };
        Triple { numbers, custom_vendor, custom_vendor_size: vendor.len() }
    }
}

impl From<DeploymentTarget> for Version {
    fn from(it: DeploymentTarget) -> Version {
        Version { major: it.major, minor: it.minor, patch: it.patch }
    }
}

impl From<target_names::Meaning<'_>> for Meaning {
    fn from(it: target_names::Meaning<'_>) -> Meaning {
        let dialect = name_of_number(it.of);
        match it.sense {
            Ok(it) => {
                let note = if it.level.is_empty() { null() } else { c_name(it.level) };
                Meaning { dialect, status: OK, triple: it.triple.into(), note }
            }
            Err(why) => {
                let triple = TripleRef::unknown().into();
                Meaning { dialect, status: NAME_WITHOUT_TRIPLE, triple, note: c_reason(why) }
            }
        }
    }
}

impl Part {
    /// A part of what starts there in the text.
    fn of(part: TextPart<'_>, start: usize) -> Part {
        Part { start: start + part.start, end: start + part.range().end }
    }
}

impl Finding {
    /// What is wrong with a word of a text, or isn't understood.
    fn of(word: Word<'_>) -> Option<Finding> {
        let text = word.part.text;
        let whole = TextPart { text, start: 0 };
        let (status, part, meant) = match word.verdict(false, |_| false) {
            Verdict::Right(_) | Verdict::WithoutTriple(..) => return None,
            Verdict::Unclear => (NO_ANSWER, whole, None),
            Verdict::Unknown(None) => (UNKNOWN_NAME, whole, None),
            Verdict::Unknown(Some(it)) => (UNKNOWN_NAME, it.part, Some(it.suggestion)),
            Verdict::Refused(it) => (TextError::from(it).status, it.part, it.suggestion_in(text)),
            Verdict::NearVendor(triple, part) => (1 + Field::Vendor as Status, part, vendor_suggestion(triple)),
        };
        let sizes = |it: Suggestion<'_>| (it.names.as_ptr(), it.names.len(), it.version.len());
        let (names, size, kept) = meant.map_or((null(), 0, 0), sizes);
        let (word, part) = (Part::of(whole, word.part.start), Part::of(part, word.part.start));
        Some(Finding { word, part, status, names, names_size: size, kept })
    }
}

impl Triple {
    /// The triple of a caller's struct.
    #[inline(always)]
    unsafe fn read<'a>(from: *const Triple) -> Result<TripleRef<'a>, Fault> {
        unsafe { Triple::numbered(from) }.triple()
    }

    /// What a caller's struct has. The numbers of a version are read only if it has one, and the text only of a custom
    /// vendor. One of a size that no text has is empty here, which no string parses as either.
    #[inline(always)]
    unsafe fn numbered<'a>(from: *const Triple) -> NumberedTriple<'a> {
        // SAFETY: the caller's struct, in which what is read has a value.
        unsafe {
            let it = addr_of!((*from).numbers);
            let has_version = (*it).has_version;
            let has = has_version == 1;
            let numbers = TripleNumbers {
                architecture: (*it).architecture,
                vendor: (*it).vendor,
                operating_system: (*it).operating_system,
                environment: (*it).environment,
                binary_format: (*it).binary_format,
                has_version,
                minor: if has { (*it).minor } else { 0 },
                patch: if has { (*it).patch } else { 0 },
                major: if has { (*it).major } else { 0 },
            };
            let custom_vendor = match numbers.vendor {
                CUSTOM_VENDOR => bytes_at((*from).custom_vendor, (*from).custom_vendor_size).unwrap_or(&[]),
                _ => &[],
            };
            NumberedTriple { numbers, custom_vendor }
        }
    }
}

/// The caller's bytes.
#[inline(always)]
unsafe fn bytes_at<'a>(text: *const u8, size: usize) -> Result<&'a [u8], TextError> {
    match size {
        0 => Ok(&[]),
        // SAFETY: the caller's text of this size, which isn't null.
        1..=MAX_SIZE => Ok(unsafe { slice::from_raw_parts(text, size) }),
        _ => Err(TextError::without_part(TOO_LARGE)),
    }
}

/// Bytes as a text. Most are ASCII, which is found faster than other text.
#[inline(always)]
fn text_of(bytes: &[u8]) -> Result<&str, TextError> {
    if bytes.is_ascii() {
        // SAFETY: ASCII is UTF-8.
        return Ok(unsafe { str::from_utf8_unchecked(bytes) });
    }
    str::from_utf8(bytes).map_err(|error| not_utf8(bytes, error))
}

/// The caller's text.
#[inline(always)]
unsafe fn text_at<'a>(text: *const u8, size: usize) -> Result<&'a str, TextError> {
    // SAFETY: the arguments of the caller.
    text_of(unsafe { bytes_at(text, size) }?)
}

/// The caller's bytes and error, if there is one, for a call that says why a text is refused. A size that is too large
/// comes first, also that of the buffer.
unsafe fn refused_at<'a>(
    text: *const u8, size: usize, error: *const TextError, out_size: usize,
) -> Result<(&'a [u8], TextError), Status> {
    // SAFETY: the arguments of the caller.
    let bytes = unsafe { bytes_at(text, size) }?;
    if out_size > MAX_SIZE {
        return Err(TOO_LARGE);
    }
    // SAFETY: the caller's error, or null.
    unsafe { Ok((bytes, *error.as_ref().ok_or(NO_SUCH_VALUE)?)) }
}

/// Writes an answer if there is one.
#[inline(always)]
unsafe fn answer<T>(to: *mut T, answer: Result<impl Into<T>, impl Into<Status>>) -> Status {
    match answer {
        Ok(it) => {
            // SAFETY: the caller's variable.
            unsafe { to.write(it.into()) }
            OK
        }
        Err(fault) => fault.into(),
    }
}

/// Writes an answer, or the error if the caller wants it.
#[inline(always)]
unsafe fn answer_or_error<T>(to: *mut T, answer: Result<impl Into<T>, TextError>, error: *mut TextError) -> Status {
    // SAFETY: the caller's variables.
    unsafe { self::answer(to, answer.map_err(|it| refused(it, error))) }
}

/// Writes an error if the caller wants it.
#[inline(always)]
unsafe fn refused(it: TextError, error: *mut TextError) -> Status {
    if !error.is_null() {
        // SAFETY: the caller's variable.
        unsafe { error.write(it) }
    }
    it.status
}

/// The error of bytes that aren't UTF-8: the range of the first that are no character.
#[cold]
fn not_utf8(bytes: &[u8], error: str::Utf8Error) -> TextError {
    let start = error.valid_up_to();
    let end = error.error_len().map_or(bytes.len(), |size| start + size);
    TextError { start, end, ..TextError::without_part(NOT_UTF8) }
}

// SAFETY, of each `unsafe` below: the arguments are the caller's, as target_lexicon.h asks for them.

#[no_mangle]
pub unsafe extern "C" fn lexicon_parse(
    text: *const u8, text_size: usize, triple: *mut Triple, error: *mut TextError,
) -> Status {
    unsafe { answer_or_error(triple, text_at(text, text_size).and_then(|text| Ok(TripleRef::from_str(text)?)), error) }
}

#[no_mangle]
pub unsafe extern "C" fn lexicon_explain(
    text: *const u8, text_size: usize, triple: *mut Triple, sources: *mut FieldSources, error: *mut TextError,
) -> Status {
    let explained = unsafe { text_at(text, text_size) }.map(TripleRef::explain);
    unsafe {
        sources.write(explained.map_or(FieldSources::default(), |it| it.sources.into()));
        answer_or_error(triple, explained.and_then(|it| Ok(it.triple?)), error)
    }
}

#[no_mangle]
pub unsafe extern "C" fn lexicon_print(
    triple: *const Triple, out: *mut u8, out_size: usize, length: *mut usize,
) -> Status {
    let triple = unsafe { Triple::read(triple) };
    unsafe { write_text(out, out_size, length, |out| Ok(triple?.write_to(out))) }
}

#[no_mangle]
pub unsafe extern "C" fn lexicon_rustc_cfg(
    triple: *const Triple, out: *mut u8, out_size: usize, length: *mut usize,
) -> Status {
    let triple = unsafe { Triple::read(triple) };
    unsafe { write_text(out, out_size, length, |out| Ok(shown(&triple?.rustc_cfg(), out))) }
}

#[no_mangle]
pub unsafe extern "C" fn lexicon_llvm_target(
    triple: *const Triple, out: *mut u8, out_size: usize, length: *mut usize,
) -> Status {
    let triple = unsafe { Triple::read(triple) };
    unsafe { write_text(out, out_size, length, |out| Ok(shown(&triple?.llvm_target(), out))) }
}

#[no_mangle]
pub unsafe extern "C" fn lexicon_multiarch_tuple(
    triple: *const Triple, out: *mut u8, out_size: usize, length: *mut usize,
) -> Status {
    let tuple = unsafe { Triple::read(triple) }.map(|triple| triple.multiarch_tuple());
    unsafe { write_text(out, out_size, length, |out| Ok(shown(&tuple?.ok_or(TRIPLE_WITHOUT_NAME)?, out))) }
}

#[no_mangle]
pub unsafe extern "C" fn lexicon_program_suffix(
    triple: *const Triple, out: *mut u8, out_size: usize, length: *mut usize,
) -> Status {
    let triple = unsafe { Triple::read(triple) };
    unsafe { write_text(out, out_size, length, |out| Ok(written(triple?.program_suffix(), out))) }
}

#[no_mangle]
pub unsafe extern "C" fn lexicon_settle(triple: *mut Triple) -> Status {
    unsafe { answer(triple, Triple::read(triple).map(|it| it.step())) }
}

#[no_mangle]
pub unsafe extern "C" fn lexicon_settle_lines(
    text: *const u8, text_size: usize, out: *mut u8, out_size: usize, length: *mut usize,
) -> Status {
    let text = unsafe { bytes_at(text, text_size) };
    unsafe { Text::write(out, out_size, length, |out| Ok(settle_lines(text?, out))) }
}

#[no_mangle]
pub unsafe extern "C" fn lexicon_comes_back(triple: *const Triple) -> bool {
    unsafe { Triple::read(triple) }.map_or(false, |it| it.comes_back())
}

#[no_mangle]
pub unsafe extern "C" fn lexicon_equal(first: *const Triple, second: *const Triple) -> bool {
    unsafe { both(first, second) }.map_or(false, |(first, second)| first == second)
}

#[no_mangle]
pub unsafe extern "C" fn lexicon_same_target(first: *const Triple, second: *const Triple) -> bool {
    unsafe { both(first, second) }.map_or(false, |(first, second)| first.settles_as(second))
}

/// Two triples of the caller.
unsafe fn both<'a>(first: *const Triple, second: *const Triple) -> Result<(TripleRef<'a>, TripleRef<'a>), Fault> {
    unsafe { Ok((Triple::read(first)?, Triple::read(second)?)) }
}

#[no_mangle]
pub unsafe extern "C" fn lexicon_facts(triple: *const Triple, facts: *mut u8, facts_size: usize) -> Status {
    match facts_size {
        0..=QUERIES => unsafe { write_facts::<QueryFacts>(triple, facts, facts_size) },
        0..=FIRST => unsafe { write_facts::<FirstFacts>(triple, facts, facts_size) },
        0..=MAX_SIZE => unsafe { write_facts::<Facts>(triple, facts, facts_size) },
        _ => TOO_LARGE,
    }
}

/// Writes so many bytes of facts of a triple. Each kind is compiled by itself: together, each would save the registers
/// that all need.
#[inline(never)]
unsafe fn write_facts<T: for<'a> From<&'a TripleRef<'a>> + AsMut<QueryFacts>>(
    triple: *const Triple, facts: *mut u8, size: usize,
) -> Status {
    let asked = match unsafe { Triple::read(triple) } {
        Ok(asked) => asked,
        Err(fault) => return fault.into(),
    };
    let mut found = T::from(&asked);
    let queries = found.as_mut();
    if let (0, Some(sizes)) = (queries.data_model, asked.type_sizes()) {
        queries.sizes = facts::TypeSizes::new(sizes);
    }
    let known = size.min(size_of::<T>());
    // A later version's struct is larger: what this one doesn't answer has no answer.
    unsafe {
        addr_of!(found).cast::<u8>().copy_to_nonoverlapping(facts, known);
        facts.add(known).write_bytes(0, size - known);
    }
    OK
}

#[no_mangle]
pub unsafe extern "C" fn lexicon_complete(triple: *mut Triple, chosen_libc: u32) -> Status {
    match c_library_at(chosen_libc).flatten() {
        Some(c_library) => unsafe { answer(triple, Triple::read(triple).map(|it| it.with_c_library(c_library))) },
        None => NO_SUCH_C_LIBRARY,
    }
}

#[no_mangle]
pub unsafe extern "C" fn lexicon_macos_version(triple: *const Triple, version: *mut Version) -> Status {
    unsafe { answer(version, answer_of(triple, |it| it.macos_version())) }
}

/// The answer of a call of the caller's triple, if there is one.
unsafe fn answer_of<'a, T>(triple: *const Triple, find: impl FnOnce(&TripleRef<'a>) -> Option<T>) -> Result<T, Status> {
    find(&unsafe { Triple::read(triple) }?).ok_or(NO_ANSWER)
}

#[no_mangle]
pub unsafe extern "C" fn lexicon_read(
    dialect: u32, text: *const u8, text_size: usize, triple: *mut Triple, error: *mut TextError,
) -> Status {
    let find = || {
        let bytes = unsafe { bytes_at(text, text_size) }?;
        let dialect = dialect_at(dialect).ok_or(TextError::without_part(NO_SUCH_DIALECT))?;
        meant(dialect, text_of(bytes)?)
    };
    unsafe { answer_or_error(triple, find(), error) }
}

/// The triple that a name of a dialect means, or a string that is spelled like a triple.
fn meant(dialect: Option<Dialect>, text: &str) -> Result<TripleRef<'_>, TextError> {
    match dialect {
        Some(dialect) => match dialect.read_loosely(text) {
            Ok(it) => Ok(it.triple),
            Err(error) => Err(TextError::of_name(TranslateError::Read(error), text)),
        },
        None => Ok(target_names::read(text)?),
    }
}

#[no_mangle]
pub unsafe extern "C" fn lexicon_write(
    dialect: u32, triple: *const Triple, out: *mut u8, out_size: usize, length: *mut usize, reason: *mut *const u8,
) -> Status {
    let find = |dialect: Dialect, triple: &TripleRef<'_>| dialect.write_with(triple, None);
    unsafe { write_name(dialect, triple, find, out, out_size, length, reason) }
}

#[no_mangle]
pub unsafe extern "C" fn lexicon_write_versioned(
    dialect: u32, triple: *const Triple, versions: *const NamedVersions, out: *mut u8, out_size: usize,
    length: *mut usize, reason: *mut *const u8,
) -> Status {
    let versions = unsafe { versions_at(versions) };
    let find = |dialect: Dialect, triple: &TripleRef<'_>| dialect.write_with_versions(triple, None, &versions);
    unsafe { write_name(dialect, triple, find, out, out_size, length, reason) }
}

/// The versions that the caller says: none of a null pointer.
unsafe fn versions_at(versions: *const NamedVersions) -> Versions {
    let of = |it: &NamedVersions| {
        let said = VersionOf::ALL.into_iter().zip(&it.0).filter(|it| it.1.major != 0);
        said.fold(Versions::none(), |all, (of, it)| all.with(of, it.major, it.minor))
    };
    unsafe { versions.as_ref() }.map_or(Versions::none(), of)
}

/// Writes the name of a triple that is found in a dialect, or why there is none if the caller wants it.
unsafe fn write_name(
    dialect: u32, triple: *const Triple, find: impl FnOnce(Dialect, &TripleRef<'_>) -> Result<Name, WriteError>,
    out: *mut u8, out_size: usize, length: *mut usize, reason: *mut *const u8,
) -> Status {
    let named = || {
        let dialect = dialect_at(dialect).flatten().ok_or(TextError::without_part(NO_SUCH_DIALECT))?;
        let triple = unsafe { Triple::read(triple) }.map_err(|fault| TextError::without_part(fault.into()))?;
        find(dialect, &triple).map_err(|why| TextError::of_name(TranslateError::Write(why), ""))
    };
    let name = named();
    let found = name.as_ref().map_err(|it| it.status);
    let status = unsafe { write_text(out, out_size, length, |out| Ok(written(found?.as_str(), out))) };
    if let (TRIPLE_WITHOUT_NAME | NEEDS_C_LIBRARY, Err(why), false) = (status, name, reason.is_null()) {
        unsafe { reason.write(why.reason) }
    }
    status
}

#[no_mangle]
pub unsafe extern "C" fn lexicon_translate(
    from: u32, name: *const u8, name_size: usize, chosen_libc: u32, versions: *const NamedVersions, to: u32,
    out: *mut u8, out_size: usize, length: *mut usize, error: *mut TextError,
) -> Status {
    let versions = unsafe { versions_at(versions) };
    let find = || {
        let no_range = TextError::without_part;
        let bytes = unsafe { bytes_at(name, name_size) }?;
        if out_size > MAX_SIZE {
            return Err(no_range(TOO_LARGE));
        }
        let from = dialect_at(from).ok_or(no_range(NO_SUCH_DIALECT))?;
        let to = dialect_at(to).flatten().ok_or(no_range(NO_SUCH_DIALECT))?;
        let c_library = c_library_at(chosen_libc).ok_or(no_range(NO_SUCH_C_LIBRARY))?;
        let text = text_of(bytes)?;
        let found = match from {
            Some(from) => from.translate_with(text, c_library, &versions, to),
            None => {
                let meant = Sense { triple: meant(None, text)?, level: level_spelled(text) };
                to.write_with_versions(meant, c_library, &versions).map_err(TranslateError::Write)
            }
        };
        found.map_err(|error| TextError::of_name(error, text))
    };
    match find() {
        Ok(found) => unsafe { write_text(out, out_size, length, |out| Ok(written(found.as_str(), out))) },
        Err(it) => unsafe { refused(it, error) },
    }
}

#[no_mangle]
pub unsafe extern "C" fn lexicon_changes(
    text: *const u8, text_size: usize, number: usize, part: *mut Part, out: *mut u8, out_size: usize,
    length: *mut usize,
) -> Status {
    let find = || {
        let text = unsafe { text_at(text, text_size) }?;
        target_names::changes(text).nth(number).ok_or(NO_SUCH_CHANGE)
    };
    let found = find();
    let status = unsafe { write_text(out, out_size, length, |out| Ok(shown(&found?.names, out))) };
    if let (OK, Ok(found)) = (status, found) {
        unsafe { part.write(Part::of(found.part, 0)) }
    }
    status
}

#[no_mangle]
pub unsafe extern "C" fn lexicon_meanings(
    text: *const u8, text_size: usize, parts: *mut Meaning, most: usize, count: *mut usize,
) -> Status {
    unsafe { each_of(text, text_size, parts, most, count, |text| target_names::meanings(text).map(Meaning::from)) }
}

#[no_mangle]
pub unsafe extern "C" fn lexicon_readers(
    text: *const u8, text_size: usize, parts: *mut Meaning, most: usize, count: *mut usize,
) -> Status {
    unsafe { each_of(text, text_size, parts, most, count, |text| target_names::readers(text).map(Meaning::from)) }
}

#[no_mangle]
pub unsafe extern "C" fn lexicon_targets(
    text: *const u8, text_size: usize, parts: *mut Part, most: usize, count: *mut usize,
) -> Status {
    let range = |it: Word<'_>| Part::of(it.part, 0);
    unsafe { each_of(text, text_size, parts, most, count, |text| target_names::targets_in(text).map(range)) }
}

#[no_mangle]
pub unsafe extern "C" fn lexicon_check(
    text: *const u8, text_size: usize, parts: *mut Finding, most: usize, count: *mut usize,
) -> Status {
    unsafe { each_of(text, text_size, parts, most, count, |text| target_names::words_in(text).filter_map(Finding::of)) }
}

/// Writes what is found in a text into an array of so many elements, and how many there are.
unsafe fn each_of<'a, T, F: Iterator<Item = T>>(
    text: *const u8, text_size: usize, parts: *mut T, most: usize, count: *mut usize, find: impl Fn(&'a str) -> F,
) -> Status {
    let text = match unsafe { text_at(text, text_size) } {
        _ if most > MAX_SIZE / size_of::<T>() => return TOO_LARGE,
        Ok(text) => text,
        Err(error) => return error.into(),
    };
    let mut found = 0;
    for it in find(text) {
        if found < most {
            // SAFETY: the caller's array has `most` elements.
            unsafe { parts.add(found).write(it) }
        }
        found += 1;
    }
    unsafe { count.write(found) }
    if found <= most { OK } else { TOO_SMALL }
}

#[no_mangle]
pub unsafe extern "C" fn lexicon_error_text(
    text: *const u8, text_size: usize, error: *const TextError, out: *mut u8, out_size: usize, length: *mut usize,
) -> Status {
    match unsafe { refused_at(text, text_size, error, out_size) } {
        Ok((bytes, error)) => unsafe { Text::write(out, out_size, length, |out| line_and_caret(bytes, &error, out)) },
        Err(status) => status,
    }
}

#[no_mangle]
pub unsafe extern "C" fn lexicon_suggestion(
    text: *const u8, text_size: usize, error: *const TextError, out: *mut u8, out_size: usize, length: *mut usize,
) -> Status {
    match unsafe { refused_at(text, text_size, error, out_size) } {
        Err(TOO_LARGE) => TOO_LARGE,
        refused => {
            let found = refused.ok().and_then(|(bytes, error)| suggestion(bytes, &error));
            unsafe { write_suggestion(found, out, out_size, length) }
        }
    }
}

#[no_mangle]
pub unsafe extern "C" fn lexicon_vendor_suggestion(
    triple: *const Triple, out: *mut u8, out_size: usize, length: *mut usize,
) -> Status {
    match unsafe { Triple::read(triple) } {
        Err(fault) if out_size <= MAX_SIZE => fault.into(),
        triple => unsafe { write_suggestion(triple.ok().and_then(vendor_suggestion), out, out_size, length) },
    }
}

#[no_mangle]
pub unsafe extern "C" fn lexicon_name_suggestion(
    dialect: u32, name: *const u8, name_size: usize, out: *mut u8, out_size: usize, length: *mut usize,
) -> Status {
    let name = match unsafe { text_at(name, name_size) } {
        Err(error) if error.status == TOO_LARGE => return TOO_LARGE,
        name => name.ok(),
    };
    let given = dialect_at(dialect).flatten().zip(name);
    let unknown = given.filter(|(dialect, name)| dialect.read_loosely(name) == Err(NameError::Unknown));
    unsafe { write_suggestion(unknown.and_then(|(dialect, name)| dialect.suggestion(name)), out, out_size, length) }
}

#[no_mangle]
pub unsafe extern "C" fn lexicon_note(
    dialect: u32, text: *const u8, text_size: usize, out: *mut u8, out_size: usize, length: *mut usize,
) -> Status {
    let text = match unsafe { text_at(text, text_size) } {
        Err(error) if error.status == TOO_LARGE => return TOO_LARGE,
        text => text.ok(),
    };
    let find = |(dialect, text): (Option<Dialect>, &'static str)| match dialect {
        Some(it) => Note::of(text, dialect).filter(|_| it.read_loosely(text) == Err(NameError::Unknown)),
        None if TripleRef::from_str(text).is_err() => Note::of(text, None),
        None => None,
    };
    unsafe { write_suggestion(dialect_at(dialect).zip(text).and_then(find), out, out_size, length) }
}

/// Writes a suggestion if there is one.
unsafe fn write_suggestion(
    found: Option<impl fmt::Display>, out: *mut u8, out_size: usize, length: *mut usize,
) -> Status {
    match found {
        _ if out_size > MAX_SIZE => TOO_LARGE,
        Some(found) => unsafe { write_text(out, out_size, length, |out| Ok(shown(&found, out))) },
        None => NO_SUGGESTION,
    }
}

#[no_mangle]
pub unsafe extern "C" fn lexicon_number(field: u32, text: *const u8, text_size: usize, number: *mut u32) -> Status {
    let find = || {
        let bytes = unsafe { bytes_at(text, text_size) }?;
        let named = field_at(field).ok_or(NO_SUCH_FIELD)?;
        number_in(named, text_of(bytes)?).ok_or(1 + field)
    };
    unsafe { answer::<u32>(number, find()) }
}

#[no_mangle]
pub extern "C" fn lexicon_name(field: u32, number: u32) -> *const u8 {
    field_at(field).and_then(|field| name_at(field, number)).map_or(null(), c_name)
}

#[no_mangle]
pub extern "C" fn lexicon_version() -> *const u8 {
    concat!(env!("CARGO_PKG_VERSION"), env!("LEXICON_COMMIT"), "\0").as_ptr()
}

#[no_mangle]
pub extern "C" fn lexicon_host() -> *const u8 {
    // as the Rust crate's build script finds `HOST`
    let is_parsed = TripleRef::from_str(env!("LEXICON_TARGET")).is_ok();
    if is_parsed { concat!(env!("LEXICON_TARGET"), "\0") } else { concat!(env!("LEXICON_HOST"), "\0") }.as_ptr()
}
