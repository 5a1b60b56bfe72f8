//! Why a text is refused, in words.
use crate::error::{expected_at, TextError};
use crate::text::Text;
use crate::{Status, NAME_WITHOUT_TRIPLE, NEEDS_C_LIBRARY, NOT_UTF8, NO_SUCH_VALUE, TRIPLE_WITHOUT_NAME, UNKNOWN_NAME};
use core::fmt::Write;
use core::str;
use target_names::{is_visible, suggestion_in, Suggestion, SHOWN};

/// What stands for bytes that are no character.
const REPLACEMENT: char = '\u{fffd}';

/// The refused part, if the error is one of this text.
fn part<'a>(bytes: &'a [u8], error: &TextError) -> Result<&'a [u8], Status> {
    bytes.get(error.start..error.end).ok_or(NO_SUCH_VALUE)
}

/// Writes the first line of a refusal. That of a text that isn't UTF-8 doesn't have the part.
fn push_line(bytes: &[u8], error: &TextError, out: &mut Text) -> Result<(), Status> {
    let part = part(bytes, error)?;
    if error.status == NOT_UTF8 {
        out.push("Not UTF-8");
        return Ok(());
    }
    str::from_utf8(part).map_err(|_| NO_SUCH_VALUE)?;
    match error.status {
        UNKNOWN_NAME => out.push("Unknown name: "),
        NAME_WITHOUT_TRIPLE => out.push("No triple has this name: "),
        TRIPLE_WITHOUT_NAME | NEEDS_C_LIBRARY => out.push("No name in the other dialect: "),
        status => {
            let expected = expected_at(status).ok_or(NO_SUCH_VALUE)?;
            let _ = match expected {
                Some(field) => write!(out, "Unrecognized {field}: "),
                None => out.write_str("Unrecognized field: "),
            }; // which a text never refuses
        }
    }
    push_begin(part, out);
    Ok(())
}

/// Writes the line of a refusal, the text, and carets under the part with what may have been meant.
pub(crate) fn line_and_caret(bytes: &[u8], error: &TextError, out: &mut Text) -> Result<(), Status> {
    push_line(bytes, error, out)?;
    out.push("\n  ");
    let before = push_end(&bytes[..error.start], out);
    let part = push_begin(part(bytes, error)?, out);
    push_begin(&bytes[error.end..], out);
    out.push("\n  ");
    (0..before).for_each(|_| out.push(" "));
    (0..part.max(1)).for_each(|_| out.push("^"));
    if let Some(meant) = suggestion(bytes, error) {
        [" did you mean `", meant.names, meant.version, "`?"].iter().for_each(|it| out.push(it));
    }
    Ok(())
}

/// What may have been meant.
pub(crate) fn suggestion<'a>(bytes: &'a [u8], error: &TextError) -> Option<Suggestion<'a>> {
    let text = str::from_utf8(part(bytes, error).ok()?).ok()?;
    // What follows the part may be no text.
    let valid = str::from_utf8(bytes).map_or_else(|it| it.valid_up_to(), str::len);
    let whole = str::from_utf8(bytes.get(..valid.max(error.end))?).ok()?;
    suggestion_in(whole, expected_at(error.status)??, text)
}

/// The characters of some bytes. Each run of bytes that is none is a replacement character.
fn characters(mut bytes: &[u8]) -> impl Iterator<Item = char> + '_ {
    core::iter::from_fn(move || {
        let end = bytes.len().min(4);
        let valid = match str::from_utf8(&bytes[..end]) {
            Ok(text) => text,
            Err(error) => str::from_utf8(&bytes[..error.valid_up_to()]).unwrap_or(""),
        };
        let first = valid.chars().next();
        let size = first.map_or_else(|| end.min(1), char::len_utf8);
        bytes = &bytes[size..];
        (size > 0).then_some(first.unwrap_or(REPLACEMENT))
    })
}

/// A character as it is shown: escaped, unless it is visible.
fn shown(it: char) -> impl Iterator<Item = char> {
    let (plain, escaped) = if is_visible(it) { (Some(it), None) } else { (None, Some(it.escape_default())) };
    plain.into_iter().chain(escaped.into_iter().flatten())
}

/// Writes characters. Returns how many.
fn push_characters(characters: impl Iterator<Item = char>, out: &mut Text) -> usize {
    characters.map(|it| out.push(it.encode_utf8(&mut [0; 4]))).count()
}

/// Writes the characters as they are shown; of many the first ones, and `...`. Returns how many are written.
fn push_begin(bytes: &[u8], out: &mut Text) -> usize {
    let mut count = 0;
    for it in characters(bytes) {
        if count + shown(it).count() > SHOWN {
            return count + push_characters("...".chars(), out);
        }
        count += push_characters(shown(it), out);
    }
    count
}

/// Writes the characters as they are shown; of many `...`, and the last ones. Returns how many are written.
fn push_end(bytes: &[u8], out: &mut Text) -> usize {
    let left_out = characters(bytes).flat_map(shown).count().saturating_sub(SHOWN);
    let dots = if left_out > 0 { "..." } else { "" };
    push_characters(dots.chars().chain(characters(bytes).flat_map(shown).skip(left_out)), out)
}
