//! The canonical form of each line of a string.
use crate::text::Text;
use core::str;
use target_lexicon::TripleRef;

/// Writes the canonical form of each line, with a line feed after it; of a line that is refused, only the line feed.
pub(crate) fn settle_lines(text: &[u8], out: &mut Text) {
    for line in text.split_inclusive(|it| *it == b'\n') {
        if let Some(triple) = settled(line.strip_suffix(b"\n").unwrap_or(line)) {
            out.push_written(|room| triple.write_to(room));
        }
        out.push("\n");
    }
}

fn settled(line: &[u8]) -> Option<TripleRef<'_>> {
    TripleRef::from_str(str::from_utf8(line).ok()?).ok().map(TripleRef::step)
}
