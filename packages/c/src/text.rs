//! Texts in the caller's buffer, each with a zero byte after it.
use crate::{Status, MAX_SIZE, OK, TOO_LARGE, TOO_SMALL};
use core::fmt::{self, Write};
use core::{ptr, slice};

/// Writes the length of a text if the caller wants it.
unsafe fn write_length(to: *mut usize, length: usize) {
    if !to.is_null() {
        // SAFETY: the caller's variable.
        unsafe { to.write(length) }
    }
}

/// Writes a text that fits, and its length. `write` writes the text into a buffer that has room for it, and returns its
/// length.
#[inline(always)]
pub(crate) unsafe fn write_text(
    out: *mut u8,
    out_size: usize,
    length: *mut usize,
    write: impl Fn(&mut [u8]) -> Result<usize, Status>,
) -> Status {
    if out_size > MAX_SIZE {
        return TOO_LARGE;
    }
    let mut text = [0; 128];
    let size = match write(&mut text) {
        Ok(size) => size,
        Err(status) => return status,
    };
    // SAFETY: the caller's variable, and the first bytes of the caller's buffer, which has more than `size` bytes where
    // any is written, and so isn't null.
    unsafe {
        write_length(length, size);
        if out_size <= size {
            return TOO_SMALL;
        }
        copy_written(out, size, &text, |room| {
            let _ = write(room); // which gives the size again
        });
        out.add(size).write(0);
    }
    OK
}

/// The length of a text, which is written if the buffer has room for it.
pub(crate) fn written(text: &str, out: &mut [u8]) -> usize {
    if let Some(out) = out.get_mut(..text.len()) {
        out.copy_from_slice(text.as_bytes());
    }
    text.len()
}

/// The length of what a value is shown as, which is written if the buffer has room for it.
pub(crate) fn shown(value: &impl fmt::Display, out: &mut [u8]) -> usize {
    struct Pieces<'a> {
        out: &'a mut [u8],
        length: usize,
    }
    impl Write for Pieces<'_> {
        fn write_str(&mut self, piece: &str) -> fmt::Result {
            self.length += written(piece, self.out.get_mut(self.length..).unwrap_or(&mut []));
            Ok(())
        }
    }
    let mut pieces = Pieces { out, length: 0 };
    let _ = write!(pieces, "{value}"); // which the pieces never refuse
    pieces.length
}

/// Copies a text of this size into the caller's buffer, which has room for it. One that was too long for the buffer
/// here is written into the caller's, which has values then. No other byte of it is touched.
#[inline(always)]
unsafe fn copy_written(out: *mut u8, size: usize, text: &[u8], write: impl FnOnce(&mut [u8])) {
    // SAFETY: the first bytes of the caller's buffer.
    unsafe {
        if size <= text.len() {
            ptr::copy_nonoverlapping(text.as_ptr(), out, size);
        } else {
            out.write_bytes(0, size);
            write(slice::from_raw_parts_mut(out, size));
        }
    }
}

/// A text that is written piece by piece, of which only the first characters are kept if the buffer is too small.
pub(crate) struct Text {
    out: *mut u8,
    /// The bytes for characters, without the zero byte's.
    room: usize,
    kept: usize,
    length: usize,
}

impl Text {
    /// Writes a text, a zero byte, and the text's length. Nothing is written if `fill` fails, which it does before it
    /// writes.
    pub(crate) unsafe fn write(
        out: *mut u8,
        out_size: usize,
        length: *mut usize,
        fill: impl FnOnce(&mut Text) -> Result<(), Status>,
    ) -> Status {
        if out_size > MAX_SIZE {
            return TOO_LARGE;
        }
        let mut text = Text { out, room: out_size.saturating_sub(1), kept: 0, length: 0 };
        if let Err(status) = fill(&mut text) {
            return status;
        }
        // SAFETY: the caller's variable, and a byte of the caller's buffer, whose size isn't 0 then.
        unsafe {
            write_length(length, text.length);
            if out_size > 0 {
                out.add(text.kept).write(0);
            }
        }
        if text.length < out_size { OK } else { TOO_SMALL }
    }

    /// Whether a piece of this size fits after all that came before.
    fn has_room(&self, size: usize) -> bool {
        self.kept == self.length && size <= self.room - self.kept
    }

    /// Adds a piece to the length. Where memory is small, the texts of an error, or lines, may have more bytes than it
    /// has.
    fn count(&mut self, size: usize, is_kept: bool) {
        if is_kept {
            self.kept += size;
        }
        self.length = self.length.saturating_add(size);
    }

    fn push_whole(&mut self, piece: &str) {
        let fits = self.has_room(piece.len());
        if fits {
            // SAFETY: the piece fits into the caller's buffer, after what is kept.
            unsafe { ptr::copy_nonoverlapping(piece.as_ptr(), self.out.add(self.kept), piece.len()) }
        }
        self.count(piece.len(), fits);
    }

    /// Adds a whole piece, which `write` writes into a buffer that has room for it. It returns the length.
    pub(crate) fn push_written(&mut self, write: impl Fn(&mut [u8]) -> usize) {
        let mut text = [0; 128];
        let size = write(&mut text);
        let fits = self.has_room(size);
        if fits {
            // SAFETY: the piece fits into the caller's buffer, after what is kept.
            unsafe {
                copy_written(self.out.add(self.kept), size, &text, |room| {
                    write(room);
                });
            }
        }
        self.count(size, fits);
    }

    pub(crate) fn push(&mut self, piece: &str) {
        if piece.len() <= self.room - self.kept {
            self.push_whole(piece);
        } else {
            let mut bytes = [0; 4];
            piece.chars().for_each(|it| self.push_whole(it.encode_utf8(&mut bytes)));
        }
    }
}

impl Write for Text {
    fn write_str(&mut self, piece: &str) -> fmt::Result {
        self.push(piece);
        Ok(())
    }
}
