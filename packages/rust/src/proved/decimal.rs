// @generated: erased from crates/lexicon_fields/src/decimal.rt by tools/erase. Don't edit it here.
//! Numbers in decimal.

/// Writes a number in decimal at `at`, and returns where it ends.
pub(crate) fn put_decimal(out: &mut [u8], at: usize, n: usize) -> usize {
    if n < 10 {
        return put_byte(out, at, b'0' + n as u8);
    }
    let at = put_decimal(out, at, n / 10);
    put_byte(out, at, b'0' + (n % 10) as u8)
}

/// Writes a byte at `at`, and returns where it ends.
pub(crate) fn put_byte(out: &mut [u8], at: usize, byte: u8) -> usize {
    out[at] = byte;
    at + 1
}
