//! Searches for forms of placeholders, which may also find text that only looks like one.

/// Returns whether `${name?` occurs in a source. If it doesn't, no parse depends on whether it is refused.
pub(crate) fn has_optional(source: &[u8]) -> bool {
    memchr::memchr_iter(b'?', source).any(|at| ends_in_braced_name(&source[..at]))
}

/// Returns the position of the colon of the first `${name:`, or the source's length if there is none.
pub(crate) fn first_default(source: &[u8]) -> usize {
    let mut colons = memchr::memchr_iter(b':', source);
    colons
        .find(|&at| ends_in_braced_name(&source[..at]))
        .unwrap_or(source.len())
}

/// Returns whether bytes end in `${` and a name.
fn ends_in_braced_name(bytes: &[u8]) -> bool {
    match bytes.iter().rposition(|&byte| !is_name_byte(byte)) {
        Some(brace) => brace + 1 < bytes.len() && bytes[..=brace].ends_with(b"${"),
        None => false,
    }
}

fn is_name_byte(byte: u8) -> bool {
    byte.is_ascii_alphanumeric() || byte == b'_'
}
