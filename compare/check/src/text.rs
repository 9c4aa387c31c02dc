//! Bytes in hex, as the oracle's lines have them.

pub fn hex(bytes: &[u8]) -> String {
    if bytes.is_empty() {
        return "-".into();
    }
    let digits = b"0123456789abcdef";
    let mut out = String::with_capacity(2 * bytes.len());
    for b in bytes {
        out.push(digits[usize::from(b / 16)] as char);
        out.push(digits[usize::from(b % 16)] as char);
    }
    out
}

/// The start of a long text.
pub fn cut(text: &str, at: usize) -> String {
    match text.char_indices().nth(at) {
        Some((place, _)) => format!("{}.. ({} characters)", &text[..place], text.len()),
        None => text.into(),
    }
}
