//! Bytes as one word of text and back, for request lines and recorded answers.
//!
//! Printable ASCII stands for itself, but for the backslash. `\t`, `\n`, `\r`, `\\` and `\xNN`
//! stand for the rest.

/// The bytes as text.
pub fn shown(bytes: &[u8]) -> String {
    let mut text = String::new();
    for &b in bytes {
        match b {
            b'\\' => text.push_str("\\\\"),
            b'\t' => text.push_str("\\t"),
            b'\n' => text.push_str("\\n"),
            b'\r' => text.push_str("\\r"),
            b' '..=b'~' => text.push(char::from(b)),
            _ => text.push_str(&format!("\\x{b:02x}")),
        }
    }
    text
}

/// The bytes that a text stands for; bytes past ASCII may stand for themselves as well.
pub fn read(text: &[u8]) -> Result<Vec<u8>, String> {
    let mut bytes = Vec::new();
    let mut rest = text;
    while let Some((&b, after)) = rest.split_first() {
        let (byte, left) = if b == b'\\' {
            escape(after)?
        } else {
            (b, after)
        };
        bytes.push(byte);
        rest = left;
    }
    Ok(bytes)
}

// The byte that stands after a backslash, and what is left behind it.
fn escape(after: &[u8]) -> Result<(u8, &[u8]), String> {
    match after {
        [b't', rest @ ..] => Ok((b'\t', rest)),
        [b'n', rest @ ..] => Ok((b'\n', rest)),
        [b'r', rest @ ..] => Ok((b'\r', rest)),
        [b'\\', rest @ ..] => Ok((b'\\', rest)),
        [b'x', high, low, rest @ ..] => match (digit(*high), digit(*low)) {
            (Some(h), Some(l)) => Ok((16 * h + l, rest)),
            _ => Err("\\x takes two hexadecimal digits".to_string()),
        },
        _ => Err("a backslash stands before t, n, r, \\ or xNN".to_string()),
    }
}

fn digit(b: u8) -> Option<u8> {
    char::from(b)
        .to_digit(16)
        .and_then(|d| u8::try_from(d).ok())
}
