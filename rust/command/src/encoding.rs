//! What a file holds: a text form, a sheet in bytes, or neither, which is then told by name.

/// The content as a text form, if it is one: it does not open as a sheet, and holds characters and no control
/// characters but white space.
pub fn text(content: &[u8]) -> Option<&str> {
    let text = std::str::from_utf8(content).ok()?;
    let text = text.strip_prefix('\u{feff}').unwrap_or(text);
    (!content.is_empty() && !content.starts_with(b"PF0") && printable(text)).then_some(text)
}

/// Content that is text and no sheet, such as a list of prices; or what it is instead.
pub fn plain(content: &[u8]) -> Result<&str, String> {
    let text = std::str::from_utf8(content).ok().filter(|text| printable(text));
    text.map(|text| text.strip_prefix('\u{feff}').unwrap_or(text)).ok_or_else(|| named(content))
}

/// Whether a text holds no control characters but white space.
fn printable(text: &str) -> bool {
    text.chars().all(|c| !c.is_control() || c.is_whitespace())
}

/// Whether some line of a text begins as a statement of the text form does.
pub fn is_text_form(text: &str) -> bool {
    let first = |line: &str| line.split_whitespace().next().map(str::to_string);
    let words = ["point", "line", "circle", "distance", "angle", "on", "tangent", "opening"];
    text.lines().filter_map(first).any(|word| words.contains(&word.as_str()))
}

/// How files begin that are no sheets, and what they are.
const BEGINNINGS: [(&[u8], &str); 7] = [
    (b"%PDF", "this is a PDF"),
    (b"PK\x03\x04", "this is a ZIP archive"),
    (b"\x1f\x8b", "this is a gzip archive"),
    (b"\x89PNG", "this is a picture"),
    (b"\xff\xd8\xff", "this is a picture"),
    (b"AC10", "this is a DWG drawing"),
    (b"\x7fELF", "this is a program"),
];

/// What content is that is neither a text form nor opens as a sheet, and what to do with it.
pub fn named(content: &[u8]) -> String {
    let known = BEGINNINGS.iter().find(|(beginning, _)| content.starts_with(beginning));
    let (zeros, count) = (content.iter().filter(|byte| **byte == 0).count(), content.len());
    if content.is_empty() {
        "the file is empty".to_string()
    } else if content.starts_with(b"PF") {
        "a sheet in bytes begins with PF01 or PF02".to_string()
    } else if let Some((_, what)) = known {
        format!("{what}, no sheet")
    } else if content.starts_with(b"\xff\xfe\0\0") || content.starts_with(b"\0\0\xfe\xff") {
        "this is text in UTF-32: save it as UTF-8".to_string()
    } else if content.starts_with(b"\xff\xfe") || content.starts_with(b"\xfe\xff") || is_sixteen_bit(content) {
        "this is text in UTF-16: save it as UTF-8".to_string()
    } else if let Ok(text) = std::str::from_utf8(content) {
        controlled(text)
    } else if zeros == 0 && !content.iter().any(|byte| *byte < b' ' && !byte.is_ascii_whitespace()) && count > 1 {
        let (line, column) = first_other(content);
        format!("this is text in Latin-1 or Windows-1252, from line {line}, column {column} on: save it as UTF-8")
    } else {
        "a sheet in bytes begins with PF01 or PF02, and a text form is UTF-8".to_string()
    }
}

/// Whether content looks like ASCII in 16-bit units: every second byte is 0, and the others are characters.
fn is_sixteen_bit(content: &[u8]) -> bool {
    let plain = |byte: u8| byte == b'\t' || byte == b'\r' || byte == b'\n' || (b' '..0x7f).contains(&byte);
    let (pairs, odd) = (content.chunks_exact(2), content.len() % 2);
    let low = pairs.clone().all(|pair| pair[1] == 0 && plain(pair[0]));
    let high = pairs.clone().all(|pair| pair[0] == 0 && plain(pair[1]));
    odd == 0 && (low || high)
}

/// Where a text has its first control character.
fn controlled(text: &str) -> String {
    for (i, line) in text.lines().enumerate() {
        if let Some((j, c)) = line.chars().enumerate().find(|(_, c)| c.is_control() && !c.is_whitespace()) {
            return format!("line {}, column {} has the control character {}", i + 1, j + 1, c as u32);
        }
    }
    "a sheet in bytes begins with PF01 or PF02".to_string()
}

/// Line and column of the first byte that is no part of a character in UTF-8.
fn first_other(content: &[u8]) -> (usize, usize) {
    let valid = std::str::from_utf8(content).err().map_or(0, |error| error.valid_up_to());
    let before = std::str::from_utf8(&content[..valid]).unwrap_or_default();
    let line = before.matches('\n').count() + 1;
    (line, before.rsplit('\n').next().unwrap_or_default().chars().count() + 1)
}

#[cfg(test)]
mod tests {
    use super::*;

    #[test]
    fn encodings_have_names() {
        let says = |content: &[u8], words: &str| assert!(named(content).contains(words), "{}", named(content));
        says(b"", "empty");
        says(b"\xff\xfep\0o\0", "UTF-16");
        says(b"p\0o\0i\0n\0t\0", "UTF-16");
        says(b"\0p\0o\0i\0n\0t", "UTF-16");
        says(b"\xff\xfe\0\0p\0\0\0", "UTF-32");
        says(b"point A\npoint \xe4\n", "Latin-1 or Windows-1252, from line 2, column 7 on");
        says(b"%PDF-1.7\n\xe2\xe3", "PDF");
        says(b"point A\x07B\n", "line 1, column 8 has the control character 7");
        says(b"\x01\x80\x02", "begins with PF01 or PF02");
    }
}
