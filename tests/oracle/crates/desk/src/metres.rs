//! Metres (document 01, and wish 1 of document 02): one to three digits, optionally a point or a comma and one
//! or two digits. Spaces before and after the number are skipped.

/// Whole centimetres, or the refusal number: 9 for a text that is empty or only spaces, 10 for any other form.
pub fn metres(bytes: &[u8]) -> Result<u32, u8> {
    // Code 32 alone is a space: `trim` would take tabs and no-break spaces too.
    let text = core::str::from_utf8(bytes).map_err(|_| 10)?.trim_matches(' ');
    if text.is_empty() {
        return Err(9);
    }
    let (whole, part) = match text.split_once(['.', ',']) {
        Some((whole, part)) => (whole, Some(part)),
        None => (text, None),
    };
    let metres = digits(whole, 3)?;
    let centimetres = match part {
        None => 0,
        Some(part) if part.len() == 1 => digits(part, 1)? * 10,
        Some(part) => digits(part, 2)?,
    };
    Ok(metres * 100 + centimetres)
}

/// The number that one to `most` digits write.
fn digits(text: &str, most: usize) -> Result<u32, u8> {
    if text.is_empty() || text.len() > most || !text.bytes().all(|byte| byte.is_ascii_digit()) {
        return Err(10);
    }
    Ok(text.bytes().fold(0, |number, digit| number * 10 + u32::from(digit - b'0')))
}
