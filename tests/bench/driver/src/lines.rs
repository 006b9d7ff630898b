//! A line breaker as one would write it in Rust, which the source has none of.

use renew_ui::text::advance_of;

use crate::mix::{ILL_FORMED, SHORT, WIDE};

const SPACE: u32 = 4;
const MOST_BYTES: usize = 1024;

/// How many lines of at most so many pixels the text has, and in the front of the buffer where each starts; or the number
/// that refuses it, and nothing is written.
pub fn break_lines(s: &[u8], width: u32, starts: &mut [u32]) -> Result<u32, u64> {
    let text = core::str::from_utf8(s).map_err(|_| ILL_FORMED)?;
    if text.len() > MOST_BYTES {
        return Err(SHORT);
    }
    let mut found = Vec::new();
    let mut used = 0;
    let mut at = 0;
    for word in text.split(' ') {
        let pixels = word.chars().map(advance_of).sum();
        if pixels > width {
            return Err(WIDE);
        }
        if found.is_empty() || used + SPACE + pixels > width {
            found.push(at as u32);
            used = pixels;
        } else {
            used += SPACE + pixels;
        }
        at += word.len() + 1;
    }
    starts.get_mut(..found.len()).ok_or(SHORT)?.copy_from_slice(&found);
    Ok(found.len() as u32)
}
