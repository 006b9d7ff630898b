//! Where a console differs from the oracle over one script.

use std::path::Path;
use std::time::Duration;

use crate::console::{self, Expected, Written};

/// A console under comparison.
pub struct Subject<'a> {
    pub path: &'a Path,
    pub patience: Duration,
}

/// The first difference over a script.
pub struct Difference {
    /// The script's line, counted from 0, and the line itself.
    pub line: usize,
    pub call: String,
    pub oracle: String,
    pub console: String,
    pub hung: bool,
}

impl Difference {
    /// Whether the difference is in the digest alone.
    pub fn by_state(&self) -> bool {
        self.call == "state"
    }
}

/// The calls with `state` after each.
pub fn with_states(calls: &[String]) -> Vec<String> {
    calls.iter().flat_map(|call| [call.clone(), "state".to_string()]).collect()
}

impl Subject<'_> {
    /// The first difference over these lines as they stand.
    pub fn first_difference(&self, lines: &[String]) -> Result<Option<Difference>, String> {
        self.difference(lines, |_| true)
    }

    /// The first difference in a line that the digest does not write.
    pub fn first_in_answers(&self, lines: &[String]) -> Result<Option<Difference>, String> {
        self.difference(lines, |call| call != "state")
    }

    fn difference(
        &self,
        lines: &[String],
        counts: impl Fn(&str) -> bool,
    ) -> Result<Option<Difference>, String> {
        let expected = console::oracle(lines);
        let written = console::program(self.path, lines, self.patience)?;
        Ok(first(lines, &expected, &written, counts))
    }
}

fn first(
    lines: &[String],
    expected: &[Expected],
    written: &Written,
    counts: impl Fn(&str) -> bool,
) -> Option<Difference> {
    for (nth, Expected { line, answer }) in expected.iter().enumerate() {
        let console = match written.lines.get(nth) {
            Some(same) if same == answer => continue,
            Some(_) if !counts(&lines[*line]) => continue,
            Some(other) => other.clone(),
            None => {
                let trouble = written.trouble.as_deref().unwrap_or("ended well");
                format!("nothing: {nth} lines of {}, {trouble}", expected.len())
            }
        };
        return Some(Difference {
            line: *line,
            call: lines[*line].clone(),
            oracle: answer.clone(),
            console,
            hung: written.hung,
        });
    }
    let last = lines.len().saturating_sub(1);
    let after = |console: String| Difference {
        line: last,
        call: "the end of the script".to_string(),
        oracle: "nothing more, status 0".to_string(),
        console,
        hung: written.hung,
    };
    if let Some(more) = written.lines.get(expected.len()) {
        return Some(after(format!("one more line: {more}")));
    }
    written.trouble.clone().map(after)
}
