//! A script: lines in, one line out for each call, within the console page's bounds on size.

use std::io::{self, BufRead, Read, Write};

use crate::call::Call;
use crate::desk::Desk;

pub const LONGEST_LINE: usize = 1_024;
pub const LONGEST_SCRIPT: usize = 1_048_576;
const MALFORMED: &str = "?";

/// What one line of a script leads to.
#[derive(Clone, Debug, PartialEq, Eq)]
pub enum Step {
    /// An empty line or a comment.
    Silent,
    Answer(String),
    /// The line or the script is too long: `?` is written and the run ends.
    End,
}

/// Runs a script line by line: a desk, and how many bytes of its script were read.
#[derive(Default)]
pub struct Runner {
    desk: Desk,
    read: usize,
}

impl Runner {
    #[must_use]
    pub fn desk(&self) -> &Desk {
        &self.desk
    }

    /// One line with its newline, if it has one.
    pub fn line(&mut self, bytes: &[u8]) -> Step {
        self.read += bytes.len();
        let line = bytes.strip_suffix(b"\n").unwrap_or(bytes);
        if line.len() > LONGEST_LINE || self.read > LONGEST_SCRIPT {
            return Step::End;
        }
        if line.is_empty() || line[0] == b'#' {
            return Step::Silent;
        }
        let answer = Call::read(line).and_then(|call| self.desk.answer(call));
        Step::Answer(answer.unwrap_or_else(|| MALFORMED.to_string()))
    }
}

/// Runs a script to its end. `eager` hands out each answer at once, for a person at the keyboard.
pub fn run(input: &mut impl BufRead, output: &mut impl Write, eager: bool) -> io::Result<()> {
    let mut runner = Runner::default();
    let mut line = Vec::new();
    loop {
        line.clear();
        // Two bytes more than a line may have are enough to see that it is too long.
        let most = LONGEST_LINE as u64 + 2;
        if input.by_ref().take(most).read_until(b'\n', &mut line)? == 0 {
            return output.flush();
        }
        match runner.line(&line) {
            Step::Silent => {}
            Step::Answer(answer) => writeln!(output, "{answer}")?,
            Step::End => {
                writeln!(output, "{MALFORMED}")?;
                return output.flush();
            }
        }
        if eager {
            output.flush()?;
        }
    }
}
