//! Runs a script through a console: the oracle here, or a program that reads standard input.

use std::io::{Read, Write};
use std::path::Path;
use std::process::{Child, Command, Stdio};
use std::sync::mpsc;
use std::thread;
use std::time::{Duration, Instant};

use desk::{Runner, Step};

/// One line that the oracle writes, and the line of the script that it answers.
pub struct Expected {
    pub line: usize,
    pub answer: String,
}

/// What the oracle writes for these lines.
pub fn oracle(lines: &[String]) -> Vec<Expected> {
    let mut runner = Runner::default();
    let mut expected = Vec::new();
    for (line, text) in lines.iter().enumerate() {
        match runner.line(format!("{text}\n").as_bytes()) {
            Step::Silent => {}
            Step::Answer(answer) => expected.push(Expected { line, answer }),
            Step::End => {
                expected.push(Expected { line, answer: "?".to_string() });
                break;
            }
        }
    }
    expected
}

/// What a program wrote, how it ended where that was not well, and whether it had to be stopped.
pub struct Written {
    pub lines: Vec<String>,
    pub trouble: Option<String>,
    pub hung: bool,
}

/// Runs a program over these lines, for at most so long.
pub fn program(path: &Path, lines: &[String], patience: Duration) -> Result<Written, String> {
    let mut child = Command::new(path)
        .stdin(Stdio::piped())
        .stdout(Stdio::piped())
        .stderr(Stdio::null())
        .spawn()
        .map_err(|error| format!("cannot start {}: {error}", path.display()))?;
    let script = lines.iter().flat_map(|line| [line.as_bytes(), b"\n"]).collect::<Vec<_>>().concat();
    let bytes = talk(&mut child, script, patience);
    let trouble = match &bytes {
        None => Some(format!("no end within {} seconds", patience.as_secs())),
        Some(_) => ending(&mut child, patience),
    };
    if trouble.is_some() {
        // It may have ended by itself; then there is nothing to kill.
        let _ = child.kill();
        let _ = child.wait();
    }
    let hung = bytes.is_none();
    let text = String::from_utf8_lossy(&bytes.unwrap_or_default()).into_owned();
    let mut lines: Vec<_> = text.split('\n').map(str::to_string).collect();
    let rest = lines.pop().filter(|rest| !rest.is_empty());
    let trouble = trouble.or_else(|| rest.map(|rest| format!("`{rest}` at the end has no newline")));
    Ok(Written { lines, trouble, hung })
}

/// All that the child writes until it closes its output; nothing where that takes too long.
fn talk(child: &mut Child, script: Vec<u8>, patience: Duration) -> Option<Vec<u8>> {
    let mut stdin = child.stdin.take()?;
    let mut stdout = child.stdout.take()?;
    // A console that ends its run early closes its input: the rest need not arrive.
    thread::spawn(move || stdin.write_all(&script).ok());
    let (sender, receiver) = mpsc::channel();
    thread::spawn(move || {
        let mut bytes = Vec::new();
        let _ = stdout.read_to_end(&mut bytes);
        sender.send(bytes)
    });
    receiver.recv_timeout(patience).ok()
}

/// How the child ended, where not with status 0.
fn ending(child: &mut Child, patience: Duration) -> Option<String> {
    let start = Instant::now();
    loop {
        match child.try_wait() {
            Ok(Some(status)) if status.success() => return None,
            Ok(Some(status)) => return Some(format!("ended with {status}")),
            Ok(None) if start.elapsed() < patience => thread::sleep(Duration::from_micros(200)),
            Ok(None) => return Some("closed its output and did not end".to_string()),
            Err(error) => return Some(error.to_string()),
        }
    }
}
