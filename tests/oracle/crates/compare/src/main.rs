//! Compares a console with the oracle over random scripts.
//!
//!     compare run FILE CONSOLE N SEED [CALLS]   N scripts; stops at the first difference, cut down, kept in FILE
//!     compare tell CONSOLE N SEED               the first scripts that show a faulty console
//!     compare script SEED NUMBER [CALLS]        one script, as `run` uses it
//!
//! A script has CALLS calls, or about 235 where nothing is said. PATIENCE says after how many seconds a console hangs.

mod author;
mod console;
mod differ;
mod generate;
mod rng;
mod shrink;
mod stories;
mod styles;
mod texts;

use std::io::Write;
use std::path::Path;
use std::process::ExitCode;
use std::time::{Duration, Instant};

use differ::{Difference, Subject, with_states};

/// How long a console may take for one script, unless told otherwise.
const PATIENCE: Duration = Duration::from_secs(20);
/// Shorter where a difference is known and a run that hangs would be repeated many times.
const LITTLE_PATIENCE: Duration = Duration::from_secs(2);
/// How long a script is cut down; what is left then is shown.
const CUTTING: Duration = Duration::from_secs(60);

fn main() -> ExitCode {
    let words: Vec<_> = std::env::args().skip(1).collect();
    let words: Vec<_> = words.iter().map(String::as_str).collect();
    let done = match words[..] {
        ["run", file, console, count, seed, ref calls @ ..] if calls.len() <= 1 => {
            numbers(count, seed).and_then(|(count, seed)| run(console, count, seed, length(calls)?, file))
        }
        ["tell", console, count, seed] => {
            numbers(count, seed).and_then(|(count, seed)| tell(console, count, seed))
        }
        ["script", seed, number, ref calls @ ..] if calls.len() <= 1 => {
            numbers(seed, number).and_then(|(seed, number)| print_script(seed, number, length(calls)?))
        }
        _ => Err("usage: compare run FILE CONSOLE N SEED [CALLS], compare tell CONSOLE N SEED, \
            compare script SEED NUMBER [CALLS]"
            .to_string()),
    };
    match done {
        Ok(true) => ExitCode::SUCCESS,
        Ok(false) => ExitCode::FAILURE,
        Err(trouble) => {
            eprintln!("{trouble}");
            ExitCode::from(2)
        }
    }
}

fn number<N: std::str::FromStr>(word: &str) -> Result<N, String> {
    word.parse().map_err(|_| format!("`{word}` is no number"))
}

fn numbers(first: &str, second: &str) -> Result<(u64, u64), String> {
    Ok((number(first)?, number(second)?))
}

/// How many calls a script has, where a word says so.
fn length(word: &[&str]) -> Result<Option<usize>, String> {
    word.first().map(|word| number(word)).transpose()
}

fn print_script(seed: u64, number: u64, calls: Option<usize>) -> Result<bool, String> {
    let lines = with_states(&generate::script(seed, number, calls));
    // Nobody may be reading any more, as with `head`.
    Ok(writeln!(std::io::stdout(), "{}", lines.join("\n")).is_ok())
}

/// Whether the console answers all scripts as the oracle does.
fn run(console: &str, count: u64, seed: u64, calls: Option<usize>, file: &str) -> Result<bool, String> {
    if count == 0 {
        return Err("no scripts show nothing".to_string());
    }
    let subject = Subject { path: Path::new(console), patience: patience() };
    let mut total = 0;
    for number in 1..=count {
        let script = generate::script(seed, number, calls);
        if let Some(difference) = subject.first_difference(&with_states(&script))? {
            println!("script {number} of seed {seed} differs at its call {}:", difference.line / 2 + 1);
            show(&difference);
            let patience = if difference.hung { LITTLE_PATIENCE.min(patience()) } else { patience() };
            let subject = Subject { patience, ..subject };
            return cut_down(&subject, &script, file).map(|()| false);
        }
        total += calls.unwrap_or(script.len());
    }
    let each = calls.map_or(String::new(), |calls| format!(" ({calls} each)"));
    println!("{count} scripts of seed {seed}, {total} calls{each}, `state` after each: no difference");
    Ok(true)
}

fn patience() -> Duration {
    let told = std::env::var("PATIENCE").ok().and_then(|seconds| seconds.parse().ok());
    told.map_or(PATIENCE, Duration::from_secs)
}

fn show(difference: &Difference) {
    println!("  {}", difference.call);
    println!("  oracle:  {}", difference.oracle);
    println!("  console: {}", difference.console);
}

/// Prints and keeps the script cut down to the lines and words that the difference needs.
fn cut_down(subject: &Subject, script: &[String], file: &str) -> Result<(), String> {
    let start = Instant::now();
    let differs = |lines: &[String]| {
        start.elapsed() < CUTTING && subject.first_difference(lines).is_ok_and(|found| found.is_some())
    };
    if differs(&[]) {
        println!("\nThe console differs over an empty script too.");
        return Ok(());
    }
    // Without `state` lines where the answers alone still differ.
    let by_answers = differs(script);
    let full = |calls: &[String]| if by_answers { calls.to_vec() } else { with_states(calls) };
    let short = shrink::lines(script, |calls| differs(&full(calls)));
    let short = shrink::words(&short, |calls| differs(&full(calls)));
    let short = shrink::lines(&full(&short), differs);
    println!("\ncut down to {} lines, kept in {file}:\n\n{}\n", short.len(), short.join("\n"));
    std::fs::write(file, short.join("\n") + "\n").map_err(|error| format!("{file}: {error}"))?;
    match subject.first_difference(&short)? {
        Some(difference) => show(&difference),
        None => println!("  (the difference comes and goes: run the script again)"),
    }
    Ok(())
}

/// Prints the first script that shows any difference and the first that shows one in an answer.
fn tell(console: &str, count: u64, seed: u64) -> Result<bool, String> {
    let subject = Subject { path: Path::new(console), patience: LITTLE_PATIENCE };
    let mut any = None;
    for number in 1..=count {
        let lines = with_states(&generate::script(seed, number, None));
        let Some(difference) = subject.first_difference(&lines)? else { continue };
        any = any.or(Some((number, difference.by_state())));
        if subject.first_in_answers(&lines)?.is_some() {
            println!("{} {}", shown(any), number);
            return Ok(true);
        }
    }
    println!("{} -", shown(any));
    Ok(any.is_some())
}

fn shown(any: Option<(u64, bool)>) -> String {
    match any {
        None => "-".to_string(),
        Some((number, true)) => format!("{number} state"),
        Some((number, false)) => format!("{number} answer"),
    }
}
