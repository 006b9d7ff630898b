//! Random scripts, the same for the same seed and number.

use crate::author::Author;
use crate::rng::Rng;
use crate::stories;
use crate::styles::Sizes;

/// The lines of one script, without the `state` lines that a comparison adds. It has just so many calls
/// where `calls` says so, lines that write `?` or nothing not counted; otherwise about 235.
pub fn script(seed: u64, number: u64, calls: Option<usize>) -> Vec<String> {
    let mut rng = Rng::new(seed, number);
    let sizes = rng.weighted(&[(65, Sizes::Screen), (20, Sizes::Fractions), (15, Sizes::Ends)]);
    let length = 40 + rng.below(200);
    let mut author = Author::new(rng, sizes, calls.unwrap_or(usize::MAX));
    stories::opening(&mut author);
    let end = author.written() + length;
    let unfinished = |author: &Author| match calls {
        None => author.written() < end,
        Some(calls) => author.calls() + stories::last_reads(author).len() < calls,
    };
    while unfinished(&author) {
        stories::tell(&mut author);
    }
    stories::closing(&mut author);
    assert!(calls.is_none_or(|calls| author.calls() == calls), "script {number} of seed {seed} has another length");
    author.finish()
}
