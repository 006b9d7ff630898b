//! Times the proved library beside the Rust source: the same trees, the same calls, and the same fingerprint at the end.

mod clock;
mod kinds;
mod lines;
mod mix;
mod proved;
mod shapes;
mod source;

use core::hint::black_box;

use kinds::{CHECK, COPIES, REMOVE_PANEL, Row};

/// A run builds a tree once and takes this many rounds on it.
const ROUNDS: usize = 3;
/// Each side is run as often, taking turns at going first.
const PASSES: usize = 5;
/// How long a round should take, in nanoseconds.
const ROUND: u64 = 8_000_000;
/// Calls of a round where only the answers are wanted.
const FEW: u32 = 8;
/// The source's tree can't be copied, so that each removal of a panel has a tree of its own; more of them would leave the cache.
const MOST_PANELS: u32 = 32;

/// A side: shape, kind and calls of a round to the fingerprint and the times.
type Run = fn(u32, u32, u32) -> (u64, [u64; ROUNDS]);

/// Whether the source ends with the fingerprint that the proved library ended with.
fn same(row: &Row, n: u32, proved: u64) -> bool {
    let (source, _) = source::run(row.shape, row.kind, n);
    if source != proved {
        println!(
            "bench: {} on {}, rounds of {n}: the Rust ends with {source:08x}, Rattle with {proved:08x}",
            row.call, row.tree
        );
    }
    source == proved
}

fn median(mut times: Vec<f64>) -> f64 {
    times.sort_by(f64::total_cmp);
    times[times.len() / 2]
}

/// How many calls make a round; even, so that calls that take turns come out the same.
fn calls_for(row: &Row, run: Run) -> u32 {
    let most = if row.kind == REMOVE_PANEL { MOST_PANELS } else { 1 << 22 };
    let mut n = FEW;
    loop {
        let (_, times) = run(row.shape, row.kind, n);
        let time = times[ROUNDS - 1].max(1000);
        let wanted = u32::try_from(u64::from(n) * ROUND / time).unwrap_or(most).clamp(2, most) / 2 * 2;
        if time >= ROUND / 16 || n >= most {
            return wanted;
        }
        n = wanted.clamp(n * 2, n * 32).min(most);
    }
}

/// The two sides of a row: the source and the proved library, how many calls make a round of each, and what they took.
struct Timing {
    counts: [u32; 2],
    times: [Vec<f64>; 2],
}

const SIDES: [Run; 2] = [source::run, proved::run];

impl Timing {
    fn new(row: &Row) -> Self {
        Self { counts: SIDES.map(|run| calls_for(row, run)), times: [Vec::new(), Vec::new()] }
    }

    /// Takes a run of each side; whether the source, with as many calls, ends as the proved library does.
    fn pass(&mut self, row: &Row, pass: usize) -> bool {
        let mut equal = true;
        for side in [pass % 2, 1 - pass % 2] {
            let n = self.counts[side];
            let (fingerprint, taken) = SIDES[side](row.shape, row.kind, n);
            self.times[side].extend(taken.map(|time| time as f64 / f64::from(n)));
            equal = equal && (side == 0 || same(row, n, fingerprint));
        }
        equal
    }

    fn medians(self) -> [f64; 2] {
        self.times.map(median)
    }
}

/// Does some work further down the stack, by about a fifth of a page for each step: how long copies take depends on where in a page
/// they lie, so that each pass has another place.
#[inline(never)]
fn lower<R>(steps: usize, work: impl FnOnce() -> R) -> R {
    let room = black_box([0_u8; 768]);
    let result = if steps == 0 { work() } else { lower(steps - 1, work) };
    black_box(&room);
    result
}

/// A row, and the nanoseconds of a call on each side.
type Timed<'a> = (&'a Row, [f64; 2]);

fn show_calls(timed: &[Timed]) {
    println!("| call | tree | Rust, ns | Rattle, ns | ratio |");
    println!("|---|---|---:|---:|---:|");
    for (row, [source, proved]) in timed.iter().filter(|(row, _)| !row.is_floor()) {
        println!("| {} | {} | {source:.1} | {proved:.1} | {:.2} |", row.call, row.tree, proved / source);
    }
}

/// What a row's calls can't go below: their checks and copies, each as long as it takes by itself on the same tree.
fn floor(row: &Row, timed: &[Timed]) -> Option<f64> {
    let alone = |kind| timed.iter().find(|(other, _)| (other.kind, other.shape) == (kind, row.shape));
    let [checks, copies] = row.least()?;
    let ((_, [_, check]), (_, [_, both])) = (alone(CHECK)?, alone(COPIES)?);
    Some(checks * check + copies * both)
}

/// The proved side beside its floor; first what the floor is made of.
fn show_floor(timed: &[Timed]) {
    println!("| call | tree | floor, ns | Rattle, ns | ratio | above, ns |");
    println!("|---|---|---:|---:|---:|---:|");
    for (row, [_, proved]) in timed.iter().filter(|(row, _)| row.is_floor()) {
        println!("| {} | {} | | {proved:.1} | | |", row.call, row.tree);
    }
    for (row, [_, proved]) in timed {
        if let Some(floor) = floor(row, timed) {
            let (ratio, above) = (proved / floor, proved - floor);
            println!("| {} | {} | {floor:.1} | {proved:.1} | {ratio:.2} | {above:.1} |", row.call, row.tree);
        }
    }
}

/// Writes both tables; how many runs end otherwise than they should. A pass goes over all rows, so that what else the machine does for
/// some seconds spoils few rounds of each.
fn tables(rows: &[Row]) -> usize {
    let mut timings: Vec<Timing> = rows.iter().map(Timing::new).collect();
    let mut differ = 0;
    for pass in 0..PASSES {
        for (row, timing) in rows.iter().zip(&mut timings) {
            differ += usize::from(!lower(pass, || timing.pass(row, pass)));
        }
    }
    let timed: Vec<Timed> = rows.iter().zip(timings.into_iter().map(Timing::medians)).collect();
    show_calls(&timed);
    println!();
    show_floor(&timed);
    differ
}

/// Does some work on a stack of its own, which starts at the same place of a page in each run of the program.
fn on_a_stack<R: Send>(work: impl FnOnce() -> R + Send) -> R {
    std::thread::scope(|scope| {
        let thread = std::thread::Builder::new().stack_size(16 << 20).spawn_scoped(scope, work);
        thread.expect("there is room for a stack").join().expect("the work ends")
    })
}

/// Runs a row with few calls; whether the fingerprints are equal.
fn checked(row: &Row) -> bool {
    same(row, FEW, proved::fingerprint(row.shape, row.kind, FEW))
}

/// `--check` compares and times nothing; any other word leaves only the rows that have it in them. What the floor is made of is timed in
/// any case.
fn main() {
    let (options, words): (Vec<String>, Vec<String>) =
        std::env::args().skip(1).partition(|word| word == "--check");
    let check = !options.is_empty();
    let named = |row: &Row| words.iter().all(|word| row.call.contains(word) || row.tree.contains(word));
    let all = kinds::rows();
    if !all.iter().any(named) {
        println!("bench: no row has these words");
        std::process::exit(2);
    }
    let rows: Vec<Row> = all.into_iter().filter(|row| named(row) || (!check && row.is_floor())).collect();
    let differ =
        if check { rows.iter().filter(|row| !checked(row)).count() } else { on_a_stack(|| tables(&rows)) };
    if differ != 0 {
        println!("bench: {differ} runs end with other fingerprints");
        std::process::exit(1);
    }
    if check {
        println!("bench: {} rows, all fingerprints equal", rows.len());
    }
}
