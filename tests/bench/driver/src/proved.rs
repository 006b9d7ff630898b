//! The proved library.

mod boundary {
    unsafe extern "C" {
        // crates/bench/src/lib.rt, which has no clock: its times are 0.
        pub safe fn bench_run(shape: u32, kind: u32, n: u32, times: &mut [u64; 3]) -> u64;
    }
}

use crate::ROUNDS;
use crate::clock::now;

/// What three rounds of n calls of a kind on a tree of a shape end with.
pub fn fingerprint(shape: u32, kind: u32, n: u32) -> u64 {
    boundary::bench_run(shape, kind, n, &mut [0; ROUNDS])
}

/// That, and the time of a round in nanoseconds: of the whole run, less one that builds the tree and makes no calls.
pub fn run(shape: u32, kind: u32, n: u32) -> (u64, [u64; ROUNDS]) {
    let start = now();
    fingerprint(shape, kind, 0);
    let built = now();
    let fingerprint = fingerprint(shape, kind, n);
    let rounds = (now() - built).saturating_sub(built - start);
    (fingerprint, [rounds / ROUNDS as u64; ROUNDS])
}
