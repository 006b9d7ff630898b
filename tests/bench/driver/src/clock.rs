//! The processor time of this process: other processes on the machine do not count.

#[repr(C)]
struct Timespec {
    seconds: i64,
    nanoseconds: i64,
}

const PROCESS: i32 = 2;

unsafe extern "C" {
    safe fn clock_gettime(clock: i32, time: &mut Timespec) -> i32;
}

/// Nanoseconds.
pub fn now() -> u64 {
    let mut time = Timespec { seconds: 0, nanoseconds: 0 };
    assert_eq!(clock_gettime(PROCESS, &mut time), 0);
    (time.seconds * 1_000_000_000 + time.nanoseconds).cast_unsigned()
}
