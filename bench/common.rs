//! What the speed drivers have in common: the clock, the least of several runs, and the numbers that their inputs are made of.
use std::hint::black_box;

#[repr(C)]
struct Time {
    seconds: i64,
    nanos: i64,
}

extern "C" {
    fn clock_gettime(clock: i32, t: *mut Time) -> i32;
}

// Processor nanoseconds of this thread, which other work on the machine does not lengthen much.
fn now() -> f64 {
    let mut t = Time { seconds: 0, nanos: 0 };
    unsafe { clock_gettime(3, &mut t) };
    t.seconds as f64 * 1e9 + t.nanos as f64
}

/// Nanoseconds a call: the least of several runs, each of which makes this many calls.
pub fn least<T>(runs: usize, times: usize, mut call: impl FnMut() -> T) -> f64 {
    let mut best = f64::MAX;
    for _ in 0..runs {
        let began = now();
        for _ in 0..times {
            black_box(call());
        }
        best = best.min((now() - began) / times as f64);
    }
    best
}

/// The same numbers in every run.
pub struct Random(u64);

impl Random {
    pub fn new() -> Random {
        Random(88172645463325252)
    }

    pub fn below(&mut self, n: usize) -> usize {
        self.0 ^= self.0 << 13;
        self.0 ^= self.0 >> 7;
        self.0 ^= self.0 << 17;
        (self.0 % n as u64) as usize
    }
}
