//! What both benchmarks need: processor time, the best of several runs, threads of a given stack.
use std::time::{Duration, Instant};

extern "C" {
    fn clock_gettime(clock: i32, time: *mut [i64; 2]) -> i32;
}

/// The processor time of this thread, so that what else the machine does is not counted.
pub fn now() -> Duration {
    let mut t = [0i64; 2];
    assert!(unsafe { clock_gettime(3, &mut t) } == 0); // CLOCK_THREAD_CPUTIME_ID
    Duration::new(t[0] as u64, t[1] as u32)
}

/// The best time of a task: at least `least` runs, and more until `budget` is spent.
pub fn best(least: usize, budget: Duration, mut task: impl FnMut()) -> Duration {
    let start = Instant::now();
    let (mut best, mut runs) = (Duration::MAX, 0);
    while runs < least || start.elapsed() < budget {
        let t = now();
        task();
        best = best.min(now() - t);
        runs += 1;
    }
    best
}

pub fn in_thread<T: Send + 'static>(stack: usize, task: impl FnOnce() -> T + Send + 'static) -> T {
    std::thread::Builder::new().stack_size(stack).spawn(task).unwrap().join().unwrap()
}

pub fn micros(d: Duration) -> f64 {
    d.as_secs_f64() * 1e6
}
