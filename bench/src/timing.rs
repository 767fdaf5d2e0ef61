//! Times several things in one run, by the processor time of the thread: what else runs on the machine takes none of it.

use std::hint::black_box;
use std::time::Duration;

#[repr(C)]
struct TimeSpec {
    seconds: i64,
    nanoseconds: i64,
}

/// Linux's number for the processor time of the calling thread.
const CLOCK_THREAD_CPUTIME_ID: i32 = 3;

extern "C" {
    fn clock_gettime(clock: i32, time: *mut TimeSpec) -> i32;
}

fn processor_time() -> Duration {
    let mut time = TimeSpec { seconds: 0, nanoseconds: 0 };
    let status = unsafe { clock_gettime(CLOCK_THREAD_CPUTIME_ID, &mut time) };
    assert_eq!(status, 0, "no processor time");
    Duration::new(time.seconds as u64, time.nanoseconds as u32)
}

/// Something to time, and its shortest time so far.
pub struct Timed<'a> {
    pub name: String,
    best: Duration,
    run: Box<dyn FnMut() + 'a>,
}

impl<'a> Timed<'a> {
    pub fn new<T>(name: impl Into<String>, mut run: impl FnMut() -> T + 'a) -> Timed<'a> {
        let run = Box::new(move || drop(black_box(run())));
        Timed { name: name.into(), best: Duration::MAX, run }
    }

    pub fn seconds(&self) -> f64 {
        self.best.as_secs_f64()
    }
}

/// Every round runs each of them once, so that a slow moment of the machine falls on all.
pub fn time(rounds: usize, timed: &mut [Timed]) {
    for _ in 0..rounds {
        for one in timed.iter_mut() {
            let start = processor_time();
            (one.run)();
            one.best = one.best.min(processor_time() - start);
        }
    }
}
