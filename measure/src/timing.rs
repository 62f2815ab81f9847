// Time by the processor time of this thread: while other work has the processor, this clock stands still.
use std::time::Duration;

#[repr(C)]
struct Timespec {
    seconds: i64,
    nanoseconds: i64,
}

const THREAD_PROCESSOR_TIME: i32 = 3;

extern "C" {
    fn clock_gettime(clock: i32, time: *mut Timespec) -> i32;
}

/// The processor time that this thread has had.
pub fn processor_time() -> Duration {
    let mut time = Timespec {
        seconds: 0,
        nanoseconds: 0,
    };
    let said = unsafe { clock_gettime(THREAD_PROCESSOR_TIME, &mut time) };
    assert_eq!(said, 0, "every Linux has this clock");
    Duration::new(time.seconds as u64, time.nanoseconds as u32)
}

// As many in each round; a sample is at least so long that reading the clock is nothing beside it.
const SAMPLES: usize = 5;
const SAMPLE: Duration = Duration::from_millis(2);

/// Nanoseconds for one call, the best of some samples.
pub fn best_of(mut call: impl FnMut()) -> f64 {
    let times = times_for_a_sample(&mut call);
    (0..SAMPLES)
        .map(|_| sample(times, &mut call))
        .fold(f64::INFINITY, f64::min)
}

fn sample(times: u32, call: &mut impl FnMut()) -> f64 {
    let start = processor_time();
    for _ in 0..times {
        call();
    }
    let took = processor_time() - start;
    took.as_nanos() as f64 / f64::from(times)
}

fn times_for_a_sample(call: &mut impl FnMut()) -> u32 {
    let mut times = 1;
    while sample(times, call) * f64::from(times) < SAMPLE.as_nanos() as f64 {
        times *= 2;
    }
    times
}
