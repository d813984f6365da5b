//! The processor time of this thread, which other programs on the machine do not add to.
use std::sync::OnceLock;

#[repr(C)]
struct Timespec {
    seconds: i64,
    nanoseconds: i64,
}

extern "C" {
    fn clock_gettime(clock: i32, time: *mut Timespec) -> i32;
}

/// Linux's number for the clock.
const THREAD_CPUTIME: i32 = 3;

fn now() -> f64 {
    let mut time = Timespec { seconds: 0, nanoseconds: 0 };
    let status = unsafe { clock_gettime(THREAD_CPUTIME, &mut time) };
    assert_eq!(status, 0, "no clock");
    time.seconds as f64 + time.nanoseconds as f64 * 1e-9
}

/// What reading the clock takes, some hundreds of nanoseconds: the median of many.
fn reading() -> f64 {
    static READING: OnceLock<f64> = OnceLock::new();
    *READING.get_or_init(|| {
        let mut times = [(); 1001].map(|_| -now() + now());
        times.sort_unstable_by(f64::total_cmp);
        times[500]
    })
}

/// How long the work takes, without the reading of the clock.
pub fn seconds(work: impl FnOnce()) -> f64 {
    let reading = reading();
    let began = now();
    work();
    now() - began - reading
}
