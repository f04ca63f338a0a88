//! The thread's own processor time: while other work has the core, it stands still.
use std::ffi::{c_int, c_long};
use std::time::Duration;

/// `CLOCK_THREAD_CPUTIME_ID` of Linux.
const THREAD: c_int = 3;

/// C's `timespec`.
#[repr(C)]
struct Timespec {
    seconds: c_long,
    nanos: c_long,
}

extern "C" {
    fn clock_gettime(clock: c_int, time: *mut Timespec) -> c_int;
}

fn now() -> Duration {
    let mut time = Timespec { seconds: 0, nanos: 0 };
    // SAFETY: the struct is C's, and the call writes it and keeps no pointer to it.
    let failure = unsafe { clock_gettime(THREAD, &mut time) };
    assert_eq!(failure, 0, "the system has no clock for a thread");
    Duration::new(time.seconds as u64, time.nanos as u32)
}

/// A reading is a call of the system's, and long beside the shortest calls: what it takes is left out.
pub struct Clock {
    reading: Duration,
}

impl Clock {
    pub fn new() -> Clock {
        let idle = Clock { reading: Duration::ZERO };
        let readings = (0..1000).map(|_| idle.timed(|| ()).1);
        Clock { reading: readings.min().unwrap_or_default() }
    }

    /// What the work gives, and the time that it took.
    pub fn timed<T>(&self, work: impl FnOnce() -> T) -> (T, Duration) {
        let start = now();
        let given = work();
        (given, (now() - start).saturating_sub(self.reading))
    }
}
