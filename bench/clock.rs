//! The processor time of this thread.

/// `struct timespec` of a 64-bit Linux.
#[derive(Default)]
#[repr(C)]
struct Timespec {
    seconds: i64,
    nanoseconds: i64,
}

/// `CLOCK_THREAD_CPUTIME_ID`.
const THREAD_CPUTIME: i32 = 3;

unsafe extern "C" {
    fn clock_gettime(clock: i32, time: &mut Timespec) -> i32;
}

/// The nanoseconds of processor time that this thread has had.
fn now() -> f64 {
    let mut time = Timespec::default();
    // SAFETY: the place is that of one `timespec` of a 64-bit Linux, borrowed for the call.
    let status = unsafe { clock_gettime(THREAD_CPUTIME, &mut time) };
    assert!(status == 0, "no clock of the thread's processor time");
    time.seconds as f64 * 1e9 + time.nanoseconds as f64
}

/// The nanoseconds of processor time that something takes.
pub fn time_of(run: impl FnOnce()) -> f64 {
    let start = now();
    run();
    now() - start
}
